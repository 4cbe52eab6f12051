//! Links the static library `av1ts` from `build/lib` at the workspace's root, or from the folder
//! that the variable AV1TS_LIB_DIR names.

use std::env;
use std::path::PathBuf;
use std::process::exit;

fn main() {
    println!("cargo:rerun-if-env-changed=AV1TS_LIB_DIR");
    let folder = match env::var_os("AV1TS_LIB_DIR") {
        Some(folder) => PathBuf::from(folder),
        None => {
            let package = env::var_os("CARGO_MANIFEST_DIR").expect("cargo sets CARGO_MANIFEST_DIR");
            PathBuf::from(package).join("../../build/lib")
        }
    };
    let archive = folder.join("libav1ts.a");
    println!("cargo:rerun-if-changed={}", archive.display());
    if !archive.is_file() {
        eprintln!(
            "There is no {}. Run make lib at the top of the repository, or say by AV1TS_LIB_DIR where libav1ts.a is.",
            archive.display()
        );
        exit(1);
    }
    println!("cargo:rustc-link-search=native={}", folder.display());
    // Not bundled: the archive goes into programs, and not into the binding as well.
    println!("cargo:rustc-link-lib=static:-bundle=av1ts");
}
