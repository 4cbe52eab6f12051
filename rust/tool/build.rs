//! Hands the version of the library's interface, which stands in its header, to the tool.

use std::path::PathBuf;
use std::{env, fs};

fn main() {
    println!("cargo:rerun-if-env-changed=AV1TS_LIB_DIR");
    let package = env::var_os("CARGO_MANIFEST_DIR").expect("cargo sets CARGO_MANIFEST_DIR");
    let beside = env::var_os("AV1TS_LIB_DIR").map(|folder| PathBuf::from(folder).join("av1ts.h"));
    let header = match beside {
        Some(header) if header.exists() => header,
        _ => PathBuf::from(package).join("../../include/av1ts.h"),
    };
    println!("cargo:rerun-if-changed={}", header.display());
    let text = fs::read_to_string(&header).unwrap_or_default();
    let version = text
        .lines()
        .find_map(|line| line.strip_prefix("#define AV1TS_VERSION "))
        .unwrap_or("unknown");
    println!("cargo:rustc-env=AV1TS_INTERFACE={}", version.trim());
}
