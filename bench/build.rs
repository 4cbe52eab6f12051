//! Compiles the C files in `c` with gcc and links them as the static library `peers`; links
//! `measured` from `build/bench` at the workspace's root, where `make bench` puts it.

use std::env;
use std::fs;
use std::path::{Path, PathBuf};
use std::process::{Command, exit};

const FLAGS: [&str; 4] = ["-std=c11", "-O3", "-Wall", "-Wextra"];

fn main() {
    println!("cargo:rerun-if-changed=build.rs");
    println!("cargo:rerun-if-changed=c");
    let out = PathBuf::from(env::var_os("OUT_DIR").expect("cargo sets OUT_DIR"));
    let objects: Vec<PathBuf> = sources().iter().map(|c| compile(c, &out)).collect();
    archive(&objects, &out.join("libpeers.a"));
    println!("cargo:rustc-link-search=native={}", out.display());
    println!("cargo:rustc-link-lib=static=peers");
    link_measured();
    println!("cargo:rustc-env=C_COMPILER={}", compiler());
}

/// The library's inner functions with C names.
fn link_measured() {
    let package = env::var_os("CARGO_MANIFEST_DIR").expect("cargo sets CARGO_MANIFEST_DIR");
    let folder = PathBuf::from(package).join("../build/bench");
    let archive = folder.join("libmeasured.a");
    println!("cargo:rerun-if-changed={}", archive.display());
    println!("cargo:rustc-link-search=native={}", folder.display());
    println!("cargo:rustc-link-lib=static:-bundle=measured");
}

/// The C files, in the order of their names.
fn sources() -> Vec<PathBuf> {
    let entries = fs::read_dir("c").unwrap_or_else(|e| stop(&format!("cannot list folder c: {e}")));
    let mut files: Vec<PathBuf> = entries
        .filter_map(|entry| Some(entry.ok()?.path()))
        .filter(|path| matches!(path.extension(), Some(e) if e == "c"))
        .collect();
    files.sort();
    files
}

fn compile(source: &Path, out: &Path) -> PathBuf {
    let stem = source.file_stem().expect("a C file has a name");
    let object = out.join(stem).with_extension("o");
    run(Command::new("gcc")
        .args(FLAGS)
        .arg("-c")
        .arg(source)
        .arg("-o")
        .arg(&object));
    object
}

fn archive(objects: &[PathBuf], library: &Path) {
    // An archive of an earlier build may hold a member whose source is gone.
    let _ = fs::remove_file(library);
    run(Command::new("ar").arg("crs").arg(library).args(objects));
}

/// The compiler's version and flags, for the head of the output.
fn compiler() -> String {
    let version = run(Command::new("gcc").arg("--version"));
    let first = version.lines().next().unwrap_or("gcc").to_string();
    format!("{first}, flags {}", FLAGS.join(" "))
}

/// Runs a command to its end and gives its standard output.
fn run(command: &mut Command) -> String {
    let program = command.get_program().to_string_lossy().into_owned();
    match command.output() {
        Err(e) => stop(&format!(
            "cannot run {program}: {e}; the C peers need gcc and ar on the PATH"
        )),
        Ok(output) if !output.status.success() => stop(&format!(
            "{program} failed ({}):\n{}",
            output.status,
            String::from_utf8_lossy(&output.stderr)
        )),
        Ok(output) => String::from_utf8_lossy(&output.stdout).into_owned(),
    }
}

fn stop(message: &str) -> ! {
    eprintln!("error: {message}");
    exit(1)
}
