//! Compiles limit.c with the C compiler and packs it into an archive.

use std::env;
use std::path::Path;
use std::process::Command;

/// Runs one program and ends the build if it fails.
fn run(program: &str, arguments: &[&str]) {
    let status = Command::new(program).args(arguments).status();
    match status {
        Ok(status) if status.success() => {}
        Ok(status) => panic!("{program} ended with {status}"),
        Err(error) => panic!("{program} could not be started: {error}"),
    }
}

fn main() {
    let folder = env::var("OUT_DIR").expect("cargo gives OUT_DIR");
    let compiler = env::var("CC").unwrap_or_else(|_| "cc".to_string());
    let object = Path::new(&folder).join("limit.o");
    let archive = Path::new(&folder).join("liblimit.a");
    let object = object.to_str().expect("the folder is text");
    let archive = archive.to_str().expect("the folder is text");
    run(
        &compiler,
        &[
            "-std=c99", "-Wall", "-Wextra", "-O2", "-fPIC", "-c", "limit.c", "-o", object,
        ],
    );
    run("ar", &["rcs", archive, object]);
    println!("cargo:rustc-link-search=native={folder}");
    println!("cargo:rustc-link-lib=static=limit");
    println!("cargo:rerun-if-changed=limit.c");
    println!("cargo:rerun-if-env-changed=CC");
}
