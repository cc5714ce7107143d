//! Tells the linker where the static library stands.

use std::env;
use std::path::{Path, PathBuf};

/// The variable that names the folder of `libnvram_c.a`.
const FOLDER: &str = "NVRAM_LIB_DIR";

fn main() {
    let folder = match env::var_os(FOLDER) {
        Some(folder) => PathBuf::from(folder),
        None => Path::new(env!("CARGO_MANIFEST_DIR")).join("../../target/staticlib"),
    };
    let library = folder.join("libnvram_c.a");
    println!("cargo:rerun-if-changed=build.rs");
    println!("cargo:rerun-if-env-changed={FOLDER}");
    println!("cargo:rerun-if-changed={}", library.display());
    println!("cargo:rustc-link-search=native={}", folder.display());
    println!("cargo:rustc-link-lib=static=nvram_c");
}
