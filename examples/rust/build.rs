//! Links the static library, which `./staticlib` writes to target/staticlib at the repository's root. AZWUKRAN_LIB_DIR
//! may name another folder. A program that depends on this crate needs no build script of its own for it.

use std::env;
use std::path::PathBuf;

/// The library's name for the linker; its file is this between `lib` and `.a`.
const LIBRARY: &str = "azwukran";

fn main() {
    println!("cargo:rerun-if-env-changed=AZWUKRAN_LIB_DIR");
    let folder = match env::var_os("AZWUKRAN_LIB_DIR") {
        Some(folder) => PathBuf::from(folder),
        None => PathBuf::from(env::var_os("CARGO_MANIFEST_DIR").expect("cargo names the package's folder"))
            .join("../../target/staticlib"),
    };
    let folder = folder.canonicalize().unwrap_or(folder);
    let file = folder.join(format!("lib{LIBRARY}.a"));
    println!("cargo:rerun-if-changed={}", file.display());
    if !file.exists() {
        eprintln!("{} is missing: run './staticlib' at the repository's root, or set AZWUKRAN_LIB_DIR", file.display());
        std::process::exit(1);
    }
    println!("cargo:rustc-link-search=native={}", folder.display());
    println!("cargo:rustc-link-lib=static={LIBRARY}");
}
