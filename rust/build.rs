//! Links `libgerzulan.a`, which `make library` writes, from ../target/staticlib or the folder in PROVED_LIB_DIR.

use std::path::PathBuf;

fn main() {
    println!("cargo:rerun-if-env-changed=PROVED_LIB_DIR");
    let named = std::env::var_os("PROVED_LIB_DIR").map(PathBuf::from);
    let package = std::env::var_os("CARGO_MANIFEST_DIR").map(PathBuf::from).unwrap_or_default();
    let folder = named.unwrap_or_else(|| package.join("../target/staticlib"));
    let library = folder.join("libgerzulan.a");
    println!("cargo:rerun-if-changed={}", library.display());
    if !library.is_file() {
        // Cargo shows a warning as a line of its own, before all else that it says of a script that failed.
        println!(
            "cargo:warning=no {}: run `make library` in the repository, or name the library's folder by PROVED_LIB_DIR",
            library.display()
        );
        std::process::exit(1);
    }
    println!("cargo:rustc-link-search=native={}", folder.display());
    println!("cargo:rustc-link-lib=static=gerzulan");
}
