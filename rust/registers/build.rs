//! Links the static library: the one that REGISTERS_LIBRARY names, or the one that `c/library` writes.

use std::path::PathBuf;

fn main() {
    println!("cargo:rerun-if-env-changed=REGISTERS_LIBRARY");
    let library = std::env::var("REGISTERS_LIBRARY").map(PathBuf::from).unwrap_or_else(|_| of_repository());
    println!("cargo:rerun-if-changed={}", library.display());
    let folder = library.parent().expect("the library lies in a folder");
    println!("cargo:rustc-link-search=native={}", folder.display());
    println!("cargo:rustc-link-lib=static=registers");
}

fn of_repository() -> PathBuf {
    let here = PathBuf::from(std::env::var("CARGO_MANIFEST_DIR").expect("cargo names the folder"));
    let repository = here.ancestors().nth(2).expect("rust/registers lies in the repository");
    repository.join("target/c/libregisters.a")
}
