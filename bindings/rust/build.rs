//! Links the static library that `tools/tower build` makes.
use std::path::Path;

fn main() {
    let root = std::env::var("CARGO_MANIFEST_DIR").unwrap();
    let folder = format!("{root}/../../target/staticlib");
    let library = format!("{folder}/librangecheck_c.a");
    if !Path::new(&library).exists() {
        println!("cargo:warning=there is no {library}: run `tools/tower build` at the root of the repository");
    }
    println!("cargo:rustc-link-search=native={folder}");
    println!("cargo:rustc-link-lib=static=rangecheck_c");
    println!("cargo:rerun-if-changed={library}");
}
