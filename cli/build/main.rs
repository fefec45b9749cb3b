//! Makes the library's functions from include/tirfolma.h, links the static library (TIRFOLMA_LIB, or where `dist/build abi` writes it),
//! and takes down the commit and the kit's id (TIRFOLMA_COMMIT, TIRFOLMA_KIT) for --version.
use std::env;
use std::fs;
use std::path::PathBuf;

mod header;

const HEADER: &str = "../include/tirfolma.h";
const LIBRARY: &str = "../target/staticlib/libabi.a";

fn main() {
    println!("cargo:rerun-if-changed=build");
    println!("cargo:rerun-if-changed={HEADER}");
    let text = fs::read_to_string(HEADER).expect("the header can be read");
    let made = header::rust(&text).unwrap_or_else(|why| panic!("{HEADER}: {why}"));
    let out = PathBuf::from(env::var_os("OUT_DIR").expect("cargo names a folder"));
    fs::write(out.join("header.rs"), made).expect("the declarations can be written");

    println!("cargo:rerun-if-env-changed=TIRFOLMA_LIB");
    let file = env::var("TIRFOLMA_LIB").unwrap_or_else(|_| LIBRARY.to_string());
    let path = fs::canonicalize(&file).unwrap_or_else(|e| panic!("{file}: {e}; 'make' in the folder above builds it"));
    println!("cargo:rerun-if-changed={}", path.display());
    println!("cargo:rustc-link-search=native={}", path.parent().expect("the library is a file in a folder").display());
    let name = path.file_stem().and_then(|stem| stem.to_str()).expect("a plain file name");
    println!("cargo:rustc-link-lib=static={}", name.strip_prefix("lib").unwrap_or(name));

    for name in ["TIRFOLMA_COMMIT", "TIRFOLMA_KIT"] {
        println!("cargo:rerun-if-env-changed={name}");
        println!("cargo:rustc-env={name}={}", env::var(name).unwrap_or_else(|_| "not known".to_string()));
    }
}
