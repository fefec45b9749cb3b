//! Links the auditor's static library when the feature `library` is on, and sees which of the later entries it has.
use std::env;
use std::fs;
use std::path::Path;

fn main() {
    println!("cargo:rerun-if-env-changed=TIRFOLMA_LIB");
    println!("cargo:rustc-check-cfg=cfg(has_compare, has_ancestry, has_receipts, has_notes, has_plan)");
    if env::var_os("CARGO_FEATURE_LIBRARY").is_none() {
        return;
    }
    let file = env::var("TIRFOLMA_LIB").expect("TIRFOLMA_LIB names the static library");
    let path = Path::new(&file);
    let folder = path.parent().expect("the library is a file in a folder");
    println!("cargo:rerun-if-changed={file}");
    println!("cargo:rustc-link-search=native={}", folder.display());
    let name = path.file_stem().and_then(|s| s.to_str()).expect("a plain file name");
    println!("cargo:rustc-link-lib=static={}", name.strip_prefix("lib").unwrap_or(name));
    let archive = fs::read(path).expect("the static library can be read");
    for entry in ["compare", "ancestry", "receipts", "notes", "plan"] {
        let symbol = format!("tirfolma_{entry}\0");
        if archive.windows(symbol.len()).any(|part| part == symbol.as_bytes()) {
            println!("cargo:rustc-cfg=has_{entry}");
        }
    }
}
