// The archive: in IVY_LIB, or where tools/bindings made it, or where tools/install put it.
use std::env;
use std::path::Path;

fn main() {
    let here = env::var("CARGO_MANIFEST_DIR").unwrap_or_default();
    let beside = ["../out", "../../../lib"].map(|it| format!("{here}/{it}"));
    let found = beside.iter().find(|it| Path::new(it).join("libivy.a").exists());
    let folder = env::var("IVY_LIB").unwrap_or_else(|_| found.unwrap_or(&beside[0]).clone());
    println!("cargo:rustc-link-search=native={folder}");
    println!("cargo:rustc-link-lib=static=ivy");
    println!("cargo:rerun-if-env-changed=IVY_LIB");
    println!("cargo:rerun-if-changed={folder}/libivy.a");
}
