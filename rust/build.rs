//! Links `target/staticlib/libexport.a`, which `c/libraries export` writes.

fn main() {
    let folder = concat!(env!("CARGO_MANIFEST_DIR"), "/../target/staticlib");
    println!("cargo:rustc-link-search=native={folder}");
    println!("cargo:rustc-link-lib=static=export");
    println!("cargo:rerun-if-changed={folder}/libexport.a");
}
