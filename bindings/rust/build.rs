//! Where the static library is that `tools/build live` makes; a new one is linked anew.

fn main() {
    let folder = concat!(env!("CARGO_MANIFEST_DIR"), "/../../target/staticlib");
    println!("cargo:rerun-if-changed=build.rs");
    println!("cargo:rerun-if-changed={folder}/liblive.a");
    println!("cargo:rustc-link-search=native={folder}");
}
