//! Where the static libraries are that the feature `proved` links; a new one is linked anew.

fn main() {
    println!("cargo:rerun-if-changed=build.rs");
    if std::env::var_os("CARGO_FEATURE_PROVED").is_some() {
        let folder = concat!(env!("CARGO_MANIFEST_DIR"), "/../target/staticlib");
        println!("cargo:rustc-link-search=native={folder}");
        println!("cargo:rerun-if-changed={folder}/libregister.a");
        println!("cargo:rerun-if-changed={folder}/liblive.a");
    }
}
