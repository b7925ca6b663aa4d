//! Says where the archive lies, and that a new one asks for a new link.

fn main() {
    println!("cargo:rerun-if-changed=build.rs");
    if std::env::var_os("CARGO_FEATURE_ARCHIVE").is_some() {
        let folder = concat!(env!("CARGO_MANIFEST_DIR"), "/../../target/staticlib");
        println!("cargo:rustc-link-search=native={folder}");
        println!("cargo:rerun-if-changed={folder}/libscale.a");
    }
}
