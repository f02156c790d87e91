//! Where the archive lies that `tests/archive.rs` links.

fn main() {
    let here = std::env::var("CARGO_MANIFEST_DIR").expect("cargo says where the package is");
    println!("cargo:rustc-link-search=native={here}/../target/staticlib");
    println!("cargo:rerun-if-changed=../target/staticlib/libcabinet.a");
}
