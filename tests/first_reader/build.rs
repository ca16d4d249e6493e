//! Says where the archive of the first reader lies, which is built beforehand
//! into the repository's target folder.

use std::path::Path;

fn main() {
    let manifest = std::env::var("CARGO_MANIFEST_DIR").expect("set by cargo");
    let folder = Path::new(&manifest).join("../../target/staticlib");
    println!("cargo:rustc-link-search=native={}", folder.display());
    println!("cargo:rerun-if-changed={}", folder.join("libevtx_c.a").display());
    println!("cargo:rerun-if-changed=build.rs");
}
