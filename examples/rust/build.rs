//! Says where the archive of the library lies: in the folder that EVTX_LIB_DIR
//! names, as that of an installed library, or else in this repository's target
//! folder.

use std::path::{Path, PathBuf};

fn main() {
    let manifest = std::env::var("CARGO_MANIFEST_DIR").expect("set by cargo");
    let built = Path::new(&manifest).join("../../target/staticlib");
    let folder = std::env::var_os("EVTX_LIB_DIR").map_or(built, PathBuf::from);
    println!("cargo:rustc-link-search=native={}", folder.display());
    println!(
        "cargo:rerun-if-changed={}",
        folder.join("libevtx_c.a").display()
    );
    println!("cargo:rerun-if-env-changed=EVTX_LIB_DIR");
    println!("cargo:rerun-if-changed=build.rs");
}
