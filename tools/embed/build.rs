//! Links the proved engine where the feature `proved` asks for it.

use std::env;
use std::path::Path;

fn main() {
    println!("cargo::rerun-if-changed=build.rs");
    if env::var_os("CARGO_FEATURE_PROVED").is_none() {
        return;
    }
    let root = Path::new(env!("CARGO_MANIFEST_DIR")).join("../..");
    let directory = root.join("target/staticlib");
    let library = directory.join("libtivgeral.a");
    assert!(
        library.is_file(),
        "{} is not there; make it with `tools/build` at the root of the repository",
        library.display()
    );
    println!("cargo::rerun-if-changed={}", library.display());
    println!("cargo::rustc-link-search=native={}", directory.display());
    println!("cargo::rustc-link-lib=static=tivgeral");
}
