//! Links the crate `bench` where the feature `proved` asks for it, and SQLite where it is installed.

use std::env;
use std::path::{Path, PathBuf};
use std::process::{Command, Stdio};

fn main() {
    println!("cargo::rerun-if-changed=build.rs");
    println!("cargo::rustc-check-cfg=cfg(sqlite)");
    if has_sqlite() {
        println!("cargo::rustc-cfg=sqlite");
        println!("cargo::rustc-link-lib=sqlite3");
    }
    if env::var_os("CARGO_FEATURE_PROVED").is_some() {
        link_proved();
    }
}

/// Whether something can be linked with it.
fn has_sqlite() -> bool {
    let folder = PathBuf::from(env::var_os("OUT_DIR").expect("cargo names a folder"));
    let mut linking = Command::new("cc");
    linking.args(["-shared", "-lsqlite3", "-o"]).arg(folder.join("probe.so"));
    let silent = linking.stdout(Stdio::null()).stderr(Stdio::null());
    silent.status().is_ok_and(|status| status.success())
}

fn link_proved() {
    let root = Path::new(env!("CARGO_MANIFEST_DIR")).join("../..");
    let directory = root.join("target/staticlib");
    println!("cargo::rustc-link-search=native={}", directory.display());
    let library = directory.join("libbench.a");
    assert!(
        library.is_file(),
        "{} is not there; make it with `(cd crates/bench && rt lib) && tools/place bench` at the root of the repository",
        library.display()
    );
    println!("cargo::rerun-if-changed={}", library.display());
    println!("cargo::rustc-link-lib=static=bench");
}
