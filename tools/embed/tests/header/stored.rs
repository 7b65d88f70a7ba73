//! The library, and the stored nets that programs in C run through it.

use crate::compiled::root;
use std::ffi::OsStr;
use std::fs;

pub const LIBRARY: [&str; 1] = ["target/staticlib/libtivgeral.a"];

pub fn nets() -> Vec<Vec<u8>> {
    let entries = ["examples", "examples/tour"].map(|name| fs::read_dir(root().join(name)));
    let entries = entries.into_iter().flat_map(|entries| entries.expect("the examples"));
    let paths = entries.map(|entry| entry.expect("an example").path());
    let paths = paths.filter(|path| path.extension() == Some(OsStr::new("net")));
    let nets: Vec<Vec<u8>> = paths.map(|path| fs::read(path).expect("a net")).collect();
    assert!(nets.len() >= 21);
    nets
}
