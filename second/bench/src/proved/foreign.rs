//! The functions of target/staticlib/libbench.a. None has a `requires`: they may be called with any numbers
//! and any bytes. A slice is where it begins and how long it is.

/// Without the feature `proved` nothing is linked, and functions that nobody calls stand in, so
/// that the rest of the program is the same.
macro_rules! foreign {
    ($($name:ident($($given:ident: $kind:ty),*) -> $gives:ty;)*) => {
        #[cfg(feature = "proved")]
        extern "C" {
            $(pub fn $name($($given: $kind),*) -> $gives;)*
        }
        $(
            #[cfg(not(feature = "proved"))]
            pub unsafe fn $name($(_: $kind),*) -> $gives {
                unreachable!("the proved code is not linked")
            }
        )*
    };
}

type Bytes = *const u8;

foreign! {
    bench_steps(tables: Bytes, t: usize, program: Bytes, p: usize, kind: u8, turns: u64) -> u64;
    bench_left(tables: Bytes, t: usize, program: Bytes, p: usize, kind: u8) -> u64;
    bench_bytes(tables: Bytes, t: usize, program: Bytes, p: usize, picks: Bytes, n: usize, turns: u64) -> u64;
    bench_runs(tables: Bytes, t: usize, program: Bytes, p: usize, picks: Bytes, n: usize, turns: u64) -> u64;
    bench_tests(tables: Bytes, t: usize, program: Bytes, p: usize, turns: u64) -> u64;
    bench_loads(file: Bytes, length: usize, turns: u64) -> u64;
    bench_loaded(file: Bytes, length: usize, turns: u64) -> u64;
}
