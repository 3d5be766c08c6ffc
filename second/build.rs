//! Links `bench` with the object files that bench.sh makes: the proved code,
//! the plain C and the unrolled C; `engine_bench` with the first of them; and
//! `engine_fuzz` with the file that the variable FUZZ_LIBRARY names, which
//! fuzz.sh makes. Nothing else is linked.

use std::env;
use std::path::Path;

fn main() {
    println!("cargo::rerun-if-changed=build.rs");
    if env::var_os("CARGO_FEATURE_BENCH").is_some() {
        let root = env::var("CARGO_MANIFEST_DIR").expect("cargo sets it");
        for (program, name) in [
            ("bench", "nectarnook.o"),
            ("bench", "plain.o"),
            ("bench", "unrolled.o"),
            ("engine_bench", "nectarnook.o"),
        ] {
            link(program, &format!("{root}/target/bench/{name}"), "bench.sh");
        }
    }
    if env::var_os("CARGO_FEATURE_FUZZ").is_some() {
        println!("cargo::rerun-if-env-changed=FUZZ_LIBRARY");
        // Without it the program can be checked, though not linked.
        if let Ok(library) = env::var("FUZZ_LIBRARY") {
            link("engine_fuzz", &library, "fuzz.sh");
        }
    }
}

/// Links a program with an object file or a static library.
fn link(program: &str, file: &str, maker: &str) {
    assert!(Path::new(file).exists(), "no {file}; run {maker}");
    println!("cargo::rerun-if-changed={file}");
    println!("cargo::rustc-link-arg-bin={program}={file}");
}
