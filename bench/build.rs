//! Links the archives of `vote` and `parity`, each where its feature is asked for.

use std::env;
use std::path::Path;

fn main() {
    let here = env::var("CARGO_MANIFEST_DIR").expect("cargo sets it");
    for (program, name) in [("vote", "bench_votes"), ("parity", "bench_parities")] {
        if env::var_os(format!("CARGO_FEATURE_{}", name.to_uppercase())).is_none() {
            continue;
        }
        let archive = Path::new(&here).join(format!("../target/staticlib/lib{name}.a"));
        println!("cargo::rerun-if-changed={}", archive.display());
        if archive.is_file() {
            println!("cargo::rustc-link-arg-bin={program}={}", archive.display());
        } else {
            println!("cargo::error=target/staticlib/lib{name}.a is not there: make it by `examples/archive {name}`, then build again");
        }
    }
    println!("cargo::rerun-if-changed=build.rs");
}
