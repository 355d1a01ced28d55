//! Links the proved archive, `target/staticlib/libqsm_c.a`, or says how it is made.

use std::env;
use std::path::Path;

fn main() {
    let here = env::var("CARGO_MANIFEST_DIR").expect("cargo sets it");
    let folder = Path::new(&here).join("../../target/staticlib");
    let archive = folder.join("libqsm_c.a");
    println!("cargo::rerun-if-changed={}", archive.display());
    if !archive.is_file() {
        println!(
            "cargo::error=the proved library, target/staticlib/libqsm_c.a, is not there: make it by `examples/archive` \
             (or `tools/build qsm_c`), then build again"
        );
        return;
    }
    println!("cargo::rustc-link-search=native={}", folder.display());
    println!("cargo::rustc-link-lib=static=qsm_c");
}
