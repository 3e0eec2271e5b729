//! Links the library that BENCH_LIB names into `compare`, where asked to.

use std::env;
use std::path::Path;

fn main() {
    println!("cargo::rerun-if-env-changed=BENCH_LIB");
    if env::var_os("CARGO_FEATURE_LINKED").is_none() {
        return;
    }
    let library = env::var("BENCH_LIB").expect("BENCH_LIB names the static library to link");
    let library = Path::new(&library)
        .canonicalize()
        .expect("BENCH_LIB names a file");
    let library = library.display();
    println!("cargo::rerun-if-changed={library}");
    // The library may bring its own copy of what Rust programs share.
    println!("cargo::rustc-link-arg-bin=compare=-Wl,--allow-multiple-definition");
    println!("cargo::rustc-link-arg-bin=compare={library}");
}
