//! Links the static library that `rt lib` makes in crates/bench.

fn main() {
    let top = std::env::var("CARGO_MANIFEST_DIR").unwrap();
    println!("cargo::rustc-link-search=native={top}/../crates/bench/out");
    println!("cargo::rustc-link-lib=static=bench");
    println!("cargo::rerun-if-changed={top}/../crates/bench/out/libbench.a");
}
