//! Where `tools/bench` has put the proved library.

fn main() {
    println!("cargo:rerun-if-env-changed=BENCH_LIBRARY");
    let folder = std::env::var("BENCH_LIBRARY").expect("run tools/bench, which sets BENCH_LIBRARY");
    println!("cargo:rerun-if-changed={folder}/libbench.a");
    println!("cargo:rustc-link-search=native={folder}");
}
