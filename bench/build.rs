//! Links what `bench/run` has put together besides the library's archive: the C subjects, and Debian's
//! nanopb and protobuf-c.

use std::env;

fn main() {
    let folder = env::var("BENCH_ARCHIVES").expect("bench/run sets it");
    println!("cargo:rerun-if-env-changed=BENCH_ARCHIVES");
    println!("cargo:rustc-link-search=native={folder}");
    println!("cargo:rerun-if-changed={folder}/libbench_c.a");
    println!("cargo:rustc-link-lib=static=bench_c");
    println!("cargo:rustc-link-lib=protobuf-nanopb");
    println!("cargo:rustc-link-lib=protobuf-c");
}
