//! Links the probe's static library, whose folder PROBE_LIB names: the build script of the batch driver and the benchmark.

fn main() {
    let folder = std::env::var("PROBE_LIB").expect("PROBE_LIB names the folder of libprobe.a");
    println!("cargo:rustc-link-search=native={folder}");
    println!("cargo:rustc-link-lib=static=probe");
    println!("cargo:rerun-if-env-changed=PROBE_LIB");
    println!("cargo:rerun-if-changed={folder}/libprobe.a");
}
