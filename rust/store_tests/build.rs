//! Makes SQLite call the functions of src/calls.rs and src/kernel.rs in place of the C library's.

fn main() {
    println!("cargo::rerun-if-changed=build.rs");
    for name in ["pwrite64", "fdatasync", "ftruncate64", "unlink", "pread64", "statfs"] {
        println!("cargo::rustc-link-arg=-Wl,--export-dynamic-symbol={name}");
    }
}
