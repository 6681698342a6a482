//! Gives the shared library the soname of this interface.

const HEADER: &str = "../../include/cindrolf_store.h";

fn main() {
    println!("cargo::rerun-if-changed={HEADER}");
    let header = std::fs::read_to_string(HEADER).unwrap_or_default();
    let version = header.lines().find_map(|line| line.strip_prefix("#define CINDROLF_STORE_VERSION UINT64_C("));
    match version.and_then(|rest| rest.strip_suffix(')')) {
        Some(version) => {
            println!("cargo::rustc-env=CINDROLF_STORE_VERSION={version}");
            println!("cargo::rustc-cdylib-link-arg=-Wl,-soname,libcindrolf_store.so.{version}");
            // All that it needs has to be there when it is linked.
            println!("cargo::rustc-cdylib-link-arg=-Wl,-z,defs");
        }
        None => println!("cargo::error=include/cindrolf_store.h has no CINDROLF_STORE_VERSION"),
    }
}
