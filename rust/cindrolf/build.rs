//! Links the proved archive, libcindrolf.a.

use std::env;
use std::path::PathBuf;

fn main() {
    println!("cargo::rerun-if-env-changed=CINDROLF_ARCHIVE_DIR");
    let target = (env::var("CARGO_CFG_TARGET_ARCH"), env::var("CARGO_CFG_TARGET_OS"));
    if target != (Ok("x86_64".into()), Ok("linux".into())) {
        println!("cargo::error=the archive of the log links only into programs for x86-64 Linux");
        return;
    }
    let folder = match env::var_os("CINDROLF_ARCHIVE_DIR") {
        Some(folder) => PathBuf::from(folder),
        None => PathBuf::from(env::var_os("CARGO_MANIFEST_DIR").unwrap()).join("../../target/staticlib"),
    };
    let archive = folder.join("libcindrolf.a");
    println!("cargo::rerun-if-changed={}", archive.display());
    if !archive.is_file() {
        println!("cargo::error=no archive at {}", archive.display());
        println!(
            "cargo::error=build it by `tools/archive` in the root of the repository, or name its folder in CINDROLF_ARCHIVE_DIR"
        );
        return;
    }
    println!("cargo::rustc-link-search=native={}", folder.display());
    println!("cargo::rustc-link-lib=static=cindrolf");
}
