//! Links the system's SQLite, and says what to install if there is none.

use std::io::Write;
use std::process::{Command, Stdio};

const PROGRAM: &str =
    "int sqlite3_libversion_number(void); int main(void) { return sqlite3_libversion_number() == 0; }";

/// Whether a program that calls SQLite links.
fn links() -> std::io::Result<bool> {
    let output = std::path::Path::new(&std::env::var_os("OUT_DIR").expect("set by cargo")).join("links");
    let compiler = std::env::var("CC").unwrap_or_else(|_| "cc".into());
    let mut words = compiler.split_whitespace();
    let mut child = Command::new(words.next().unwrap_or("cc"))
        .args(words)
        .args(["-x", "c", "-", "-lsqlite3", "-o"])
        .arg(output)
        .stdin(Stdio::piped())
        .stderr(Stdio::null())
        .spawn()?;
    child.stdin.take().expect("a pipe").write_all(PROGRAM.as_bytes())?;
    Ok(child.wait()?.success())
}

fn main() {
    println!("cargo::rerun-if-changed=build.rs");
    println!("cargo::rerun-if-env-changed=CC");
    if links().unwrap_or(false) {
        println!("cargo::rustc-link-lib=sqlite3");
    } else {
        println!(
            "cargo::error=SQLite is needed, and no program links with -lsqlite3: install Debian's package libsqlite3-dev"
        );
    }
}
