//! The programs of PostgreSQL's server, run by another user than root: it refuses to run as root.

use std::os::unix::fs::MetadataExt;
use std::path::{Path, PathBuf};
use std::process::{Command, Stdio};

/// What a server for tests needs.
const NEEDED: [&str; 5] = ["initdb", "pg_ctl", "postgres", "pg_basebackup", "psql"];

/// Where Debian keeps each version's programs, which are not on the PATH.
const DEBIAN: &str = "/usr/lib/postgresql";

/// Why no server can be started here; none where one can.
pub fn missing() -> Option<String> {
    let Some(folder) = folder() else {
        return Some("there is no server of PostgreSQL (Debian: postgresql)".into());
    };
    let lacks = NEEDED.into_iter().find(|name| !folder.join(name).exists());
    lacks.map(|name| format!("{} has no {name} (Debian: postgresql, postgresql-client)", folder.display()))
}

/// The folder of the programs: CINDROLF_POSTGRESQL, or the newest of Debian's, or what pg_config says.
fn folder() -> Option<PathBuf> {
    if let Some(folder) = std::env::var_os("CINDROLF_POSTGRESQL") {
        return Some(folder.into());
    }
    let versions = std::fs::read_dir(DEBIAN).into_iter().flatten().flatten();
    let numbers = versions.filter_map(|version| version.file_name().to_str()?.parse::<u32>().ok());
    let debian = numbers.map(|version| (version, Path::new(DEBIAN).join(format!("{version}/bin"))));
    if let Some((_, newest)) = debian.filter(|(_, folder)| folder.join("postgres").exists()).max() {
        return Some(newest);
    }
    let said = Command::new("pg_config").arg("--bindir").stderr(Stdio::null()).output().ok()?;
    let folder = PathBuf::from(String::from_utf8_lossy(&said.stdout).trim());
    folder.join("postgres").exists().then_some(folder)
}

/// A program of the server, by its path.
pub fn program(name: &str) -> PathBuf {
    folder().unwrap_or_default().join(name)
}

/// A command as the user that runs the server: this one, or postgres where this is root.
pub fn as_server_user(program: impl AsRef<std::ffi::OsStr>) -> Command {
    let root = std::fs::metadata("/proc/self").is_ok_and(|own| own.uid() == 0);
    let mut command = if root { Command::new("runuser") } else { Command::new(program.as_ref()) };
    if root {
        command.args(["-u", "postgres", "--"]).arg(program);
    }
    command.current_dir("/").stdin(Stdio::null());
    without_defaults(&mut command);
    command
}

/// Takes away what the environment would tell PostgreSQL's programs.
pub fn without_defaults(command: &mut Command) {
    let names = std::env::vars_os().map(|(name, _)| name);
    for name in names.filter(|name| name.to_string_lossy().starts_with("PG")) {
        command.env_remove(name);
    }
    command.env("LC_ALL", "C");
}
