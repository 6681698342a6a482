//! A PostgreSQL server for one test, in its own folder. It ends with the test, even if the test is killed.

use crate::port::Port;
use crate::processes::{self, SIGKILL, children, lives, signal, works_in};
use crate::programs::{self, as_server_user, program, without_defaults};
use std::fs::OpenOptions;
use std::io::Write;
use std::os::unix::process::CommandExt;
use std::path::{Path, PathBuf};
use std::process::{Child, Command, Output, Stdio};
use std::sync::Arc;
use std::sync::atomic::{AtomicU64, Ordering};
use std::time::{Duration, Instant};
use store_tests::signals::SIGSTOP;
use store_tests::skipped::skipped;

/// How long a server may take to start, to end or to do what it was told.
const PATIENCE: Duration = Duration::from_secs(60);

/// The name of a standby, as its primary calls it.
const STANDBY: &str = "standby";

/// A promotion may wait for this, 5 s by default, in which nobody writes: where the standby is told to take over just when
/// it finds the primary gone. docs/PERFORMANCE.md has what was measured.
const PROMPT: &str = "wal_retrieve_retry_interval = '100ms'";

/// The user who may do everything.
pub const OWNER: &str = "postgres";

/// The database of all tests.
pub const DATABASE: &str = "postgres";

static MADE: AtomicU64 = AtomicU64::new(0);

/// A server, its folder and its port.
#[derive(Debug)]
pub struct Cluster {
    folder: PathBuf,
    port: Arc<Port>,
    /// Ends the server and removes the folder once this process closes its pipe, in whatever way it ends.
    watcher: Child,
}

/// A server for this test, with further lines of its settings. None where no server can be had; then it is said that
/// the test is skipped.
pub fn cluster_for(test: &str, settings: &str) -> Option<Cluster> {
    match programs::missing() {
        None => Some(Cluster::new(settings)),
        Some(why) => {
            skipped(test, &why);
            None
        }
    }
}

impl Cluster {
    /// Makes a server and starts it. It has checksums, and trusts everybody on this computer.
    pub fn new(settings: &str) -> Cluster {
        let cluster = Cluster::in_new_folder(Arc::new(Port::free()));
        let mut init = as_server_user(program("initdb"));
        init.args(["-N", "-k", "-U", OWNER, "-A", "trust", "-E", "UTF8", "--locale=C", "-D"]).arg(cluster.data());
        well(&mut init);
        cluster.configure(&format!(
            "listen_addresses = '127.0.0.1'\nunix_socket_directories = ''\nmax_connections = 200\n\
             log_min_messages = warning\n{settings}"
        ));
        cluster.start();
        cluster
    }

    /// A standby of this server, started. It gets rows through this port: the server's own, or that of a proxy to it. It
    /// listens where a server did that is gone, or at a new port.
    pub fn standby(&self, through: u16, gone: Option<Cluster>) -> Cluster {
        let port = gone.map_or_else(|| Arc::new(Port::free()), |gone| Arc::clone(&gone.port));
        let standby = Cluster::in_new_folder(port);
        let source = format!("host=127.0.0.1 port={through} user={OWNER} application_name={STANDBY}");
        let mut backup = as_server_user(program("pg_basebackup"));
        backup.args(["-d", &source, "-N", "-X", "stream", "-c", "fast", "-D"]).arg(standby.data());
        well(&mut backup);
        // The primary's own settings were copied; the last line of a setting counts.
        standby.configure(&format!("primary_conninfo = '{source}'\nsynchronous_standby_names = ''\n{PROMPT}"));
        well(as_server_user("touch").arg(standby.data().join("standby.signal")));
        standby.start();
        standby
    }

    fn in_new_folder(port: Arc<Port>) -> Cluster {
        let number = MADE.fetch_add(1, Ordering::Relaxed);
        let folder = std::env::temp_dir().join(format!("cindrolf-server-{}-{number}", std::process::id()));
        well(as_server_user("mkdir").arg(&folder));
        let watcher = watcher(&folder);
        Cluster { folder, port, watcher }
    }

    fn configure(&self, settings: &str) {
        self.append(&format!("port = {}\n{settings}", self.port()));
    }

    fn append(&self, settings: &str) {
        let file = OpenOptions::new().append(true).open(self.data().join("postgresql.conf"));
        writeln!(file.expect("the server's settings"), "{settings}").expect("the settings are written");
    }

    /// Changes settings that need no start.
    pub fn set(&self, settings: &str) {
        self.append(settings);
        well(self.control().arg("reload"));
    }

    /// Where the server keeps its data.
    pub fn data(&self) -> PathBuf {
        self.folder.join("data")
    }

    /// The port that it listens on.
    pub fn port(&self) -> u16 {
        self.port.number()
    }

    /// The address of a log on it, for this user.
    pub fn address(&self, user: &str, log: &str) -> String {
        format!("{}/{log}", address(user, &[self.port()]))
    }

    fn control(&self) -> Command {
        let mut control = as_server_user(program("pg_ctl"));
        control.arg("-D").arg(self.data()).args(["-s", "-w", "-t", "60"]);
        control
    }

    /// Starts it, and waits until it answers.
    pub fn start(&self) {
        let log = self.folder.join("messages");
        well(self.control().arg("-l").arg(log).arg("start"));
    }

    /// Makes a standby the primary, and waits until it is.
    pub fn promote(&self) {
        well(self.control().arg("promote"));
    }

    /// Whether commits wait for the standby from now on. It has to be there.
    pub fn wait_for_standby(&self, wait: bool) {
        self.set(&format!("synchronous_standby_names = '{}'", if wait { STANDBY } else { "" }));
        let state = "SELECT sync_state FROM pg_stat_replication WHERE state = 'streaming'";
        let until = Instant::now() + PATIENCE;
        while self.sql(state).as_deref() != Ok(if wait { "sync" } else { "async" }) {
            assert!(Instant::now() < until, "the standby does not come: {:?}", self.sql(state));
            std::thread::sleep(Duration::from_millis(20));
        }
    }

    /// The process of the server itself, where it runs.
    pub fn process(&self) -> Option<u32> {
        let process = self.pid_file()?.lines().next()?.trim().parse().ok()?;
        (lives(process) && works_in(process, &self.data())).then_some(process)
    }

    fn pid_file(&self) -> Option<String> {
        std::fs::read_to_string(self.data().join("postmaster.pid")).ok()
    }

    /// The processes that serve connections of this user.
    pub fn backends(&self, user: &str) -> Vec<u32> {
        let all = self.process().map(children).unwrap_or_default();
        let begin = format!("postgres: {user} {DATABASE} ");
        all.into_iter().filter(|&process| processes::title(process).starts_with(&begin)).collect()
    }

    /// Kills the server and all its children, as a failure of its computer would end them.
    pub fn kill(&self) {
        let Some(server) = self.process() else { return };
        let memory = self.pid_file().and_then(|text| text.lines().nth(6)?.split_whitespace().nth(1).map(str::to_owned));
        // Stopped first, so that it has no new children.
        signal(server, SIGSTOP);
        let all: Vec<u32> = children(server).into_iter().chain([server]).collect();
        all.iter().for_each(|&process| signal(process, SIGKILL));
        let until = Instant::now() + PATIENCE;
        while all.iter().any(|&process| lives(process)) {
            assert!(Instant::now() < until, "the server does not die");
            std::thread::sleep(Duration::from_millis(2));
        }
        // A process that its parent does not ask for keeps its number, and a server with this file would not start.
        let _ = std::fs::remove_file(self.data().join("postmaster.pid"));
        // A killed server leaves its piece of shared memory, and a computer has only so many.
        if let Some(memory) = memory {
            let _ = Command::new("ipcrm").args(["-m", &memory]).stderr(Stdio::null()).status();
        }
    }

    /// Runs SQL as the owner. See [`Cluster::sql_as`].
    pub fn sql(&self, text: &str) -> Result<String, String> {
        self.sql_as(OWNER, text)
    }

    /// Runs SQL as a user, each statement in a transaction of its own, up to the first that fails. Answers the rows, a
    /// line each, with `|` between columns; or what psql says of the fault, with its SQLSTATE.
    pub fn sql_as(&self, user: &str, text: &str) -> Result<String, String> {
        let mut child = self.psql(user).spawn().expect("psql");
        let mut input = child.stdin.take().expect("a pipe");
        let output = std::thread::scope(|scope| {
            scope.spawn(move || input.write_all(text.as_bytes()));
            child.wait_with_output().expect("psql")
        });
        let said = |bytes: &[u8]| String::from_utf8_lossy(bytes).trim_end().to_owned();
        if output.status.success() { Ok(said(&output.stdout)) } else { Err(said(&output.stderr)) }
    }

    /// The program psql, connected as a user, which reads SQL from a pipe and writes to others.
    pub fn psql(&self, user: &str) -> Command {
        let mut psql = Command::new(program("psql"));
        psql.args(["-X", "-q", "-A", "-t", "-v", "ON_ERROR_STOP=1", "-v", "VERBOSITY=verbose", "-f", "-"]);
        psql.args(["-h", "127.0.0.1", "-p", &self.port().to_string(), "-U", user, "-d", DATABASE]);
        without_defaults(&mut psql);
        psql.stdin(Stdio::piped()).stdout(Stdio::piped()).stderr(Stdio::piped());
        psql
    }

    /// What the server said so far, for a test that failed.
    pub fn messages(&self) -> String {
        std::fs::read_to_string(self.folder.join("messages")).unwrap_or_default()
    }
}

impl Drop for Cluster {
    fn drop(&mut self) {
        drop(self.watcher.stdin.take());
        let _ = self.watcher.wait();
    }
}

/// The address of the database on servers of this computer, for this user. That of a log goes on with `/LOG`.
pub fn address(user: &str, ports: &[u16]) -> String {
    let hosts: Vec<String> = ports.iter().map(|port| format!("127.0.0.1:{port}")).collect();
    format!("postgresql://{user}@{}/{DATABASE}", hosts.join(","))
}

/// A process that waits for the end of its pipe, which comes with the end of this one, and then clears up. It is in a
/// group of its own, so that a key that ends the test does not end it.
fn watcher(folder: &Path) -> Child {
    let mut stop = as_server_user(program("pg_ctl"));
    stop.arg("-D").arg(folder.join("data")).args(["-s", "-w", "-m", "immediate", "stop"]);
    let script = r#"cat; "$@"; rm -rf -- "$0""#;
    let mut watcher = Command::new("sh");
    watcher.arg("-c").arg(script).arg(folder).arg(stop.get_program()).args(stop.get_args());
    watcher.current_dir("/").stdin(Stdio::piped()).stdout(Stdio::null()).stderr(Stdio::null()).process_group(0);
    watcher.spawn().expect("sh")
}

/// Runs a program, which has to end well.
fn well(command: &mut Command) {
    // The server that pg_ctl starts would keep a pipe open, so what it says goes to a file of its own.
    let Output { status, stderr, .. } = command.stdout(Stdio::null()).output().expect("a program of the server");
    assert!(status.success(), "{command:?}: {status}: {}", String::from_utf8_lossy(&stderr));
}
