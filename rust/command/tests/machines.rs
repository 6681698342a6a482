//! A log on a server of another machine, by TLS: three machines that are network namespaces, each with a cable to the
//! server's. They end with the processes of the test, and leave nothing.

mod support;

use cindrolf_server_tests::cluster::Cluster;
use cindrolf_server_tests::controllers::laboratory;
use cindrolf_server_tests::programs::{self, as_server_user};
use std::path::Path;
use std::process::{Child, Command, Output, Stdio};
use store_tests::skipped::skipped;
use support::Folder;

/// What the test needs besides a server, each with its package of Debian.
const NEEDED: [(&str, &str); 4] =
    [("unshare", "util-linux"), ("nsenter", "util-linux"), ("ip", "iproute2"), ("openssl", "openssl")];

/// Networks that no computer of the world has. Each cable is one of them.
const NETWORK: &str = "10.231";

/// What a namespace is made with: a network, and a table of mounts, of its own.
const OWN: [&str; 4] = ["--net", "--mount", "--propagation", "private"];

#[test]
fn machines_hand_over_by_address() {
    let test = "machines_hand_over_by_address";
    if let Some(why) = missing() {
        return skipped(test, &why);
    }
    let mut within = Command::new("unshare");
    within.args(OWN).arg(std::env::current_exe().unwrap());
    let ended = within.args(["--ignored", "--exact", "on_the_server", "--nocapture"]).output().unwrap();
    let said = [ended.stdout, ended.stderr].map(|bytes| String::from_utf8_lossy(&bytes).into_owned()).concat();
    assert!(ended.status.success() && said.contains("1 passed"), "{said}");
}

/// Why no machines can be made here; none where they can.
fn missing() -> Option<String> {
    let is_there = |name: &str| Command::new(name).arg("--version").output().or(Command::new(name).arg("-V").output());
    let lacks = NEEDED.into_iter().find(|(name, _)| is_there(name).is_err());
    let lacks = lacks.map(|(name, package)| format!("there is no {name} (Debian: {package})"));
    programs::missing().or(lacks).or_else(|| {
        let tried = Command::new("unshare").args(OWN).args(["ip", "link", "add", "type", "veth"]).output().unwrap();
        let why = String::from_utf8_lossy(&tried.stderr).into_owned();
        (!tried.status.success()).then(|| format!("no network of its own is allowed here: {why}"))
    })
}

fn well(command: &mut Command) {
    let Output { status, stderr, .. } = command.output().unwrap();
    assert!(status.success(), "{command:?}: {status}: {}", String::from_utf8_lossy(&stderr));
}

fn run(words: &str) {
    let words: Vec<&str> = words.split(' ').collect();
    well(Command::new(words[0]).args(&words[1..]));
}

/// A machine: a process that waits for the end of its pipe, in namespaces of its own.
struct Machine {
    waits: Child,
    home: Folder,
}

impl Machine {
    /// A machine with a cable to the server's, on which it knows that by the names db1 and db2, and trusts an authority.
    fn new(number: u32, authority: &Path) -> Machine {
        let mut waits = Command::new("unshare");
        let waits = waits.args(OWN).args(["sh", "-c", "echo; exec cat"]).stdin(Stdio::piped()).stdout(Stdio::piped());
        let mut machine = Machine { waits: waits.spawn().unwrap(), home: Folder::new() };
        // It is in its namespaces once it says something.
        let said = machine.waits.stdout.as_mut().unwrap();
        std::io::Read::read_exact(said, &mut [0]).unwrap();
        let (process, server) = (machine.waits.id(), format!("{NETWORK}.{number}.1"));
        run(&format!("ip link add cable{number} type veth peer name cable netns {process}"));
        run(&format!("ip address add {server}/30 dev cable{number}"));
        run(&format!("ip link set cable{number} up"));
        let hosts = machine.home.path("hosts");
        std::fs::write(&hosts, format!("127.0.0.1 localhost\n{server} db1\n{server} db2\n")).unwrap();
        well(machine.within("ip").args(["address", "add", &format!("{NETWORK}.{number}.2/30"), "dev", "cable"]));
        well(machine.within("ip").args(["link", "set", "cable", "up"]));
        well(machine.within("mount").arg("--bind").arg(&hosts).arg("/etc/hosts"));
        std::fs::create_dir(machine.home.path(".postgresql")).unwrap();
        std::fs::copy(authority, machine.home.path(".postgresql/root.crt")).unwrap();
        std::fs::write(machine.home.path(".pgpass"), "*:*:*:*:a secret\n").unwrap();
        run(&format!("chmod 600 {}", machine.home.path(".pgpass").display()));
        machine
    }

    /// A program on it.
    fn within(&self, program: &str) -> Command {
        let mut command = Command::new("nsenter");
        command.args(["--target", &self.waits.id().to_string(), "--net", "--mount", "--", program]);
        programs::without_defaults(&mut command);
        command.env("HOME", self.home.path("."));
        command
    }

    /// What the command prints, and its status.
    fn cindrolf(&self, words: &[&str]) -> (Option<i32>, String) {
        let ended = self.within(env!("CARGO_BIN_EXE_cindrolf")).args(words).output().unwrap();
        let said = [ended.stdout, ended.stderr].map(|bytes| String::from_utf8_lossy(&bytes).into_owned()).concat();
        (ended.status.code(), said)
    }

    fn prints(&self, words: &[&str], wanted: &str) {
        assert_eq!(self.cindrolf(words), (Some(0), wanted.into()), "{words:?}");
    }

    fn refuses(&self, words: &[&str], why: &str) {
        let (status, said) = self.cindrolf(words);
        assert!(status == Some(1) && said.contains(why), "{words:?}: {status:?} {said}");
    }
}

impl Drop for Machine {
    fn drop(&mut self) {
        drop(self.waits.stdin.take());
        let _ = self.waits.wait();
    }
}

/// An authority that signs certificates, in files of a folder.
fn authority(folder: &Folder, name: &str) {
    let path = |ending: &str| folder.path(&format!("{name}{ending}"));
    let mut make = Command::new("openssl");
    make.args(["req", "-x509", "-newkey", "rsa:2048", "-nodes", "-days", "2", "-subj", "/CN=a laboratory"]);
    well(make.arg("-keyout").arg(path(".key")).arg("-out").arg(path(".crt")));
}

/// Gives the server a certificate for the name db1, and has it take only connections by TLS from other machines.
fn secure(cluster: &Cluster, folder: &Folder) {
    let path = |name: &str| folder.path(name);
    let mut ask = Command::new("openssl");
    ask.args(["req", "-newkey", "rsa:2048", "-nodes", "-subj", "/CN=db1"]);
    well(ask.arg("-keyout").arg(path("server.key")).arg("-out").arg(path("server.csr")));
    std::fs::write(path("names"), "subjectAltName = DNS:db1\n").unwrap();
    let mut sign = Command::new("openssl");
    sign.args(["x509", "-req", "-days", "2", "-CAcreateserial"]).arg("-in").arg(path("server.csr"));
    sign.arg("-CA").arg(path("ours.crt")).arg("-CAkey").arg(path("ours.key"));
    well(sign.arg("-extfile").arg(path("names")).arg("-out").arg(path("server.crt")));
    for name in ["server.key", "server.crt"] {
        let into = cluster.data().join(name);
        let text = std::fs::read_to_string(path(name)).unwrap();
        well(as_server_user("sh").args(["-c", "umask 77 && printf %s \"$1\" >\"$0\""]).arg(&into).arg(text));
    }
    let rules = cluster.data().join("pg_hba.conf");
    let known = std::fs::read_to_string(&rules).unwrap();
    std::fs::write(&rules, format!("{known}hostssl all all {NETWORK}.0.0/16 scram-sha-256\n")).unwrap();
    cluster.sql("ALTER ROLE controller_0 PASSWORD 'a secret'; ALTER ROLE controller_1 PASSWORD 'a secret'").unwrap();
    cluster.set("ssl = on");
    while cluster.sql("SHOW ssl").as_deref() != Ok("on") {
        std::thread::sleep(std::time::Duration::from_millis(20));
    }
}

#[test]
#[ignore = "it is a part of another test"]
fn on_the_server() {
    run("ip link set lo up");
    let cluster = laboratory("on_the_server", "listen_addresses = '*'").expect("a server");
    let folder = Folder::new();
    authority(&folder, "ours");
    authority(&folder, "theirs");
    secure(&cluster, &folder);
    let [host, guest] = [1, 2].map(|number| Machine::new(number, &folder.path("ours.crt")));
    let at = |client: u64, name: &str, options: &str| {
        format!("postgresql://controller_{client}@{name}:{}/postgres/run-42{options}", cluster.port())
    };
    let [of_host, of_guest] = [0, 1].map(|client| at(client, "db1", "?sslmode=verify-full"));
    host.prints(&["create", &of_host, "2"], "");
    let lead = ["step", &of_host, "B 0", "F 0", "C 0", "P 0", "W 0 201"];
    host.prints(&lead, "1 ok\n2 ok\n3 ok\n4 ok\n5 entry 0 place 0\n");
    guest.prints(&["step", &of_guest, "N 1", "B 1", "F 1", "L 1"], "1 ok\n2 ok\n3 ok\n4 ok\n");
    host.prints(&["step", &of_host, "W 0 202"], "1 ref 12\n");
    guest.prints(&["step", &of_guest, "K 1", "C 1", "P 1", "W 1 203"], "1 ok\n2 ok\n3 ok\n4 entry 1 place 0\n");
    host.prints(&["chain", &of_host], "chain 0:201 1:203\n");
    host.refuses(&["show", &at(0, "db1", "")], "its host is another computer");
    host.refuses(&["show", &at(0, "db1", "?sslmode=require")], "add ?sslmode=verify-full");
    // The certificate is of another name, or of another authority; or one who says in words that nothing is verified is
    // refused by the server, which wants TLS. Each is tried until the deadline, all at one time.
    let stranger = Machine::new(3, &folder.path("theirs.crt"));
    let unverified = "?sslmode=disable&unverified=i-accept-that-others-may-read-and-change-what-i-send";
    let other_name = at(0, "db2", "?sslmode=verify-full");
    std::thread::scope(|scope| {
        scope.spawn(|| host.refuses(&["show", &other_name], "does not match host name \"db2\""));
        scope.spawn(|| stranger.refuses(&["show", &of_host], "certificate verify failed"));
        guest.refuses(&["show", &at(1, "db1", unverified)], "no encryption");
    });
    guest.prints(&["chain", &of_guest], "chain 0:201 1:203\n");
}
