//! The server that tests start: what it keeps when it is killed, which roles it serves, and that it ends with its test.

use cindrolf_server_tests::cluster::{Cluster, OWNER, cluster_for};
use cindrolf_server_tests::processes::{SIGKILL, lives, signal};
use std::path::PathBuf;
use std::process::Command;
use std::time::{Duration, Instant};

fn until(what: &str, mut holds: impl FnMut() -> bool) {
    let end = Instant::now() + Duration::from_secs(20);
    while !holds() {
        assert!(Instant::now() < end, "{what}: not within 20 s");
        std::thread::sleep(Duration::from_millis(5));
    }
}

#[test]
fn a_killed_server_keeps_what_it_committed() {
    let Some(cluster) = cluster_for("a_killed_server_keeps_what_it_committed", "") else { return };
    cluster.sql("CREATE TABLE kept (value integer); INSERT INTO kept VALUES (7);").expect("a table");
    cluster.kill();
    assert_eq!(cluster.process(), None);
    assert!(cluster.sql("SELECT 1").is_err());
    cluster.start();
    assert_eq!(cluster.sql("SELECT value FROM kept; SELECT 1, 2"), Ok("7\n1|2".into()));
}

#[test]
fn backends_are_those_of_a_user() {
    let Some(cluster) = cluster_for("backends_are_those_of_a_user", "") else { return };
    cluster.sql("CREATE ROLE one LOGIN; CREATE ROLE two LOGIN").expect("roles");
    assert_eq!(cluster.backends("one"), []);
    std::thread::scope(|scope| {
        let [one, two] = ["one", "two"].map(|user| {
            let cluster = &cluster;
            scope.spawn(move || cluster.sql_as(user, "SELECT pg_sleep(2)"))
        });
        until("both are served", || cluster.backends("one").len() == 1 && cluster.backends("two").len() == 1);
        signal(cluster.backends("one")[0], SIGKILL);
        assert!(one.join().expect("a thread").is_err());
        // The server ends all its backends when one was killed.
        assert!(two.join().expect("a thread").is_err());
    });
    until("it serves again", || cluster.sql("SELECT 1").is_ok());
}

#[test]
fn faults_have_their_state() {
    let Some(cluster) = cluster_for("faults_have_their_state", "work_mem = '5MB'") else { return };
    assert_eq!(cluster.sql("SHOW work_mem"), Ok("5MB".into()));
    cluster.set("work_mem = '6MB'");
    until("the new setting", || cluster.sql("SHOW work_mem").as_deref() == Ok("6MB"));
    let fault = cluster.sql("SELECT 1; SELECT * FROM nowhere; SELECT 2").expect_err("there is no such table");
    assert!(fault.contains("42P01"), "{fault}");
    assert!(!cluster.sql_as("nobody", "SELECT 1").expect_err("there is no such role").is_empty());
}

#[test]
fn a_synchronous_standby_has_what_was_committed() {
    let Some(primary) = cluster_for("a_synchronous_standby_has_what_was_committed", "") else { return };
    primary.sql("CREATE TABLE kept (value integer)").expect("a table");
    let standby = primary.standby(primary.port(), None);
    primary.wait_for_standby(true);
    for value in 0..50 {
        primary.sql(&format!("INSERT INTO kept VALUES ({value})")).expect("a row");
    }
    assert!(standby.sql("INSERT INTO kept VALUES (-1)").expect_err("it is a standby").contains("25006"));
    primary.kill();
    standby.promote();
    assert_eq!(standby.sql("SELECT count(*) FROM kept; INSERT INTO kept VALUES (50)"), Ok("50".into()));
    let place = primary.port();
    let next = standby.standby(standby.port(), Some(primary));
    standby.wait_for_standby(true);
    assert_eq!(next.port(), place);
    assert_eq!(next.sql("SHOW synchronous_standby_names; SELECT count(*) FROM kept"), Ok("\n51".into()));
}

/// The process and the folder of a server.
fn traces(cluster: &Cluster) -> (u32, PathBuf) {
    (cluster.process().expect("it runs"), cluster.data())
}

fn gone((process, data): &(u32, PathBuf)) -> bool {
    !lives(*process) && !data.parent().expect("its folder").exists()
}

#[test]
fn it_ends_with_its_test() {
    let Some(cluster) = cluster_for("it_ends_with_its_test", "") else { return };
    let of_this = traces(&cluster);
    assert!(!gone(&of_this));
    drop(cluster);
    assert!(gone(&of_this));
    let mut of_panic = None;
    let panicked = std::panic::catch_unwind(std::panic::AssertUnwindSafe(|| {
        let cluster = Cluster::new("");
        of_panic = Some(traces(&cluster));
        panic!("as a test that fails");
    }));
    assert!(panicked.is_err() && gone(&of_panic.expect("it was started")));
}

/// Only for the test below: says where its server is, and waits to be killed.
#[test]
#[ignore = "it is a part of another test"]
fn waits_to_be_killed() {
    let Some(told) = std::env::var_os("CINDROLF_TELL") else { return };
    let cluster = Cluster::new("");
    let (process, data) = traces(&cluster);
    std::fs::write(told, format!("{process} {};", data.display())).expect("a file");
    std::thread::sleep(Duration::from_secs(60));
}

#[test]
fn it_ends_with_a_test_that_is_killed() {
    let Some(cluster) = cluster_for("it_ends_with_a_test_that_is_killed", "") else { return };
    let told = cluster.data().with_file_name("told");
    let mut child = Command::new(std::env::current_exe().expect("this program"));
    child.args(["--ignored", "--exact", "waits_to_be_killed"]).env("CINDROLF_TELL", &told);
    let mut child = child.spawn().expect("this program");
    let mut of_child = None;
    until("the other server runs", || {
        let text = std::fs::read_to_string(&told).unwrap_or_default();
        let parts = text.strip_suffix(';').and_then(|text| text.split_once(' '));
        of_child = parts.map(|(process, data)| (process.parse().expect("a number"), PathBuf::from(data)));
        of_child.is_some()
    });
    let of_child = of_child.expect("it told");
    assert!(!gone(&of_child));
    child.kill().and_then(|()| child.wait()).expect("it is killed");
    until("the other server is gone", || gone(&of_child));
    assert_eq!(cluster.sql_as(OWNER, "SELECT 1"), Ok("1".into()));
}
