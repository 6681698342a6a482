//! An answer means that the synchronous standby also has the rows, even if the server gives up waiting for it.

use cindrolf::{Capacity, Kind, Step, value_of};
use cindrolf_server_tests::cluster::{Cluster, address};
use cindrolf_server_tests::controllers::{laboratory, role};
use cindrolf_server_tests::processes::{SIGINT, SIGTERM, signal};
use cindrolf_server_tests::proxy::Proxy;
use std::time::{Duration, Instant};
use store::Store;

/// How long nothing may be answered.
const WHILE: Duration = Duration::from_millis(300);

/// A server and its synchronous standby, the network between them, and a log on it that controller 0 writes.
struct Pair {
    primary: Cluster,
    standby: Cluster,
    network: Proxy,
    store: Store,
}

impl Pair {
    fn of(test: &str) -> Option<Pair> {
        let primary = laboratory(test, "")?;
        let network = Proxy::to(primary.port());
        let standby = primary.standby(network.port(), None);
        primary.wait_for_standby(true);
        let log = format!("{}/run", address(&role(0), &[primary.port(), standby.port()]));
        let mut store = Store::create(log, 1, Capacity::Large).expect("a log");
        for kind in [Kind::Become, Kind::Fetch, Kind::Create, Kind::Append] {
            let _ = store.take(0, Step::new(kind, 0)).expect("a step");
        }
        store.write(0, 1).expect("a write");
        Some(Pair { primary, standby, network, store })
    }

    /// Writes while the standby hears nothing, and sends a signal to the server's process that waits for it, again and again,
    /// which may not lead to an answer. Then does something else, which has to.
    fn write(mut self, number: i32, then: impl FnOnce(&Cluster, &Cluster, &Proxy)) -> (Vec<u64>, Cluster) {
        let Pair { primary, standby, network, store } = &mut self;
        network.silence();
        std::thread::scope(|scope| {
            let written = scope.spawn(|| store.write(0, 2));
            let until = Instant::now() + WHILE;
            let mut signals = 0;
            while Instant::now() < until {
                std::thread::sleep(Duration::from_millis(20));
                let waiting: Vec<u32> = waiting(primary);
                waiting.iter().for_each(|&backend| signal(backend, number));
                signals += waiting.len();
                assert!(!written.is_finished(), "it was answered, and the standby cannot have it");
            }
            assert!(signals > 2, "nobody waited");
            then(primary, standby, network);
            written.join().expect("a thread").expect("an answer");
        });
        (self.store.latest().unwrap().chain().unwrap().into_iter().map(value_of).collect(), self.standby)
    }
}

/// The processes of the server that wait for the standby.
fn waiting(primary: &Cluster) -> Vec<u32> {
    let text =
        primary.sql("SELECT pid FROM pg_stat_activity WHERE wait_event = 'SyncRep' AND usename = 'controller_0'");
    text.unwrap_or_default().lines().filter_map(|line| line.parse().ok()).collect()
}

#[test]
fn a_cancelled_wait_is_no_answer() {
    let Some(pair) = Pair::of("a_cancelled_wait_is_no_answer") else { return };
    let (values, _) = pair.write(SIGINT, |_, _, network| network.heal());
    assert_eq!(values, [1, 2]);
}

#[test]
fn a_wait_that_ends_with_its_connection_is_no_answer() {
    let Some(pair) = Pair::of("a_wait_that_ends_with_its_connection_is_no_answer") else { return };
    let (values, _) = pair.write(SIGTERM, |_, _, network| network.heal());
    assert_eq!(values, [1, 2]);
}

// The row is on the disk of a server that is gone, and was never answered. It is stored once where the log goes on.
#[test]
fn what_only_a_lost_server_had_is_stored_again() {
    let Some(pair) = Pair::of("what_only_a_lost_server_had_is_stored_again") else { return };
    let (values, standby) = pair.write(SIGINT, |primary, standby, network| {
        assert_eq!(primary.sql("SELECT count(*) FROM cindrolf.rows").as_deref(), Ok("6"));
        primary.kill();
        network.cut();
        assert_eq!(standby.sql("SELECT count(*) FROM cindrolf.rows").as_deref(), Ok("5"));
        standby.promote();
    });
    assert_eq!(values, [1, 2]);
    assert_eq!(standby.sql("SELECT count(*) FROM cindrolf.rows").as_deref(), Ok("6"));
}
