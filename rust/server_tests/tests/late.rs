//! A request that arrives late, after it was sent again another way and answered, is stored once.

use cindrolf::{Capacity, Kind, Step, value_of};
use cindrolf_server_tests::cluster::address;
use cindrolf_server_tests::controllers::{laboratory, role};
use cindrolf_server_tests::proxy::{Proxy, Then, Way};
use std::time::{Duration, Instant};
use store::Store;

fn until(what: &str, mut holds: impl FnMut() -> bool) {
    let end = Instant::now() + Duration::from_secs(20);
    while !holds() {
        assert!(Instant::now() < end, "{what}: not within 20 s");
        std::thread::sleep(Duration::from_millis(5));
    }
}

#[test]
fn a_request_that_comes_late_is_stored_once() {
    let Some(cluster) = laboratory("a_request_that_comes_late_is_stored_once", "") else { return };
    let ways = [Proxy::to(cluster.port()), Proxy::to(cluster.port())];
    let log = format!("{}/run", address(&role(0), &ways.each_ref().map(Proxy::port)));
    let mut store = Store::create(log, 1, Capacity::Large).expect("a log");
    for kind in [Kind::Become, Kind::Fetch, Kind::Create, Kind::Append] {
        let _ = store.take(0, Step::new(kind, 0)).expect("a step");
    }
    let before = ways[0].let_through(Way::ToServer);
    store.write(0, 0).expect("a write");
    let length = ways[0].let_through(Way::ToServer) - before;
    // All of it is late, or all but the first bytes, or the last byte.
    for (value, bytes) in (1..).zip([0, 5, length - 1]) {
        let before = ways[0].let_through(Way::ToServer);
        ways[0].limit(Way::ToServer, bytes, Then::Silence);
        std::thread::scope(|scope| {
            scope.spawn(|| {
                until("the request is sent", || ways[0].let_through(Way::ToServer) == before + bytes);
                // Nor does a new connection come through.
                ways[0].silence();
            });
            assert_eq!(store.write(0, value).expect("an answer, the other way").number.0, value);
        });
        ways[0].heal();
        until("the late request comes", || ways[0].let_through(Way::ToServer) >= before + length);
        until("its connection ends", || ways[0].connections() == 0 && cluster.backends(&role(0)).len() == 1);
        // From here on it is connected the first way again.
        ways[1].cut();
        store.latest().expect("the log");
    }
    store.write(0, 4).expect("a write");
    let values: Vec<u64> = store.latest().unwrap().chain().unwrap().into_iter().map(value_of).collect();
    assert_eq!(values, [0, 1, 2, 3, 4]);
    assert_eq!(cluster.sql("SELECT count(*), count(DISTINCT request) FROM cindrolf.rows").as_deref(), Ok("9|9"));
}
