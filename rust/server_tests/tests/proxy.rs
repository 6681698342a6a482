//! The network that tests disturb: what passes, when, and what does not.

use cindrolf_server_tests::proxy::{Proxy, Then, Way};
use std::io::{Read, Write};
use std::net::{TcpListener, TcpStream};
use std::time::{Duration, Instant};

/// How long nothing more may come after what was expected.
const WHILE: Duration = Duration::from_millis(20);

/// How long what is expected may take.
const PATIENCE: Duration = Duration::from_secs(20);

/// Both ends of a connection through a proxy.
struct Ends {
    proxy: Proxy,
    listener: TcpListener,
    client: TcpStream,
    server: TcpStream,
}

fn ends() -> Ends {
    let listener = TcpListener::bind("127.0.0.1:0").expect("a port");
    let proxy = Proxy::to(listener.local_addr().expect("a port").port());
    let (client, server) = connect(&proxy, &listener);
    Ends { proxy, listener, client, server }
}

fn connect(proxy: &Proxy, listener: &TcpListener) -> (TcpStream, TcpStream) {
    let before = proxy.opened();
    let client = TcpStream::connect(("127.0.0.1", proxy.port())).expect("the proxy listens");
    let server = listener.accept().expect("it leads here").0;
    // The proxy counts it a moment later.
    until(|| proxy.opened() > before);
    (client, server)
}

fn until(mut holds: impl FnMut() -> bool) {
    let end = Instant::now() + PATIENCE;
    while !holds() {
        assert!(Instant::now() < end, "it does not come");
        std::thread::sleep(Duration::from_millis(1));
    }
}

/// What comes: these bytes and, where it is wanted, the end, or as much of that as comes in time, or more than that.
fn come(stream: &mut TcpStream, wanted: (&[u8], bool)) -> (Vec<u8>, bool) {
    let (mut all, mut buffer) = (Vec::new(), [0; 1024]);
    loop {
        let patience = if all.len() < wanted.0.len() || wanted.1 { PATIENCE } else { WHILE };
        stream.set_read_timeout(Some(patience)).expect("a time");
        match stream.read(&mut buffer) {
            Ok(count @ 1..) => all.extend(&buffer[..count]),
            Err(error) if error.kind() == std::io::ErrorKind::WouldBlock => return (all, false),
            _ => return (all, true),
        }
    }
}

/// That these bytes come, and nothing behind them.
fn comes(stream: &mut TcpStream, wanted: &[u8]) {
    assert_eq!(come(stream, (wanted, false)), (wanted.to_vec(), false));
}

/// That these bytes come, and behind them the end.
fn ends_with(stream: &mut TcpStream, wanted: &[u8]) {
    assert_eq!(come(stream, (wanted, true)), (wanted.to_vec(), true));
}

#[test]
fn all_passes_both_ways() {
    let Ends { proxy, mut client, mut server, .. } = ends();
    let long: Vec<u8> = (0..200_000).map(|number| (number % 251) as u8).collect();
    std::thread::scope(|scope| {
        let sent = scope.spawn(|| client.write_all(&long).map(|()| client.shutdown(std::net::Shutdown::Write)));
        ends_with(&mut server, &long);
        assert!(sent.join().expect("a thread").is_ok());
    });
    server.write_all(b"answer").expect("sent");
    drop(server);
    ends_with(&mut client, b"answer");
    until(|| proxy.connections() == 0);
    assert_eq!((proxy.let_through(Way::ToServer), proxy.let_through(Way::ToClient)), (200_000, 6));
}

#[test]
fn a_delay_is_kept_each_way_and_messages_follow_each_other() {
    let Ends { proxy, mut client, mut server, .. } = ends();
    let delay = Duration::from_millis(100);
    proxy.delay(delay);
    let (began, mut byte) = (Instant::now(), [0]);
    for value in 0..20 {
        client.write_all(&[value]).expect("sent");
        std::thread::sleep(Duration::from_millis(1));
    }
    for value in 0..20 {
        server.read_exact(&mut byte).expect("it comes");
        assert_eq!(byte, [value]);
    }
    let there = began.elapsed();
    server.write_all(b"x").expect("sent");
    client.read_exact(&mut byte).expect("it comes");
    let back = began.elapsed() - there;
    assert!(there >= delay && back >= delay, "{there:?} {back:?}");
    // Each message is delayed by itself: one after the other would be 2 s.
    assert!(there < 10 * delay && back < 10 * delay, "{there:?} {back:?}");
}

#[test]
fn silence_keeps_what_is_sent() {
    let Ends { proxy, mut client, mut server, .. } = ends();
    proxy.silence();
    client.write_all(b"kept").expect("sent");
    server.write_all(b"too").expect("sent");
    comes(&mut server, b"");
    comes(&mut client, b"");
    proxy.heal();
    comes(&mut server, b"kept");
    comes(&mut client, b"too");
    // The end of a connection is not told either.
    proxy.silence();
    drop(client);
    comes(&mut server, b"");
    proxy.heal();
    ends_with(&mut server, b"");
}

#[test]
fn a_limit_is_exact_at_each_byte_and_each_way() {
    let message = b"a message";
    for way in [Way::ToServer, Way::ToClient] {
        for count in 0..=message.len() {
            for then in [Then::Silence, Then::End] {
                let Ends { proxy, client, server, .. } = ends();
                let (from, to) = if way == Way::ToServer { (client, server) } else { (server, client) };
                limited(&proxy, (from, to), way, &message[..count], &message[count..], then);
            }
        }
    }
}

/// One message of which only a part may pass.
fn limited(proxy: &Proxy, ends: (TcpStream, TcpStream), way: Way, part: &[u8], rest: &[u8], then: Then) {
    let (mut from, mut to) = ends;
    from.write_all(b"before").expect("sent");
    comes(&mut to, b"before");
    assert_eq!(proxy.let_through(way), 6);
    proxy.limit(way, part.len() as u64, then);
    // Where nothing may pass, the connection has ended already.
    let _ = from.write_all(&[part, rest].concat());
    if then == Then::End {
        ends_with(&mut to, part);
        ends_with(&mut from, b"");
        return;
    }
    comes(&mut to, part);
    to.write_all(b"back").expect("the other way is open");
    comes(&mut from, b"back");
    proxy.heal();
    comes(&mut to, rest);
}

#[test]
fn a_limit_is_of_each_connection() {
    let Ends { proxy, listener, mut client, mut server } = ends();
    proxy.limit(Way::ToServer, 3, Then::Silence);
    let (mut second, mut accepted) = connect(&proxy, &listener);
    for (from, to) in [(&mut client, &mut server), (&mut second, &mut accepted)] {
        from.write_all(b"four").expect("sent");
        comes(to, b"fou");
    }
    proxy.cut();
    ends_with(&mut client, b"");
    ends_with(&mut accepted, b"");
    // New connections have the limit still.
    let (mut third, mut accepted) = connect(&proxy, &listener);
    third.write_all(b"more").expect("sent");
    comes(&mut accepted, b"mor");
}

#[test]
fn a_cut_loses_what_was_kept() {
    let Ends { proxy, listener, mut client, mut server } = ends();
    proxy.silence();
    client.write_all(b"lost").expect("sent");
    comes(&mut server, b"");
    proxy.cut();
    proxy.heal();
    ends_with(&mut server, b"");
    ends_with(&mut client, b"");
    let (mut client, mut server) = connect(&proxy, &listener);
    client.write_all(b"new").expect("sent");
    comes(&mut server, b"new");
}

#[test]
fn it_leads_where_it_is_told() {
    let Ends { proxy, listener, .. } = ends();
    let other = TcpListener::bind("127.0.0.1:0").expect("a port");
    proxy.lead_to(other.local_addr().expect("a port").port());
    let (mut client, mut server) = connect(&proxy, &other);
    client.write_all(b"new").expect("sent");
    comes(&mut server, b"new");
    // Where there is no server, a client is told by the end of its connection, and the next one is served.
    proxy.lead_to(1);
    let mut none = TcpStream::connect(("127.0.0.1", proxy.port())).expect("the proxy listens");
    ends_with(&mut none, b"");
    proxy.lead_to(listener.local_addr().expect("a port").port());
    let (mut client, mut server) = connect(&proxy, &listener);
    client.write_all(b"again").expect("sent");
    comes(&mut server, b"again");
    let port = proxy.port();
    drop(proxy);
    ends_with(&mut client, b"");
    until(|| TcpStream::connect(("127.0.0.1", port)).is_err());
}
