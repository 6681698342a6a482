//! A network for tests: a port that leads to a server of this computer, delays, falls silent after any byte, and cuts.

use std::io::{Read, Write};
use std::net::{Shutdown, TcpListener, TcpStream};
use std::sync::{Arc, Condvar, Mutex, MutexGuard, PoisonError, mpsc};
use std::time::{Duration, Instant};

/// Which way bytes go.
#[derive(Clone, Copy, Debug, PartialEq, Eq)]
pub enum Way {
    /// From the client.
    ToServer,
    /// From the server.
    ToClient,
}

/// What comes behind the last byte that passes.
#[derive(Clone, Copy, Debug, PartialEq, Eq)]
pub enum Then {
    /// Nothing, and nobody is told. The bytes are kept for the time when the network is well again.
    Silence,
    /// The end of the connection, both ways.
    End,
}

/// A port that leads to a server. It is closed with all its connections when this goes.
pub struct Proxy {
    port: u16,
    shared: Arc<Shared>,
}

#[derive(Default)]
struct Shared {
    network: Mutex<Network>,
    changed: Condvar,
}

/// How the network is now.
#[derive(Default)]
struct Network {
    server: u16,
    /// Each way.
    delay: Duration,
    /// Nothing passes.
    silent: bool,
    /// How many bytes pass on a connection that is opened now, and what comes then.
    limits: [Option<(u64, Then)>; 2],
    connections: Vec<Connection>,
    /// How many connections there were so far.
    opened: u64,
    /// Bytes that were let through on connections that are gone.
    let_through: [u64; 2],
    ended: bool,
}

struct Connection {
    number: u64,
    /// That to the client and that to the server.
    streams: [TcpStream; 2],
    /// Counted before they are sent on, so that bytes which somebody has received are always among them.
    let_through: [u64; 2],
    /// Counted when they have been sent on: an end that is due comes after them.
    passed: [u64; 2],
    limits: [Option<(u64, Then)>; 2],
    /// Ways that are at their end.
    done: [bool; 2],
}

impl Shared {
    fn network(&self) -> MutexGuard<'_, Network> {
        self.network.lock().unwrap_or_else(PoisonError::into_inner)
    }
}

impl Network {
    fn connection(&mut self, number: u64) -> Option<&mut Connection> {
        self.connections.iter_mut().find(|connection| connection.number == number)
    }

    fn end(&mut self, number: u64) {
        let Some(at) = self.connections.iter().position(|connection| connection.number == number) else { return };
        let connection = self.connections.swap_remove(at);
        connection.streams.iter().for_each(|stream| drop(stream.shutdown(Shutdown::Both)));
        (0..2).for_each(|way| self.let_through[way] += connection.let_through[way]);
    }

    /// Ends connections on which the last byte has passed, where the end is what comes then.
    fn end_at_limits(&mut self) {
        let over = |connection: &&Connection| (0..2).any(|way| connection.is_over(way));
        while let Some(number) = self.connections.iter().find(over).map(|connection| connection.number) {
            self.end(number);
        }
    }
}

impl Connection {
    /// How many bytes may still pass one way, and what comes then. None where all may.
    fn left(&self, way: usize) -> Option<(u64, Then)> {
        self.limits[way].map(|(limit, then)| (limit.saturating_sub(self.let_through[way]), then))
    }

    /// Whether the last byte has passed one way, where the end is what comes then.
    fn is_over(&self, way: usize) -> bool {
        self.limits[way].is_some_and(|(limit, then)| then == Then::End && self.passed[way] >= limit)
    }
}

impl Proxy {
    /// Leads to the server at this port.
    pub fn to(server: u16) -> Proxy {
        let listener = TcpListener::bind("127.0.0.1:0").expect("a port for the proxy");
        let port = listener.local_addr().expect("a port").port();
        let shared = Arc::<Shared>::default();
        shared.network().server = server;
        let others = Arc::clone(&shared);
        std::thread::spawn(move || accept(&listener, &others));
        Proxy { port, shared }
    }

    /// The port for clients.
    pub fn port(&self) -> u16 {
        self.port
    }

    fn change(&self, change: impl FnOnce(&mut Network)) {
        let mut network = self.shared.network();
        change(&mut network);
        network.end_at_limits();
        self.shared.changed.notify_all();
    }

    /// Leads new connections to another server.
    pub fn lead_to(&self, server: u16) {
        self.change(|network| network.server = server);
    }

    /// Delays what is sent from now on by so much, each way.
    pub fn delay(&self, delay: Duration) {
        self.change(|network| network.delay = delay);
    }

    /// Lets nothing pass, and tells nobody.
    pub fn silence(&self) {
        self.change(|network| network.silent = true);
    }

    /// Lets so many bytes pass this way on each connection, those that are open and those that will be.
    pub fn limit(&self, way: Way, bytes: u64, then: Then) {
        self.change(|network| {
            let way = way as usize;
            network.limits[way] = Some((bytes, then));
            for connection in &mut network.connections {
                connection.limits[way] = Some((connection.let_through[way] + bytes, then));
            }
        });
    }

    /// Lets all pass again, first what was kept.
    pub fn heal(&self) {
        self.change(|network| {
            (network.silent, network.limits) = (false, [None; 2]);
            network.connections.iter_mut().for_each(|connection| connection.limits = [None; 2]);
        });
    }

    /// Ends all connections. What was kept is lost.
    pub fn cut(&self) {
        self.change(|network| {
            while let Some(connection) = network.connections.last() {
                network.end(connection.number);
            }
        });
    }

    /// How many connections there were so far, with those that are open.
    pub fn opened(&self) -> u64 {
        self.shared.network().opened
    }

    /// How many connections are open.
    pub fn connections(&self) -> usize {
        self.shared.network().connections.len()
    }

    /// How many bytes were let through this way, on all connections together: no fewer than somebody has received.
    pub fn let_through(&self, way: Way) -> u64 {
        let network = self.shared.network();
        let open = network.connections.iter().map(|connection| connection.let_through[way as usize]);
        network.let_through[way as usize] + open.sum::<u64>()
    }
}

impl Drop for Proxy {
    fn drop(&mut self) {
        self.change(|network| network.ended = true);
        self.cut();
        // So that the thread that listens looks up.
        let _ = TcpStream::connect(("127.0.0.1", self.port));
    }
}

fn accept(listener: &TcpListener, shared: &Arc<Shared>) {
    for (number, client) in (0..).zip(listener.incoming()) {
        let (ended, server) = {
            let network = shared.network();
            (network.ended, network.server)
        };
        if ended {
            return;
        }
        // Where there is no server, the client sees its connection end.
        let (Ok(client), Ok(server)) = (client, TcpStream::connect(("127.0.0.1", server))) else { continue };
        let _ = connect(number, client, server, shared);
    }
}

fn connect(number: u64, client: TcpStream, server: TcpStream, shared: &Arc<Shared>) -> std::io::Result<()> {
    client.set_nodelay(true)?;
    server.set_nodelay(true)?;
    let pipes = [(client.try_clone()?, server.try_clone()?), (server.try_clone()?, client.try_clone()?)];
    {
        let mut network = shared.network();
        let limits = network.limits;
        let connection = Connection {
            number,
            streams: [client, server],
            let_through: [0; 2],
            passed: [0; 2],
            limits,
            done: [false; 2],
        };
        network.connections.push(connection);
        network.opened += 1;
        network.end_at_limits();
    }
    for (way, (from, to)) in pipes.into_iter().enumerate() {
        let (sender, receiver) = mpsc::channel();
        let [reads, writes] = [Arc::clone(shared), Arc::clone(shared)];
        std::thread::spawn(move || read(from, &sender, &reads));
        std::thread::spawn(move || {
            write(to, receiver, number, way, &writes);
            leave(number, way, &writes);
        });
    }
    Ok(())
}

/// Reads what is sent, and says when it is due.
fn read(mut from: TcpStream, sender: &mpsc::Sender<(Instant, Vec<u8>)>, shared: &Shared) {
    let mut buffer = [0; 16_384];
    while let Ok(count @ 1..) = from.read(&mut buffer) {
        let due = Instant::now() + shared.network().delay;
        if sender.send((due, buffer[..count].to_vec())).is_err() {
            return;
        }
    }
}

/// Passes on what is due, as far as the network lets it.
fn write(mut to: TcpStream, bytes: mpsc::Receiver<(Instant, Vec<u8>)>, number: u64, way: usize, shared: &Shared) {
    for (due, bytes) in bytes {
        std::thread::sleep(due.saturating_duration_since(Instant::now()));
        let mut rest = &bytes[..];
        while !rest.is_empty() {
            let Some(count) = allowed(rest.len(), number, way, shared) else { return };
            if to.write_all(&rest[..count]).is_err() {
                return;
            }
            rest = &rest[count..];
            passed(count, number, way, shared);
        }
    }
    // The end of what is sent is news as well, which a silent network does not bring.
    if allowed(0, number, way, shared).is_some() {
        let _ = to.shutdown(Shutdown::Write);
    }
}

/// Waits until bytes may pass on a connection, counts as many of these as may, and says how many. None where it is at its end.
fn allowed(wanted: usize, number: u64, way: usize, shared: &Shared) -> Option<usize> {
    let mut network = shared.network();
    loop {
        let silent = network.silent;
        let connection = network.connection(number)?;
        match connection.left(way) {
            Some((0, _)) => {}
            _ if silent => {}
            left => {
                let count = left.map_or(wanted, |(left, _)| wanted.min(left as usize));
                connection.let_through[way] += count as u64;
                return Some(count);
            }
        }
        network = shared.changed.wait(network).unwrap_or_else(PoisonError::into_inner);
    }
}

/// Counts bytes that have passed, the last of which may be the connection's last.
fn passed(count: usize, number: u64, way: usize, shared: &Shared) {
    let mut network = shared.network();
    if let Some(connection) = network.connection(number) {
        connection.passed[way] += count as u64;
        network.end_at_limits();
    }
    shared.changed.notify_all();
}

/// Forgets a connection that is at its end both ways.
fn leave(number: u64, way: usize, shared: &Shared) {
    let mut network = shared.network();
    let Some(connection) = network.connection(number) else { return };
    connection.done[way] = true;
    if connection.done == [true; 2] {
        network.end(number);
    }
}
