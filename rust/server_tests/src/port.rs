//! Ports for servers of tests, each of which no other test has while it is held.

use std::net::TcpListener;
use std::os::linux::net::SocketAddrExt;
use std::os::unix::net::{SocketAddr, UnixListener};
use std::sync::atomic::{AtomicU16, Ordering};

/// From 32768 on the system gives ports to outgoing connections too.
const FIRST: u16 = 20_000;
const COUNT: u16 = 12_000;

static NEXT: AtomicU16 = AtomicU16::new(0);

/// A port of this computer. A server may leave it and come back: tests that ask for one get another meanwhile.
#[derive(Debug)]
pub struct Port {
    number: u16,
    /// Only one process can have this name. It goes with the process, and leaves no file.
    _name: UnixListener,
}

impl Port {
    /// A port that nobody listens on.
    pub fn free() -> Port {
        let start = (std::process::id() % u32::from(COUNT)) as u16;
        let mut tried = 0..COUNT;
        tried
            .find_map(|_| Port::at(FIRST + (start + NEXT.fetch_add(1, Ordering::Relaxed)) % COUNT))
            .expect("a free port")
    }

    fn at(number: u16) -> Option<Port> {
        let name = SocketAddr::from_abstract_name(format!("cindrolf-port-{number}")).ok()?;
        let name = UnixListener::bind_addr(&name).ok()?;
        TcpListener::bind(("127.0.0.1", number)).ok()?;
        Some(Port { number, _name: name })
    }

    /// Its number.
    pub fn number(&self) -> u16 {
        self.number
    }
}

#[cfg(test)]
mod tests {
    use super::*;

    #[test]
    fn a_held_port_is_not_given_again() {
        let held = Port::free();
        assert!(Port::at(held.number()).is_none());
        let number = held.number();
        drop(held);
        let listens = TcpListener::bind(("127.0.0.1", number)).expect("it is free");
        assert!(Port::at(number).is_none());
        drop(listens);
        assert!(Port::at(number).is_some());
    }
}
