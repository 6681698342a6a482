//! The servers and the network of a run, and how they fail.

use crate::cluster::{Cluster, OWNER, address};
use crate::controllers::{furnish, role};
use crate::fault::Fault;
use crate::processes::{SIGINT, SIGKILL, SIGTERM, signal};
use crate::proxy::{Proxy, Then, Way};
use model::random::Random;
use std::path::Path;
use std::time::{Duration, Instant};
use store_tests::place::Place;
use store_tests::processes::PROCESSES;
use store_tests::waits::now;

/// How many bytes pass before a network falls silent: up to more than a request has.
const BYTES: u64 = 600;

/// How long a network is silent, in milliseconds: up to more than a store waits on a connection.
const SILENT: (u64, u64) = (50, 3_000);

/// Has a server answer before the disk has what it was told, whatever a store sets.
const EARLY: &str = "
    CREATE FUNCTION early() RETURNS trigger LANGUAGE plpgsql AS $$
    BEGIN PERFORM set_config('synchronous_commit', 'off', true); RETURN NULL; END $$;
    CREATE TRIGGER early AFTER INSERT ON cindrolf.rows FOR EACH STATEMENT EXECUTE FUNCTION early();";

/// The schema of a server that does not look whether it has a request already.
fn forgetful() -> String {
    let changes = [
        ("IF FOUND THEN\n        RETURN place;", "IF false THEN\n        RETURN place;"),
        ("UNIQUE INDEX requests", "INDEX requests"),
    ];
    changes.into_iter().fold(store::schema(), |schema, (right, wrong)| {
        assert_eq!(schema.matches(right).count(), 1, "the schema has another text than '{right}'");
        schema.replace(right, wrong)
    })
}

/// The servers and the network of a run.
pub struct Site {
    fault: Fault,
    primary: Cluster,
    standby: Option<Standby>,
    /// Each controller's own network, where networks fail.
    networks: Vec<Network>,
    /// What happened, and when, in microseconds since 1970.
    moments: Vec<(u64, &'static str)>,
    /// Whose network was not well, from when to when, in microseconds since 1970.
    troubles: Vec<(u64, u64, u64)>,
}

struct Standby {
    cluster: Cluster,
    /// Through which it gets rows.
    network: Proxy,
}

struct Network {
    proxy: Proxy,
    wrong: Option<Trouble>,
}

/// What is wrong with a controller's network.
struct Trouble {
    /// Since when, in microseconds since 1970.
    since: u64,
    until: Instant,
    /// Whether its connections end then.
    ends: bool,
}

impl Site {
    /// Servers with the tables of logs, and a role for each controller.
    pub fn new(fault: Fault) -> Site {
        // What is not yet on the disk stays in the server's memory until a commit waits for it.
        let settings = if fault == Fault::Early { "wal_writer_delay = '10s'" } else { "" };
        let primary = Cluster::new(settings);
        furnish(&primary, &if fault == Fault::Twice { forgetful() } else { store::schema() });
        if fault == Fault::Early {
            primary.sql(EARLY).expect("a trigger");
        }
        let mut site =
            Site { fault, primary, standby: None, networks: Vec::new(), moments: Vec::new(), troubles: Vec::new() };
        if fault.has_standby() {
            site.add_standby(None);
        }
        if fault.has_networks() {
            let network = |_| Network { proxy: Proxy::to(site.primary.port()), wrong: None };
            site.networks = (0..PROCESSES).map(network).collect();
        }
        site
    }

    /// Makes a standby, at the port of a server that is gone.
    fn add_standby(&mut self, gone: Option<Cluster>) {
        let network = Proxy::to(self.primary.port());
        let cluster = self.primary.standby(network.port(), gone);
        self.happens("a standby starts");
        self.primary.wait_for_standby(self.fault == Fault::Failover);
        self.happens("commits may wait for it");
        self.standby = Some(Standby { cluster, network });
    }

    /// Where the logs are, as a controller calls it.
    pub fn place(&self, folder: &Path, number: u64) -> Place {
        let ports = match (&self.standby, self.networks.get(number as usize)) {
            (_, Some(network)) => vec![network.proxy.port()],
            (Some(standby), None) => vec![self.primary.port(), standby.cluster.port()],
            (None, None) => vec![self.primary.port()],
        };
        Place::new(folder, Some(&address(&role(number), &ports)))
    }

    /// What happened between two times, each with how many microseconds it was after the first.
    pub fn moments(&self, from: u64, to: u64) -> Vec<(u64, &'static str)> {
        let within = self.moments.iter().filter(|(time, _)| (from..=to).contains(time));
        within.map(|&(time, what)| (time - from, what)).collect()
    }

    fn happens(&mut self, what: &'static str) {
        self.moments.push((now(), what));
    }

    /// The server as it is now.
    pub fn primary(&self) -> &Cluster {
        &self.primary
    }

    /// Where the logs are for the owner.
    pub fn place_of_owner(&self, folder: &Path) -> Place {
        Place::new(folder, Some(&address(OWNER, &[self.primary.port()])))
    }

    /// Has the servers or the network fail once. Says how often something failed.
    pub fn fail(&mut self, random: &mut Random) -> u64 {
        match self.fault {
            Fault::Kill | Fault::Stop => 0,
            Fault::Backend => self.fail_backend(random),
            Fault::Server | Fault::Early => self.fail_server(random),
            Fault::Network | Fault::Twice => self.fail_network(random),
            Fault::Failover | Fault::Lagging => self.fail_over(random),
        }
    }

    /// Cancels what a backend does, or ends or kills it. With one that is killed the server ends them all.
    fn fail_backend(&mut self, random: &mut Random) -> u64 {
        pause(random, 10, 200);
        let backends = self.primary.backends(&role(random.below(PROCESSES)));
        let which = if random.below(20) == 0 { SIGKILL } else { random.pick(&[SIGINT, SIGTERM]) };
        backends.iter().for_each(|&backend| signal(backend, which));
        if which == SIGKILL {
            self.happens("a backend is killed");
        }
        backends.len() as u64
    }

    fn fail_server(&mut self, random: &mut Random) -> u64 {
        pause(random, 500, 3_000);
        self.primary.kill();
        self.happens("the server is killed");
        pause(random, 0, 500);
        self.primary.start();
        self.happens("it answers again");
        1
    }

    fn fail_over(&mut self, random: &mut Random) -> u64 {
        pause(random, 1_000, 3_000);
        let Some(Standby { cluster, network }) = self.standby.take() else { return 0 };
        if self.fault == Fault::Lagging {
            network.silence();
            pause(random, 200, 500);
        }
        self.primary.kill();
        self.happens("the server is killed");
        network.cut();
        cluster.promote();
        self.happens("the standby is promoted");
        let gone = std::mem::replace(&mut self.primary, cluster);
        pause(random, 0, 500);
        self.add_standby(Some(gone));
        1
    }

    /// Mends what has been wrong for long enough, and has one network fail, or now and then all.
    fn fail_network(&mut self, random: &mut Random) -> u64 {
        pause(random, 5, 100);
        self.mend(false);
        if random.below(20) == 0 {
            return self.networks.iter_mut().map(|network| network.fail(random)).sum();
        }
        let number = random.below(PROCESSES) as usize;
        self.networks[number].fail(random)
    }

    /// Mends what has been wrong for long enough, or all.
    fn mend(&mut self, all: bool) {
        for (number, network) in (0..).zip(&mut self.networks) {
            if let Some(trouble) = network.wrong.take_if(|trouble| all || trouble.until <= Instant::now()) {
                if trouble.ends {
                    network.proxy.cut();
                }
                network.proxy.heal();
                self.troubles.push((number, trouble.since, now()));
            }
        }
    }

    /// Has all networks do well again, and says whose was not, from when to when. Waits until the server serves no controller
    /// any more, so that what is still on its way has come. The controllers have to be gone.
    pub fn settle(&mut self) -> &[(u64, u64, u64)] {
        self.mend(true);
        let until = Instant::now() + Duration::from_secs(20);
        while (0..PROCESSES).any(|number| !self.primary.backends(&role(number)).is_empty()) {
            assert!(Instant::now() < until, "the server still serves a controller that is gone");
            std::thread::sleep(Duration::from_millis(10));
        }
        &self.troubles
    }
}

impl Network {
    fn fail(&mut self, random: &mut Random) -> u64 {
        if self.wrong.is_some() {
            return 0;
        }
        let since = now();
        let way = random.pick(&[Way::ToServer, Way::ToClient]);
        match random.below(5) {
            0 => self.proxy.cut(),
            1 => self.proxy.silence(),
            2 => self.proxy.limit(way, random.below(BYTES), Then::End),
            _ => self.proxy.limit(way, random.below(BYTES), Then::Silence),
        }
        let until = Instant::now() + Duration::from_millis(random.between(SILENT.0, SILENT.1));
        self.wrong = Some(Trouble { since, until, ends: random.chance(50) });
        1
    }
}

fn pause(random: &mut Random, least: u64, most: u64) {
    std::thread::sleep(Duration::from_millis(random.between(least, most)));
}
