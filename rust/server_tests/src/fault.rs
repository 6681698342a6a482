//! What goes wrong in a run, again and again.

/// A kind of fault.
#[derive(Clone, Copy, Debug, PartialEq, Eq)]
pub enum Fault {
    /// Controllers are killed.
    Kill,
    /// Controllers are stopped for a while.
    Stop,
    /// Processes of the server that serve controllers are cancelled, ended and killed.
    Backend,
    /// The server is killed and started.
    Server,
    /// Controllers are cut off: their network ends or falls silent, also after any byte and each way.
    Network,
    /// The server is killed, and its synchronous standby takes its place.
    Failover,
    /// A control: networks fail, and the server does not look whether it has a request already.
    Twice,
    /// A control: the server answers before the disk has what it was told, and is killed and started.
    Early,
    /// A control: the server is killed, and a standby takes its place that is not synchronous, and lags.
    Lagging,
}

impl Fault {
    /// All, the controls last.
    pub const ALL: [Fault; 9] = [
        Fault::Kill,
        Fault::Stop,
        Fault::Backend,
        Fault::Server,
        Fault::Network,
        Fault::Failover,
        Fault::Twice,
        Fault::Early,
        Fault::Lagging,
    ];

    /// The fault of this name.
    pub fn from_name(name: &str) -> Option<Fault> {
        Fault::ALL.into_iter().find(|fault| fault.name() == name)
    }

    /// Its name.
    pub fn name(self) -> &'static str {
        match self {
            Fault::Kill => "kill",
            Fault::Stop => "stop",
            Fault::Backend => "backend",
            Fault::Server => "server",
            Fault::Network => "network",
            Fault::Failover => "failover",
            Fault::Twice => "twice",
            Fault::Early => "early",
            Fault::Lagging => "lagging",
        }
    }

    /// What is counted.
    pub fn events(self) -> &'static str {
        match self {
            Fault::Kill => "kills of controllers",
            Fault::Stop => "stops of controllers",
            Fault::Backend => "backends cancelled, ended or killed",
            Fault::Server | Fault::Early => "kills of the server",
            Fault::Network | Fault::Twice => "faults of the network",
            Fault::Failover | Fault::Lagging => "failovers",
        }
    }

    /// Whether something that was acknowledged has to be lost, or to be there twice.
    pub fn is_control(self) -> bool {
        matches!(self, Fault::Twice | Fault::Early | Fault::Lagging)
    }

    /// Whether each controller has a network of its own.
    pub fn has_networks(self) -> bool {
        matches!(self, Fault::Network | Fault::Twice)
    }

    /// Whether there is a standby.
    pub fn has_standby(self) -> bool {
        matches!(self, Fault::Failover | Fault::Lagging)
    }
}
