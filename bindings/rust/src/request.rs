use crate::call::Call;
use crate::raw::RawRequest;

/// What an engine is opened with. `Limits::default()` has the greatest numbers.
#[derive(Clone, Copy, Debug, PartialEq, Eq)]
pub struct Limits {
    /// The most live requests at one time: 1 to 4,096.
    pub slots: u32,
    /// The most posts and initialisations of one member on one communicator: 1 to 65,536.
    pub places: u32,
    /// How many requests one slot is given to, one after the other: 1 or more.
    pub wear: u32,
    /// The most starts of one request: 1 to 1,048,576.
    pub starts: u32,
}

impl Default for Limits {
    fn default() -> Limits {
        Limits { slots: 4_096, places: 65_536, wear: u32::MAX, starts: 1_048_576 }
    }
}

/// How far a request is (MPI 4.1, 3.7.3 and 3.9).
#[derive(Clone, Copy, Debug, PartialEq, Eq)]
pub enum Phase {
    /// Persistent, and not started since it was made or completed.
    Idle,
    /// Started, and not done.
    Pending,
    /// It can be completed.
    Done,
}

/// A rank's request. It is null once it was completed, if it isn't persistent, or freed. A request of one engine that is used
/// with another is refused, or names a request of the same rank there.
#[derive(Debug, PartialEq, Eq)]
#[must_use = "a request that is let go can't be completed, and keeps its slot"]
pub struct Request {
    pub(crate) rank: u8,
    pub(crate) raw: RawRequest,
}

impl Request {
    /// The rank that posted or made it.
    pub fn rank(&self) -> u8 {
        self.rank
    }

    /// Whether it names nothing any longer.
    pub fn is_null(&self) -> bool {
        self.raw.generation == 0
    }
}

/// What a live request is.
#[derive(Clone, Copy, Debug, PartialEq, Eq)]
pub struct About {
    /// The rank whose request it is.
    pub rank: u8,
    /// Whether it is persistent.
    pub persistent: bool,
    /// The communicator.
    pub comm: u32,
    /// Its place in its member's posting list, from 0 on.
    pub place: u32,
    /// How often it was started.
    pub starts: u32,
}

/// What all members of a communicator that have a place of the posting lists have there.
#[derive(Clone, Debug, PartialEq, Eq)]
pub struct Posted {
    /// The collective.
    pub call: Call,
    /// Whether it is persistent.
    pub persistent: bool,
    /// Of an allgatherv, the elements that each member gives; else empty.
    pub counts: Vec<u32>,
}
