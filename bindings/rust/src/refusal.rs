use std::error::Error;
use std::fmt;

use crate::call::Call;
use crate::raw::RawReason;

/// Why a call was refused, with what is known of it.
#[derive(Clone, Copy, Debug, PartialEq, Eq, Hash)]
#[non_exhaustive]
pub enum Refusal {
    /// There is no such communicator.
    BadComm {
        /// The number that names none.
        comm: u32,
    },
    /// The rank isn't in the communicator's group.
    NotMember {
        /// Which rank.
        rank: u8,
    },
    /// The root, operation, count or size breaks a rule.
    BadSignature(Rule),
    /// The bytes have another length than the call gives, or there is too little room for the outcome.
    BadLength {
        /// The bytes that are due; those of the outcome, where there is too little room for it.
        want: u32,
        /// The bytes that were given, or the room.
        got: usize,
    },
    /// Another member has another collective at that place.
    Mismatch(Mismatch),
    /// The request is null, completed or freed.
    Stale,
    /// The request belongs to another rank.
    NotYours,
    /// The request to start or free is active.
    Active,
    /// The request to start or free isn't persistent.
    NotPersistent,
    /// The member has used all its places on the communicator.
    PlacesUsed,
    /// The request has had all its starts.
    StartsUsed,
    /// No request slot is free.
    Full,
    /// No wait can end: each rank waits or has left. [`Port::explain`](crate::Port::explain) says who waits for whom.
    Stalled,
    /// Memory was refused.
    NoMemory,
    /// A limit or a communicator is out of its range.
    BadConfig(Field),
}

/// A rule that a collective breaks.
#[derive(Clone, Copy, Debug, PartialEq, Eq, Hash)]
pub enum Rule {
    /// The root is a member, and 0 for a collective without a root.
    Root,
    /// The operation is there and is for that type, where the collective has one.
    Operation,
    /// A count is at most 65,536, a barrier's is 0, and no count stands behind the last member's.
    Count,
    /// No member gives or gets more than 16,777,216 bytes.
    Size,
}

/// What an engine is opened with.
#[derive(Clone, Copy, Debug, PartialEq, Eq, Hash)]
pub enum Field {
    /// The number of ranks.
    Ranks,
    /// The communicators.
    Groups,
    /// [`Limits::slots`](crate::Limits::slots).
    Slots,
    /// [`Limits::places`](crate::Limits::places).
    Places,
    /// [`Limits::wear`](crate::Limits::wear).
    Wear,
    /// [`Limits::starts`](crate::Limits::starts).
    Starts,
    /// The number of progress threads.
    Progress,
}

/// What another member has at a place of the posting lists.
#[derive(Clone, Copy, Debug, PartialEq, Eq, Hash)]
pub struct Mismatch {
    /// The place in the posting lists of the communicator, from 0 on.
    pub place: u32,
    /// The lowest rank that has that place.
    pub first: u8,
    /// Whether that rank's collective is persistent.
    pub persistent: bool,
    /// That rank's collective. The counts of an allgatherv are told by [`Engine::posted_at`](crate::Engine::posted_at).
    pub call: Call,
}

impl Refusal {
    /// That of a function's answer, which is neither 0 nor negative, and the reason that was noted with it.
    pub(crate) fn of(code: i32, reason: &RawReason) -> Refusal {
        match code {
            1 => Refusal::BadComm { comm: reason.comm },
            2 => Refusal::NotMember { rank: reason.rank },
            3 => Refusal::BadSignature(Rule::of(reason.cause)),
            4 => Refusal::BadLength { want: reason.want, got: reason.got },
            5 => Refusal::Mismatch(Mismatch {
                place: reason.place,
                first: reason.first,
                persistent: reason.persistent,
                call: Call::of(&reason.call),
            }),
            6 => Refusal::Stale,
            7 => Refusal::NotYours,
            8 => Refusal::Active,
            9 => Refusal::NotPersistent,
            10 => Refusal::PlacesUsed,
            11 => Refusal::StartsUsed,
            12 => Refusal::Full,
            14 => Refusal::Stalled,
            17 => Refusal::NoMemory,
            18 => Refusal::BadConfig(Field::of(reason.cause)),
            _ => unreachable!("an engine that is open, asked for what a type names, answered {code}"),
        }
    }

    /// Its number in C.
    pub fn number(&self) -> i32 {
        match self {
            Refusal::BadComm { .. } => 1,
            Refusal::NotMember { .. } => 2,
            Refusal::BadSignature(_) => 3,
            Refusal::BadLength { .. } => 4,
            Refusal::Mismatch(_) => 5,
            Refusal::Stale => 6,
            Refusal::NotYours => 7,
            Refusal::Active => 8,
            Refusal::NotPersistent => 9,
            Refusal::PlacesUsed => 10,
            Refusal::StartsUsed => 11,
            Refusal::Full => 12,
            Refusal::Stalled => 14,
            Refusal::NoMemory => 17,
            Refusal::BadConfig(_) => 18,
        }
    }
}

impl Refusal {
    /// The name of the MPI error class that it stands for (MPI 4.1, 9.4).
    pub fn mpi_class(&self) -> &'static str {
        match self {
            Refusal::BadComm { .. } => "MPI_ERR_COMM",
            Refusal::NotMember { .. } => "MPI_ERR_RANK",
            Refusal::BadSignature(Rule::Root) => "MPI_ERR_ROOT",
            Refusal::BadSignature(Rule::Operation) => "MPI_ERR_OP",
            Refusal::BadSignature(Rule::Count | Rule::Size) => "MPI_ERR_COUNT",
            Refusal::BadLength { .. } => "MPI_ERR_TRUNCATE",
            Refusal::Mismatch(_) | Refusal::BadConfig(_) => "MPI_ERR_ARG",
            Refusal::Stale | Refusal::NotYours | Refusal::Active | Refusal::NotPersistent => "MPI_ERR_REQUEST",
            Refusal::NoMemory => "MPI_ERR_NO_MEM",
            Refusal::PlacesUsed | Refusal::StartsUsed | Refusal::Full | Refusal::Stalled => "MPI_ERR_OTHER",
        }
    }
}

impl Rule {
    fn of(number: u8) -> Rule {
        match number {
            1 => Rule::Root,
            2 => Rule::Operation,
            3 => Rule::Count,
            4 => Rule::Size,
            _ => unreachable!("a signature that is posted with its own plan breaks rule {number}"),
        }
    }
}

impl Field {
    fn of(number: u8) -> Field {
        match number {
            1 => Field::Ranks,
            2 => Field::Groups,
            3 => Field::Slots,
            4 => Field::Places,
            5 => Field::Wear,
            6 => Field::Starts,
            _ => unreachable!("an engine without a trace refused field {number}"),
        }
    }
}

impl fmt::Display for Refusal {
    fn fmt(&self, f: &mut fmt::Formatter<'_>) -> fmt::Result {
        f.write_str(match self {
            Refusal::BadComm { comm } => return write!(f, "there is no communicator {comm}"),
            Refusal::NotMember { rank } => return write!(f, "rank {rank} isn't in the communicator's group"),
            Refusal::BadSignature(rule) => return rule.fmt(f),
            Refusal::BadLength { want, got } => return write!(f, "{want} bytes are due, not {got}"),
            Refusal::Mismatch(other) => return other.fmt(f),
            Refusal::Stale => "the request is null, completed or freed",
            Refusal::NotYours => "the request belongs to another rank",
            Refusal::Active => "the request to start or free is active",
            Refusal::NotPersistent => "the request to start or free isn't persistent",
            Refusal::PlacesUsed => "the member has used all its places on the communicator",
            Refusal::StartsUsed => "the request has had all its starts",
            Refusal::Full => "no request slot is free",
            Refusal::Stalled => "no wait can end: each rank waits or has left",
            Refusal::NoMemory => "memory was refused",
            Refusal::BadConfig(field) => return write!(f, "what is given as {field} is out of its range"),
        })
    }
}

impl fmt::Display for Rule {
    fn fmt(&self, f: &mut fmt::Formatter<'_>) -> fmt::Result {
        f.write_str(match self {
            Rule::Root => "the root isn't a member, or isn't 0 for a collective without a root",
            Rule::Operation => "the operation is missing, isn't for that type, or is one too many",
            Rule::Count => "a count is above 65,536, or one is given that has no meaning",
            Rule::Size => "some member gives or gets more than 16,777,216 bytes",
        })
    }
}

impl fmt::Display for Field {
    fn fmt(&self, f: &mut fmt::Formatter<'_>) -> fmt::Result {
        f.write_str(match self {
            Field::Ranks => "number of ranks",
            Field::Groups => "communicators",
            Field::Slots => "slots",
            Field::Places => "places",
            Field::Wear => "wear",
            Field::Starts => "starts",
            Field::Progress => "number of progress threads",
        })
    }
}

impl fmt::Display for Mismatch {
    fn fmt(&self, f: &mut fmt::Formatter<'_>) -> fmt::Result {
        let persistent = if self.persistent { "persistent " } else { "" };
        write!(f, "at place {} rank {} has another collective: {persistent}{}", self.place, self.first, self.call)
    }
}

impl Error for Refusal {}
