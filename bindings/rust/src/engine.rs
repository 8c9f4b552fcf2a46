use std::cell::UnsafeCell;
use std::fmt;
use std::sync::atomic::{AtomicBool, Ordering};

use crate::call::{Call, Kind};
use crate::port::Port;
use crate::raw::{self, RawAbout, RawCall, RawEngine, RawLimits, RawPosted, RawReason, RawShared};
use crate::refusal::{Field, Refusal};
use crate::request::{About, Limits, Posted, Request};
use crate::sanitizer;

/// An engine that the threads of a process share: the thread that plays a rank has its [`Port`].
pub struct Engine {
    shared: UnsafeCell<RawShared>,
    /// By communicator, how many members it has.
    sizes: Vec<u8>,
    /// By rank, whether its port was given out.
    given: Vec<AtomicBool>,
}

// SAFETY: the handle is written as the engine is opened and dropped alone, and what is behind it goes from thread to thread under
// the combiner's lock. A rank's calls are made by its one port, which two threads can't share; all other calls are a guest's.
unsafe impl Send for Engine {}
// SAFETY: as above.
unsafe impl Sync for Engine {}

/// The number of no rank: the combiner serves such a caller as its guest.
const GUEST: u8 = u8::MAX;

const BAD_CONFIG: i32 = 18;
const NO_PLACE: i32 = 25;

impl Engine {
    /// An engine whose communicator 0 has all ranks.
    ///
    /// # Errors
    ///
    /// BadConfig unless there are 1 to 64 ranks, and NoMemory.
    pub fn of_ranks(ranks: u8) -> Result<Engine, Refusal> {
        let all: Vec<u8> = (0..ranks).collect();
        Engine::open(ranks, &[&all], Limits::default())
    }

    /// An engine with these communicators: the ranks of each, in the order of their member numbers.
    ///
    /// # Errors
    ///
    /// BadConfig where a limit, a size or a rank is out of its range, and NoMemory.
    pub fn open(ranks: u8, communicators: &[&[u8]], limits: Limits) -> Result<Engine, Refusal> {
        let mut sizes = Vec::new();
        for members in communicators {
            sizes.push(u8::try_from(members.len()).map_err(|_| Refusal::BadConfig(Field::Groups))?);
        }
        let members = communicators.concat();
        let limits = RawLimits {
            ranks: u32::from(ranks),
            slots: limits.slots,
            places: limits.places,
            wear: limits.wear,
            starts: limits.starts,
        };
        let mut shared = RawShared { at: std::ptr::null_mut() };
        // SAFETY: both lists are as long as is said.
        let code = unsafe {
            raw::wz_shared_open(&mut shared, &limits, sizes.as_ptr(), sizes.len(), members.as_ptr(), members.len())
        };
        match code {
            0 => {}
            BAD_CONFIG => return Err(why_unopened(&limits, &sizes, &members)),
            code => return Err(Refusal::of(code, &RawReason::default())),
        }
        let given = (0..ranks).map(|_| AtomicBool::new(false)).collect();
        Ok(Engine { shared: UnsafeCell::new(shared), sizes, given })
    }

    /// From now on that many progress threads, 0 to 8, make progress beside the ranks, also while all ranks compute between their
    /// calls. They count as no rank, so a wait that nobody can end is told as without them. They end with the engine.
    ///
    /// # Errors
    ///
    /// BadConfig where there would be more than 8; NoMemory where a thread can't be started: there are as many as before.
    pub fn set_progress_threads(&self, threads: u8) -> Result<(), Refusal> {
        // SAFETY: the engine is open.
        match unsafe { raw::wz_shared_progress(self.shared(), u32::from(threads)) } {
            0 => Ok(()),
            BAD_CONFIG => Err(Refusal::BadConfig(Field::Progress)),
            code => Err(Refusal::of(code, &RawReason::default())),
        }
    }

    /// The port of a rank, for the thread that plays it. None where there is no such rank, or its port was taken before.
    pub fn port(&self, rank: u8) -> Option<Port<'_>> {
        let given = self.given.get(usize::from(rank))?;
        if given.swap(true, Ordering::Relaxed) {
            return None;
        }
        Some(Port::new(self, rank))
    }

    /// The earlier name of [`port`](Engine::port).
    #[deprecated(note = "it is called port")]
    pub fn seat(&self, rank: u8) -> Option<Port<'_>> {
        self.port(rank)
    }

    /// What a live request is.
    ///
    /// # Errors
    ///
    /// Stale.
    pub fn about(&self, request: &Request) -> Result<About, Refusal> {
        let mut about = RawAbout::default();
        // SAFETY: the engine is open.
        let code = unsafe { raw::wz_shared_about(self.shared(), GUEST, &request.raw, &mut about) };
        if code != 0 {
            return Err(Refusal::of(code, &RawReason::default()));
        }
        let RawAbout { rank, persistent, comm, place, starts } = about;
        Ok(About { rank, persistent, comm, place, starts })
    }

    /// The collective that the members of a communicator have at a place of their posting lists, from 0 on: all that have the place
    /// have the same. None where no member has posted so much, or there is no such communicator.
    pub fn posted_at(&self, comm: u32, place: u32) -> Option<Posted> {
        let mut raw = RawPosted { call: RawCall::default(), persistent: false, counts: [0; 64] };
        // SAFETY: the engine is open.
        let code = unsafe { raw::wz_shared_posted_at(self.shared(), comm, place, &mut raw) };
        if code == NO_PLACE {
            return None;
        }
        debug_assert_eq!(code, 0);
        let call = Call::of(&raw.call);
        let counts = match call.kind() {
            Kind::Allgatherv => raw.counts[..usize::from(self.sizes[comm as usize])].to_vec(),
            _ => Vec::new(),
        };
        Some(Posted { call, persistent: raw.persistent, counts })
    }

    /// The bytes that active requests lend to the engine, given and got together.
    pub fn lent(&self) -> u64 {
        let mut bytes = 0;
        // SAFETY: the engine is open.
        let code = unsafe { raw::wz_shared_lent(self.shared(), &mut bytes) };
        debug_assert_eq!(code, 0);
        bytes
    }

    /// The handle of an engine that is open, as long as `self` is there.
    pub(crate) fn shared(&self) -> *mut RawShared {
        self.shared.get()
    }
}

impl fmt::Debug for Engine {
    fn fmt(&self, f: &mut fmt::Formatter<'_>) -> fmt::Result {
        f.debug_struct("Engine").field("ranks", &self.given.len()).field("sizes", &self.sizes).finish_non_exhaustive()
    }
}

impl Drop for Engine {
    fn drop(&mut self) {
        sanitizer::ports_ended(self);
        // SAFETY: the engine is open, and no port is left.
        let code = unsafe { raw::wz_shared_close(self.shared()) };
        debug_assert_eq!(code, 0);
    }
}

/// Which field of a configuration was refused: an engine without threads tells it.
fn why_unopened(limits: &RawLimits, sizes: &[u8], members: &[u8]) -> Refusal {
    let mut engine = RawEngine { at: std::ptr::null_mut(), opened: false, reason: RawReason::default() };
    // SAFETY: the engine is closed, and both lists are as long as is said.
    let code =
        unsafe { raw::wz_open(&mut engine, limits, sizes.as_ptr(), sizes.len(), members.as_ptr(), members.len()) };
    Refusal::of(code, &engine.reason)
}
