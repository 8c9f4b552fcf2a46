use std::cell::Cell;
use std::ffi::c_char;
use std::marker::PhantomData;

use crate::call::{Call, Type};
use crate::element::{values_of, Element};
use crate::engine::Engine;
use crate::raw::{self, RawReason, RawRequest, RawShared};
use crate::refusal::{Refusal, Rule};
use crate::request::{Phase, Request};
use crate::sanitizer;

/// A rank's port: who has it makes the rank's calls. It may go from one thread to another, but two threads can't share it, because a
/// rank waits in one place at a time. Where it is dropped, the rank has left: no other waits for it in vain.
///
/// ```
/// let engine = worzsunab::Engine::of_ranks(2)?;
/// let port = engine.port(0).unwrap();
/// assert!(engine.port(0).is_none() && engine.port(2).is_none());
/// std::thread::scope(|threads| threads.spawn(move || port.rank()).join().unwrap());
/// # Ok::<(), worzsunab::Refusal>(())
/// ```
///
/// Two threads with one port don't compile:
///
/// ```compile_fail,E0277
/// let engine = worzsunab::Engine::of_ranks(2).unwrap();
/// let port = engine.port(0).unwrap();
/// std::thread::scope(|threads| {
///     threads.spawn(|| port.rank());
///     port.rank();
/// });
/// ```
#[derive(Debug)]
pub struct Port<'a> {
    engine: &'a Engine,
    rank: u8,
    /// Not `Sync`.
    alone: PhantomData<Cell<()>>,
}

impl<'a> Port<'a> {
    pub(crate) fn new(engine: &'a Engine, rank: u8) -> Port<'a> {
        Port { engine, rank, alone: PhantomData }
    }

    /// Which rank it is.
    pub fn rank(&self) -> u8 {
        self.rank
    }

    /// The engine that the port belongs to.
    pub fn engine(&self) -> &'a Engine {
        self.engine
    }

    /// Starts a collective of a communicator, with the bytes that the rank gives, which are copied (`MPI_Ibcast` and so on). It makes
    /// some progress, in a bounded time.
    ///
    /// # Errors
    ///
    /// BadComm, NotMember, BadSignature, Mismatch, PlacesUsed, BadLength, Full, NoMemory; nothing has changed.
    pub fn post(&self, comm: u32, call: Call, bytes: &[u8]) -> Result<Request, Refusal> {
        let mut raw = RawRequest::default();
        // SAFETY: the engine is open; the bytes are as many as is said.
        let code = unsafe {
            raw::wz_shared_post(self.shared(), self.rank, comm, &call, bytes.as_ptr(), bytes.len(), &mut raw)
        };
        self.made(code, raw)
    }

    /// Makes a persistent request, which isn't started (`MPI_Bcast_init` and so on).
    ///
    /// # Errors
    ///
    /// BadComm, NotMember, BadSignature, Mismatch, PlacesUsed, Full, NoMemory; nothing has changed.
    pub fn init(&self, comm: u32, call: Call) -> Result<Request, Refusal> {
        let mut raw = RawRequest::default();
        // SAFETY: the engine is open.
        let code = unsafe { raw::wz_shared_init(self.shared(), self.rank, comm, &call, &mut raw) };
        self.made(code, raw)
    }

    /// Starts an allgatherv (`MPI_Iallgatherv`): member `i` gives `counts[i]` elements, and all get what all give.
    ///
    /// # Errors
    ///
    /// As `post`; BadSignature also where there are more than 64 counts.
    pub fn post_allgatherv(&self, comm: u32, ty: Type, counts: &[u32], bytes: &[u8]) -> Result<Request, Refusal> {
        let mut raw = RawRequest::default();
        let many = checked_len(counts)?;
        // SAFETY: the engine is open; both lists are as long as is said.
        let code = unsafe {
            raw::wz_shared_post_allgatherv(
                self.shared(),
                self.rank,
                comm,
                ty as u8,
                counts.as_ptr(),
                many,
                bytes.as_ptr(),
                bytes.len(),
                &mut raw,
            )
        };
        self.made(code, raw)
    }

    /// Makes a persistent request of an allgatherv (`MPI_Allgatherv_init`).
    ///
    /// # Errors
    ///
    /// As `init`; BadSignature also where there are more than 64 counts.
    pub fn init_allgatherv(&self, comm: u32, ty: Type, counts: &[u32]) -> Result<Request, Refusal> {
        let mut raw = RawRequest::default();
        let many = checked_len(counts)?;
        // SAFETY: the engine is open; the list is as long as is said.
        let code = unsafe {
            raw::wz_shared_init_allgatherv(self.shared(), self.rank, comm, ty as u8, counts.as_ptr(), many, &mut raw)
        };
        self.made(code, raw)
    }

    /// Starts a persistent request with the bytes that the rank gives, which are copied (`MPI_Start`). It makes some progress, in a
    /// bounded time.
    ///
    /// # Errors
    ///
    /// Stale, NotYours, NotPersistent, Active, BadLength, StartsUsed, NoMemory; nothing has changed.
    pub fn start(&self, request: &Request, bytes: &[u8]) -> Result<(), Refusal> {
        self.own(request.rank())?;
        // SAFETY: the engine is open; the bytes are as many as is said.
        self.answer(unsafe {
            raw::wz_shared_start(self.shared(), self.rank, &request.raw, bytes.as_ptr(), bytes.len())
        })
    }

    /// Gives up a persistent request that isn't active, and makes it null (`MPI_Request_free`).
    ///
    /// # Errors
    ///
    /// Stale, NotYours, NotPersistent, Active; nothing has changed.
    pub fn free(&self, request: &mut Request) -> Result<(), Refusal> {
        self.own(request.rank())?;
        // SAFETY: the engine is open.
        self.answer(unsafe { raw::wz_shared_free(self.shared(), self.rank, &mut request.raw) })
    }

    /// How far a request is. It makes no progress.
    ///
    /// # Errors
    ///
    /// Stale, NotYours.
    pub fn phase(&self, request: &Request) -> Result<Phase, Refusal> {
        self.own(request.rank())?;
        let mut number = 0;
        // SAFETY: the engine is open.
        self.answer(unsafe { raw::wz_shared_phase(self.shared(), self.rank, &request.raw, &mut number) })?;
        Ok(match number {
            0 => Phase::Idle,
            1 => Phase::Pending,
            _ => Phase::Done,
        })
    }

    /// Completes a request if it is done (`MPI_Test`): its outcome stands at the front of `out`, and the answer is the outcome's
    /// bytes, 0 for a request that is null or not active. None where it is pending. It makes some progress first, in a bounded time.
    ///
    /// # Errors
    ///
    /// Stale, NotYours, BadLength where `out` is shorter than the outcome, and NoMemory; the request can still be completed.
    pub fn test(&self, request: &mut Request, out: &mut [u8]) -> Result<Option<usize>, Refusal> {
        self.own(request.rank())?;
        let mut count = 0;
        // SAFETY: the engine is open; the memory is as long as is said.
        let code = unsafe {
            let (out, room) = (out.as_mut_ptr(), out.len());
            raw::wz_shared_test(self.shared(), self.rank, &mut request.raw, out, room, &mut count)
        };
        if code == PENDING {
            return Ok(None);
        }
        self.answer(code)?;
        Ok(Some(count))
    }

    /// Completes a request as `test` does, and waits for it (`MPI_Wait`).
    ///
    /// # Errors
    ///
    /// Those of `test`, and Stalled where each rank waits or has left; the request can still be completed.
    pub fn wait(&self, request: &mut Request, out: &mut [u8]) -> Result<usize, Refusal> {
        self.own(request.rank())?;
        let mut count = 0;
        // SAFETY: the engine is open; the memory is as long as is said.
        self.answer(unsafe {
            let (out, room) = (out.as_mut_ptr(), out.len());
            raw::wz_shared_wait(self.shared(), self.rank, &mut request.raw, out, room, &mut count)
        })?;
        Ok(count)
    }

    /// Completes a request as `wait` does: the bytes of its outcome, none of a request that is null or not active.
    ///
    /// # Errors
    ///
    /// Stale, NotYours, NoMemory, and Stalled where each rank waits or has left; the request can still be completed.
    pub fn wait_bytes(&self, request: &mut Request) -> Result<Vec<u8>, Refusal> {
        let mut out = vec![0; self.room(request)?];
        let count = self.wait(request, &mut out)?;
        out.truncate(count);
        Ok(out)
    }

    /// Completes a request as `wait_bytes` does: the values of its outcome's elements.
    ///
    /// # Errors
    ///
    /// Those of `wait_bytes`, and BadLength where the outcome isn't made of such elements.
    pub fn wait_values<T: Element>(&self, request: &mut Request) -> Result<Vec<T>, Refusal> {
        let room = self.room(request)?;
        if room % T::BYTES != 0 {
            return Err(Refusal::BadLength { want: T::BYTES as u32, got: room % T::BYTES });
        }
        values_of(&self.wait_bytes(request)?)
    }

    /// The bytes of the outcome that a live request will have, or has.
    ///
    /// # Errors
    ///
    /// Stale, NotYours.
    pub fn outcome_length(&self, request: &Request) -> Result<usize, Refusal> {
        self.own(request.rank())?;
        let mut bytes = 0;
        // SAFETY: the engine is open.
        self.answer(unsafe { raw::wz_shared_outcome_length(self.shared(), self.rank, &request.raw, &mut bytes) })?;
        Ok(bytes)
    }

    /// What is known of the last refusal to this rank, as a sentence: of Stalled, who waits for whom; of Mismatch, both collectives.
    pub fn explain(&self) -> String {
        let mut text = vec![0_u8; 1_024];
        loop {
            let (at, size) = (text.as_mut_ptr().cast::<c_char>(), text.len());
            // SAFETY: the engine is open; the memory is as long as is said.
            let length = unsafe { raw::wz_shared_explain(self.shared(), self.rank, at, size) };
            let length = usize::try_from(length).unwrap_or(0);
            if length < text.len() {
                text.truncate(length);
                return String::from_utf8_lossy(&text).into_owned();
            }
            text.resize(length + 1, 0);
        }
    }

    /// The bytes that a wait for a request may write.
    fn room(&self, request: &Request) -> Result<usize, Refusal> {
        if request.is_null() {
            self.own(request.rank())?;
            return Ok(0);
        }
        self.outcome_length(request)
    }

    pub(crate) fn shared(&self) -> *mut RawShared {
        self.engine.shared()
    }

    /// Refuses what belongs to another rank.
    pub(crate) fn own(&self, rank: u8) -> Result<(), Refusal> {
        if rank == self.rank {
            Ok(())
        } else {
            Err(Refusal::NotYours)
        }
    }

    /// What is known of this rank's last call that was refused.
    pub(crate) fn reason(&self) -> RawReason {
        // SAFETY: the engine is open, and this is the rank's thread.
        unsafe { raw::wz_shared_reason(self.shared(), self.rank) }
    }

    /// The answer of a call that this rank just made.
    pub(crate) fn answer(&self, code: i32) -> Result<(), Refusal> {
        match code {
            0 => Ok(()),
            code => Err(Refusal::of(code, &self.reason())),
        }
    }

    fn made(&self, code: i32, raw: RawRequest) -> Result<Request, Refusal> {
        self.answer(code)?;
        Ok(Request { rank: self.rank, raw })
    }
}

impl Drop for Port<'_> {
    fn drop(&mut self) {
        // SAFETY: the engine is open.
        unsafe { raw::wz_shared_leave(self.shared(), self.rank) };
        sanitizer::port_ended(self.engine);
    }
}

pub(crate) const PENDING: i32 = -1;

/// How many counts there are, which are no more than ranks may be.
fn checked_len(counts: &[u32]) -> Result<usize, Refusal> {
    const MOST_RANKS: usize = 64;
    if counts.len() > MOST_RANKS {
        return Err(Refusal::BadSignature(Rule::Count));
    }
    Ok(counts.len())
}
