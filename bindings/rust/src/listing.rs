//! Tests, waits and starts of lists of requests (MPI 4.1, 3.7.5 and 3.9).

use std::error::Error;
use std::fmt;

use crate::list::List;
use crate::port::{Port, PENDING};
use crate::raw::{self, RawPart, RawShared};
use crate::refusal::Refusal;

impl Port<'_> {
    /// Starts the requests of a list one after the other (`MPI_Startall`), each with the bytes of its span of `given`.
    ///
    /// # Errors
    ///
    /// The first request whose start is refused, with that refusal; those before it are started.
    pub fn start_all(&self, list: &mut List, given: &[u8]) -> Result<(), Stopped> {
        self.own(list.rank()).map_err(|why| Stopped { at: 0, why })?;
        let mut started = 0;
        let parts = list.parts();
        // SAFETY: the engine is open; list and memory are as long as is said.
        let code = unsafe {
            let (parts, many) = (parts.as_ptr(), parts.len());
            raw::wz_shared_start_all(self.shared(), self.rank(), parts, many, given.as_ptr(), given.len(), &mut started)
        };
        self.answer(code).map_err(|why| Stopped { at: started, why })
    }

    /// Completes the lowest request of a list that is done (`MPI_Testany`): its outcome stands at the front of its span of `out`. Ok
    /// with its position, or with none where no request is active.
    ///
    /// # Errors
    ///
    /// Pending where some are active and none is done. Stale, NotYours, BadLength where the outcome has more bytes than its span, and
    /// NoMemory; the requests can still be completed.
    pub fn test_any(&self, list: &mut List, out: &mut [u8]) -> Result<Option<usize>, ListRefusal> {
        self.found(list, out, raw::wz_shared_test_any)
    }

    /// Completes all requests of a list that are done (`MPI_Testsome`), as `test_any` does one. Ok with their number, or with none
    /// where no request is active.
    ///
    /// # Errors
    ///
    /// Stale, NotYours, BadLength where an outcome has more bytes than its span, and NoMemory; the requests can still be completed.
    pub fn test_some(&self, list: &mut List, out: &mut [u8]) -> Result<Option<usize>, ListRefusal> {
        self.found(list, out, raw::wz_shared_test_some)
    }

    /// Completes all requests of a list if none is pending (`MPI_Testall`), as `test_some` does.
    ///
    /// # Errors
    ///
    /// Pending where one is. Those of `test_some`.
    pub fn test_all(&self, list: &mut List, out: &mut [u8]) -> Result<(), ListRefusal> {
        self.all(list, out, raw::wz_shared_test_all)
    }

    /// Completes the lowest request of a list that is done as `test_any` does, and waits for it (`MPI_Waitany`).
    ///
    /// # Errors
    ///
    /// Those of `test_any` but for Pending, and Stalled where each rank waits or has left; the requests can still be completed.
    pub fn wait_any(&self, list: &mut List, out: &mut [u8]) -> Result<Option<usize>, Refusal> {
        self.found(list, out, raw::wz_shared_wait_any).map_err(refusal)
    }

    /// Completes all requests of a list that are done as `test_some` does, and waits until there is one (`MPI_Waitsome`).
    ///
    /// # Errors
    ///
    /// Those of `test_some`, and Stalled where each rank waits or has left; the requests can still be completed.
    pub fn wait_some(&self, list: &mut List, out: &mut [u8]) -> Result<Option<usize>, Refusal> {
        self.found(list, out, raw::wz_shared_wait_some).map_err(refusal)
    }

    /// Completes all requests of a list as `test_all` does, and waits for them (`MPI_Waitall`).
    ///
    /// # Errors
    ///
    /// Those of `test_some`, and Stalled where each rank waits or has left; the requests can still be completed.
    pub fn wait_all(&self, list: &mut List, out: &mut [u8]) -> Result<(), Refusal> {
        self.all(list, out, raw::wz_shared_wait_all).map_err(refusal)
    }

    /// The answer of a test or wait that tells an index, or how many.
    fn found(&self, list: &mut List, out: &mut [u8], ask: TellsOne) -> Result<Option<usize>, ListRefusal> {
        self.own(list.rank())?;
        let mut found = 0;
        let parts = list.parts();
        // SAFETY: the engine is open; list and memory are as long as is said.
        let code = unsafe {
            let (parts, many) = (parts.as_mut_ptr(), parts.len());
            ask(self.shared(), self.rank(), parts, many, out.as_mut_ptr(), out.len(), &mut found)
        };
        self.list_answer(code)?;
        Ok(Some(found).filter(|found| *found != UNDEFINED))
    }

    /// The answer of a test or wait for all.
    fn all(&self, list: &mut List, out: &mut [u8], ask: TellsNone) -> Result<(), ListRefusal> {
        self.own(list.rank())?;
        let parts = list.parts();
        // SAFETY: the engine is open; list and memory are as long as is said.
        let code = unsafe {
            let (parts, many) = (parts.as_mut_ptr(), parts.len());
            ask(self.shared(), self.rank(), parts, many, out.as_mut_ptr(), out.len())
        };
        self.list_answer(code)
    }

    fn list_answer(&self, code: i32) -> Result<(), ListRefusal> {
        match code {
            PENDING => Err(ListRefusal::Pending),
            // Requests of two engines may have one name.
            TWICE => Err(Refusal::Stale.into()),
            code => Ok(self.answer(code)?),
        }
    }
}

/// A function over a list that tells an index, or how many requests it completed.
type TellsOne = unsafe extern "C" fn(*mut RawShared, u8, *mut RawPart, usize, *mut u8, usize, &mut usize) -> i32;

/// A function over a list that tells nothing more than its answer.
type TellsNone = unsafe extern "C" fn(*mut RawShared, u8, *mut RawPart, usize, *mut u8, usize) -> i32;

/// Why a wait for a list was refused.
fn refusal(why: ListRefusal) -> Refusal {
    match why {
        ListRefusal::Refused(why) => why,
        ListRefusal::Pending => unreachable!("a wait ends, or is refused"),
    }
}

/// Why the test of a list completed nothing.
#[derive(Clone, Copy, Debug, PartialEq, Eq, Hash)]
pub enum ListRefusal {
    /// It is to be called again: nothing is done yet that it asks for.
    Pending,
    /// It was refused.
    Refused(Refusal),
}

/// Where the starts of a list stopped.
#[derive(Clone, Copy, Debug, PartialEq, Eq, Hash)]
pub struct Stopped {
    /// The position of the request whose start was refused. Those before it are started.
    pub at: usize,
    /// Why it was refused.
    pub why: Refusal,
}

impl From<Refusal> for ListRefusal {
    fn from(why: Refusal) -> ListRefusal {
        ListRefusal::Refused(why)
    }
}

impl fmt::Display for ListRefusal {
    fn fmt(&self, f: &mut fmt::Formatter<'_>) -> fmt::Result {
        match self {
            ListRefusal::Pending => f.write_str("what is asked for of the list isn't done yet"),
            ListRefusal::Refused(why) => why.fmt(f),
        }
    }
}

impl fmt::Display for Stopped {
    fn fmt(&self, f: &mut fmt::Formatter<'_>) -> fmt::Result {
        write!(f, "request {} of the list isn't started: {}", self.at, self.why)
    }
}

impl Error for ListRefusal {}

impl Error for Stopped {}

/// What a function over a list answers that has none of its requests active.
const UNDEFINED: usize = usize::MAX;

const TWICE: i32 = 24;
