use crate::raw::RawPart;
use crate::request::Request;

/// Requests of one rank, each with a span of the memory that belongs to the list: in a test for its outcome, in a start for the
/// bytes that it is given.
#[derive(Debug)]
pub struct List {
    rank: u8,
    parts: Vec<RawPart>,
}

impl List {
    /// An empty list of a rank's requests.
    pub fn new(rank: u8) -> List {
        List { rank, parts: Vec::new() }
    }

    /// Puts a request at the end, with `room` bytes from `at` on.
    ///
    /// # Errors
    ///
    /// The request, where it is another rank's.
    pub fn push(&mut self, request: Request, at: usize, room: usize) -> Result<(), Request> {
        if request.rank() != self.rank {
            return Err(request);
        }
        self.parts.push(RawPart { request: request.raw, at, room, count: 0, completed: false });
        Ok(())
    }

    /// How many requests it has.
    pub fn len(&self) -> usize {
        self.parts.len()
    }

    /// Whether it has none.
    pub fn is_empty(&self) -> bool {
        self.parts.is_empty()
    }

    /// Where the last test completed the request at a position, the bytes of its outcome, which stand at the front of its span.
    pub fn completed(&self, position: usize) -> Option<usize> {
        self.parts.get(position).filter(|part| part.completed).map(|part| part.count)
    }

    /// The requests that the last test completed, by their positions in rising order, each with its outcome in the memory of that test.
    pub fn outcomes<'a>(&'a self, out: &'a [u8]) -> impl Iterator<Item = (usize, &'a [u8])> + 'a {
        let parts = self.parts.iter().enumerate().filter(|(_, part)| part.completed);
        parts.filter_map(|(position, part)| Some((position, out.get(part.at..)?.get(..part.count)?)))
    }

    /// Takes a request out, and leaves a null one.
    pub fn take(&mut self, position: usize) -> Option<Request> {
        let part = self.parts.get_mut(position)?;
        Some(Request { rank: self.rank, raw: std::mem::take(&mut part.request) })
    }

    pub(crate) fn rank(&self) -> u8 {
        self.rank
    }

    pub(crate) fn parts(&mut self) -> &mut [RawPart] {
        &mut self.parts
    }
}
