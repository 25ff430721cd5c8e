//! Drives a started operation to its end over a closure that sends and listens.

use core::fmt;

use crate::{Client, Next, Outcome, REQUEST, Refusal};

/// A link to the wire: a closure that sends and listens, and the bytes heard that are still unread.
///
/// The closure sends the request's bytes, listens, and returns every byte heard, the echo of the request included. It
/// may stop at the answer; after a Select, which several pods may answer, it listens until the wire is quiet. How long
/// it waits is its own choice. Silence is an empty record, not an error. An error says that sending or reading failed.
/// After a Select it says that sending failed: a failed read just ends the listening there.
///
/// One link serves all operations on its wire: bytes after the answer to a request stay unread, and are put before the
/// bytes heard after the next request, also if that belongs to another operation.
///
/// ```
/// use fahireky::{Link, is_select};
/// use std::io::{Error, ErrorKind, Read, Write};
///
/// /// Sends a request and listens, on a port whose reads time out.
/// fn exchange(port: &mut (impl Read + Write), request: &[u8]) -> Result<Vec<u8>, Error> {
///     port.write_all(request)?;
///     let mut heard = Vec::new();
///     match port.read_to_end(&mut heard) {
///         Err(error) if error.kind() != ErrorKind::TimedOut && !is_select(request) => Err(error),
///         _ => Ok(heard),
///     }
/// }
///
/// # let mut port = std::io::Cursor::new(vec![]);
/// let link = Link::new(|request: &[u8]| exchange(&mut port, request));
/// assert!(link.unread().is_empty());
/// ```
pub struct Link<F> {
    exchange: F,
    unread: Vec<u8>,
}

impl<F> Link<F> {
    /// A link over a closure that takes a request's bytes and returns the bytes heard after it.
    pub fn new<H, E>(exchange: F) -> Link<F>
    where
        F: FnMut(&[u8]) -> Result<H, E>,
        H: AsRef<[u8]>,
    {
        Link { exchange, unread: Vec::new() }
    }

    /// The bytes that were heard and are unread. They come before those heard after the next request.
    pub fn unread(&self) -> &[u8] {
        &self.unread
    }

    /// Drops the unread bytes, for a host that does not want them in its next operation.
    pub fn clear(&mut self) {
        self.unread.clear();
    }

    /// Sends a request, and appends what is heard to the unread bytes. If the closure fails, they are dropped.
    fn send<H, E>(&mut self, request: &[u8]) -> Result<(), E>
    where
        F: FnMut(&[u8]) -> Result<H, E>,
        H: AsRef<[u8]>,
    {
        let heard = (self.exchange)(request).inspect_err(|_| self.unread.clear())?;
        self.unread.extend_from_slice(heard.as_ref());
        Ok(())
    }
}

impl<F> fmt::Debug for Link<F> {
    fn fmt(&self, f: &mut fmt::Formatter<'_>) -> fmt::Result {
        f.debug_struct("Link").field("unread", &self.unread).finish_non_exhaustive()
    }
}

/// Whether a request is a Select. Several pods may answer it, so a host listens until the wire is quiet.
pub fn is_select(request: &[u8]) -> bool {
    request.get(1) == Some(&5)
}

/// Why [`Client::run`] failed.
#[derive(Debug, Clone, Copy, PartialEq, Eq, Hash)]
pub enum RunError<E> {
    /// The client refused.
    Refused(Refusal),
    /// The link's closure returned this error.
    Link(E),
}

impl<E> From<Refusal> for RunError<E> {
    fn from(refusal: Refusal) -> RunError<E> {
        RunError::Refused(refusal)
    }
}

impl<E: fmt::Display> fmt::Display for RunError<E> {
    fn fmt(&self, f: &mut fmt::Formatter<'_>) -> fmt::Result {
        match self {
            RunError::Refused(refusal) => refusal.fmt(f),
            RunError::Link(error) => write!(f, "the link failed: {error}"),
        }
    }
}

/// The text includes that of the refusal or of the link's error, so the source is the one below that error.
impl<E: std::error::Error> std::error::Error for RunError<E> {
    fn source(&self) -> Option<&(dyn std::error::Error + 'static)> {
        match self {
            RunError::Refused(_) => None,
            RunError::Link(error) => error.source(),
        }
    }
}

impl Client {
    /// Drives the operation that was started to its end, and returns its outcome.
    ///
    /// `image` is the one that a flash was started with; other operations take an empty one. `progress` is called with
    /// the two numbers of [`Told::progress`](crate::Told::progress): a flash reports the bytes erased, then the chunks
    /// written.
    ///
    /// The request of a reset that is not awaited is sent, and the link's bytes are dropped, as no answer is due.
    ///
    /// # Errors
    ///
    /// [`RunError::Link`] if the link's closure fails: the operation has ended, and the link has no unread bytes.
    /// [`RunError::Refused`] if the client refuses. The operation has ended, except after [`Refusal::OutOfTurn`] and
    /// [`Refusal::OtherImage`]: those come before a request is sent, and leave the client as it was.
    pub fn run<F, H, E>(
        &mut self,
        image: &[u8],
        link: &mut Link<F>,
        mut progress: impl FnMut(u64, u64),
    ) -> Result<Outcome, RunError<E>>
    where
        F: FnMut(&[u8]) -> Result<H, E>,
        H: AsRef<[u8]>,
    {
        let mut buffer = [0; REQUEST];
        loop {
            let request = self.request(image, &mut buffer)?;
            if let Err(error) = link.send(&buffer[..request.len]) {
                self.link_failed();
                return Err(RunError::Link(error));
            }
            if !request.awaited {
                link.clear();
                return Ok(Outcome::Quiet);
            }
            let told = self.record(image, &link.unread);
            link.unread.drain(..told.rest);
            if let Some((done, total)) = told.progress {
                progress(done, total);
            }
            if let Next::Over(outcome) = told.answer? {
                return Ok(outcome);
            }
        }
    }
}
