//! The client: a call for each operation, and the calls that drive a started operation step by step.

use core::fmt;

use crate::answer::{Answer, Request, Told};
use crate::{Id, Refusal, raw};

/// The length of a client's state, in bytes.
pub const STATE: usize = 1352;

/// A client: its state, in the form that the library keeps it in.
///
/// One operation runs at a time. A `start_..` call starts it, [`run`](Client::run) drives it to its end over a
/// [`Link`](crate::Link). A host with a loop of its own calls [`request`](Client::request) and
/// [`record`](Client::record) in turn instead. Every start is refused with [`Refusal::OutOfTurn`] while an operation
/// runs.
#[derive(Clone, PartialEq, Eq)]
pub struct Client {
    state: [u8; STATE],
}

impl Default for Client {
    fn default() -> Client {
        Client::new()
    }
}

/// The attached id, the seed, and whether an operation runs.
impl fmt::Debug for Client {
    fn fmt(&self, f: &mut fmt::Formatter<'_>) -> fmt::Result {
        f.debug_struct("Client")
            .field("attached", &self.attached())
            .field("seed", &self.seed())
            .field("running", &self.is_running())
            .finish_non_exhaustive()
    }
}

impl Client {
    /// A fresh client.
    ///
    /// # Panics
    ///
    /// If the library that is linked has states or answers of other lengths than this crate. That is a mistake in the
    /// build, which a program could not handle, so it is not an error to return.
    pub fn new() -> Client {
        Client::from_state([0; STATE])
    }

    /// The client of a state that was stored. Any bytes are some client: no call on it misbehaves.
    ///
    /// # Panics
    ///
    /// As [`new`](Client::new).
    pub fn from_state(state: [u8; STATE]) -> Client {
        raw::check_sizes();
        Client { state }
    }

    /// Its state, also in the middle of an operation. A host can store it, and resume by
    /// [`from_state`](Client::from_state).
    pub fn state(&self) -> &[u8; STATE] {
        &self.state
    }

    /// Starts a plain select of the pods whose ids begin with the first `bits` bits of a prefix. Ends with
    /// [`Outcome::Heard`](crate::Outcome::Heard). More than 128 bits, or more than the prefix has, are
    /// [`Refusal::BadPrefix`].
    pub fn start_select(&mut self, prefix: &[u8], bits: usize) -> Result<(), Refusal> {
        raw::start_select(&mut self.state, prefix, bits, Answer::started)
    }

    /// Starts a deselect of every pod, which also forgets the attached id. Ends with
    /// [`Outcome::Quiet`](crate::Outcome::Quiet).
    pub fn start_deselect(&mut self) -> Result<(), Refusal> {
        raw::start_deselect(&mut self.state, Answer::started)
    }

    /// Starts an attach to the only pod on the wire, or to the one whose id begins with a prefix. Ends with
    /// [`Outcome::Attached`](crate::Outcome::Attached). A prefix of over 16 bytes is [`Refusal::BadPrefix`].
    pub fn start_attach(&mut self, uid: Option<&[u8]>) -> Result<(), Refusal> {
        match uid {
            None => raw::start_attach(&mut self.state, Answer::started),
            Some(prefix) => raw::start_attach_to(&mut self.state, prefix, Answer::started),
        }
    }

    /// Starts a discovery of the pods whose ids begin with a prefix, all of them if it is empty. Ends with
    /// [`Outcome::Found`](crate::Outcome::Found), and every pod is deselected then; or with
    /// [`Outcome::Unaddressed`](crate::Outcome::Unaddressed). A prefix of over 16 bytes is [`Refusal::BadPrefix`].
    pub fn start_discover(&mut self, prefix: &[u8]) -> Result<(), Refusal> {
        raw::start_discover(&mut self.state, prefix, Answer::started)
    }

    /// Starts a query of the attached pod's device information. Ends with [`Outcome::Knows`](crate::Outcome::Knows).
    pub fn start_info(&mut self) -> Result<(), Refusal> {
        raw::start_info(&mut self.state, Answer::started)
    }

    /// Starts an erase of the attached pod's app region. Ends with [`Outcome::Knows`](crate::Outcome::Knows).
    pub fn start_erase(&mut self) -> Result<(), Refusal> {
        raw::start_erase(&mut self.state, Answer::started)
    }

    /// Starts a flash of the attached pod: an erase, the writes of an image, and its verification. The same image is
    /// given to each call until the operation has ended. Ends with [`Outcome::Knows`](crate::Outcome::Knows).
    pub fn start_flash(&mut self, image: &[u8]) -> Result<(), Refusal> {
        raw::start_flash(&mut self.state, image, Answer::started)
    }

    /// Starts a reset of the attached pod, into its bootloader or into its app. `in_boot` says that the pod is in its
    /// bootloader, which answers before it resets. An app does not answer: the operation has succeeded with its
    /// request, and [`Request::awaited`] is false. Ends with [`Outcome::Quiet`](crate::Outcome::Quiet).
    pub fn start_reset(&mut self, bootloader: bool, in_boot: bool) -> Result<(), Refusal> {
        raw::start_reset(&mut self.state, bootloader, in_boot, Answer::started)
    }

    /// As [`start_reset`](Client::start_reset), and the pod stores the index of a baud rate for its bootloader; 0xFF is
    /// the default of its build.
    pub fn start_set_baud(&mut self, baud: u8, bootloader: bool, in_boot: bool) -> Result<(), Refusal> {
        raw::start_set_baud(&mut self.state, baud, bootloader, in_boot, Answer::started)
    }

    /// The next request, at the front of the buffer. A buffer of [`REQUEST`](crate::REQUEST) bytes is always long
    /// enough; no byte after the request is changed, and none at all where it is refused. Operations other than a
    /// flash take any image, also an empty one.
    pub fn request(&mut self, image: &[u8], buffer: &mut [u8]) -> Result<Request, Refusal> {
        raw::request(&mut self.state, image, buffer, Answer::request)
    }

    /// Hands in what was heard after the request: the unread rest of the record before, then the bytes heard since.
    #[must_use = "the answer says whether the operation goes on"]
    pub fn record(&mut self, image: &[u8], bytes: &[u8]) -> Told {
        raw::record(&mut self.state, image, bytes, Answer::told)
    }

    /// Says that the link failed, which ends the operation with [`Refusal::Io`]. After a Select it says that sending
    /// failed: a failed read just ends the listening there. The host drops what it kept of earlier records.
    pub fn link_failed(&mut self) -> Told {
        raw::link_failed(&mut self.state, Answer::told)
    }

    /// The id of the attached pod.
    pub fn attached(&self) -> Option<Id> {
        raw::attached(&self.state)
    }

    /// The seed of the last Select.
    pub fn seed(&self) -> u8 {
        self.state[0]
    }

    /// Whether an operation was started and has not ended.
    pub fn is_running(&self) -> bool {
        // While an operation runs, every start is refused; that of a deselect is refused for no other reason.
        self.clone().start_deselect().is_err()
    }
}
