//! What the calls answer: the public types, and how they are read from the bytes that the library writes.

use crate::{Id, LONGEST, Refusal};

/// What a pod reports of itself.
#[derive(Debug, Clone, Copy, PartialEq, Eq, Hash, Default)]
pub struct Info {
    /// The size of its app region, in bytes.
    pub capacity: u32,
    /// The size of an erase block, in bytes.
    pub erase_size: u16,
    /// The bootloader's version.
    pub boot_version: u16,
    /// The app's version.
    pub app_version: u16,
    /// The mode that it runs in.
    pub mode: u8,
    /// The stored index of the bootloader's baud rate; 0xFF is the default of its build.
    pub boot_baud: u8,
    /// The compatibility key that an image must have; 0xFFFF_FFFF takes any image.
    pub compat: u32,
    /// The longest payload that it takes, in bytes.
    pub max_payload: u16,
}

/// What a plain select heard.
#[derive(Debug, Clone, Copy, PartialEq, Eq, Hash)]
pub enum Heard {
    /// No pod.
    Nothing,
    /// One pod, with this id.
    One(Id),
    /// A pod without an id.
    Unaddressed,
    /// Several pods at once, or noise.
    Garble,
}

/// What an operation ended with.
#[derive(Debug, Clone, PartialEq, Eq, Hash)]
pub enum Outcome {
    /// A deselect or a reset.
    Quiet,
    /// A plain select.
    Heard(Heard),
    /// An attach: the id, or `None` for a pod without one.
    Attached(Option<Id>),
    /// A discovery: the ids, sorted.
    Found(Vec<Id>),
    /// An info, erase or flash: the pod's device information.
    Knows(Info),
    /// A discovery that met a pod without an id.
    Unaddressed,
}

/// A request at the front of the buffer.
#[derive(Debug, Clone, Copy, PartialEq, Eq, Hash)]
pub struct Request {
    /// Its length in bytes.
    pub len: usize,
    /// Whether an answer is awaited. If not, the operation has succeeded, and no record is handed in.
    pub awaited: bool,
}

/// Whether the operation goes on.
#[derive(Debug, Clone, PartialEq, Eq, Hash)]
pub enum Next {
    /// It goes on: the next request can be asked for.
    Onward,
    /// It has ended, with this outcome.
    Over(Outcome),
}

/// The answer to a record or a failed link.
#[derive(Debug, Clone, PartialEq, Eq, Hash)]
pub struct Told {
    /// Whether the operation goes on, or why it was refused.
    pub answer: Result<Next, Refusal>,
    /// Where the unread rest of the record begins. The host puts that part before the next record.
    pub rest: usize,
    /// How much is done, and of how much: bytes erased, or chunks of the image written. `None` where this record made
    /// no progress. The last erase block counts in full, also where it extends past the capacity.
    pub progress: Option<(u64, u64)>,
}

/// The length of an answer, in bytes.
pub(crate) const ANSWER: usize = 1179;

/// Where an answer has its fields: FAHIREKY_AT_.. of fahireky.h.
mod at {
    pub const NUMBER: usize = 0;
    pub const SAYS: usize = 1;
    pub const OUTCOME: usize = 2;
    pub const HEARD: usize = 3;
    pub const ANY: usize = 4;
    pub const MADE: usize = 5;
    pub const KEY: usize = 6;
    pub const REST: usize = 8;
    pub const LENGTH: usize = 16;
    pub const DONE: usize = 24;
    pub const TOTAL: usize = 32;
    pub const FIRST: usize = 40;
    pub const SECOND: usize = 44;
    pub const INFO: usize = 48;
    pub const ID: usize = 66;
    pub const ID_LENGTH: usize = 82;
    pub const IDS: usize = 83;
    pub const LENGTHS: usize = 1107;
    pub const COUNT: usize = 1171;
}

/// What an answer says: FAHIREKY_GRANTED and FAHIREKY_ENDED of fahireky.h.
const GRANTED: u8 = 1;
const ENDED: u8 = 2;

/// The rows of the list of ids.
const ROWS: usize = 64;

/// An answer's bytes.
#[repr(transparent)]
pub(crate) struct Answer([u8; ANSWER]);

impl Answer {
    fn field<const N: usize>(&self, at: usize) -> [u8; N] {
        self.0[at..at + N].try_into().expect("N bytes")
    }

    fn u16(&self, at: usize) -> u16 {
        u16::from_le_bytes(self.field(at))
    }

    fn u32(&self, at: usize) -> u32 {
        u32::from_le_bytes(self.field(at))
    }

    fn u64(&self, at: usize) -> u64 {
        u64::from_le_bytes(self.field(at))
    }

    fn length(&self) -> usize {
        self.u64(at::LENGTH) as usize
    }

    /// The id in the 16 bytes from a place on. A length above 16 counts as 16.
    fn id(&self, at: usize, length: u8) -> Id {
        let n = usize::from(length).min(LONGEST);
        Id::new(&self.0[at..at + n]).expect("an id of at most 16 bytes")
    }

    /// The one id that the answer carries.
    fn single(&self) -> Id {
        self.id(at::ID, self.0[at::ID_LENGTH])
    }

    fn found(&self) -> Vec<Id> {
        let count = self.u64(at::COUNT).min(ROWS as u64) as usize;
        (0..count).map(|i| self.id(at::IDS + LONGEST * i, self.0[at::LENGTHS + i])).collect()
    }

    fn refusal(&self) -> Option<Refusal> {
        let (first, second) = (self.u32(at::FIRST), self.u32(at::SECOND));
        Some(match self.0[at::NUMBER] {
            1 => Refusal::Io,
            2 => Refusal::Device(first as u8),
            3 => Refusal::FirmwareTooLarge { size: first, capacity: second },
            4 => Refusal::CrcMismatch { expected: first as u16, actual: second as u16 },
            5 => Refusal::BadInfo,
            6 => Refusal::Incompatible { device: first, image: (self.0[at::KEY] == 1).then_some(second) },
            7 => Refusal::NoDevice,
            8 => Refusal::SeveralDevices,
            9 => Refusal::NoSuchUid(self.single()),
            10 => Refusal::AmbiguousUid(self.single()),
            11 => Refusal::NotAddressable,
            12 => Refusal::DuplicateUid,
            13 => Refusal::BadPrefix,
            14 => Refusal::LongId,
            15 => Refusal::TableFull,
            16 => Refusal::ShortBuffer(self.length()),
            17 => Refusal::RetriesSpent,
            18 => Refusal::ShortVerify,
            19 => Refusal::SpansTooFar,
            20 => Refusal::OtherImage,
            21 => Refusal::OutOfTurn,
            _ => return None,
        })
    }

    fn info(&self) -> Info {
        Info {
            capacity: self.u32(at::INFO),
            erase_size: self.u16(at::INFO + 4),
            boot_version: self.u16(at::INFO + 6),
            app_version: self.u16(at::INFO + 8),
            mode: self.0[at::INFO + 10],
            boot_baud: self.0[at::INFO + 11],
            compat: self.u32(at::INFO + 12),
            max_payload: self.u16(at::INFO + 16),
        }
    }

    fn what_was_heard(&self) -> Heard {
        match self.0[at::HEARD] {
            0 => Heard::Nothing,
            1 => Heard::One(self.single()),
            3 => Heard::Unaddressed,
            _ => Heard::Garble,
        }
    }

    fn outcome(&self) -> Outcome {
        match self.0[at::OUTCOME] {
            0 => Outcome::Quiet,
            1 => Outcome::Heard(self.what_was_heard()),
            2 => Outcome::Attached(self.attached()),
            3 => Outcome::Found(self.found()),
            4 => Outcome::Knows(self.info()),
            _ => Outcome::Unaddressed,
        }
    }

    fn next(&self) -> Next {
        if self.0[at::SAYS] == ENDED { Next::Over(self.outcome()) } else { Next::Onward }
    }

    /// A value read of the answer, unless it is a refusal.
    fn unless_refused<T>(&self, value: impl FnOnce() -> T) -> Result<T, Refusal> {
        self.refusal().map_or_else(|| Ok(value()), Err)
    }

    /// The answer to a start.
    pub(crate) fn started(&self) -> Result<(), Refusal> {
        self.unless_refused(|| ())
    }

    /// The answer to asking for a request.
    pub(crate) fn request(&self) -> Result<Request, Refusal> {
        self.unless_refused(|| Request { len: self.length(), awaited: self.0[at::SAYS] == GRANTED })
    }

    /// The answer to a record or a failed link.
    pub(crate) fn told(&self) -> Told {
        Told {
            answer: self.unless_refused(|| self.next()),
            rest: self.u64(at::REST) as usize,
            progress: (self.0[at::MADE] == 1).then(|| (self.u64(at::DONE), self.u64(at::TOTAL))),
        }
    }

    /// The attached id.
    pub(crate) fn attached(&self) -> Option<Id> {
        (self.0[at::ANY] == 1).then(|| self.single())
    }

    /// What a Select hears in a record.
    pub(crate) fn heard(&self) -> Result<Heard, Refusal> {
        self.unless_refused(|| self.what_was_heard())
    }
}
