//! Refusals: why a call was refused or an operation failed, as a number, in words, and with its values.

use core::fmt;

use crate::Id;

/// Why a call was refused, or an operation failed.
///
/// [`BadPrefix`](Refusal::BadPrefix), [`ShortBuffer`](Refusal::ShortBuffer), [`OtherImage`](Refusal::OtherImage),
/// [`OutOfTurn`](Refusal::OutOfTurn) and [`BadText`](Refusal::BadText) leave the client and every buffer as they were.
/// Any other refusal ends the operation.
///
/// ```
/// use fahireky::{Client, Refusal};
///
/// let mut client = Client::new();
/// client.start_info()?;
/// let refusal = client.request(&[], &mut [0; 4]).unwrap_err();
/// assert_eq!(refusal, Refusal::ShortBuffer(12));
/// assert_eq!(refusal.to_string(), "a buffer is too short: needs 12 bytes");
/// # Ok::<(), Refusal>(())
/// ```
#[derive(Debug, Clone, Copy, PartialEq, Eq, Hash)]
pub enum Refusal {
    /// The link failed, or what was heard holds no complete answer.
    Io,
    /// The pod answered with this status; 3 is also the status of an answer with a wrong checksum.
    Device(u8),
    /// The image does not fit the pod.
    FirmwareTooLarge {
        /// The image's length in bytes; 4,294,967,295 for any longer one.
        size: u32,
        /// The bytes that the pod has room for.
        capacity: u32,
    },
    /// The pod holds other bytes than the image.
    CrcMismatch {
        /// The image's checksum.
        expected: u16,
        /// The checksum that the pod reported.
        actual: u16,
    },
    /// The pod's device information is shorter than 18 bytes, or its capacity or erase size is 0, or its largest
    /// payload is under 4 bytes.
    BadInfo,
    /// The image was built for other pods.
    Incompatible {
        /// The pod's compatibility key.
        device: u32,
        /// The image's key, or `None` where it has none.
        image: Option<u32>,
    },
    /// An attach without a prefix heard nothing.
    NoDevice,
    /// An attach without a prefix heard several pods, or noise.
    SeveralDevices,
    /// An attach with this prefix heard nothing.
    NoSuchUid(Id),
    /// An attach with this prefix heard several pods, or noise.
    AmbiguousUid(Id),
    /// An attach with a prefix met a pod without an id.
    NotAddressable,
    /// A discovery heard several pods, or noise, under all 128 bits that an id can have.
    DuplicateUid,
    /// The id or prefix given is longer than 16 bytes, or the bit count is over 128 or over the bits given.
    BadPrefix,
    /// A pod answered with an id longer than 16 bytes.
    LongId,
    /// A discovery found a 65th pod.
    TableFull,
    /// A buffer is too short; it needs this length.
    ShortBuffer(usize),
    /// The same write failed 17 times in a row.
    RetriesSpent,
    /// The pod's answer to the verification has no checksum.
    ShortVerify,
    /// The pod's capacity, rounded up to whole erase blocks, is above 4,294,967,295.
    SpansTooFar,
    /// The image given to this call has another length than the one that the flash was started with.
    OtherImage,
    /// A start while an operation runs; a request while no operation runs or the last request is unanswered; a record
    /// or a failed link without a request before it.
    OutOfTurn,
    /// The text is not an id's.
    BadText,
}

impl Refusal {
    /// Its number, 1 to 22.
    pub fn number(&self) -> u8 {
        match self {
            Refusal::Io => 1,
            Refusal::Device(_) => 2,
            Refusal::FirmwareTooLarge { .. } => 3,
            Refusal::CrcMismatch { .. } => 4,
            Refusal::BadInfo => 5,
            Refusal::Incompatible { .. } => 6,
            Refusal::NoDevice => 7,
            Refusal::SeveralDevices => 8,
            Refusal::NoSuchUid(_) => 9,
            Refusal::AmbiguousUid(_) => 10,
            Refusal::NotAddressable => 11,
            Refusal::DuplicateUid => 12,
            Refusal::BadPrefix => 13,
            Refusal::LongId => 14,
            Refusal::TableFull => 15,
            Refusal::ShortBuffer(_) => 16,
            Refusal::RetriesSpent => 17,
            Refusal::ShortVerify => 18,
            Refusal::SpansTooFar => 19,
            Refusal::OtherImage => 20,
            Refusal::OutOfTurn => 21,
            Refusal::BadText => 22,
        }
    }

    /// What it means in words, without its values. The C header has the same texts.
    pub fn text(&self) -> &'static str {
        match self {
            Refusal::Io => "the link failed, or no complete answer was heard",
            Refusal::Device(_) => "the pod reported an error, or its answer had a wrong checksum",
            Refusal::FirmwareTooLarge { .. } => "the image is larger than the pod's app region",
            Refusal::CrcMismatch { .. } => "the checksum of the flashed image is wrong",
            Refusal::BadInfo => "the pod's device information is not valid",
            Refusal::Incompatible { .. } => "the image's compatibility key is missing or is not the pod's",
            Refusal::NoDevice => "no pod answered",
            Refusal::SeveralDevices => "several pods answered, or the answer was garbled",
            Refusal::NoSuchUid(_) => "no pod with this id prefix answered",
            Refusal::AmbiguousUid(_) => "several pods with this id prefix answered, or the answer was garbled",
            Refusal::NotAddressable => "the pod has no id, so it cannot be attached by one",
            Refusal::DuplicateUid => "pods could not be told apart: the same id twice, or a noisy wire",
            Refusal::BadPrefix => "the id or prefix is longer than 16 bytes, or the bit count is too large",
            Refusal::LongId => "a pod answered with an id longer than 16 bytes",
            Refusal::TableFull => "more than 64 pods were found",
            Refusal::ShortBuffer(_) => "a buffer is too short",
            Refusal::RetriesSpent => "the same write failed 17 times in a row",
            Refusal::ShortVerify => "the pod's answer to the verification is shorter than two bytes",
            Refusal::SpansTooFar => "the pod's capacity in whole erase blocks does not fit in 32 bits",
            Refusal::OtherImage => "the image's length differs from the one given at the start",
            Refusal::OutOfTurn => "the call is not allowed at this point",
            Refusal::BadText => "the text is not an id: an even number of hexadecimal digits, at most 32",
        }
    }
}

/// The text, followed by the refusal's values where it has any.
impl fmt::Display for Refusal {
    fn fmt(&self, f: &mut fmt::Formatter<'_>) -> fmt::Result {
        f.write_str(self.text())?;
        match self {
            Refusal::Device(status) => write!(f, ": status {status}"),
            Refusal::FirmwareTooLarge { size, capacity } => write!(f, ": {size} bytes, capacity {capacity}"),
            Refusal::CrcMismatch { expected, actual } => write!(f, ": expected {expected:#06x}, got {actual:#06x}"),
            Refusal::Incompatible { device, image: Some(key) } => write!(f, ": pod {device:#010x}, image {key:#010x}"),
            Refusal::Incompatible { device, image: None } => write!(f, ": pod {device:#010x}, image without a key"),
            Refusal::NoSuchUid(prefix) | Refusal::AmbiguousUid(prefix) if prefix.bytes().is_empty() => {
                f.write_str(": empty prefix")
            }
            Refusal::NoSuchUid(prefix) | Refusal::AmbiguousUid(prefix) => write!(f, ": prefix {prefix}"),
            Refusal::ShortBuffer(needed) => write!(f, ": needs {needed} bytes"),
            _ => Ok(()),
        }
    }
}

impl std::error::Error for Refusal {}
