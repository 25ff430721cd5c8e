//! Ids and prefixes of ids: their bytes, their order and their text.

use core::cmp::Ordering;
use core::fmt;
use core::hash::{Hash, Hasher};
use core::str::FromStr;

use crate::{Refusal, raw};

/// The longest id, in bytes.
pub const LONGEST: usize = 16;

/// An id, or a prefix of one: at most 16 bytes, least significant first.
///
/// Ids are in the order of their bytes, a shorter id before one that it begins: the order of a discovery's answer.
/// Equality, order and hash agree because each of them looks at [`bytes`](Id::bytes) and at nothing else.
///
/// ```
/// use fahireky::Id;
///
/// let id: Id = "0aFF".parse()?;
/// assert_eq!(id.bytes(), [0x0A, 0xFF]);
/// assert_eq!(id.to_string(), "0aff");
/// assert!("0100".parse::<Id>()? < "02".parse::<Id>()?);
/// # Ok::<(), fahireky::Refusal>(())
/// ```
#[derive(Clone, Copy, Default)]
pub struct Id {
    len: u8,
    bytes: [u8; LONGEST],
}

impl Id {
    /// The id of these bytes, or `None` if they are more than 16.
    pub fn new(bytes: &[u8]) -> Option<Id> {
        let mut id = Id { len: bytes.len().try_into().ok()?, bytes: [0; LONGEST] };
        id.bytes.get_mut(..bytes.len())?.copy_from_slice(bytes);
        Some(id)
    }

    /// Its bytes.
    pub fn bytes(&self) -> &[u8] {
        &self.bytes[..usize::from(self.len)]
    }

    /// Its text, as `to_string` gives it: two hexadecimal digits for each byte, in lower case.
    pub fn text(&self) -> String {
        self.to_string()
    }

    /// The id of a text, as `text.parse()` gives it: an even number of hexadecimal digits in either case, at most 32.
    /// Any other text is [`Refusal::BadText`].
    pub fn parse(text: &str) -> Result<Id, Refusal> {
        let mut bytes = [0; LONGEST];
        let n = raw::parse_uid(text.as_bytes(), &mut bytes)?;
        Ok(Id::new(&bytes[..n]).expect("an id of at most 16 bytes"))
    }
}

impl PartialEq for Id {
    fn eq(&self, other: &Id) -> bool {
        self.bytes() == other.bytes()
    }
}

impl Eq for Id {}

impl PartialOrd for Id {
    fn partial_cmp(&self, other: &Id) -> Option<Ordering> {
        Some(self.cmp(other))
    }
}

impl Ord for Id {
    fn cmp(&self, other: &Id) -> Ordering {
        self.bytes().cmp(other.bytes())
    }
}

impl Hash for Id {
    fn hash<H: Hasher>(&self, state: &mut H) {
        self.bytes().hash(state);
    }
}

impl AsRef<[u8]> for Id {
    fn as_ref(&self) -> &[u8] {
        self.bytes()
    }
}

impl TryFrom<&[u8]> for Id {
    type Error = Refusal;

    /// More than 16 bytes are [`Refusal::BadPrefix`].
    fn try_from(bytes: &[u8]) -> Result<Id, Refusal> {
        Id::new(bytes).ok_or(Refusal::BadPrefix)
    }
}

impl FromStr for Id {
    type Err = Refusal;

    fn from_str(text: &str) -> Result<Id, Refusal> {
        Id::parse(text)
    }
}

impl fmt::Display for Id {
    fn fmt(&self, f: &mut fmt::Formatter<'_>) -> fmt::Result {
        let mut text = [0; 2 * LONGEST];
        let n = raw::uid_hex(self.bytes(), &mut text).expect("an id of at most 16 bytes");
        f.pad(core::str::from_utf8(&text[..n]).expect("hexadecimal digits"))
    }
}

impl fmt::Debug for Id {
    fn fmt(&self, f: &mut fmt::Formatter<'_>) -> fmt::Result {
        write!(f, "Id({self})")
    }
}
