//! When a refusal that document 01 adds to the Rust's is due, read from the bytes: the requests sent and the records
//! handed in. The reader here is written from documents 01 and 02; it is neither the port's nor the Rust's.

use crate::run::{End, Operation, Rust, Trace};

/// A frame that was read, and the bytes after it.
struct Frame<'a> {
    skipped: bool,
    status: u8,
    payload: &'a [u8],
    whole: bool,
    after: &'a [u8],
}

/// "Reading skips to the next A5. No A5, or fewer than 10 bytes from it: short. Then a length over 1,024: too long.
/// Then bytes missing: short. A wrong check: bad check, fields still read. Else whole." None stands for short and for
/// too long: no rule here needs to distinguish them.
fn frame(bytes: &[u8]) -> Option<Frame<'_>> {
    let skipped = bytes.iter().position(|&b| b == 0xA5)?;
    let from = &bytes[skipped..];
    let end = 10 + number(from.get(8..10)?) as usize;
    if end > 10 + 1024 {
        return None;
    }
    let written = from.get(end..end + 2)?;
    Some(Frame {
        skipped: skipped > 0,
        status: from[2],
        payload: &from[10..end],
        whole: number(written) == check(&from[1..end]),
        after: &from[end + 2..],
    })
}

/// "Numbers are little-endian."
fn number(bytes: &[u8]) -> u64 {
    bytes.iter().rev().fold(0, |n, &b| n << 8 | b as u64)
}

/// "CRC-16/IBM-3740 of the public CRC catalogue: polynomial 1021, start FFFF, no reflection, no final change", computed
/// bit by bit.
fn check(bytes: &[u8]) -> u64 {
    let bits = bytes.iter().flat_map(|&b| (0..8).rev().map(move |k| (b >> k & 1) as u64));
    bits.fold(0xFFFF, |left, bit| {
        let top = left >> 15 ^ bit;
        (left << 1 & 0xFFFF) ^ top * 0x1021
    })
}

/// The id in a Select's record that is heard as One.
pub fn one(record: &[u8]) -> Option<&[u8]> {
    let (mut left, mut replies) = (record, Vec::new());
    while !left.is_empty() {
        let f = frame(left).filter(|f| f.whole && !f.skipped)?;
        if f.status != 0 {
            replies.push((f.status, f.payload));
        }
        left = f.after;
    }
    match replies[..] {
        [(1, id)] => Some(id),
        _ => None,
    }
}

/// "An id over 16 bytes gives refusal 14". (A record of under 29 bytes holds no such frame.)
pub fn long_id(record: &[u8]) -> bool {
    record.len() >= 29 && one(record).is_some_and(|id| id.len() > 16)
}

/// "Read frames, skipping every frame of status Request, even with a bad check, to the first other one." None stands
/// for short and for too long.
fn answer(record: &[u8]) -> Option<Frame<'_>> {
    let mut f = frame(record)?;
    while f.status == 0 {
        f = frame(f.after)?;
    }
    Some(f)
}

/// The payload of a reply of status Ok.
pub fn granted(record: &[u8]) -> Option<&[u8]> {
    answer(record).filter(|f| f.whole && f.status == 1).map(|f| f.payload)
}

/// "Status 3 repeats the same Write": it is reported, or stands for a bad check.
pub fn refused(record: &[u8]) -> bool {
    answer(record).is_some_and(|f| !f.whole || f.status == 3)
}

/// "under two bytes is 18"
fn short_verify(record: &[u8]) -> bool {
    granted(record).is_some_and(|payload| payload.len() < 2)
}

/// 19: "capacity rounded up to erase_size is above 2^32 - 1"
pub fn spans_too_far(capacity: u64, erase_size: u64) -> bool {
    erase_size > 0 && capacity.div_ceil(erase_size) * erase_size > 0xFFFF_FFFF
}

/// "The key exists if the length is at least 6 and leaves 2 on division by 4: the four bytes that begin six before the
/// end."
fn key(image: &[u8]) -> Option<u64> {
    let at = image.len().checked_sub(6)?;
    (image.len() % 4 == 2).then(|| number(&image[at..at + 4]))
}

/// Whether 19 is due at an Info's reply. It comes after 5 ("payload under 18, or erase_size 0, capacity 0, or
/// max_payload under 4"), and in a flash after 3 ("if the image exceeds capacity") and 6 ("if compat is set and the
/// image's key is missing or different").
fn too_far(operation: &Operation, record: &[u8]) -> bool {
    let Some(info) = granted(record).filter(|payload| payload.len() >= 18) else { return false };
    let (capacity, erase_size) = (number(&info[..4]), number(&info[4..6]));
    let (compat, max_payload) = (number(&info[12..16]), number(&info[16..18]));
    let passes = match operation {
        Operation::Erase => true,
        Operation::Flash(image) => {
            image.len() as u64 <= capacity && (compat == 0xFFFF_FFFF || key(image) == Some(compat))
        }
        _ => false,
    };
    passes && capacity > 0 && max_payload >= 4 && spans_too_far(capacity, erase_size)
}

/// The step at which 15 is due: where the Rust keeps its 65th id. It is not due if the Rust's discovery ended with at
/// most 64 ids. Otherwise the Rust's walk is run again over the same records.
fn table_full(operation: &Operation, rust: &Trace, ours: &Trace) -> Option<usize> {
    let Operation::Discover(prefix) = operation else { return None };
    let n = ours.handed.len();
    if n <= 64 || matches!(&rust.end, End::Found(ids) if ids.len() <= 64) {
        return None;
    }
    let kept = |n: usize| Rust::kept(prefix, ours.handed[..n].iter().map(|h| h.record.clone()).collect()).len();
    if kept(n) <= 64 {
        return None;
    }
    // Finds the fewest records that are enough. One more record never means fewer ids kept.
    let (mut few, mut enough) = (64, n);
    while few + 1 < enough {
        let middle = (few + enough) / 2;
        *(if kept(middle) > 64 { &mut enough } else { &mut few }) = middle;
    }
    Some(enough - 1)
}

/// The first step at which a refusal from 13 to 22 is due in a run of the port, and its number. 13, 16 and 20 to 22 are
/// never due here: the runs give no cause for them.
pub fn due(operation: &Operation, rust: &Trace, ours: &Trace) -> Option<(usize, u8)> {
    let (mut before, mut times): (&[u8], u32) = (&[], 0);
    let by_record = ours.steps().enumerate().find_map(|(k, (request, handed))| {
        let record = &handed.record;
        // How many times in a row the same Write was refused.
        times = if request[1] != 2 || !refused(record) {
            0
        } else if request == before {
            times + 1
        } else {
            1
        };
        before = request;
        let number = match request[1] {
            0 => too_far(operation, record).then_some(19),
            2 => (times == 17).then_some(17),
            3 => short_verify(record).then_some(18),
            // A deselect, of 129 bits, ignores its record.
            5 => (request[11] <= 128 && long_id(record)).then_some(14),
            _ => None,
        };
        number.map(|number| (k, number))
    });
    let by_count = table_full(operation, rust, ours).map(|k| (k, 15));
    by_record.into_iter().chain(by_count).min()
}
