//! The static library's calls over slices and arrays: the one place with unsafe code.

use core::mem::MaybeUninit;
use std::sync::OnceLock;

use crate::answer::{ANSWER, Answer};
use crate::{Heard, Id, Refusal, STATE};

/// The declarations of fahireky.h. Every pointer goes with the length that follows it; `s` is a state, `a` an answer.
mod c {
    type In = *const u8;
    type Out = *mut u8;

    unsafe extern "C" {
        pub fn fahireky_start_select(s: Out, sn: usize, p: In, pn: usize, bits: usize, a: Out, an: usize) -> u64;
        pub fn fahireky_start_deselect(s: Out, sn: usize, a: Out, an: usize) -> u64;
        pub fn fahireky_start_attach(s: Out, sn: usize, a: Out, an: usize) -> u64;
        pub fn fahireky_start_attach_to(s: Out, sn: usize, p: In, pn: usize, a: Out, an: usize) -> u64;
        pub fn fahireky_start_discover(s: Out, sn: usize, p: In, pn: usize, a: Out, an: usize) -> u64;
        pub fn fahireky_start_info(s: Out, sn: usize, a: Out, an: usize) -> u64;
        pub fn fahireky_start_erase(s: Out, sn: usize, a: Out, an: usize) -> u64;
        pub fn fahireky_start_flash(s: Out, sn: usize, i: In, n: usize, a: Out, an: usize) -> u64;
        pub fn fahireky_start_reset(s: Out, sn: usize, boot: bool, in_boot: bool, a: Out, an: usize) -> u64;
        pub fn fahireky_start_set_baud(
            s: Out,
            sn: usize,
            baud: u8,
            boot: bool,
            in_boot: bool,
            a: Out,
            an: usize,
        ) -> u64;
        pub fn fahireky_request(s: Out, sn: usize, i: In, n: usize, b: Out, bn: usize, a: Out, an: usize) -> u64;
        pub fn fahireky_record(s: Out, sn: usize, i: In, n: usize, r: In, rn: usize, a: Out, an: usize) -> u64;
        pub fn fahireky_link_failed(s: Out, sn: usize, a: Out, an: usize) -> u64;
        pub fn fahireky_attached(s: In, sn: usize, a: Out, an: usize) -> u64;
        pub fn fahireky_hear(r: In, rn: usize, a: Out, an: usize) -> u64;
        pub fn fahireky_rest(r: In, rn: usize, place: usize) -> usize;
        pub fn fahireky_uid_hex(id: In, n: usize, text: Out, tn: usize) -> u64;
        pub fn fahireky_parse_uid(text: In, tn: usize, id: Out, n: usize) -> u64;
        pub fn fahireky_image_compat(i: In, n: usize) -> u64;
        pub fn fahireky_crc16(start: u16, bytes: In, n: usize) -> u16;
        pub safe fn fahireky_state_size() -> usize;
        pub safe fn fahireky_answer_size() -> usize;
    }
}

/// Panics if the library that is linked has states or answers of other lengths than this crate. The library is asked
/// once.
pub fn check_sizes() {
    static CHECKED: OnceLock<()> = OnceLock::new();
    CHECKED.get_or_init(|| compare_sizes(c::fahireky_state_size(), c::fahireky_answer_size()));
}

fn compare_sizes(state: usize, answer: usize) {
    assert!(
        (state, answer) == (STATE, ANSWER),
        "libfahireky.a is of another version than the crate fahireky: its states and answers have {state} and {answer} \
         bytes, the crate's {STATE} and {ANSWER}"
    );
}

impl Answer {
    /// What is read of the answer that a call writes. The room for it is not zeroed first.
    fn written<R>(call: impl FnOnce(*mut u8, usize) -> u64, read: impl FnOnce(&Answer) -> R) -> R {
        check_sizes();
        let mut room = MaybeUninit::<Answer>::uninit();
        call(room.as_mut_ptr().cast(), ANSWER);
        // SAFETY: the state and the answer that were lent have the library's lengths, so the call did not refuse them;
        // and then it writes every byte of the answer: its contract fixes each.
        read(unsafe { room.assume_init_ref() })
    }
}

/// A function for each call on a state: `name(arguments) = call(what is passed between state and answer)`.
macro_rules! calls {
    ($($name:ident($($arg:ident: $type:ty),*) = $call:ident($($given:expr),*);)*) => {
        $(pub fn $name<R>(state: &mut [u8; STATE] $(, $arg: $type)*, read: impl FnOnce(&Answer) -> R) -> R {
            Answer::written(
                // SAFETY: each slice is passed as its pointer and its length, no two of them overlap, and the library
                // keeps none of them.
                |answer, n| unsafe { c::$call(state.as_mut_ptr(), STATE, $($given,)* answer, n) },
                read,
            )
        })*
    };
}

calls! {
    start_select(prefix: &[u8], bits: usize) = fahireky_start_select(prefix.as_ptr(), prefix.len(), bits);
    start_deselect() = fahireky_start_deselect();
    start_attach() = fahireky_start_attach();
    start_attach_to(prefix: &[u8]) = fahireky_start_attach_to(prefix.as_ptr(), prefix.len());
    start_discover(prefix: &[u8]) = fahireky_start_discover(prefix.as_ptr(), prefix.len());
    start_info() = fahireky_start_info();
    start_erase() = fahireky_start_erase();
    start_flash(image: &[u8]) = fahireky_start_flash(image.as_ptr(), image.len());
    start_reset(bootloader: bool, in_boot: bool) = fahireky_start_reset(bootloader, in_boot);
    start_set_baud(baud: u8, bootloader: bool, in_boot: bool) = fahireky_start_set_baud(baud, bootloader, in_boot);
    request(image: &[u8], buffer: &mut [u8])
        = fahireky_request(image.as_ptr(), image.len(), buffer.as_mut_ptr(), buffer.len());
    record(image: &[u8], bytes: &[u8]) = fahireky_record(image.as_ptr(), image.len(), bytes.as_ptr(), bytes.len());
    link_failed() = fahireky_link_failed();
}

pub fn attached(state: &[u8; STATE]) -> Option<Id> {
    // SAFETY: state and answer are passed as pointer and length, and the state is only read.
    Answer::written(|answer, n| unsafe { c::fahireky_attached(state.as_ptr(), STATE, answer, n) }, Answer::attached)
}

pub fn hear(record: &[u8]) -> Result<Heard, Refusal> {
    // SAFETY: record and answer are passed as pointer and length, and the record is only read.
    Answer::written(|answer, n| unsafe { c::fahireky_hear(record.as_ptr(), record.len(), answer, n) }, Answer::heard)
}

pub fn rest(record: &[u8], place: usize) -> usize {
    // SAFETY: the record is passed as pointer and length, and is only read.
    unsafe { c::fahireky_rest(record.as_ptr(), record.len(), place) }
}

/// The length in the code of a text's call, or its refusal.
fn length(code: u64) -> Result<usize, Refusal> {
    let length = (code >> 8) as usize;
    match code & 0xFF {
        0 => Ok(length),
        13 => Err(Refusal::BadPrefix),
        16 => Err(Refusal::ShortBuffer(length)),
        _ => Err(Refusal::BadText),
    }
}

pub fn uid_hex(id: &[u8], text: &mut [u8]) -> Result<usize, Refusal> {
    // SAFETY: id and text are passed as pointer and length, and do not overlap.
    length(unsafe { c::fahireky_uid_hex(id.as_ptr(), id.len(), text.as_mut_ptr(), text.len()) })
}

pub fn parse_uid(text: &[u8], id: &mut [u8]) -> Result<usize, Refusal> {
    // SAFETY: text and id are passed as pointer and length, and do not overlap.
    length(unsafe { c::fahireky_parse_uid(text.as_ptr(), text.len(), id.as_mut_ptr(), id.len()) })
}

pub fn image_compat(image: &[u8]) -> Option<u32> {
    // SAFETY: the image is passed as pointer and length, and is only read.
    let code = unsafe { c::fahireky_image_compat(image.as_ptr(), image.len()) };
    (code >> 32 == 1).then_some(code as u32)
}

pub fn crc16(start: u16, bytes: &[u8]) -> u16 {
    // SAFETY: the bytes are passed as pointer and length, and are only read.
    unsafe { c::fahireky_crc16(start, bytes.as_ptr(), bytes.len()) }
}

#[cfg(test)]
mod tests {
    use super::*;

    #[test]
    fn the_linked_library_has_the_sizes() {
        check_sizes();
        compare_sizes(STATE, ANSWER);
    }

    #[test]
    #[should_panic(expected = "its states and answers have 1353 and 1179 bytes, the crate's 1352 and 1179")]
    fn another_state_size() {
        compare_sizes(STATE + 1, ANSWER);
    }

    #[test]
    #[should_panic(expected = "libfahireky.a is of another version than the crate fahireky")]
    fn another_answer_size() {
        compare_sizes(STATE, ANSWER - 1);
    }
}
