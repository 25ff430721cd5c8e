//! The host side of a pod bootloader: finds the pods on a shared wire by their ids, and flashes them.
//!
//! All decisions are made by a static library whose functions are proved against written definitions. This crate is a
//! thin, safe layer over it. It does no input and output of its own: a host starts an operation on a [`Client`], and
//! runs it to its end over a [`Link`], a closure that sends a request and returns what it hears.
//!
//! ```
//! # struct Pod(Vec<u8>);
//! # impl Pod {
//! #     fn exchange(&mut self, request: &[u8]) -> std::io::Result<Vec<u8>> {
//! #         let at = u32::from_le_bytes(request[4..8].try_into().unwrap()) as usize;
//! #         let payload = match request[1] {
//! #             0 => vec![64, 0, 0, 0, 16, 0, 1, 0, 2, 0, 0, 255, 255, 255, 255, 255, 8, 0],
//! #             2 => {
//! #                 self.0.truncate(at);
//! #                 self.0.extend(&request[10..request.len() - 2]);
//! #                 vec![]
//! #             }
//! #             3 => fahireky::crc16(0xFFFF, &self.0[..at]).to_le_bytes().to_vec(),
//! #             5 => vec![0x11, 0x22],
//! #             _ => vec![],
//! #         };
//! #         let head = [0xA5, request[1], 1, 0, 0, 0, 0, 0, payload.len() as u8, 0];
//! #         let answer = [&head[..], &payload].concat();
//! #         let check = fahireky::crc16(0xFFFF, &answer[1..]).to_le_bytes();
//! #         Ok([request, &answer, &check].concat())
//! #     }
//! # }
//! # let (mut port, image) = (Pod(vec![]), *b"an image of 22 bytes..");
//! use fahireky::{Client, Link};
//!
//! let mut client = Client::new();
//! let mut link = Link::new(|request: &[u8]| port.exchange(request));
//! client.start_attach(None)?;
//! client.run(&[], &mut link, |_, _| {})?;
//! client.start_flash(&image)?;
//! client.run(&image, &mut link, |done, total| println!("{done} of {total}"))?;
//! client.start_reset(false, true)?;
//! client.run(&[], &mut link, |_, _| {})?;
//! # assert_eq!(client.attached(), fahireky::Id::new(&[0x11, 0x22]));
//! # assert_eq!(port.0[..22], image);
//! # Ok::<(), fahireky::RunError<std::io::Error>>(())
//! ```
//!
//! `examples/flash_all.rs` is a whole program: it discovers all pods on a simulated wire and flashes each of them.
//!
//! # A loop of your own
//!
//! A host that must not block, or that keeps the client's state between steps, does what [`Client::run`] does itself.
//! Until the operation has ended it asks for a request, sends it, and hands in what it hears:
//!
//! ```
//! use fahireky::{Client, Next, Outcome, REQUEST};
//!
//! # fn exchange(_request: &[u8]) -> Vec<u8> { vec![] }
//! let mut client = Client::new();
//! let mut buffer = [0; REQUEST];
//! let mut heard = vec![];
//! client.start_discover(&[])?;
//! let outcome = loop {
//!     let request = client.request(&[], &mut buffer)?;
//!     heard.extend(exchange(&buffer[..request.len]));
//!     if !request.awaited {
//!         break Outcome::Quiet; // the reset of an app, which does not answer
//!     }
//!     let told = client.record(&[], &heard);
//!     heard.drain(..told.rest); // what is unread stays before what is heard next
//!     if let Next::Over(outcome) = told.answer? {
//!         break outcome;
//!     }
//! };
//! assert_eq!(outcome, Outcome::Found(vec![]));
//! # Ok::<(), fahireky::Refusal>(())
//! ```
//!
//! # The library
//!
//! The build script links `libfahireky.a`: from the folder that the environment variable `FAHIREKY_LIB` names, else
//! from `target/staticlib` of the repository, where `make` writes it.

#![deny(missing_docs, missing_debug_implementations)]
#![deny(unsafe_code, unsafe_op_in_unsafe_fn)]
#![deny(clippy::undocumented_unsafe_blocks)]

mod answer;
mod client;
mod id;
#[allow(unsafe_code)]
mod raw;
mod refusal;
mod run;

pub use answer::{Heard, Info, Next, Outcome, Request, Told};
pub use client::{Client, STATE};
pub use id::{Id, LONGEST};
pub use refusal::Refusal;
pub use run::{Link, RunError, is_select};

/// The length of the largest request, in bytes: 12 and a payload of 1,024.
pub const REQUEST: usize = 1036;

/// The unread rest of a record, from the place that [`Told::rest`] names: empty if that is past the end.
pub fn rest(record: &[u8], place: usize) -> &[u8] {
    &record[raw::rest(record, place)..]
}

/// Writes an id's text to the front of a buffer, and returns its length. An id of over 16 bytes is
/// [`Refusal::BadPrefix`]; a buffer that is shorter than the text is [`Refusal::ShortBuffer`]. A refused call writes
/// nothing. [`Id`] prints the same text.
pub fn uid_hex(id: &[u8], text: &mut [u8]) -> Result<usize, Refusal> {
    raw::uid_hex(id, text)
}

/// The compatibility key in an image's tail, or `None` if it has none.
pub fn image_compat(image: &[u8]) -> Option<u32> {
    raw::image_compat(image)
}

/// What a Select hears in a record. An id of over 16 bytes is [`Refusal::LongId`].
pub fn hear(record: &[u8]) -> Result<Heard, Refusal> {
    raw::hear(record)
}

/// The CRC-16/IBM-3740 of some bytes, carried on from `start`; begin with 0xFFFF. The checksum of an image is that of
/// all its bytes, the checksum of a frame that of bytes 1 up to the end of its payload.
pub fn crc16(start: u16, bytes: &[u8]) -> u16 {
    raw::crc16(start, bytes)
}

/// Compiles the README's example.
#[cfg(doctest)]
#[doc = include_str!("../README.md")]
struct Readme;
