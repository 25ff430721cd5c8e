//! An operation run to its end over a link: what is sent, what stays unread, how it ends, and what is reported.

#[path = "../examples/wire/mod.rs"]
mod wire;

use std::cell::RefCell;
use std::convert::Infallible;
use std::error::Error;
use std::io;

use fahireky::{Client, Heard, Id, Info, Link, Next, Outcome, Refusal, RunError, is_select};
use wire::{Wire, reply};

/// A pod of two erase blocks of 16 bytes each, which takes payloads of 8.
const INFO: [u8; 18] = [32, 0, 0, 0, 16, 0, 1, 0, 2, 0, 0, 0xFF, 0xFF, 0xFF, 0xFF, 0xFF, 8, 0];

fn known() -> Outcome {
    Outcome::Knows(Info {
        capacity: 32,
        erase_size: 16,
        boot_version: 1,
        app_version: 2,
        mode: 0,
        boot_baud: 0xFF,
        compat: 0xFFFF_FFFF,
        max_payload: 8,
    })
}

fn id(bytes: &[u8]) -> Id {
    Id::new(bytes).unwrap()
}

/// Bytes heard, or an error of the link.
type Record = Result<Vec<u8>, &'static str>;

/// What a link says in turn, and the commands that were sent over it.
struct Script {
    heard: RefCell<std::vec::IntoIter<Record>>,
    sent: RefCell<Vec<u8>>,
}

impl Script {
    fn new(heard: Vec<Record>) -> Script {
        Script { heard: RefCell::new(heard.into_iter()), sent: RefCell::default() }
    }

    fn link(&self) -> Link<impl FnMut(&[u8]) -> Record> {
        Link::new(|request: &[u8]| {
            self.sent.borrow_mut().push(request[1]);
            self.heard.borrow_mut().next().expect("no further request")
        })
    }

    /// The commands sent, where all that the script has was heard.
    fn sent(&self) -> Vec<u8> {
        assert_eq!(self.heard.borrow().len(), 0, "more was to be heard");
        self.sent.borrow().clone()
    }
}

fn no_progress(done: u64, total: u64) {
    panic!("progress {done} of {total}");
}

#[test]
fn pods_are_found_and_flashed() {
    let mut wire = Wire::new(&[&[1, 2][..], &[1, 3]]);
    let image: Vec<u8> = (0..150).collect();
    let mut reported = vec![];
    let mut client = Client::new();
    let mut link = Link::new(|request: &[u8]| Ok::<_, Infallible>(wire.exchange(request)));
    client.start_discover(&[1]).unwrap();
    let found = client.run(&[], &mut link, no_progress).unwrap();
    assert_eq!(found, Outcome::Found(vec![id(&[1, 2]), id(&[1, 3])]));
    client.start_attach(Some(&[1, 3])).unwrap();
    assert_eq!(client.run(&[], &mut link, no_progress), Ok(Outcome::Attached(Some(id(&[1, 3])))));
    client.start_flash(&image).unwrap();
    let outcome = client.run(&image, &mut link, |done, total| reported.push((done, total))).unwrap();
    assert!(matches!(outcome, Outcome::Knows(Info { capacity: 4096, max_payload: 64, .. })));
    assert!(link.unread().is_empty());

    let erased = (1..=8).map(|k| (512 * k, 4096));
    assert_eq!(reported, erased.chain([(1, 3), (2, 3), (3, 3)]).collect::<Vec<_>>());
    assert!(wire.pods[0].flash.iter().all(|&b| b == 0));
    assert_eq!(wire.pods[1].flash[..150], image);
    assert!(wire.pods[1].flash[150..].iter().all(|&b| b == 0xFF));
}

#[test]
fn what_an_answer_leaves_is_read_before_the_next_record() {
    let (erased, cut) = (reply(1, 1, &[]), 5);
    let script = Script::new(vec![
        Ok([&reply(0, 1, &INFO), &erased[..cut]].concat()),
        Ok([&erased[cut..], &erased, &reply(0, 1, &INFO)].concat()),
        Ok(vec![]),
        Ok(vec![0x77]),
    ]);
    let mut link = script.link();
    let mut client = Client::new();
    let mut reported = vec![];
    client.start_erase().unwrap();
    assert_eq!(client.run(&[], &mut link, |done, total| reported.push((done, total))), Ok(known()));
    assert_eq!(reported, [(16, 32), (32, 32)]);
    // The rest outlasts the operation.
    assert_eq!(link.unread(), reply(0, 1, &INFO));
    client.start_info().unwrap();
    assert_eq!(client.run(&[], &mut link, no_progress), Ok(known()));
    assert_eq!(link.unread(), [0x77]);
    assert_eq!(script.sent(), [0, 1, 1, 0]);
    link.clear();
    assert!(link.unread().is_empty());
}

#[test]
fn a_select_reads_what_was_unread_too_and_leaves_nothing() {
    let script = Script::new(vec![Ok([reply(0, 1, &INFO), vec![0x77]].concat()), Ok(reply(5, 1, &[7]))]);
    let mut link = script.link();
    let mut client = Client::new();
    client.start_info().unwrap();
    client.run(&[], &mut link, no_progress).unwrap();
    client.start_select(&[], 0).unwrap();
    assert_eq!(client.run(&[], &mut link, no_progress), Ok(Outcome::Heard(Heard::Garble)));
    assert!(link.unread().is_empty());
    assert_eq!(script.sent(), [0, 5]);
}

#[test]
fn a_link_that_fails_ends_the_operation() {
    let script = Script::new(vec![
        Ok(reply(5, 1, &[7])),
        Ok([reply(0, 1, &INFO), vec![1, 2, 3]].concat()),
        Err("unplugged"),
        Ok(reply(0, 1, &INFO)),
    ]);
    let mut link = script.link();
    let mut client = Client::new();
    client.start_attach(None).unwrap();
    client.run(&[], &mut link, no_progress).unwrap();
    client.start_erase().unwrap();
    assert_eq!(client.run(&[], &mut link, no_progress), Err(RunError::Link("unplugged")));
    assert_eq!((client.is_running(), client.attached()), (false, Some(id(&[7]))));
    assert!(link.unread().is_empty());
    client.start_info().unwrap();
    assert_eq!(client.run(&[], &mut link, no_progress), Ok(known()));
    assert_eq!(script.sent(), [5, 0, 1, 0]);
}

#[test]
fn a_refusal_comes_back() {
    let script = Script::new(vec![Ok([reply(0, 7, &[]), vec![1, 2]].concat()), Ok(vec![])]);
    let mut link = script.link();
    let mut client = Client::new();
    assert_eq!(client.run(&[], &mut link, no_progress), Err(RunError::Refused(Refusal::OutOfTurn)));
    client.start_info().unwrap();
    assert_eq!(client.run(&[], &mut link, no_progress), Err(RunError::Refused(Refusal::Device(7))));
    assert_eq!((client.is_running(), link.unread()), (false, &[1, 2][..]));
    // Bytes without an answer in them are read to the last.
    client.start_info().unwrap();
    assert_eq!(client.run(&[], &mut link, no_progress), Err(RunError::Refused(Refusal::Io)));
    assert_eq!((client.is_running(), link.unread()), (false, &[][..]));
    assert_eq!(script.sent(), [0, 0]);
}

#[test]
fn another_image_is_refused_before_anything_is_sent() {
    let image = [9; 6];
    let check = fahireky::crc16(0xFFFF, &image).to_le_bytes();
    let replies = [reply(0, 1, &INFO), reply(1, 1, &[]), reply(1, 1, &[]), reply(2, 1, &[]), reply(3, 1, &check)];
    let script = Script::new(replies.map(Ok).into());
    let mut link = script.link();
    let mut client = Client::new();
    client.start_flash(&image).unwrap();
    assert_eq!(client.run(&image[1..], &mut link, no_progress), Err(Refusal::OtherImage.into()));
    assert!(client.is_running() && script.sent.borrow().is_empty());
    let mut reported = vec![];
    assert_eq!(client.run(&image, &mut link, |done, total| reported.push((done, total))), Ok(known()));
    assert_eq!(reported, [(16, 32), (32, 32), (1, 1)]);
    assert_eq!(script.sent(), [0, 1, 1, 2, 3]);
}

#[test]
fn a_reset_that_is_not_awaited_is_sent_and_its_record_ignored() {
    let script = Script::new(vec![
        Ok([reply(0, 1, &INFO), vec![0x77]].concat()),
        Ok(vec![0xA5, 0, 0x55]),
        Ok(reply(5, 1, &[7])),
        Err("gone"),
    ]);
    let mut link = script.link();
    let mut client = Client::new();
    client.start_info().unwrap();
    client.run(&[], &mut link, no_progress).unwrap();
    assert_eq!(link.unread(), [0x77]);
    client.start_reset(false, false).unwrap();
    assert_eq!(client.run(&[], &mut link, no_progress), Ok(Outcome::Quiet));
    assert_eq!((client.is_running(), link.unread()), (false, &[][..]));
    client.start_attach(None).unwrap();
    assert_eq!(client.run(&[], &mut link, no_progress), Ok(Outcome::Attached(Some(id(&[7])))));
    // That it could not be sent is not hidden.
    client.start_reset(false, false).unwrap();
    assert_eq!(client.run(&[], &mut link, no_progress), Err(RunError::Link("gone")));
    assert!(!client.is_running());
    assert_eq!(script.sent(), [0, 4, 5, 4]);
}

#[test]
fn a_reset_in_boot_is_awaited() {
    let script = Script::new(vec![Ok(reply(4, 1, &[])), Ok(vec![])]);
    let mut link = script.link();
    let mut client = Client::new();
    client.start_reset(true, true).unwrap();
    assert_eq!(client.run(&[], &mut link, no_progress), Ok(Outcome::Quiet));
    client.start_set_baud(3, true, true).unwrap();
    assert_eq!(client.run(&[], &mut link, no_progress), Err(Refusal::Io.into()));
    assert_eq!(script.sent(), [4, 4]);
}

#[test]
fn the_largest_request_and_a_long_record() {
    let mut info = INFO;
    info[..6].copy_from_slice(&[0, 0x10, 0, 0, 0, 0x10]);
    info[16..].copy_from_slice(&[0xFF, 0xFF]);
    let image = [0x5A; 1024];
    let echoes: Vec<u8> = (0..10_000).flat_map(|_| reply(0, 0, &[])).collect();
    let mut lengths = vec![];
    let mut link = Link::new(|request: &[u8]| {
        lengths.push(request.len());
        let payload = match request[1] {
            0 => info.to_vec(),
            3 => fahireky::crc16(0xFFFF, &image).to_le_bytes().to_vec(),
            _ => vec![],
        };
        Ok::<_, Infallible>([echoes.clone(), reply(request[1], 1, &payload)].concat())
    });
    let mut client = Client::new();
    client.start_flash(&image).unwrap();
    client.run(&image, &mut link, |_, _| {}).unwrap();
    assert_eq!(lengths, [12, 14, fahireky::REQUEST, 12]);
}

#[test]
fn any_bytes_can_be_what_was_heard() {
    let mut client = Client::new();
    client.start_attach(None).unwrap();
    let heard = client.run(&[], &mut Link::new(|_: &[u8]| Ok::<[u8; 0], ()>([])), no_progress);
    assert_eq!(heard, Err(Refusal::NoDevice.into()));
    // A client that waits for a record is not run: its request is out already.
    client.start_attach(None).unwrap();
    client.request(&[], &mut [0; 64]).unwrap();
    let run = client.run(&[], &mut Link::new(|_: &[u8]| Ok::<&[u8], ()>(&[])), no_progress);
    assert_eq!(run, Err(Refusal::OutOfTurn.into()));
    assert_eq!(client.record(&[], &reply(5, 1, &[7])).answer, Ok(Next::Over(Outcome::Attached(Some(id(&[7]))))));
}

#[test]
fn selects_are_told_from_other_requests() {
    let mut wire = Wire::new(&[[1]]);
    let mut selects = vec![];
    let mut link = Link::new(|request: &[u8]| {
        selects.push(is_select(request));
        Ok::<_, Infallible>(wire.exchange(request))
    });
    let mut client = Client::new();
    client.start_attach(None).unwrap();
    client.run(&[], &mut link, no_progress).unwrap();
    client.start_info().unwrap();
    client.run(&[], &mut link, no_progress).unwrap();
    client.start_reset(true, true).unwrap();
    client.run(&[], &mut link, no_progress).unwrap();
    client.start_deselect().unwrap();
    client.run(&[], &mut link, no_progress).unwrap();
    assert_eq!(selects, [true, false, false, true]);
    assert!(!is_select(&[]));
}

#[test]
fn errors_in_words() {
    let refused: RunError<io::Error> = Refusal::ShortBuffer(12).into();
    assert_eq!(refused.to_string(), "a buffer is too short: needs 12 bytes");
    assert!(refused.source().is_none());
    let failed = RunError::Link(io::Error::new(io::ErrorKind::BrokenPipe, Refusal::NoDevice));
    assert_eq!(failed.to_string(), "the link failed: no pod answered");
    let link = Link::new(|_: &[u8]| Ok::<Vec<u8>, ()>(vec![]));
    assert_eq!(format!("{link:?}"), "Link { unread: [], .. }");
}
