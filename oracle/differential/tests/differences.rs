//! Each difference of docs/DIFFERENCES.md, on its smallest input: what the Rust does, and what the port does.

use differential::run::{End, Operation, Ours, Rust};
use differential::wire::{Info, Pod, Wire, reply};
use fahireky::{Client, Id, Refusal, Request};

const INFO: Info = Info { capacity: 8, erase_size: 8, compat: 0xFFFF_FFFF, max_payload: 4 };

/// How an operation ends on each side, over the same wire.
fn ends(operation: Operation, wire: Wire) -> (End, End) {
    let rust = Rust::new().run(&operation, wire.clone(), None, &[]).end;
    (rust, Ours::new().run(&operation, wire, None, &[], false).end)
}

fn refused(number: u8) -> End {
    End::Refused(number, vec![])
}

#[test]
fn a_sign_in_hex_text() {
    assert_eq!(reference::parse_uid("+f"), Ok(vec![0x0F]));
    assert_eq!(Id::parse("+f"), Err(Refusal::BadText));
}

#[test]
fn text_that_is_not_ascii() {
    assert!(std::panic::catch_unwind(|| reference::parse_uid("aéb")).is_err());
    assert_eq!(Id::parse("aéb"), Err(Refusal::BadText));
}

#[test]
fn the_hex_text_of_17_bytes() {
    assert_eq!(reference::uid_hex(&[0; 17]).len(), 34);
    let mut text = [7; 40];
    assert_eq!(fahireky::uid_hex(&[0; 17], &mut text), Err(Refusal::BadPrefix));
    assert_eq!(text, [7; 40]);
}

#[test]
fn text_into_a_short_buffer() {
    let mut text = [7; 1];
    assert_eq!(fahireky::uid_hex(&[0], &mut text), Err(Refusal::ShortBuffer(2)));
    assert_eq!(text, [7]);
}

#[test]
fn an_id_of_17_bytes() {
    let (rust, port) = ends(Operation::Select(vec![], 0), Wire::Scripted(vec![reply(5, 1, &[0; 17])]));
    assert_eq!((rust, port), (End::Heard(1, vec![0; 17]), refused(14)));
}

#[test]
fn the_65th_id() {
    let ids: Vec<Vec<u8>> = (0..65).map(|k| vec![k]).collect();
    let (rust, port) = ends(Operation::Discover(vec![]), Wire::Honest(ids.clone()));
    assert_eq!((rust, port), (End::Found(ids), refused(15)));
}

#[test]
fn a_select_of_129_bits() {
    assert_eq!(
        Rust::new().run(&Operation::Select(vec![0; 17], 129), Wire::Scripted(vec![]), None, &[]).end,
        End::Heard(0, vec![])
    );
    assert_eq!(Client::new().start_select(&[0; 17], 129), Err(Refusal::BadPrefix));
}

#[test]
fn an_erase_address_that_overflows() {
    // The Rust does not end here, so its link fails.
    let info = Info { capacity: 0xFFFF_FFFF, erase_size: 2, ..INFO };
    let wire = Wire::Pod(Pod::new(info.bytes(), 1));
    let rust = Rust::new().run(&Operation::Erase, wire.clone(), Some(1000), &[]);
    assert_eq!((rust.end, rust.requests.len()), (refused(1), 1001));
    let port = Ours::new().run(&Operation::Erase, wire, None, &[], false);
    assert_eq!((port.end, port.requests.len()), (refused(19), 1));
}

#[test]
fn a_write_that_is_refused_17_times() {
    let mut pod = Pod::new(INFO.bytes(), 1);
    pod.refuses = 17;
    let (rust, port) = ends(Operation::Flash(vec![1]), Wire::Pod(pod));
    assert!(matches!(rust, End::Knows(_)));
    assert_eq!(port, refused(17));
}

#[test]
fn a_verify_answered_without_payload() {
    let mut pod = Pod::new(Info { erase_size: 0xFFFF, ..INFO }.bytes(), 1);
    pod.check = Some(vec![]);
    let (rust, port) = ends(Operation::Flash(vec![]), Wire::Pod(pod));
    assert!(matches!(rust, End::Knows(_)));
    assert_eq!(port, refused(18));
}

#[test]
fn an_image_of_another_length() {
    let mut c = Client::new();
    c.start_flash(&[0; 5]).unwrap();
    assert_eq!(c.request(&[0; 6], &mut [0; 12]), Err(Refusal::OtherImage));
    assert_eq!(c.request(&[0; 5], &mut [0; 12]), Ok(Request { len: 12, awaited: true }));
}

#[test]
fn what_9_and_10_carry() {
    let mut client = reference::Client::new(Silent, std::time::Duration::ZERO);
    assert!(matches!(client.attach(Some(&[0])), Err(reference::FlashError::NoSuchUid(text)) if text == "00"));
    let mut c = Client::new();
    c.start_attach(Some(&[0])).unwrap();
    c.request(&[], &mut [0; 64]).unwrap();
    assert_eq!(c.record(&[], &[]).answer, Err(Refusal::NoSuchUid(Id::new(&[0]).unwrap())));
}

#[test]
fn calls_out_of_turn_and_short_buffers() {
    let mut c = Client::new();
    assert_eq!(c.request(&[], &mut [0; 64]), Err(Refusal::OutOfTurn));
    c.start_select(&[], 0).unwrap();
    assert_eq!(c.request(&[], &mut [0; 13]), Err(Refusal::ShortBuffer(14)));
    c.request(&[], &mut [0; 14]).unwrap();
    assert_eq!(c.request(&[], &mut [0; 14]), Err(Refusal::OutOfTurn));
}

/// A bus on which nothing is heard.
struct Silent;

impl embedded_io::ErrorType for Silent {
    type Error = embedded_io::ErrorKind;
}

impl embedded_io::Read for Silent {
    fn read(&mut self, _buf: &mut [u8]) -> Result<usize, embedded_io::ErrorKind> {
        Err(embedded_io::ErrorKind::TimedOut)
    }
}

impl embedded_io::Write for Silent {
    fn write(&mut self, buf: &[u8]) -> Result<usize, embedded_io::ErrorKind> {
        Ok(buf.len())
    }

    fn flush(&mut self) -> Result<(), embedded_io::ErrorKind> {
        Ok(())
    }
}

impl reference::Link for Silent {
    fn set_timeout(&mut self, _timeout: std::time::Duration) {}
}
