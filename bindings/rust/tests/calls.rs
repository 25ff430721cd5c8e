//! The calls as a user meets them: refusals in their order, what they leave, and a state that is kept and resumed.

use fahireky::{Client, Heard, Id, Next, Outcome, Refusal, Request, STATE};

fn reply(status: u8, payload: &[u8]) -> Vec<u8> {
    let mut frame = vec![0xA5, 5, status, 0, 0, 0, 0, 0, payload.len() as u8, 0];
    frame.extend(payload);
    frame.extend(fahireky::crc16(0xFFFF, &frame[1..]).to_le_bytes());
    frame
}

#[test]
fn a_plain_select() {
    let mut c = Client::new();
    c.start_select(&[0b101], 3).unwrap();
    let mut buffer = [0xEE; 32];
    let n = c.request(&[], &mut buffer).unwrap().len;
    assert_eq!(&buffer[..n - 2], [0xA5, 5, 0, 0, 0, 0, 0, 0, 3, 0, 1, 3, 5]);
    assert!(buffer[n..].iter().all(|&b| b == 0xEE));
    let told = c.record(&[], &reply(1, &[7, 8]));
    assert_eq!(told.answer, Ok(Next::Over(Outcome::Heard(Heard::One(Id::new(&[7, 8]).unwrap())))));
    assert_eq!((c.seed(), c.attached()), (1, None));
}

#[test]
fn refusals_and_what_they_leave() {
    let mut c = Client::new();
    assert_eq!(c.request(&[], &mut []), Err(Refusal::OutOfTurn));
    assert_eq!(c.start_discover(&[0; 17]), Err(Refusal::BadPrefix));
    assert!(c == Client::new());
    c.start_attach(Some(&[1])).unwrap();
    assert_eq!(c.start_info(), Err(Refusal::OutOfTurn));
    assert_eq!(c.request(&[], &mut [0; 14]), Err(Refusal::ShortBuffer(15)));
    assert_eq!(c.seed(), 0);
    c.request(&[], &mut [0; 15]).unwrap();
    assert_eq!(c.record(&[], &[]).answer, Err(Refusal::NoSuchUid(Id::new(&[1]).unwrap())));
    assert_eq!(c.link_failed().answer, Err(Refusal::OutOfTurn));
}

#[test]
fn a_flash_wants_its_image() {
    let mut c = Client::new();
    c.start_flash(&[1, 2, 3]).unwrap();
    assert_eq!(c.request(&[1, 2], &mut [0; 64]), Err(Refusal::OtherImage));
    assert_eq!(c.request(&[1, 2, 3], &mut [0; 64]), Ok(Request { len: 12, awaited: true }));
    let told = c.record(&[], &[1, 2, 3]);
    assert_eq!((told.answer, told.rest), (Err(Refusal::OtherImage), 0));
    assert_eq!(c.record(&[1, 2, 3], &reply(7, &[])).answer, Err(Refusal::Device(7)));
}

#[test]
fn a_reset_that_is_not_awaited_ends_with_its_request() {
    let mut c = Client::new();
    c.start_set_baud(3, true, false).unwrap();
    let mut buffer = [0; 12];
    assert_eq!(c.request(&[], &mut buffer), Ok(Request { len: 12, awaited: false }));
    assert_eq!(&buffer[..10], [0xA5, 4, 0, 3, 3, 0, 0, 0, 0, 0]);
    assert!(c == Client::new());
}

#[test]
fn a_state_is_kept_and_taken_up() {
    let mut c = Client::new();
    c.start_attach(None).unwrap();
    c.request(&[], &mut [0; 64]).unwrap();
    let mut d = Client::from_state(*c.state());
    let record = reply(1, &[9; 16]);
    assert_eq!(c.record(&[], &record), d.record(&[], &record));
    assert!(c == d);
    assert_eq!(d.attached(), Id::new(&[9; 16]));
    // Any bytes are some client.
    for byte in 0..=255 {
        let mut e = Client::from_state([byte; STATE]);
        let _ = e.request(&[1, 2], &mut [0; 2000]);
        let _ = e.record(&[1, 2], &record);
        let _ = e.link_failed();
        let _ = e.attached();
    }
}

#[test]
fn a_client_is_printed_in_words() {
    let mut c = Client::new();
    assert_eq!(format!("{c:?}"), "Client { attached: None, seed: 0, running: false, .. }");
    assert!(!c.is_running());
    c.start_attach(None).unwrap();
    assert!(c.is_running());
    c.request(&[], &mut [0; 64]).unwrap();
    assert_eq!(format!("{c:?}"), "Client { attached: None, seed: 1, running: true, .. }");
    c.record(&[], &reply(1, &[0x0A, 0xFF])).answer.unwrap();
    assert_eq!(format!("{c:?}"), "Client { attached: Some(Id(0aff)), seed: 1, running: false, .. }");
    assert_eq!(Client::default(), Client::new());
}

#[test]
fn leaves() {
    assert_eq!(fahireky::image_compat(&[0x78, 0x56, 0x34, 0x12, 0xAA, 0xBB]), Some(0x1234_5678));
    assert_eq!(fahireky::rest(&[1, 2, 3], 5), []);
}
