//! The bench log program over the Rust, to be timed: for logs that end well, and without the count of Selects in the
//! last line.

use std::io::{Read, Write};
use std::time::Duration;

use bench::Stored;
use reference::Found;

fn main() {
    let mut text = Vec::new();
    std::io::stdin().read_to_end(&mut text).unwrap();
    let mut lines = text.split(|&b| b == b'\n');
    let digit = |c: u8| (c as char).to_digit(16).expect("a digit") as u8;
    let bytes = |line: &[u8]| -> Vec<u8> { line.chunks(2).map(|p| digit(p[0]) * 16 + digit(p[1])).collect() };
    let first = bytes(lines.next().expect("line one"));
    let mut records = vec![Vec::new()];
    for line in lines {
        if line.is_empty() {
            records.push(Vec::new());
        } else {
            records.last_mut().unwrap().extend(bytes(line));
        }
    }
    let mut client = reference::Client::new(Stored::new(&records), Duration::ZERO);
    let found = client.discover(&first[1..]);
    let mut out = String::new();
    let (code, ids) = match found {
        Ok(Found::Ids(ids)) => (0, ids),
        Ok(Found::Unaddressed) => (23, vec![]),
        Err(reference::FlashError::DuplicateUid) => (12, vec![]),
        Err(_) => (1, vec![]),
    };
    for id in &ids {
        out += &reference::uid_hex(id);
        out.push('\n');
    }
    out += &format!("{code:02x}{:02x}\n", ids.len());
    std::io::stdout().write_all(out.as_bytes()).unwrap();
}
