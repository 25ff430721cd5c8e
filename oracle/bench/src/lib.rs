//! Both sides over the same stored records, with as little overhead as possible: the wire's output is recorded first.

use std::time::Duration;

use differential::run::{Operation, Ours};
use differential::wire::Wire;
use embedded_io::{ErrorKind, ErrorType, Read, Write};
use fahireky::{Client, Next};

/// The records that an operation hears on a wire, one for each request.
pub fn records(operation: &Operation, wire: &Wire) -> Vec<Vec<u8>> {
    let trace = Ours::new().run(operation, wire.clone(), None, &[], false);
    let mut wire = wire.clone();
    trace.requests.iter().enumerate().map(|(k, request)| wire.heard(k, request)).collect()
}

/// A bus that returns the stored records, whatever is sent.
pub struct Stored<'a> {
    records: &'a [Vec<u8>],
    next: usize,
    heard: &'a [u8],
}

impl<'a> Stored<'a> {
    pub fn new(records: &'a [Vec<u8>]) -> Stored<'a> {
        Stored { records, next: 0, heard: &[] }
    }
}

impl ErrorType for Stored<'_> {
    type Error = ErrorKind;
}

impl Read for Stored<'_> {
    fn read(&mut self, buf: &mut [u8]) -> Result<usize, ErrorKind> {
        let n = buf.len().min(self.heard.len());
        if n == 0 {
            return Err(ErrorKind::TimedOut);
        }
        buf[..n].copy_from_slice(&self.heard[..n]);
        self.heard = &self.heard[n..];
        Ok(n)
    }
}

impl Write for Stored<'_> {
    fn write(&mut self, buf: &[u8]) -> Result<usize, ErrorKind> {
        self.heard = self.records.get(self.next).map_or(&[], |r| r);
        self.next += 1;
        Ok(buf.len())
    }

    fn flush(&mut self) -> Result<(), ErrorKind> {
        Ok(())
    }
}

impl reference::Link for Stored<'_> {
    fn set_timeout(&mut self, _timeout: Duration) {}
}

pub fn rust_client<'a>(records: &'a [Vec<u8>]) -> reference::Client<Stored<'a>> {
    reference::Client::new(Stored::new(records), Duration::ZERO)
}

/// A request buffer.
pub type Buffer = [u8; fahireky::REQUEST];

/// Runs the port through its Rust crate over the records, to its end. Returns how many requests it made. No record here
/// leaves an unread rest.
pub fn ours(client: &mut Client, image: &[u8], records: &[Vec<u8>], buffer: &mut Buffer) -> usize {
    for (k, record) in records.iter().enumerate() {
        client.request(image, buffer).expect("a request");
        match client.record(image, record).answer {
            Ok(Next::Onward) => {}
            Ok(Next::Over(_)) | Err(_) => return k + 1,
        }
    }
    panic!("too few records")
}

mod c {
    unsafe extern "C" {
        pub fn fahireky_start_discover(s: *mut u8, sn: usize, p: *const u8, pn: usize, a: *mut u8, an: usize) -> u64;
        pub fn fahireky_start_flash(s: *mut u8, sn: usize, i: *const u8, n: usize, a: *mut u8, an: usize) -> u64;
        pub fn fahireky_request(
            s: *mut u8,
            sn: usize,
            i: *const u8,
            n: usize,
            b: *mut u8,
            bn: usize,
            a: *mut u8,
            an: usize,
        ) -> u64;
        pub fn fahireky_record(
            s: *mut u8,
            sn: usize,
            i: *const u8,
            n: usize,
            r: *const u8,
            rn: usize,
            a: *mut u8,
            an: usize,
        ) -> u64;
    }
}

/// The buffers that a host lends to the exported calls.
pub struct Raw {
    state: [u8; fahireky::STATE],
    answer: [u8; 1179],
    buffer: Buffer,
}

impl Raw {
    pub fn new() -> Raw {
        Raw { state: [0; fahireky::STATE], answer: [0; 1179], buffer: [0; fahireky::REQUEST] }
    }

    pub fn start_discover(&mut self, prefix: &[u8]) {
        self.state.fill(0);
        let (s, a) = (&mut self.state, &mut self.answer);
        // SAFETY: each slice is passed as its pointer and its length.
        let code = unsafe {
            c::fahireky_start_discover(s.as_mut_ptr(), s.len(), prefix.as_ptr(), prefix.len(), a.as_mut_ptr(), a.len())
        };
        assert_eq!(code, 0);
    }

    pub fn start_flash(&mut self, image: &[u8]) {
        self.state.fill(0);
        let (s, a) = (&mut self.state, &mut self.answer);
        // SAFETY: as above.
        let code = unsafe {
            c::fahireky_start_flash(s.as_mut_ptr(), s.len(), image.as_ptr(), image.len(), a.as_mut_ptr(), a.len())
        };
        assert_eq!(code, 0);
    }

    /// Runs the exported calls over the records, to the end. Returns how many requests were made.
    pub fn run(&mut self, image: &[u8], records: &[Vec<u8>]) -> usize {
        let (s, a, b) = (&mut self.state, &mut self.answer, &mut self.buffer);
        let (i, n) = (image.as_ptr(), image.len());
        for (k, record) in records.iter().enumerate() {
            // SAFETY: as above.
            let code = unsafe {
                c::fahireky_request(s.as_mut_ptr(), s.len(), i, n, b.as_mut_ptr(), b.len(), a.as_mut_ptr(), a.len())
            };
            assert_eq!(code & 0xFF, 0);
            // SAFETY: as above.
            let code = unsafe {
                c::fahireky_record(
                    s.as_mut_ptr(),
                    s.len(),
                    i,
                    n,
                    record.as_ptr(),
                    record.len(),
                    a.as_mut_ptr(),
                    a.len(),
                )
            };
            if code & 0xFF != 0 || a[1] == 2 {
                return k + 1;
            }
        }
        panic!("too few records")
    }
}
