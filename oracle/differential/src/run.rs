//! One operation on both sides, over the same wire: what was sent, and how it ended.

use std::cell::RefCell;
use std::rc::Rc;
use std::time::Duration;

use embedded_io::{ErrorKind, ErrorType, Read, Write};
use fahireky::{Client, Heard, Id, Next, Outcome, Refusal, Request};
use reference::{FlashError, Found, Link};

use crate::reasons;
use crate::wire::Wire;

#[derive(Clone, Debug)]
pub enum Operation {
    Select(Vec<u8>, usize),
    Deselect,
    Attach(Option<Vec<u8>>),
    Discover(Vec<u8>),
    Info,
    Erase,
    Flash(Vec<u8>),
    Reset(bool, bool),
    SetBaud(u8, bool, bool),
}

/// How an operation ended: a refusal by its number and what it carries.
#[derive(Debug, Clone, PartialEq, Eq)]
pub enum End {
    Quiet,
    Heard(u8, Vec<u8>),
    Found(Vec<Vec<u8>>),
    Unaddressed,
    Knows([u64; 8]),
    Refused(u8, Vec<u64>),
}

/// The unread bytes after a request was sent, which a host hands in; how many of them were read; and the progress
/// reported.
#[derive(Debug, Clone, Default, PartialEq, Eq)]
pub struct Handed {
    pub record: Vec<u8>,
    pub read: usize,
    pub progress: Vec<(u64, u64)>,
}

/// What a client keeps from one operation to the next: the attached id, and the seed.
#[derive(Debug, Clone, PartialEq, Eq)]
pub struct State {
    pub attached: Option<Vec<u8>>,
    pub seed: u8,
}

/// Everything that is compared. Each request has one `handed`, except a last one whose sending failed.
#[derive(Debug, Clone, PartialEq, Eq)]
pub struct Trace {
    pub before: State,
    pub requests: Vec<Vec<u8>>,
    pub handed: Vec<Handed>,
    pub end: End,
    pub after: State,
    pub rest: Vec<u8>,
}

impl Trace {
    /// Each request with what was handed in after it.
    pub fn steps(&self) -> impl Iterator<Item = (&[u8], &Handed)> {
        self.requests.iter().map(Vec::as_slice).zip(&self.handed)
    }

    /// The state after an operation that was refused at a Select or in a flash: "seed and (but for deselects) attached
    /// id stay as they are then". The seed is that of the last Select.
    fn stays(&self) -> State {
        let select = self.requests.iter().rfind(|request| request[1] == 5);
        State { attached: self.before.attached.clone(), seed: select.map_or(self.before.seed, |request| request[10]) }
    }

    /// How it ended, with its last steps.
    pub fn tail(&self) -> String {
        let last = |n: usize| n.saturating_sub(20);
        let (requests, handed) = (&self.requests[last(self.requests.len())..], &self.handed[last(self.handed.len())..]);
        let Trace { before, end, after, rest, .. } = self;
        let n = self.requests.len();
        format!("{before:?} {end:?} {after:?} {rest:?}, {n} requests, the last {requests:?}, {handed:?}")
    }
}

// The Rust.

struct Port {
    wire: Wire,
    fails_at: Option<usize>,
    requests: Vec<Vec<u8>>,
    heard: Vec<u8>,
    read: usize,
    handed: Vec<Handed>,
}

/// The bus of the Rust's client. The runs keep a second handle to inspect it.
#[derive(Clone)]
pub struct Bus(Rc<RefCell<Port>>);

impl ErrorType for Bus {
    type Error = ErrorKind;
}

impl Read for Bus {
    fn read(&mut self, buf: &mut [u8]) -> Result<usize, ErrorKind> {
        let mut port = self.0.borrow_mut();
        let left = &port.heard[port.read..];
        let n = buf.len().min(left.len());
        if n == 0 {
            return Err(ErrorKind::TimedOut);
        }
        buf[..n].copy_from_slice(&left[..n]);
        port.read += n;
        let read = port.read;
        if let Some(last) = port.handed.last_mut() {
            last.read = read;
        }
        Ok(n)
    }
}

impl Write for Bus {
    fn write(&mut self, buf: &[u8]) -> Result<usize, ErrorKind> {
        let mut port = self.0.borrow_mut();
        let k = port.requests.len();
        port.requests.push(buf.to_vec());
        if port.fails_at == Some(k) {
            return Err(ErrorKind::Other);
        }
        let heard = port.wire.heard(k, buf);
        let read = port.read;
        port.heard.drain(..read);
        port.read = 0;
        port.heard.extend(heard);
        let record = port.heard.clone();
        port.handed.push(Handed { record, ..Handed::default() });
        Ok(buf.len())
    }

    fn flush(&mut self) -> Result<(), ErrorKind> {
        Ok(())
    }
}

impl Link for Bus {
    fn set_timeout(&mut self, _timeout: Duration) {}
}

fn refused(e: FlashError) -> End {
    let text = |s: String| reference::parse_uid(&s).unwrap().into_iter().map(u64::from).collect();
    match e {
        FlashError::Io => End::Refused(1, vec![]),
        FlashError::Device(s) => End::Refused(2, vec![s.0 as u64]),
        FlashError::FirmwareTooLarge { size, capacity } => End::Refused(3, vec![size as u64, capacity as u64]),
        FlashError::CrcMismatch { expected, actual } => End::Refused(4, vec![expected as u64, actual as u64]),
        FlashError::BadInfo => End::Refused(5, vec![]),
        FlashError::Incompatible { device, image } => {
            End::Refused(6, [device].into_iter().chain(image).map(u64::from).collect())
        }
        FlashError::NoDevice => End::Refused(7, vec![]),
        FlashError::SeveralDevices => End::Refused(8, vec![]),
        FlashError::NoSuchUid(s) => End::Refused(9, text(s)),
        FlashError::AmbiguousUid(s) => End::Refused(10, text(s)),
        FlashError::NotAddressable => End::Refused(11, vec![]),
        FlashError::DuplicateUid => End::Refused(12, vec![]),
    }
}

fn knows(i: reference::DeviceInfo) -> End {
    End::Knows([
        i.capacity as u64,
        i.erase_size as u64,
        i.boot_version as u64,
        i.app_version as u64,
        i.mode as u64,
        i.boot_baud as u64,
        i.compat as u64,
        i.max_payload as u64,
    ])
}

/// The Rust's client, used for one operation after another.
pub struct Rust {
    bus: Bus,
    client: reference::Client<Bus>,
}

impl Rust {
    pub fn new() -> Rust {
        let port = Port {
            wire: Wire::Scripted(vec![]),
            fails_at: None,
            requests: vec![],
            heard: vec![],
            read: 0,
            handed: vec![],
        };
        let bus = Bus(Rc::new(RefCell::new(port)));
        Rust { client: reference::Client::new(bus.clone(), Duration::ZERO), bus }
    }

    /// The ids that the walk under a prefix keeps, until it ends or the link fails after the last of these records.
    pub fn kept(prefix: &[u8], records: Vec<Vec<u8>>) -> Vec<Vec<u8>> {
        let mut rust = Rust::new();
        rust.begin(Some(records.len()), Wire::Scripted(records), &[]);
        reference::inner::kept(&mut rust.client, prefix)
    }

    fn state(&self) -> State {
        State { attached: self.client.uid().map(<[u8]>::to_vec), seed: reference::inner::seed(&self.client) }
    }

    fn begin(&mut self, fails_at: Option<usize>, wire: Wire, kept: &[u8]) {
        let mut port = self.bus.0.borrow_mut();
        *port = Port { wire, fails_at, requests: vec![], heard: kept.to_vec(), read: 0, handed: vec![] };
    }

    pub fn run(&mut self, operation: &Operation, wire: Wire, fails_at: Option<usize>, kept: &[u8]) -> Trace {
        self.begin(fails_at, wire, kept);
        let before = self.state();
        let bus = self.bus.clone();
        let mut report = |done: u32, of: u32| {
            let mut port = bus.0.borrow_mut();
            port.handed.last_mut().expect("progress after a record").progress.push((done as u64, of as u64));
        };
        let c = &mut self.client;
        let quiet = |r: Result<(), FlashError>| r.map_or_else(refused, |()| End::Quiet);
        let end = match operation {
            Operation::Select(prefix, bits) => {
                let bits: Vec<bool> = (0..*bits).map(|k| prefix[k / 8] >> (k % 8) & 1 != 0).collect();
                c.select(&bits).map_or_else(refused, |h| match h {
                    reference::Heard::Nothing => End::Heard(0, vec![]),
                    reference::Heard::One(id) => End::Heard(1, id),
                    reference::Heard::Unaddressed => End::Heard(2, vec![]),
                    reference::Heard::Garble => End::Heard(3, vec![]),
                })
            }
            Operation::Deselect => quiet(c.deselect_all()),
            Operation::Attach(uid) => quiet(c.attach(uid.as_deref())),
            Operation::Discover(prefix) => c.discover(prefix).map_or_else(refused, |f| match f {
                Found::Ids(ids) => End::Found(ids),
                Found::Unaddressed => End::Unaddressed,
            }),
            Operation::Info => c.info().map_or_else(refused, knows),
            Operation::Erase => c.erase(&mut report).map_or_else(refused, knows),
            Operation::Flash(image) => c.flash(image, &mut |_, done, of| report(done, of)).map_or_else(refused, knows),
            Operation::Reset(bootloader, in_boot) => quiet(c.reset(*bootloader, *in_boot)),
            Operation::SetBaud(baud, bootloader, in_boot) => quiet(c.set_baud(*baud, *bootloader, *in_boot)),
        };
        let mut port = self.bus.0.borrow_mut();
        Trace {
            before,
            requests: std::mem::take(&mut port.requests),
            handed: std::mem::take(&mut port.handed),
            end,
            after: self.state(),
            rest: port.heard[port.read..].to_vec(),
        }
    }
}

// The port.

pub fn carried(r: &Refusal) -> Vec<u64> {
    let id = |id: &Id| id.bytes().iter().map(|&b| b as u64).collect();
    match r {
        Refusal::Device(s) => vec![*s as u64],
        Refusal::FirmwareTooLarge { size, capacity } => vec![*size as u64, *capacity as u64],
        Refusal::CrcMismatch { expected, actual } => vec![*expected as u64, *actual as u64],
        Refusal::Incompatible { device, image } => [*device].into_iter().chain(*image).map(u64::from).collect(),
        Refusal::NoSuchUid(prefix) | Refusal::AmbiguousUid(prefix) => id(prefix),
        _ => vec![],
    }
}

fn ended(o: Outcome) -> End {
    match o {
        Outcome::Quiet | Outcome::Attached(_) => End::Quiet,
        Outcome::Heard(Heard::Nothing) => End::Heard(0, vec![]),
        Outcome::Heard(Heard::One(id)) => End::Heard(1, id.bytes().to_vec()),
        Outcome::Heard(Heard::Unaddressed) => End::Heard(2, vec![]),
        Outcome::Heard(Heard::Garble) => End::Heard(3, vec![]),
        Outcome::Found(ids) => End::Found(ids.iter().map(|id| id.bytes().to_vec()).collect()),
        Outcome::Knows(i) => End::Knows([
            i.capacity as u64,
            i.erase_size as u64,
            i.boot_version as u64,
            i.app_version as u64,
            i.mode as u64,
            i.boot_baud as u64,
            i.compat as u64,
            i.max_payload as u64,
        ]),
        Outcome::Unaddressed => End::Unaddressed,
    }
}

/// The port's client, used for one operation after another.
pub struct Ours {
    pub client: Client,
    buffer: [u8; fahireky::REQUEST],
}

impl Ours {
    pub fn new() -> Ours {
        Ours { client: Client::new(), buffer: [0; fahireky::REQUEST] }
    }

    fn state(&self) -> State {
        State { attached: self.client.attached().map(|id| id.bytes().to_vec()), seed: self.client.seed() }
    }

    /// Starts an operation; none is running.
    fn start(&mut self, operation: &Operation) -> Result<(), Refusal> {
        let c = &mut self.client;
        match operation {
            Operation::Select(prefix, bits) => c.start_select(prefix, *bits),
            Operation::Deselect => c.start_deselect(),
            Operation::Attach(uid) => c.start_attach(uid.as_deref()),
            Operation::Discover(prefix) => c.start_discover(prefix),
            Operation::Info => c.start_info(),
            Operation::Erase => c.start_erase(),
            Operation::Flash(image) => c.start_flash(image),
            Operation::Reset(bootloader, in_boot) => c.start_reset(*bootloader, *in_boot),
            Operation::SetBaud(baud, bootloader, in_boot) => c.start_set_baud(*baud, *bootloader, *in_boot),
        }
    }

    /// Calls out of turn: each is refused with 21, and nothing changes.
    fn out_of_turn(&mut self, waiting: bool) {
        let before = self.client.clone();
        assert_eq!(self.client.start_info(), Err(Refusal::OutOfTurn));
        assert_eq!(self.client.start_discover(&[0; 17]), Err(Refusal::OutOfTurn));
        if waiting {
            assert_eq!(self.client.request(&[], &mut []), Err(Refusal::OutOfTurn));
        } else {
            let told = self.client.record(&[], &[0xA5; 30]);
            assert_eq!((told.answer, told.rest), (Err(Refusal::OutOfTurn), 0));
            assert_eq!(self.client.link_failed().answer, Err(Refusal::OutOfTurn));
        }
        assert!(before == self.client);
    }

    /// The next request's bytes, and whether its reply is awaited; no byte after them is changed.
    fn request(&mut self, image: &[u8]) -> Result<(Vec<u8>, bool), Refusal> {
        self.buffer.fill(0xC3);
        let Request { len, awaited } = self.client.request(image, &mut self.buffer)?;
        assert!(self.buffer[len..].iter().all(|&b| b == 0xC3), "a byte after the request");
        Ok((self.buffer[..len].to_vec(), awaited))
    }

    pub fn run(
        &mut self,
        operation: &Operation,
        mut wire: Wire,
        fails_at: Option<usize>,
        kept: &[u8],
        strays: bool,
    ) -> Trace {
        let image: &[u8] = if let Operation::Flash(image) = operation { image } else { &[] };
        let before = self.state();
        let (mut requests, mut handed, mut rest) = (Vec::new(), Vec::new(), kept.to_vec());
        let end = 'run: {
            if let Err(r) = self.start(operation) {
                break 'run End::Refused(r.number(), carried(&r));
            }
            loop {
                if strays {
                    self.out_of_turn(false);
                    assert!(matches!(self.client.request(image, &mut [7; 11]), Err(Refusal::ShortBuffer(12..))));
                }
                let k = requests.len();
                let awaited = match self.request(image) {
                    Ok((request, awaited)) => {
                        requests.push(request);
                        awaited
                    }
                    Err(r) => break 'run End::Refused(r.number(), carried(&r)),
                };
                let failed = fails_at == Some(k);
                if !failed {
                    rest.extend(wire.heard(k, &requests[k]));
                }
                if !awaited {
                    if !failed {
                        handed.push(Handed { record: rest.clone(), ..Handed::default() });
                    }
                    break 'run End::Quiet;
                }
                if strays {
                    self.out_of_turn(true);
                }
                let told = if failed { self.client.link_failed() } else { self.client.record(image, &rest) };
                if failed {
                    assert_eq!((told.rest, told.progress), (0, None));
                } else {
                    let unread = fahireky::rest(&rest, told.rest).to_vec();
                    let record = std::mem::replace(&mut rest, unread);
                    handed.push(Handed { record, read: told.rest, progress: told.progress.into_iter().collect() });
                }
                match told.answer {
                    Ok(Next::Onward) => {}
                    Ok(Next::Over(o)) => break 'run ended(o),
                    Err(r) => break 'run End::Refused(r.number(), carried(&r)),
                }
            }
        };
        Trace { before, requests, handed, end, after: self.state(), rest }
    }
}

/// The refusals from 13 to 22 that may occur in this kind of run.
pub type Allowed = &'static [u8];

/// The refusal from 13 to 22 that the port gave, and the step at which it gave it.
fn own(ours: &Trace) -> Option<(usize, u8)> {
    match ours.end {
        End::Refused(n @ 13..=22, _) => Some((ours.requests.len().saturating_sub(1), n)),
        _ => None,
    }
}

/// Whether the port's run agrees with the Rust's. The port gives a refusal of its own exactly where it is due by the
/// bytes, and only where it may occur. Everything before it is compared.
pub fn same(operation: &Operation, rust: &Trace, ours: &Trace, allowed: Allowed) -> Result<(), String> {
    let given = own(ours);
    if given.is_some_and(|(_, n)| !allowed.contains(&n)) {
        return Err(format!("a refusal that may not occur here: {:?}", ours.end));
    }
    agree(rust.before == ours.before, "attached id or seed before")?;
    // After a refusal that only the port has, the Rust may go on.
    let n = if given.is_some() { ours.requests.len() } else { rust.requests.len() };
    agree(rust.requests.get(..n) == Some(&ours.requests[..]), "requests")?;
    agree(given.is_some() || rust.handed.len() == ours.handed.len(), "records")?;
    let io = given.is_none() && rust.end == End::Refused(1, vec![]);
    for (k, ours) in ours.handed.iter().enumerate() {
        let Some(rust) = rust.handed.get(k) else { return Err("records".into()) };
        agree(rust.record == ours.record, "records")?;
        agree(rust.progress == ours.progress, "progress")?;
        // What was read of a record that gave Io is not compared.
        agree(rust.read == ours.read || (io && k + 1 == n), "what was read")?;
    }
    let due = reasons::due(operation, rust, ours);
    if given != due {
        return Err(format!("the refusal due is {due:?}, and {given:?} was given"));
    }
    if given.is_some() {
        return agree(ours.after == ours.stays(), "attached id or seed after a refusal");
    }
    agree(rust.end == ours.end, "end")?;
    agree(rust.after == ours.after, "attached id or seed")?;
    agree(io || rust.rest == ours.rest, "rest")
}

fn agree(equal: bool, what: &str) -> Result<(), String> {
    if equal { Ok(()) } else { Err(what.into()) }
}
