//! Random and hostile bytes through the safe crate: any record, image, text and state. Nothing panics, the same call on
//! the same bytes gives the same answer again, and a refusal leaves what it should. FAHIREKY_CALLS is the number of
//! steps, each of a few calls.

use fahireky::{Client, Heard, Id, Link, Next, Outcome, REQUEST, Refusal, RunError, STATE, Told};

struct Chance(u64);

impl Chance {
    fn next(&mut self) -> u64 {
        self.0 = self.0.wrapping_add(0x9E37_79B9_7F4A_7C15);
        let z = (self.0 ^ (self.0 >> 30)).wrapping_mul(0xBF58_476D_1CE4_E5B9);
        let z = (z ^ (z >> 27)).wrapping_mul(0x94D0_49BB_1331_11EB);
        z ^ (z >> 31)
    }

    fn below(&mut self, n: usize) -> usize {
        (self.next() % n as u64) as usize
    }

    fn one_in(&mut self, n: usize) -> bool {
        self.below(n) == 0
    }

    /// An allocation of exactly so many bytes.
    fn bytes(&mut self, n: usize) -> Box<[u8]> {
        (0..n).map(|_| self.next() as u8).collect()
    }

    fn some(&mut self, below: usize) -> Box<[u8]> {
        let n = self.below(below);
        self.bytes(n)
    }
}

/// A frame with a right check.
fn frame(command: u8, status: u8, payload: &[u8]) -> Vec<u8> {
    let n = (payload.len() as u16).to_le_bytes();
    let mut frame = vec![0xA5, command, status, 0, 0, 0, 0, 0, n[0], n[1]];
    frame.extend(payload);
    frame.extend(fahireky::crc16(0xFFFF, &frame[1..]).to_le_bytes());
    frame
}

/// A client, the request that it has out, and the one pod on its wire.
struct Side {
    client: Client,
    /// Nothing but calls has changed it since it was fresh.
    pure: bool,
    request: Vec<u8>,
    id: Box<[u8]>,
    info: [u8; 18],
    image: Box<[u8]>,
}

impl Side {
    fn new(c: &mut Chance) -> Side {
        let image = c.some(600);
        let capacity = (c.below(4000) as u32).to_le_bytes();
        let mut info = [0xFF; 18];
        info[..4].copy_from_slice(&capacity);
        info[4..6].copy_from_slice(&(c.below(900) as u16).to_le_bytes());
        info[16..].copy_from_slice(&(c.below(1100) as u16).to_le_bytes());
        Side { client: Client::new(), pure: true, request: vec![], id: c.some(17), info, image }
    }

    /// What the pod says.
    fn honest(&self) -> Vec<u8> {
        match self.request.get(1) {
            None => vec![],
            Some(0) => frame(0, 1, &self.info),
            Some(3) => frame(3, 1, &fahireky::crc16(0xFFFF, &self.image).to_le_bytes()),
            Some(5) => frame(5, 1, &self.id),
            Some(&command) => frame(command, 1, &[]),
        }
    }

    fn record(&self, c: &mut Chance) -> Box<[u8]> {
        if !c.one_in(4) {
            return [self.request.clone(), self.honest()].concat().into();
        }
        let mut record = vec![];
        for _ in 0..c.below(4) {
            let status = if c.one_in(4) { c.next() as u8 } else { c.below(4) as u8 };
            let payload = if c.one_in(8) { c.some(1100) } else { c.some(21) };
            let mut piece = frame(c.next() as u8, status, &payload);
            match c.below(6) {
                0 => piece = c.some(30).into(),
                1 => piece.truncate(c.below(30)),
                2 => piece[c.below(12)] ^= 1 << c.below(8),
                3 => piece = self.request.clone(),
                _ => {}
            }
            record.extend(piece);
        }
        record.into()
    }

    /// The state as it is, or one that no call left.
    fn disturb(&mut self, c: &mut Chance) {
        let mut state = *self.client.state();
        match c.below(120) {
            0 => state = [0xFF; STATE],
            1 => state.copy_from_slice(&c.bytes(STATE)),
            2..4 => (0..4).for_each(|_| state[c.below(STATE)] = c.next() as u8),
            4..6 => (0..4).for_each(|_| state[c.below(87)] = c.below(6) as u8),
            6 => return *self = Side::new(c),
            _ => return,
        }
        self.pure = false;
        self.client = Client::from_state(state);
    }

    /// A call on the client: a clone gives the same, and a refusal that changes nothing leaves the client.
    fn calls<T: PartialEq + std::fmt::Debug>(
        &mut self,
        call: impl Fn(&mut Client) -> T,
        refusal: impl Fn(&T) -> Option<Refusal>,
    ) -> T {
        let before = self.client.clone();
        let mut twin = before.clone();
        let told = call(&mut self.client);
        assert_eq!(told, call(&mut twin));
        assert!(self.client == twin);
        assert!(!format!("{told:?}").is_empty());
        match refusal(&told).map(|r| r.number()) {
            Some(13 | 16 | 20 | 21) => {
                assert!(self.client == before, "a refusal changed the client");
            }
            Some(number) => {
                let attached = if [8, 10].contains(&number) { None } else { before.attached() };
                assert_eq!((self.client.seed(), self.client.attached()), (before.seed(), attached));
                assert_eq!(self.client.link_failed().answer, Err(Refusal::OutOfTurn));
            }
            None => {}
        }
        told
    }

    fn start(&mut self, c: &mut Chance) {
        let (what, prefix, bits) = (c.below(10), c.some(19), c.below(160));
        let (baud, bootloader, in_boot) = (c.next() as u8, c.one_in(2), c.one_in(2));
        let image = if c.one_in(8) { c.some(5000) } else { self.image.clone() };
        let prefix = if c.one_in(2) { self.id[..c.below(self.id.len() + 1)].into() } else { prefix };
        let started = self.calls(
            |x| match what {
                0 => x.start_select(&prefix, bits),
                1 => x.start_deselect(),
                2 => x.start_attach(None),
                3 => x.start_attach(Some(&prefix)),
                4 => x.start_discover(&prefix),
                5 => x.start_info(),
                6 => x.start_erase(),
                7 => x.start_flash(&image),
                8 => x.start_reset(bootloader, in_boot),
                _ => x.start_set_baud(baud, bootloader, in_boot),
            },
            |r| r.err(),
        );
        if what == 7 && started.is_ok() {
            self.image = image;
        }
    }

    fn request(&mut self, c: &mut Chance) {
        let room = if c.one_in(4) { c.some(60) } else { c.bytes(REQUEST) };
        let image = if c.one_in(30) { c.some(5000) } else { self.image.clone() };
        let (told, buffer) = self.calls(
            |x| {
                let mut buffer = room.clone();
                (x.request(&image, &mut buffer), buffer)
            },
            |(r, _)| r.err(),
        );
        let n = told.map_or(0, |r| r.len);
        assert_eq!(buffer[n..], room[n..]);
        if told.is_ok() {
            assert_eq!(fahireky::crc16(0xFFFF, &buffer[1..n - 2]).to_le_bytes(), buffer[n - 2..n]);
            self.request = buffer[..n].to_vec();
        }
    }

    fn told(&mut self, c: &mut Chance) -> Told {
        let record = self.record(c);
        let image = if c.one_in(30) { c.some(5000) } else { self.image.clone() };
        let failed = c.one_in(50);
        let told = self.calls(
            |x| if failed { x.link_failed() } else { x.record(&image, &record) },
            |t| t.answer.as_ref().err().copied(),
        );
        assert!(told.rest <= record.len());
        assert!(failed || told.answer != Err(Refusal::Io) || told.rest == record.len());
        assert_eq!(fahireky::rest(&record, told.rest).len(), record.len() - told.rest);
        if let (true, Ok(Next::Over(Outcome::Found(ids)))) = (self.pure, &told.answer) {
            assert!(ids.len() <= 64 && ids.is_sorted_by_key(|id| id.bytes()));
        }
        told
    }
}

/// A copy of the client, run over a link that returns some records and then fails: how it ended, as a place in a count.
fn run(c: &mut Chance, side: &mut Side) -> usize {
    let (mut client, image, request) = (side.client.clone(), side.image.clone(), side.request.clone());
    let mut left = c.below(30);
    let mut link = Link::new(|request: &[u8]| {
        side.request = request.to_vec();
        left = left.checked_sub(1).ok_or(())?;
        Ok(side.record(c))
    });
    let ended = client.run(&image, &mut link, |_, _| {});
    let unread = link.unread().len();
    let before = std::mem::replace(&mut side.request, request);
    match ended {
        Err(RunError::Refused(Refusal::OutOfTurn | Refusal::OtherImage)) => {
            assert!(
                client == side.client && side.request == before,
                "a run that was refused at once changed something"
            );
            return 0;
        }
        Err(RunError::Link(())) => assert_eq!(unread, 0),
        _ => {}
    }
    assert!(!client.is_running());
    match ended {
        Err(RunError::Link(())) => 1,
        Err(RunError::Refused(_)) => 2,
        Ok(_) => 3,
    }
}

/// The calls without a client.
fn small(c: &mut Chance, side: &Side) {
    let id = c.some(20);
    let mut text = c.some(40);
    let before = text.clone();
    match fahireky::uid_hex(&id, &mut text) {
        Ok(n) => {
            assert_eq!((n, &text[n..]), (2 * id.len(), &before[n..]));
            let text = std::str::from_utf8(&text[..n]).unwrap();
            assert_eq!(text, id.iter().map(|b| format!("{b:02x}")).collect::<String>());
            assert_eq!(Id::parse(text).unwrap().bytes(), &*id);
        }
        Err(r) => assert_eq!(
            (text, r),
            (before, if id.len() > 16 { Refusal::BadPrefix } else { Refusal::ShortBuffer(2 * id.len()) })
        ),
    }
    let any = String::from_utf8_lossy(&c.some(12)).into_owned();
    assert!(
        Id::parse(&any).is_ok_and(|id| id.text() == any.to_lowercase()) || Id::parse(&any) == Err(Refusal::BadText)
    );
    let record = side.record(c);
    if let Ok(Heard::One(id)) = fahireky::hear(&record) {
        assert!(id.bytes().len() <= 16);
    }
    let place = if c.one_in(2) { c.next() as usize } else { c.below(record.len() + 2) };
    assert_eq!(fahireky::rest(&record, place), record.get(place..).unwrap_or(&[]));
    let image = c.some(50);
    assert_eq!(fahireky::image_compat(&image).is_some(), image.len() >= 6 && image.len() % 4 == 2);
}

#[test]
fn nothing_panics() {
    let steps: u32 = std::env::var("FAHIREKY_CALLS").map_or(20_000, |n| n.parse().unwrap());
    let c = &mut Chance(1);
    let mut sides: Vec<Side> = (0..4).map(|_| Side::new(c)).collect();
    let mut numbers = [0u32; 24];
    let (mut found, mut runs) = (0, [0u32; 4]);
    for _ in 0..steps {
        let i = c.below(4);
        let side = &mut sides[i];
        side.disturb(c);
        if c.one_in(8) {
            small(c, side);
            runs[run(c, side)] += 1;
        }
        match c.below(12) {
            0 => side.start(c),
            1 => drop(side.client.attached()),
            _ => {}
        }
        side.request(c);
        match side.told(c).answer {
            Ok(Next::Over(outcome)) => {
                found += u32::from(matches!(outcome, Outcome::Found(_)));
                side.start(c);
            }
            Ok(Next::Onward) => numbers[0] += 1,
            Err(r) => {
                numbers[r.number() as usize] += 1;
                side.start(c);
            }
        }
    }
    println!("{found} discoveries ended; answers to records by number: {numbers:?}; runs by their end: {runs:?}");
    assert!(steps < 20_000 || [0, 1, 2, 5, 14, 20, 21].iter().all(|&n| numbers[n] > 0));
    assert!(steps < 20_000 || runs.iter().all(|&n| n > 0));
}
