//! The kinds of run: what is on the wire, and which refusals from 13 to 22 may occur, and why.

use crate::reasons;
use crate::run::{Allowed, End, Operation, Ours, Rust, Trace, same};
use crate::wire::{Info, Pod, Random, Wire, address, damaged, frame, reply};

/// How far the requests reached in the runs on which both sides agree.
#[derive(Default)]
pub struct Reach {
    /// The length of the largest image that was verified: the address of its Verify.
    pub image: u32,
    /// The largest capacity of a pod whose last Erase was answered.
    pub capacity: u64,
    /// The most Selects and the most Erases in one run.
    pub selects: usize,
    pub erases: usize,
    /// The largest address of an Erase and of a Write, and how many were beyond 2^16 and beyond 2^24.
    pub erase: Addresses,
    pub write: Addresses,
}

#[derive(Default)]
pub struct Addresses {
    pub largest: u32,
    pub beyond: [u64; 2],
}

impl Addresses {
    fn count(&mut self, address: u32) {
        self.largest = self.largest.max(address);
        self.beyond[0] += (address > 1 << 16) as u64;
        self.beyond[1] += (address > 1 << 24) as u64;
    }
}

impl Reach {
    fn count(&mut self, run: &Trace) {
        let (mut selects, mut erases) = (0, 0);
        for (request, handed) in run.steps() {
            match request[1] {
                1 => {
                    erases += 1;
                    self.erase.count(address(request));
                    let whole = handed.progress.iter().filter(|(done, of)| done >= of).map(|&(_, of)| of);
                    self.capacity = whole.fold(self.capacity, u64::max);
                }
                2 => self.write.count(address(request)),
                3 => self.image = self.image.max(address(request)),
                5 => selects += 1,
                _ => {}
            }
        }
        self.selects = self.selects.max(selects);
        self.erases = self.erases.max(erases);
    }
}

/// Counts runs and keeps disagreements. In every seventh run, calls out of turn are made in between.
#[derive(Default)]
pub struct Judge {
    /// Runs of both sides, runs of the port alone, and leaf calls on both sides.
    pub both: u64,
    pub alone: u64,
    pub leaves: u64,
    /// The port's refusals in runs of both sides.
    pub refusals: [u64; 24],
    pub reach: Reach,
    pub bad: Vec<String>,
}

impl Judge {
    pub fn new() -> Judge {
        Judge::default()
    }

    /// Runs one operation on each side. Returns whether the clients can go on: not after a disagreement, after Io, or
    /// after a refusal that only the port has.
    pub fn run(
        &mut self,
        pair: &mut Pair,
        kind: &str,
        allowed: Allowed,
        operation: Operation,
        wire: Wire,
        fails_at: Option<usize>,
    ) -> bool {
        self.both += 1;
        let strays = self.both % 7 == 0;
        let rust = pair.rust.run(&operation, wire.clone(), fails_at, &pair.kept);
        let ours = pair.ours.run(&operation, wire, fails_at, &pair.kept, strays);
        if let End::Refused(n, _) = ours.end {
            self.refusals[n as usize] += 1;
        }
        let verdict = same(&operation, &rust, &ours, allowed).and_then(|()| within_bound(&operation, &ours));
        let goes_on = verdict.is_ok() && !matches!(ours.end, End::Refused(1 | 13..=22, _));
        match verdict {
            Ok(()) => self.reach.count(&ours),
            Err(what) => {
                let operation = format!("{operation:?}");
                self.bad.push(format!("{kind}: {what}\n{operation:.2000}\nRust {}\nport {}", rust.tail(), ours.tail()));
            }
        }
        pair.kept = if goes_on { ours.rest } else { Vec::new() };
        goes_on
    }

    /// An Erase on the port alone, of a pod that it must refuse with 19 after its Info. The Rust would not end there
    /// unless its link failed.
    pub fn endless(&mut self, info: &Info) {
        self.alone += 1;
        let ours = Ours::new().run(&Operation::Erase, Wire::Pod(Pod::new(info.bytes(), 1)), None, &[], false);
        if (ours.requests.len(), &ours.end) != (1, &End::Refused(19, vec![])) {
            self.bad.push(format!("19 was due\nport {}", ours.tail()));
        }
    }
}

/// A discovery takes no more Selects than its bound.
fn within_bound(operation: &Operation, ours: &Trace) -> Result<(), String> {
    match operation {
        Operation::Discover(prefix)
            if prefix.len() <= 16 && ours.requests.len() > 132 + 260 * (128 - 8 * prefix.len()) =>
        {
            Err("more Selects than the bound".into())
        }
        _ => Ok(()),
    }
}

/// A client on each side, and the unread rest that the host keeps.
pub struct Pair {
    pub rust: Rust,
    pub ours: Ours,
    pub kept: Vec<u8>,
}

impl Pair {
    pub fn new() -> Pair {
        Pair { rust: Rust::new(), ours: Ours::new(), kept: Vec::new() }
    }
}

const INFO: Info = Info { capacity: 10, erase_size: 4, compat: 0xFFFF_FFFF, max_payload: 4 };

/// Every kind of frame or bytes that may be heard after one request.
fn alphabet(command: u8, payload: &[u8]) -> Vec<Vec<u8>> {
    vec![
        frame(command, 0, 0, 0, &[]),
        damaged(frame(command, 0, 0, 0, &[9])),
        reply(command, 1, payload),
        damaged(reply(command, 1, payload)),
        reply(command, 2, &[]),
        reply(command, 3, payload),
        reply(command, 7, &[1]),
        reply(command, 1, &[]),
        reply(command, 1, &[payload, &[5, 6]].concat()),
        reply(command, 1, &vec![4; 17]),
        vec![0xA5, command, 1, 0, 0, 0, 0, 0, 1, 4],
        vec![0xA5, command, 1],
        vec![0x00],
        vec![0xA5],
    ]
}

/// Each operation with every first record of at most two frames of the alphabet, then two fixed replies, then silence.
/// 14 may occur: a frame of the alphabet holds 17 bytes.
pub fn short_records(judge: &mut Judge) {
    let image = vec![1, 2, 3, 4, 5];
    let operations = [
        (5, Operation::Select(vec![0b101], 3)),
        (5, Operation::Deselect),
        (5, Operation::Attach(None)),
        (5, Operation::Attach(Some(vec![]))),
        (5, Operation::Attach(Some(vec![1]))),
        (5, Operation::Discover(vec![])),
        (0, Operation::Info),
        (0, Operation::Erase),
        (0, Operation::Flash(image)),
        (4, Operation::Reset(true, true)),
        (4, Operation::Reset(false, false)),
        (4, Operation::SetBaud(0, false, true)),
        (4, Operation::SetBaud(255, true, false)),
    ];
    for (command, operation) in operations {
        let payload = if command == 0 { INFO.bytes() } else { vec![1, 2] };
        let mut records = vec![vec![]];
        let frames = alphabet(command, &payload);
        for a in &frames {
            records.push(a.clone());
            for b in &frames {
                records.push([&a[..], b].concat());
            }
        }
        for first in &records {
            for fails_at in [None, Some(0), Some(1)] {
                let wire = Wire::Scripted(vec![first.clone(), reply(1, 1, &[]), reply(5, 1, &[1, 2])]);
                judge.run(&mut Pair::new(), "short records", &[14], operation.clone(), wire, fails_at);
            }
        }
    }
}

/// A discovery with every sequence of these eight records after its first five Selects. 14 may occur: one is an id of
/// 17 bytes.
pub fn five_selects(judge: &mut Judge) {
    let heard: [Vec<u8>; 8] = [
        vec![],
        reply(5, 1, &[0]),
        reply(5, 1, &[1]),
        reply(5, 1, &[0, 1]),
        reply(5, 1, &[]),
        reply(5, 2, &[]),
        vec![0],
        reply(5, 1, &[3; 17]),
    ];
    for n in 0..8usize.pow(5) {
        let records = (0..5).map(|k| heard[n / 8usize.pow(k) % 8].clone()).collect();
        judge.run(&mut Pair::new(), "five selects", &[14], Operation::Discover(vec![]), Wire::Scripted(records), None);
    }
}

/// Honest wires with up to 64 ids of one length, under any prefix of whole bytes. The discoveries run one after another
/// on the same clients, so that seeds wrap. No refusal from 13 to 22 may occur.
pub fn honest(judge: &mut Judge, r: &mut Random, runs: usize) {
    let mut pair = Pair::new();
    for _ in 0..runs {
        let length = 1 + r.below(16);
        let n = if r.one_in(4) { r.below(65) } else { r.below(9) };
        let shared = r.below(length + 1);
        let stem = r.bytes(shared);
        let narrow = r.one_in(2);
        let mut ids: Vec<Vec<u8>> = (0..n)
            .map(|_| {
                let mut id = r.bytes(length);
                id[..shared].copy_from_slice(&stem);
                if narrow {
                    id.iter_mut().for_each(|b| *b &= 0x81);
                }
                id
            })
            .collect();
        ids.sort();
        ids.dedup();
        let prefix = match ids.first() {
            Some(id) if r.one_in(2) => id[..r.below(length + 1)].to_vec(),
            _ => vec![],
        };
        judge.run(&mut pair, "honest", &[], Operation::Discover(prefix), Wire::Honest(ids), None);
    }
}

/// Honest wires with 60 to 70 ids, and links that sometimes fail, also after the 65th id. 15 may occur: the 65th id.
pub fn crowded(judge: &mut Judge, r: &mut Random, runs: usize) {
    for _ in 0..runs {
        let (n, length) = (60 + r.below(11), 1 + r.below(16));
        let mut ids = std::collections::BTreeSet::new();
        while ids.len() < n {
            ids.insert(r.bytes(length));
        }
        let fails_at = r.one_in(2).then(|| 5 * n + r.below(3 * n));
        let wire = Wire::Honest(ids.into_iter().collect());
        judge.run(&mut Pair::new(), "crowded", &[15], Operation::Discover(vec![]), wire, fails_at);
    }
}

/// Discoveries on a wire that may return anything. 15 may occur: more than 64 ids may be kept.
pub fn adverse(judge: &mut Judge, r: &mut Random, runs: usize) {
    let mut pair = Pair::new();
    for _ in 0..runs {
        let wire = Wire::Adverse(Random::new(r.next()));
        let prefix = if r.one_in(2) { r.bytes(r.clone().below(17)) } else { r.bytes(13 + r.clone().below(4)) };
        let fails_at = r.one_in(10).then(|| r.below(20));
        if !judge.run(&mut pair, "adverse", &[15], Operation::Discover(prefix), wire, fails_at) {
            pair = Pair::new();
        }
    }
}

/// Garble down to 128 bits under each prefix: the most Selects that one branch takes. No refusal from 13 to 22 may
/// occur.
pub fn deep(judge: &mut Judge) {
    for bytes in 0..=16 {
        let wire = Wire::Scripted(vec![vec![0x55]; 400]);
        judge.run(&mut Pair::new(), "deep", &[], Operation::Discover(vec![0; bytes]), wire, None);
    }
}

/// Near the bound: up to 65 ids under a prefix of each length, each confirmed only at its last bit. 15 may occur: the
/// 65th id.
pub fn stubborn(judge: &mut Judge) {
    for bytes in 0..16 {
        for n in [1, 2, 64, 65] {
            let ids = (0..n).map(|i| [vec![0x5A; bytes], vec![i as u8], vec![0; 15 - bytes]].concat()).collect();
            let wire = Wire::Stubborn(ids, Default::default());
            let mut pair = Pair::new();
            judge.run(
                &mut pair,
                "stubborn",
                if n == 65 { &[15] } else { &[] },
                Operation::Discover(vec![0x5A; bytes]),
                wire,
                None,
            );
        }
    }
}

/// Noisy records for every operation: frames that are good, damaged, cut or too long, several in a record, and stray
/// A5s. The unread rest goes on to the next operation. 14 may occur: ids of over 16 bytes. 18: a Verify's reply may be
/// short. 19: an Info may be any bytes.
pub fn noisy(judge: &mut Judge, r: &mut Random, runs: usize) {
    let mut pair = Pair::new();
    for _ in 0..runs {
        let piece = |r: &mut Random| -> Vec<u8> {
            let command = r.below(7) as u8;
            let n = *r.pick(&[0, 0, 1, 2, 3, 16, 17, 18, 20]);
            let payload = if r.one_in(2) { INFO.bytes()[..n.min(18)].to_vec() } else { r.bytes(n) };
            let status = *r.pick(&[0, 0, 1, 1, 1, 1, 2, 3, 4, 255]);
            let mut f = frame(command, status, r.byte(), r.next() as u32, &payload);
            match r.below(12) {
                0 => f = damaged(f),
                1 => f.truncate(r.below(f.len())),
                2 => f.insert(0, 0xA5),
                3 => f.insert(0, r.byte()),
                4 => f[9] = r.byte(),
                5 => f.push(r.byte()),
                _ => {}
            }
            f
        };
        let records = (0..1 + r.below(6)).map(|_| (0..r.below(4)).flat_map(|_| piece(r)).collect()).collect();
        let operation = match r.below(9) {
            0 => {
                let n = r.below(17);
                let bits = r.below(8 * n + 1);
                Operation::Select(r.bytes(n), bits)
            }
            1 => Operation::Deselect,
            2 => Operation::Attach(None),
            3 => Operation::Attach(Some(r.bytes(r.clone().below(17)))),
            4 => Operation::Discover(r.bytes(r.clone().below(17))),
            5 => Operation::Info,
            6 => Operation::Erase,
            7 => Operation::Flash(r.bytes(r.clone().below(30))),
            _ => Operation::SetBaud(r.byte(), r.one_in(2), r.one_in(2)),
        };
        let fails_at = r.one_in(20).then(|| r.below(4));
        if !judge.run(&mut pair, "noisy", &[14, 18, 19], operation, Wire::Scripted(records), fails_at) {
            pair = Pair::new();
        }
    }
}

/// Pods with faults, erased and flashed: images and devices of every size class; keys right, wrong, missing and unset;
/// Writes that are refused up to 17 times. 17 may occur: the 17th refusal of one Write. 18: a Verify's reply under two
/// bytes. 19: an erase size that rounds the capacity up to above 2^32 - 1. With a capacity of 2^32 - 1 the Rust sends
/// at least 65,537 Erases, or never ends. So its link fails within twelve requests. (`far` has such a list in full.)
pub fn pods(judge: &mut Judge, r: &mut Random, runs: usize) {
    let mut pair = Pair::new();
    for _ in 0..runs {
        let n = match r.below(6) {
            0 => r.below(8),
            1 => 6 + 4 * r.below(20),
            2 => 1020 + r.below(10),
            _ => r.below(200),
        };
        let image = r.bytes(n);
        let key = if n >= 6 { u32::from_le_bytes(image[n - 6..n - 2].try_into().unwrap()) } else { 5 };
        let capacity = match r.below(8) {
            0 => n as u32,
            1 => (n as u32).saturating_sub(1),
            2 => n as u32 + 1,
            3 => 0,
            4 => 0xFFFF_FFFF,
            _ => n as u32 + r.below(300) as u32,
        };
        let erase_size = match r.below(8) {
            0 => 0,
            1 => 1,
            2 => 0xFFFF,
            _ => 1 + r.below(120) as u16,
        };
        let info = Info {
            capacity,
            erase_size,
            compat: *r.pick(&[0xFFFF_FFFF, 0xFFFF_FFFF, key, key ^ 1]),
            max_payload: *r.pick(&[0, 3, 4, 5, 7, 8, 63, 64, 1023, 1024, 1025, 65535]),
        };
        let mut payload = info.bytes();
        match r.below(12) {
            0 => payload.truncate(17),
            1 => payload.extend([1, 2, 3]),
            _ => {}
        }
        let mut pod = Pod::new(payload, r.next());
        pod.every = *r.pick(&[0, 0, 0, 5, 20]);
        pod.refuses = *r.pick(&[0, 0, 0, 1, 2, 15, 16, 17]);
        if r.one_in(6) {
            pod.check = Some(r.bytes(r.clone().below(5)));
        }
        if info.max_payload >= 4 && reasons::spans_too_far(capacity as u64, erase_size as u64) && r.one_in(10) {
            judge.endless(&info);
        }
        let operation = if r.one_in(5) { Operation::Erase } else { Operation::Flash(image) };
        let fails_at = (capacity == 0xFFFF_FFFF || r.one_in(15)).then(|| r.below(12));
        let goes_on = judge.run(&mut pair, "pods", &[17, 18, 19], operation, Wire::Pod(pod), fails_at);
        // The unread rest can hold this pod's Info.
        if !goes_on || capacity == 0xFFFF_FFFF {
            pair = Pair::new();
        }
    }
}

/// Every erase size at its limit: the largest capacity that it does not round up to above 2^32 - 1, and one more. 19
/// may occur: for the one more. The link fails at the first Erase.
pub fn edges(judge: &mut Judge) {
    for erase_size in 1..=0xFFFF {
        let fits = 0xFFFF_FFFF / erase_size as u32 * erase_size as u32;
        for capacity in [Some(fits), fits.checked_add(1)].into_iter().flatten() {
            let info = Info { capacity, erase_size, ..INFO };
            let operation =
                if erase_size % 2 == 0 { Operation::Erase } else { Operation::Flash(vec![erase_size as u8]) };
            let allowed: Allowed = if capacity == fits { &[] } else { &[19] };
            judge.run(&mut Pair::new(), "edges", allowed, operation, Wire::Pod(Pod::new(info.bytes(), 1)), Some(1));
        }
    }
}

/// Adds a fault late in a far run: from this command and address on.
fn late(pod: &mut Pod, r: &mut Random, from: (u8, u32)) {
    pod.from = from;
    match r.below(6) {
        0 => {}
        1 => pod.refuses = 16,
        2 => pod.refuses = 17,
        3 => pod.check = Some(r.bytes(r.clone().below(4))),
        4 => pod.every = 1,
        _ => pod.every = 3,
    }
}

/// A device with the shortest list of Erases for a capacity of 2^32 - 1: 65,537.
const FAR: Info = Info { capacity: 0xFFFF_FFFF, erase_size: 0xFFFF, compat: 0xFFFF_FFFF, max_payload: 1024 };

/// Far addresses: in each round a list of 65,537 Erases, and Writes beyond 2^16 and beyond 2^24, with retries, faults
/// and failing links late in the run. 17 and 18 may occur, as in `pods`.
pub fn far(judge: &mut Judge, r: &mut Random, rounds: usize) {
    for round in 0..rounds {
        // The list is complete, or has a fault in its second half.
        let mut pod = Pod::new(FAR.bytes(), r.next());
        if round % 2 == 1 {
            late(&mut pod, r, (1, 0x8000_0000 | r.clone().next() as u32));
        }
        let operation = if r.one_in(2) { Operation::Erase } else { Operation::Flash(r.bytes(r.clone().below(9000))) };
        judge.run(&mut Pair::new(), "far", &[17, 18], operation, Wire::Pod(pod), None);
        let (small, large) = (*r.pick(&[4, 7, 64, 1023]), *r.pick(&[1000, 1024, 65535]));
        far_image(judge, r, round, 1 << 16, Info { erase_size: 64, max_payload: small, ..FAR });
        far_image(judge, r, round, 1 << 24, Info { erase_size: 4096, max_payload: large, ..FAR });
    }
}

/// An image that reaches beyond an address and nearly fills its device. The faults come after that address: in the
/// first round sixteen refusals of each Write, in every fifth round a failing link.
fn far_image(judge: &mut Judge, r: &mut Random, round: usize, beyond: usize, info: Info) {
    let n = beyond + 2049 + r.below(9000);
    let info = Info { capacity: (n + r.below(3 * info.erase_size as usize)) as u32, ..info };
    let mut pod = Pod::new(info.bytes(), r.next());
    if round > 0 {
        late(&mut pod, r, (1 + r.clone().below(2) as u8, beyond as u32));
    } else {
        pod.refuses = 16;
        pod.from = (2, beyond as u32);
    }
    let erases = info.capacity.div_ceil(info.erase_size as u32) as usize;
    let chunk = (info.max_payload as usize).min(1024) & !3;
    let fails_at = (round % 5 == 4).then(|| 1 + erases + beyond.div_ceil(chunk) + r.below(4));
    judge.run(&mut Pair::new(), "far", &[17, 18], Operation::Flash(r.bytes(n)), Wire::Pod(pod), fails_at);
}

/// Compares `hear`, the check, the key and the texts with the Rust's.
pub fn leaves(judge: &mut Judge, r: &mut Random, rounds: usize) {
    for _ in 0..rounds {
        let n = r.below(60);
        let mut bytes =
            if r.one_in(3) { r.bytes(n) } else { reply(r.byte(), r.byte() % 4, &r.bytes(r.clone().below(20))) };
        if r.one_in(3) {
            bytes.extend(reply(5, r.byte() % 3, &[1]));
        }
        let rust = match reference::inner::hear(&bytes) {
            reference::Heard::Nothing => (0, vec![]),
            reference::Heard::One(id) => (1, id),
            reference::Heard::Unaddressed => (2, vec![]),
            reference::Heard::Garble => (3, vec![]),
        };
        let ours = match fahireky::hear(&bytes) {
            Ok(fahireky::Heard::Nothing) => (0, vec![]),
            Ok(fahireky::Heard::One(id)) => (1, id.bytes().to_vec()),
            Ok(fahireky::Heard::Unaddressed) => (2, vec![]),
            Ok(fahireky::Heard::Garble) => (3, vec![]),
            // Only an id of over 16 bytes is refused.
            Err(fahireky::Refusal::LongId) if reasons::long_id(&bytes) => rust.clone(),
            Err(_) => (9, vec![]),
        };
        let text: String = (0..r.below(36)).map(|_| *r.pick(b"0123456789abcdefABCDEFgG:/@`") as char).collect();
        let start = r.next() as u16;
        let mut calls = vec![
            rust == ours,
            reference::image_compat(&bytes) == fahireky::image_compat(&bytes),
            tinyboot_protocol::crc::crc16(start, &bytes) == fahireky::crc16(start, &bytes),
            reference::parse_uid(&text).ok() == fahireky::Id::parse(&text).ok().map(|id| id.bytes().to_vec()),
        ];
        calls.extend(fahireky::Id::new(&bytes).map(|id| id.text() == reference::uid_hex(&bytes)));
        judge.leaves += calls.len() as u64;
        if calls.contains(&false) {
            judge.bad.push(format!("leaves: {bytes:02x?} {text:?} {start:04x}: {calls:?}"));
        }
    }
}

/// All kinds: the exhaustive ones, the far ones, and `runs` seeded runs of both sides. No planned run is skipped.
pub fn all(seed: u64, runs: usize) -> Judge {
    let mut judge = Judge::new();
    let r = &mut Random::new(seed);
    let mut said = 0;
    let mut say = |judge: &Judge, kind: &str| {
        println!("{kind}: {} runs, {} disagreements", judge.both - said, judge.bad.len());
        said = judge.both;
    };
    short_records(&mut judge);
    say(&judge, "short records");
    five_selects(&mut judge);
    say(&judge, "five selects");
    deep(&mut judge);
    say(&judge, "deep");
    stubborn(&mut judge);
    say(&judge, "stubborn");
    edges(&mut judge);
    say(&judge, "edges");
    far(&mut judge, r, 1 + runs / 200_000);
    say(&judge, "far");
    let before = judge.both;
    honest(&mut judge, r, runs / 10);
    say(&judge, "honest");
    crowded(&mut judge, r, runs / 1000);
    say(&judge, "crowded");
    adverse(&mut judge, r, runs / 100);
    say(&judge, "adverse");
    pods(&mut judge, r, 2 * runs / 5);
    say(&judge, "pods");
    let others = (judge.both - before) as usize;
    noisy(&mut judge, r, runs - others);
    say(&judge, "noisy");
    assert_eq!(judge.both - before, runs as u64, "some planned seeded runs were not made");
    leaves(&mut judge, r, runs / 3);
    println!("leaves: {} calls, {} disagreements", judge.leaves, judge.bad.len());
    judge
}
