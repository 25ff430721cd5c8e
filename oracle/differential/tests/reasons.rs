//! Each refusal that document 01 adds is accepted only for its reason. A port that gives it too early, too late, for
//! another reason or not at all disagrees. The wrong ports are the Rust's own runs, cut at a step and ended with the
//! refusal, so that nothing else can disagree.

use differential::reasons;
use differential::run::{Allowed, End, Operation, Ours, Rust, Trace, same};
use differential::wire::{Info, Pod, Random, Wire, damaged, frame, reply};

const ALL: Allowed = &[13, 14, 15, 16, 17, 18, 19, 20, 21, 22];
const INFO: Info = Info { capacity: 8, erase_size: 8, compat: 0xFFFF_FFFF, max_payload: 4 };

fn both(operation: &Operation, wire: Wire, fails_at: Option<usize>) -> (Trace, Trace) {
    (Rust::new().run(operation, wire.clone(), fails_at, &[]), Ours::new().run(operation, wire, fails_at, &[], false))
}

/// The Rust's run up to a step, ended there with a refusal.
fn refusing(rust: &Trace, step: usize, number: u8) -> Trace {
    let mut wrong = rust.clone();
    wrong.requests.truncate(step + 1);
    wrong.handed.truncate(step + 1);
    wrong.end = End::Refused(number, vec![]);
    wrong
}

/// The port gives this refusal, for its reason. The Rust's own run, taken as the port's, does not give it and
/// disagrees.
#[track_caller]
fn due(operation: Operation, wire: Wire, fails_at: Option<usize>, number: u8) {
    let (rust, ours) = both(&operation, wire, fails_at);
    assert_eq!(ours.end, End::Refused(number, vec![]));
    assert_eq!(same(&operation, &rust, &ours, ALL), Ok(()));
    unjust(&operation, &rust, &rust);
}

/// A port that goes on agrees; one that gives this refusal at this step does not.
#[track_caller]
fn not_due(operation: Operation, wire: Wire, fails_at: Option<usize>, number: u8, step: impl FnOnce(&Trace) -> usize) {
    let (rust, ours) = both(&operation, wire, fails_at);
    assert_eq!(same(&operation, &rust, &ours, &[]), Ok(()));
    unjust(&operation, &rust, &refusing(&rust, step(&rust), number));
}

/// The two runs disagree only in the refusal that is due.
#[track_caller]
fn unjust(operation: &Operation, rust: &Trace, wrong: &Trace) {
    let verdict = same(operation, rust, wrong, ALL);
    assert!(matches!(&verdict, Err(what) if what.starts_with("the refusal due")), "{verdict:?}");
}

fn last(trace: &Trace) -> usize {
    trace.handed.len() - 1
}

fn said(records: &[Vec<u8>]) -> Wire {
    Wire::Scripted(records.to_vec())
}

fn pod(info: Info, change: impl FnOnce(&mut Pod)) -> Wire {
    let mut pod = Pod::new(info.bytes(), 1);
    change(&mut pod);
    Wire::Pod(pod)
}

#[test]
fn an_id_of_17_bytes_and_not_of_16() {
    let select = || Operation::Select(vec![], 0);
    let long = reply(5, 1, &[7; 17]);
    due(select(), said(&[long.clone()]), None, 14);
    due(select(), said(&[[reply(5, 0, &[7; 17]), long.clone()].concat()]), None, 14);
    due(Operation::Attach(None), said(&[long.clone()]), None, 14);
    // At a confirming Select: in the Rust only the confirmation fails.
    due(Operation::Discover(vec![]), said(&[reply(5, 1, &[0]), long.clone()]), None, 14);
    for heard in [
        reply(5, 1, &[7; 16]),
        reply(5, 2, &[7; 17]),
        reply(5, 3, &[7; 17]),
        reply(5, 0, &[7; 17]),
        damaged(long.clone()),
        [&long[..], &[0]].concat(),
        [&[0], &long[..]].concat(),
        [&long[..], &long].concat(),
    ] {
        not_due(select(), said(&[heard]), None, 14, last);
    }
    not_due(Operation::Deselect, said(&[long.clone()]), None, 14, last);
    not_due(Operation::Attach(None), said(&[vec![0], long]), None, 14, last);
}

#[test]
fn the_65th_id_and_not_the_64th() {
    let ids = |n: u8| Wire::Honest((0..n).map(|k| vec![k]).collect());
    let discover = || Operation::Discover(vec![]);
    let (rust, ours) = both(&discover(), ids(64), None);
    assert_eq!(same(&discover(), &rust, &ours, &[]), Ok(()));
    for step in 0..rust.requests.len() {
        unjust(&discover(), &rust, &refusing(&rust, step, 15));
    }
    due(discover(), ids(65), None, 15);
    let (rust, ours) = both(&discover(), ids(65), None);
    let at = last(&ours);
    for step in at - 5..=rust.requests.len() - 1 {
        if step != at {
            unjust(&discover(), &rust, &refusing(&rust, step, 15));
        }
    }
    // The Rust ends in Io: before its 65th id 15 is not due, after it 15 is.
    not_due(discover(), ids(65), Some(at), 15, last);
    due(discover(), ids(65), Some(at + 1), 15);
}

#[test]
fn the_17th_refusal_of_one_write_and_not_the_16th() {
    let flash = || Operation::Flash(vec![1; 8]);
    let refuses = |n| pod(INFO, |p| p.refuses = n);
    due(flash(), refuses(17), None, 17);
    // Info, Erase, and sixteen Writes.
    not_due(flash(), refuses(16), None, 17, |_| 17);
    // The first Write at the second offset is no longer the same Write.
    not_due(flash(), refuses(16), None, 17, |_| 19);
    let (rust, ours) = both(&flash(), refuses(17), None);
    for heard in [reply(2, 7, &[]), reply(2, 1, &[]), reply(2, 0, &[]), vec![], damaged(reply(2, 0, &[]))] {
        let (mut rust, mut ours) = (rust.clone(), ours.clone());
        for trace in [&mut rust, &mut ours] {
            trace.handed[9].record = heard.clone();
        }
        unjust(&flash(), &rust, &ours);
    }
}

#[test]
fn a_verify_of_one_byte_and_not_of_two() {
    let answered = |check: &[u8]| pod(INFO, |p| p.check = Some(check.to_vec()));
    let flash = || Operation::Flash(vec![1; 8]);
    due(flash(), answered(&[]), None, 18);
    due(flash(), answered(&[5]), None, 18);
    let right = tinyboot_protocol::crc::crc16(0xFFFF, &[1; 8]).to_le_bytes();
    for check in [&right[..], &[1, 2], &[1, 2, 3], &[right[0], right[1], 9]] {
        not_due(flash(), answered(check), None, 18, last);
    }
    // Not Ok, or a bad check: 2. No frame: 1.
    let before = [reply(0, 1, &INFO.bytes()), reply(1, 1, &[])];
    for heard in [reply(3, 2, &[]), damaged(reply(3, 1, &[])), reply(3, 1, &[])[..11].to_vec()] {
        not_due(Operation::Flash(vec![]), said(&[&before[..], &[heard]].concat()), None, 18, last);
    }
    // An Erase's reply has no payload either.
    not_due(Operation::Flash(vec![]), pod(INFO, |_| {}), None, 18, |_| 1);
}

#[test]
fn a_capacity_over_the_edge_and_not_at_it() {
    let of = |capacity, erase_size| Info { capacity, erase_size, ..INFO };
    let sound = |info| pod(info, |_| {});
    let flash = || Operation::Flash(vec![1, 2, 3, 4, 5, 6]);
    // The Rust does not end, so its link fails at the first Erase or later.
    for info in [of(0xFFFF_FFFF, 2), of(0xFFFF_FFFF, 0xFFFE), of(0xFFFF_FFF8, 0xFFFD)] {
        for fails_at in [1, 5] {
            due(Operation::Erase, sound(info), Some(fails_at), 19);
            due(flash(), sound(info), Some(fails_at), 19);
        }
    }
    for info in [
        of(0xFFFF_FFFF, 1),
        of(0xFFFF_FFFF, 0xFFFF),
        of(0xFFFF_FFFE, 2),
        of(0xFFFF_0001, 0xFFFF),
        of(0xFFFF_FFF7, 0xFFFD),
    ] {
        not_due(Operation::Erase, sound(info), Some(1), 19, |_| 0);
        not_due(flash(), sound(info), Some(2), 19, |_| 0);
    }
    let over = of(0xFFFF_FFFF, 2);
    // 5 and 6 come before 19, and an Info alone has no Erases.
    not_due(Operation::Erase, sound(Info { max_payload: 3, ..over }), None, 19, |_| 0);
    not_due(Operation::Erase, sound(Info { erase_size: 0, ..over }), None, 19, |_| 0);
    not_due(flash(), sound(Info { compat: 7, ..over }), None, 19, |_| 0);
    not_due(Operation::Info, sound(over), None, 19, |_| 0);
    due(flash(), sound(Info { compat: 0x0403_0201, ..over }), Some(1), 19);
    // 19 is given at the Info, and not later.
    let (rust, _) = both(&Operation::Erase, sound(over), Some(5));
    unjust(&Operation::Erase, &rust, &refusing(&rust, 1, 19));
}

#[test]
fn no_other_refusal_is_ever_due() {
    let (rust, _) = both(&Operation::Info, pod(INFO, |_| {}), None);
    for number in [13, 16, 20, 21, 22] {
        unjust(&Operation::Info, &rust, &refusing(&rust, 0, number));
    }
}

/// Records as a bus may hold them: frames, some of them damaged, cut or too long, with bytes between.
fn record(r: &mut Random) -> Vec<u8> {
    let mut bytes = Vec::new();
    for _ in 0..r.below(4) {
        let n = *r.pick(&[0, 1, 2, 16, 17, 30]);
        let mut f = frame(r.byte(), *r.pick(&[0, 0, 1, 1, 1, 2, 3, 9]), r.byte(), r.next() as u32, &r.bytes(n));
        match r.below(10) {
            0 => f = damaged(f),
            1 => f.truncate(r.below(f.len())),
            2 => f.insert(0, *r.pick(&[0xA5, 0])),
            3 => f[9] = 4,
            _ => {}
        }
        bytes.extend(f);
    }
    bytes
}

#[test]
fn the_reader_reads_as_the_rust() {
    let r = &mut Random::new(5);
    let mut met = [0; 5];
    for _ in 0..100_000 {
        let record = record(r);
        let one = match reference::inner::hear(&record) {
            reference::Heard::One(id) => Some(id),
            _ => None,
        };
        assert_eq!(reasons::one(&record), one.as_deref());
        let end = Rust::new().run(&Operation::Reset(true, true), said(&[record.clone()]), None, &[]).end;
        let bad = end == End::Refused(2, vec![3]);
        assert_eq!((reasons::granted(&record).is_some(), reasons::refused(&record)), (end == End::Quiet, bad));
        let io = end == End::Refused(1, vec![]);
        let meets = [one.is_some(), reasons::long_id(&record), end == End::Quiet, bad, io];
        met.iter_mut().zip(meets).for_each(|(n, meets)| *n += meets as u32);
    }
    assert!(met.iter().all(|&n| n > 1000), "{met:?}");
}
