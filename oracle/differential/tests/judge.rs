//! The comparison can fail: changing any compared field in one of two equal runs gives a disagreement.

use differential::run::{End, Operation, Ours, Rust, Trace, same};
use differential::wire::{Info, Pod, Wire, reply};

const INFO: Info = Info { capacity: 8, erase_size: 4, compat: 0xFFFF_FFFF, max_payload: 4 };

fn both(operation: &Operation, wire: Wire, fails_at: Option<usize>) -> (Trace, Trace) {
    (Rust::new().run(operation, wire.clone(), fails_at, &[]), Ours::new().run(operation, wire, fails_at, &[], true))
}

fn flash() -> Operation {
    Operation::Flash(vec![1, 2, 3, 4, 5])
}

#[test]
fn equal_runs_agree() {
    let (rust, ours) = both(&flash(), Wire::Pod(Pod::new(INFO.bytes(), 1)), None);
    assert_eq!(same(&flash(), &rust, &ours, &[]), Ok(()));
}

#[test]
fn each_thing_compared_can_disagree() {
    let changes: [fn(&mut Trace); 13] = [
        |t| t.before.attached = Some(vec![1]),
        |t| t.before.seed += 1,
        |t| t.requests[3][7] ^= 1,
        |t| drop(t.requests.pop()),
        |t| t.handed[2].record[11] ^= 1,
        |t| drop(t.handed.pop()),
        |t| t.handed[3].read -= 1,
        |t| t.handed[1].progress[0].0 += 1,
        |t| t.handed[1].progress.clear(),
        |t| t.end = End::Refused(4, vec![1, 2]),
        |t| t.after.attached = Some(vec![1]),
        |t| t.after.seed += 1,
        |t| t.rest.push(0),
    ];
    for change in changes {
        let (rust, mut ours) = both(&flash(), Wire::Pod(Pod::new(INFO.bytes(), 1)), None);
        change(&mut ours);
        assert!(same(&flash(), &rust, &ours, &[]).is_err());
    }
}

#[test]
fn after_io_the_rest_is_not_compared_and_the_steps_before_it_are() {
    // In a frame that is too long the Rust stops. The record before it is read to its end.
    let records = vec![reply(0, 1, &INFO.bytes()), vec![0xA5, 1, 1, 0, 0, 0, 0, 0, 1, 4, 0]];
    let (rust, mut ours) = both(&flash(), Wire::Scripted(records), None);
    assert_eq!((&rust.end, rust.handed[1].read, ours.handed[1].read), (&End::Refused(1, vec![]), 10, 11));
    assert_eq!(same(&flash(), &rust, &ours, &[]), Ok(()));
    ours.handed[0].read -= 1;
    assert!(same(&flash(), &rust, &ours, &[]).is_err());
    // A failed link has no record, so all records are compared.
    let (rust, mut ours) = both(&flash(), Wire::Pod(Pod::new(INFO.bytes(), 1)), Some(2));
    assert_eq!(same(&flash(), &rust, &ours, &[]), Ok(()));
    ours.handed[1].read -= 1;
    assert!(same(&flash(), &rust, &ours, &[]).is_err());
}

#[test]
fn a_refusal_is_excused_only_where_it_may_occur() {
    let operation = Operation::Select(vec![], 0);
    let (rust, ours) = both(&operation, Wire::Scripted(vec![reply(5, 1, &[0; 17])]), None);
    assert!(same(&operation, &rust, &ours, &[]).is_err());
    assert!(same(&operation, &rust, &ours, &[15, 17, 18, 19]).is_err());
    assert_eq!(same(&operation, &rust, &ours, &[14]), Ok(()));
}

#[test]
fn a_refusal_leaves_the_attached_id_and_the_seed_of_its_select() {
    let operation = Operation::Select(vec![], 0);
    let changes: [fn(&mut Trace); 3] =
        [|t| t.after.attached = Some(vec![0; 16]), |t| t.after.seed += 1, |t| t.after.seed -= 1];
    for change in changes {
        let (rust, mut ours) = both(&operation, Wire::Scripted(vec![reply(5, 1, &[0; 17])]), None);
        assert_eq!(same(&operation, &rust, &ours, &[14]), Ok(()));
        change(&mut ours);
        assert!(same(&operation, &rust, &ours, &[14]).is_err());
    }
}
