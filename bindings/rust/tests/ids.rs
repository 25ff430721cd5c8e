//! Ids: their order beside that of the library's answers, and their texts.

#[path = "../examples/wire/mod.rs"]
mod wire;

use std::collections::{BTreeSet, HashSet};
use std::convert::Infallible;

use fahireky::{Client, Id, LONGEST, Link, Next, Outcome, Refusal};
use wire::Wire;

fn id(bytes: &[u8]) -> Id {
    Id::new(bytes).unwrap()
}

/// Ids of 1 to 16 bytes, of which none begins another: the first byte is different in each.
fn different(seed: u64) -> Vec<Id> {
    let mut x = seed;
    let mut next = || {
        x = x.wrapping_mul(6_364_136_223_846_793_005).wrapping_add(1_442_695_040_888_963_407);
        (x >> 33) as u8
    };
    (0..40u8)
        .map(|k| {
            let n = usize::from(next()) % LONGEST;
            let tail: Vec<u8> = (0..n).map(|_| next()).collect();
            id(&[&[k.wrapping_mul(37)], &tail[..]].concat())
        })
        .collect()
}

/// What the library answers to a discovery of these ids on an honest wire.
fn discovered(ids: &[Id]) -> Outcome {
    let mut wire = Wire::new(ids);
    let mut link = Link::new(|request: &[u8]| Ok::<_, Infallible>(wire.exchange(request)));
    let mut client = Client::new();
    client.start_discover(&[]).unwrap();
    client.run(&[], &mut link, |_, _| {}).unwrap()
}

#[test]
fn the_order_is_that_of_a_discovery() {
    let pair = [id(&[0x02]), id(&[0x01, 0x00])];
    assert!(pair[1] < pair[0]);
    assert_eq!(discovered(&pair), Outcome::Found(vec![pair[1], pair[0]]));
    for seed in 0..20 {
        let mut ids = different(seed);
        let found = discovered(&ids);
        ids.sort();
        assert_eq!(found, Outcome::Found(ids));
    }
}

/// The list that the library hands out when it holds these ids in this order. They are put into the bytes of a state
/// whose discovery is about to end; its list has 64 rows, their lengths and their count.
fn handed_out(ids: &[Id]) -> Outcome {
    const ROWS: usize = 239;
    let mut client = Client::new();
    client.start_discover(&[]).unwrap();
    client.request(&[], &mut [0; 64]).unwrap();
    assert_eq!(client.record(&[], &[]).answer, Ok(Next::Onward));
    client.request(&[], &mut [0; 64]).unwrap();
    let mut state = *client.state();
    for (i, id) in ids.iter().enumerate() {
        state[ROWS + LONGEST * i..][..id.bytes().len()].copy_from_slice(id.bytes());
        state[ROWS + 64 * LONGEST + i] = id.bytes().len() as u8;
    }
    state[ROWS + 64 * LONGEST + 64] = ids.len() as u8;
    match Client::from_state(state).record(&[], &[]).answer {
        Ok(Next::Over(outcome)) => outcome,
        other => panic!("the discovery does not end: {other:?}"),
    }
}

#[test]
fn the_order_is_that_of_the_library_where_one_id_begins_another() {
    let texts = ["0100", "01", "02", "010000", "", "00", "0001", "ff", "ff00", "0000", "0101", "fe"];
    let mut ids: Vec<Id> = texts.iter().map(|text| text.parse().unwrap()).collect();
    let given = handed_out(&ids);
    ids.sort();
    assert_eq!(given, Outcome::Found(ids.clone()));
    let sorted: Vec<String> = ids.iter().map(Id::to_string).collect();
    assert_eq!(sorted, ["", "00", "0000", "0001", "01", "0100", "010000", "0101", "02", "fe", "ff", "ff00"]);
}

#[test]
fn order_equality_and_hash_agree() {
    let ids = [&[][..], &[0], &[0, 0], &[1], &[1, 0], &[2], &[0; 16]].map(id);
    for a in ids {
        for b in ids {
            assert_eq!(a == b, a.cmp(&b).is_eq());
            assert_eq!(a.partial_cmp(&b), Some(a.cmp(&b)));
            assert_eq!(a.cmp(&b), a.bytes().cmp(b.bytes()));
        }
    }
    assert_eq!(ids.iter().chain(&ids).collect::<HashSet<_>>().len(), ids.len());
    assert_eq!(ids.iter().chain(&ids).collect::<BTreeSet<_>>().len(), ids.len());
    assert_eq!(Id::default(), id(&[]));
}

#[test]
fn texts() {
    let x: Id = "0aFf".parse().unwrap();
    assert_eq!((x, x.to_string(), x.text()), (id(&[0x0A, 0xFF]), "0aff".into(), "0aff".into()));
    assert_eq!((format!("{x:?}"), format!("[{x:>6}]")), ("Id(0aff)".into(), "[  0aff]".into()));
    assert_eq!((id(&[]).to_string(), format!("{:?}", id(&[]))), (String::new(), "Id()".into()));
    for bad in ["0", "0g", "+f", "aéb", " 00", &"00".repeat(17)] {
        assert_eq!(bad.parse::<Id>(), Err(Refusal::BadText));
        assert_eq!(Id::parse(bad), Err(Refusal::BadText));
    }
    let longest = "0123456789abcdef".repeat(2);
    assert_eq!(longest.parse::<Id>().unwrap().to_string(), longest);
}

#[test]
fn bytes() {
    assert_eq!(Id::try_from(&[7; 16][..]), Ok(id(&[7; 16])));
    assert_eq!(Id::try_from(&[7; 17][..]), Err(Refusal::BadPrefix));
    assert_eq!((Id::new(&[0; 17]), Id::new(&[0; 256])), (None, None));
    assert_eq!(id(&[1, 2]).as_ref(), [1, 2]);
}
