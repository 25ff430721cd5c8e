//! Refusals in words: a text for each number, followed by the values that the refusal carries.

use std::collections::BTreeSet;
use std::error::Error;

use fahireky::{Id, Refusal};

/// One of each, in the order of their numbers.
fn all() -> [Refusal; 22] {
    let id = Id::new(&[0x0A, 0xFF]).unwrap();
    [
        Refusal::Io,
        Refusal::Device(7),
        Refusal::FirmwareTooLarge { size: 5000, capacity: 4096 },
        Refusal::CrcMismatch { expected: 0x29B1, actual: 0x1D },
        Refusal::BadInfo,
        Refusal::Incompatible { device: 0x1234_5678, image: Some(0xAB) },
        Refusal::NoDevice,
        Refusal::SeveralDevices,
        Refusal::NoSuchUid(id),
        Refusal::AmbiguousUid(id),
        Refusal::NotAddressable,
        Refusal::DuplicateUid,
        Refusal::BadPrefix,
        Refusal::LongId,
        Refusal::TableFull,
        Refusal::ShortBuffer(1036),
        Refusal::RetriesSpent,
        Refusal::ShortVerify,
        Refusal::SpansTooFar,
        Refusal::OtherImage,
        Refusal::OutOfTurn,
        Refusal::BadText,
    ]
}

#[test]
fn each_number_has_its_own_text() {
    assert_eq!(all().map(|r| usize::from(r.number())), std::array::from_fn(|i| i + 1));
    assert_eq!(all().iter().map(Refusal::text).collect::<BTreeSet<_>>().len(), 22);
    assert!(all().iter().all(|r| r.to_string().starts_with(r.text())));
}

/// What is printed after the text.
fn values(refusal: Refusal) -> String {
    refusal.to_string()[refusal.text().len()..].into()
}

#[test]
fn values_follow_the_text() {
    let printed = [
        (2, ": status 7"),
        (3, ": 5000 bytes, capacity 4096"),
        (4, ": expected 0x29b1, got 0x001d"),
        (6, ": pod 0x12345678, image 0x000000ab"),
        (9, ": prefix 0aff"),
        (10, ": prefix 0aff"),
        (16, ": needs 1036 bytes"),
    ];
    for refusal in all() {
        let expected = printed.iter().find(|x| x.0 == refusal.number()).map_or("", |x| x.1);
        assert_eq!(values(refusal), expected);
    }
    assert_eq!(values(Refusal::Incompatible { device: 1, image: None }), ": pod 0x00000001, image without a key");
    assert_eq!(values(Refusal::NoSuchUid(Id::default())), ": empty prefix");
}

#[test]
fn a_refusal_is_an_error() {
    let error: Box<dyn Error + Send + Sync> = Refusal::OutOfTurn.into();
    assert_eq!(error.to_string(), "the call is not allowed at this point");
    assert!(error.source().is_none());
}
