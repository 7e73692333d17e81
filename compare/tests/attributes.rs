//! The attribute reader, and what a value says.

mod common;

use common::fault;
use compare::attributes::{Attribute, Attributes, Number, Value, number};

#[test]
fn attributes_one_after_another() {
    let part = [
        &[9, 2, 0, b'k', b'l', 31, 3, 0, 0, 0, b'a', b'b', b'c'][..],
        &[0, 0, 0, 32, 0, 0, 0, 0],
        &[1, 1, 0, b'x', 2, 2, 0, 0, 0, 0xfe, 0xff],
    ]
    .concat();
    let mut reader = Attributes::new(&part);
    let first = Attribute {
        namespace: 9,
        key: b"kl",
        key_place: 3,
        kind: 31,
        value: Value::Text(b"abc"),
        value_place: 10,
    };
    assert_eq!(reader.next(), Ok(Some(first)));
    let second = Attribute {
        namespace: 0,
        key: b"",
        key_place: 16,
        kind: 32,
        value: Value::Raw(b""),
        value_place: 21,
    };
    assert_eq!(reader.next(), Ok(Some(second)));
    assert_eq!((first.number(), second.number()), (None, None));
    let third = reader.next().unwrap().unwrap();
    assert_eq!((third.kind, third.value), (2, Value::Number(&[0xfe, 0xff])));
    assert_eq!((third.key_place, third.value_place), (24, 30));
    assert_eq!(third.number(), Some(Number::Signed(-2)));
    assert!(
        std::ptr::eq(third.key, &part[24..25]),
        "the caller's very memory"
    );
    assert_eq!((reader.next(), reader.next()), (Ok(None), Ok(None)));
    assert_eq!(Attributes::new(&[]).next(), Ok(None));
}

#[test]
fn a_fault_does_not_move_the_reader() {
    let good = [7, 0, 0, 21, 1, 0, 0, 0, 1];
    // A namespace, a key's length and its byte, a type, a size and 4 bytes: places 9, 10, 12, 13, 14 and 18.
    let other = [7, 1, 0, b'x', 6, 4, 0, 0, 0, 1, 2, 3, 4];
    let part = [&good[..], &other].concat();
    for (length, place) in (10..22).zip([10, 10, 12, 13, 14, 14, 14, 14, 18, 18, 18, 18]) {
        let mut reader = Attributes::new(&part[..length]);
        assert!(reader.next().unwrap().is_some());
        let expected = Err(fault(10, place, 0, 3, Some(1)));
        assert_eq!(
            (reader.next(), reader.next()),
            (expected, expected),
            "{length}"
        );
    }
    let with = |at: usize, byte: u8| {
        let mut part = part.clone();
        part[at] = byte;
        let mut reader = Attributes::new(&part);
        reader.next().unwrap();
        reader.next().unwrap_err()
    };
    assert_eq!(with(13, 9), fault(13, 13, 0, 3, Some(1)));
    assert_eq!(with(14, 5), fault(13, 14, 0, 3, Some(1)));
    assert_eq!(with(13, 1), fault(13, 14, 0, 3, Some(1)));
    assert_eq!(with(17, 1), fault(13, 14, 0, 3, Some(1)));
    assert_eq!(with(10, 200), fault(10, 12, 0, 3, Some(1)));
}

#[test]
fn the_size_that_a_type_asks_for() {
    let lawful = |kind: u8, size: u8| {
        let mut part = vec![0, 0, 0, kind, size, 0, 0, 0];
        part.extend(vec![0; size.into()]);
        Attributes::new(&part).next().is_ok()
    };
    let sizes = |kind| {
        (0..12)
            .filter(|&size| lawful(kind, size))
            .collect::<Vec<_>>()
    };
    for kind in 0..=255 {
        let expected = match kind {
            1 | 4 | 21 => vec![1],
            2 | 5 => vec![2],
            3 | 6 | 7 | 22 | 23 => vec![4],
            8 => vec![8],
            31 | 32 => (0..12).collect(),
            _ => vec![],
        };
        assert_eq!(sizes(kind), expected, "{kind}");
    }
}

#[test]
fn what_a_value_says() {
    assert_eq!(number(1, &[0x80]), Some(Number::Signed(-128)));
    assert_eq!(number(1, &[0x7f]), Some(Number::Signed(127)));
    assert_eq!(number(2, &[0x00, 0x80]), Some(Number::Signed(-32768)));
    assert_eq!(number(2, &[0xff, 0x7f]), Some(Number::Signed(32767)));
    assert_eq!(
        number(3, &[0, 0, 0, 0x80]),
        Some(Number::Signed(-2_147_483_648))
    );
    assert_eq!(number(3, &[1, 2, 0, 0]), Some(Number::Signed(513)));
    assert_eq!(number(4, &[0x80]), Some(Number::Unsigned(128)));
    assert_eq!(number(5, &[0, 0x80]), Some(Number::Unsigned(32768)));
    for kind in [6, 22, 23] {
        assert_eq!(
            number(kind, &[1, 0, 0, 0xff]),
            Some(Number::Unsigned(4_278_190_081))
        );
    }
    assert_eq!(
        number(7, &[0, 0, 0x80, 0x3f]),
        Some(Number::Single(0x3f80_0000))
    );
    assert_eq!(
        number(7, &[0, 0, 0x80, 0xff]),
        Some(Number::Single(0xff80_0000))
    );
    assert_eq!(
        number(7, &[1, 0, 0x80, 0xff]),
        Some(Number::Single(0x7fc0_0000))
    );
    let one = [0, 0, 0, 0, 0, 0, 0xf0, 0x3f];
    assert_eq!(number(8, &one), Some(Number::Double(0x3ff0_0000_0000_0000)));
    let none = [1, 0, 0, 0, 0, 0, 0xf0, 0xff];
    assert_eq!(
        number(8, &none),
        Some(Number::Double(0x7ff8_0000_0000_0000))
    );
    assert_eq!(number(21, &[0]), Some(Number::YesNo(false)));
    assert_eq!(number(21, &[1]), Some(Number::YesNo(true)));
    assert_eq!(number(21, &[0x80]), Some(Number::YesNo(true)));
}

#[test]
fn no_value_where_the_bytes_have_not_the_types_size() {
    let bytes = [0; 9];
    for kind in 0..=255 {
        let size = match kind {
            1 | 4 | 21 => 1,
            2 | 5 => 2,
            3 | 6 | 7 | 22 | 23 => 4,
            8 => 8,
            _ => usize::MAX,
        };
        for length in 0..=9 {
            assert_eq!(
                number(kind, &bytes[..length]).is_some(),
                length == size,
                "{kind} {length}"
            );
        }
    }
}
