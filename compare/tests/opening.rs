//! The document's header, and the order in which opening judges it.

mod common;

use common::{call_fault, document, fault};
use compare::fault::Fault;
use compare::header::Header;
use compare::session::Session;
use compare::source::Run;

fn open(bytes: &[u8]) -> Result<Header, Fault> {
    let mut session = Session::new(Run::new(bytes));
    let answer = session.open();
    assert_eq!(session.header(), answer.ok());
    if answer.is_err() {
        assert_eq!(session.open(), answer, "a refused opening changes nothing");
        assert_eq!(session.next(), Err(call_fault(8, 0)));
    }
    answer
}

fn header_fault(cause: u8, place: u64) -> Result<Header, Fault> {
    Err(fault(cause, place, 0, 0, None))
}

#[test]
fn a_header_alone_is_a_document() {
    let bytes = document(0, &[[]]);
    assert_eq!(
        open(&bytes),
        Ok(Header {
            version: 2,
            revision: 1,
            flags: 0
        })
    );
    let mut session = Session::new(Run::new(&bytes));
    session.open().unwrap();
    assert_eq!((session.next(), session.next()), (Ok(None), Ok(None)));
    assert_eq!(session.open(), Err(call_fault(1, 0)));
    assert_eq!(session.count(), 0);
}

#[test]
fn what_the_header_says() {
    assert_eq!(open(b"AWD\x02\x00\x34\x12\0\0\0\0\0").unwrap().revision, 0);
    assert_eq!(
        open(b"AWD\x02\x00\x34\x12\0\0\0\0\0").unwrap().flags,
        0x1234
    );
}

#[test]
fn fewer_than_twelve_bytes() {
    for length in 0..12 {
        assert_eq!(
            open(&b"XXXXXXXXXXXX"[..length]),
            header_fault(2, length as u64)
        );
    }
}

#[test]
fn a_document_that_is_too_long() {
    let bytes = vec![0; 16_777_217];
    assert_eq!(open(&bytes), header_fault(3, 16_777_216));
    assert_eq!(open(&bytes[..16_777_216]), header_fault(4, 0));
}

#[test]
fn each_byte_that_is_judged() {
    let good = *b"AWD\x02\x01\0\0\0\x02\0\0\0\x00\x00";
    assert!(open(&good).is_ok());
    let with = |at: usize, byte: u8| {
        let mut bytes = good;
        bytes[at] = byte;
        open(&bytes)
    };
    assert_eq!(with(0, b'a'), header_fault(4, 0));
    assert_eq!(with(1, b'a'), header_fault(4, 1));
    assert_eq!(with(2, b'X'), header_fault(4, 2));
    assert_eq!(with(3, 1), header_fault(5, 3));
    assert_eq!(with(3, 3), header_fault(5, 3));
    assert_eq!(with(4, 2), header_fault(5, 4));
    assert_eq!(with(7, 1), header_fault(6, 7));
    assert_eq!(with(8, 1), header_fault(7, 8));
    assert_eq!(with(8, 3), header_fault(7, 8));
    assert_eq!(with(9, 1), header_fault(7, 8));
    assert_eq!(with(11, 1), header_fault(7, 8));
    assert!(with(4, 0).is_ok());
    assert!(with(5, 0xff).is_ok());
    assert!(with(6, 0xff).is_ok());
}

#[test]
fn the_first_rule_that_is_not_kept_is_told() {
    assert_eq!(open(b"AxD\x01\x02\0\0\x01\0\0\0\0"), header_fault(4, 1));
    assert_eq!(open(b"Axd\x02\x01\0\0\0\0\0\0\0"), header_fault(4, 1));
    assert_eq!(open(b"AWD\x01\x02\0\0\x01\x01\0\0\0"), header_fault(5, 3));
    assert_eq!(open(b"AWD\x02\x02\0\0\x01\x01\0\0\0"), header_fault(5, 4));
    assert_eq!(open(b"AWD\x02\x01\0\0\x01\x01\0\0\0"), header_fault(6, 7));
}

#[test]
fn a_streaming_document_leaves_its_body_length_open() {
    assert!(open(b"AWD\x02\x01\x01\0\0\xff\xff\xff\xff").is_ok());
    assert_eq!(
        open(b"AWD\x02\x01\0\x01\0\xff\xff\xff\xff"),
        header_fault(7, 8)
    );
    assert_eq!(
        open(b"AWD\x02\x01\x01\0\x01\xff\xff\xff\xff"),
        header_fault(6, 7)
    );
}
