//! Edits, undo, what is told as edited, and sessions over sessions.

mod common;

use common::*;
use compare::calls::{Answer, Call, Content, make};
use compare::session::Session;
use compare::source::{Pages, Run, Source, Window};

/// Blocks with widths of their own: 0 a geometry (carried), 1 a material, 2 a container at the root, 3 a container in
/// it, 4 a mesh instance in 3 with a matrix of 8-byte cells and the materials 0 and 2, 5 a material that is carried in
/// another namespace, 6 a light in 2, 7 a light picker.
fn scene() -> Vec<u8> {
    let wide = [
        head(4, 8, "m"),
        vec![1, 0, 0, 0],
        addresses(&[0, 2]),
        vec![0; 8],
    ]
    .concat();
    let blocks = [
        block(1, 11, &[]),
        block(2, 81, &[]),
        container(3, 0, "a"),
        container(4, 3, ""),
        flagged(1, block(5, 23, &wide)),
        foreign(2, block(6, 81, &[])),
        light(7, 3, 1),
        picker(8, &[7]),
    ];
    document(16, &blocks)
}

/// Where the blocks of the scene begin. Their sizes are 11, 11, 74, 73, 11 + 125, 11, 74 and 23.
const PLACES: [u64; 8] = [12, 23, 34, 108, 181, 317, 328, 402];

fn opened(bytes: &[u8]) -> Session<Run<'_>> {
    let (session, end) = read(bytes);
    assert_eq!(end, Ok(()));
    session
}

fn laid(bytes: &[u8], place: usize, over: &[u8]) -> Vec<u8> {
    let mut bytes = bytes.to_vec();
    bytes[place..place + over.len()].copy_from_slice(over);
    bytes
}

#[test]
fn the_scene_is_as_described() {
    let bytes = scene();
    let session = opened(&bytes);
    for (number, place) in (0..).zip(PLACES) {
        assert_eq!(session.record(number).unwrap().place, place);
    }
    assert_eq!(
        (session.count(), session.edits(), session.length()),
        (8, 0, 425)
    );
    let paths = [0, 1, 2, 3, 4, 5, 6, 7].map(|block| session.path(block));
    assert_eq!(
        paths,
        [None, None, Some(0), Some(1), Some(2), None, Some(1), None]
    );
    assert_eq!(
        [0, 1, 2].map(|at| session.material(4, at)),
        [Some(0), Some(2), None]
    );
    assert_eq!(session.material(3, 0), None);
    assert_eq!(session.material(4, u64::MAX), None);
}

#[test]
fn before_the_document_is_open() {
    let bytes = scene();
    let mut session = Session::new(Run::new(&bytes));
    assert_eq!(session.next(), Err(call_fault(8, 0)));
    assert_eq!(session.reparent(9, 7), Err(call_fault(8, 9)));
    assert_eq!(session.dress(u64::MAX, 0, 7), Err(call_fault(8, u64::MAX)));
    assert_eq!(
        session.nudge(3, 99, Content::Single(0)),
        Err(call_fault(8, 3))
    );
    assert_eq!(session.undo(), Err(call_fault(8, 0)));
    assert_eq!(
        (session.count(), session.edits(), session.header()),
        (0, 0, None)
    );
    assert_eq!(
        (session.record(0), session.number(1), session.path(0)),
        (None, None, None)
    );
    assert_eq!((session.material(0, 0), session.cell(0, 0)), (None, None));
    assert_eq!(
        (session.length(), session.byte(1), session.byte(425)),
        (425, Some(b'W'), None)
    );
}

#[test]
fn a_reparent_and_what_tells_of_it() {
    let bytes = scene();
    let mut session = opened(&bytes);
    session.reparent(4, 7).unwrap_err();
    session.reparent(4, 3).unwrap();
    assert_eq!(all(&session), laid(&bytes, 181 + 11, &[3, 0, 0, 0]));
    assert_eq!(
        (session.record(4).unwrap().parent, session.path(4)),
        (Some(3), Some(1))
    );
    session.reparent(3, 0).unwrap();
    session.reparent(4, 4).unwrap();
    assert_eq!((session.path(3), session.path(4)), (Some(0), Some(1)));
    session.reparent(4, 0).unwrap();
    assert_eq!(
        (session.record(4).unwrap().parent, session.path(4)),
        (Some(0), Some(0))
    );
    assert_eq!(session.edits(), 4);
    let parents = [Some(4), Some(3), Some(3), Some(4)];
    let threes = [Some(0), Some(0), Some(3), Some(3)];
    for (four, three) in parents.into_iter().zip(threes) {
        session.undo().unwrap();
        assert_eq!(session.record(4).unwrap().parent, four);
        assert_eq!(session.record(3).unwrap().parent, three);
    }
    assert_eq!(session.undo(), Err(call_fault(25, 0)));
    assert_eq!(all(&session), bytes);
}

#[test]
fn a_refused_reparent() {
    let bytes = scene();
    let mut session = opened(&bytes);
    for number in [8, 512, u64::MAX] {
        assert_eq!(session.reparent(number, 0), Err(call_fault(18, number)));
    }
    for number in [0, 1, 5, 7] {
        assert_eq!(session.reparent(number, 0), Err(call_fault(19, number)));
    }
    // Of another kind, of another namespace, itself, a later one, and none at all.
    for address in [1, 2, 6, 4, 5, 7, 9, u32::MAX] {
        assert_eq!(
            session.reparent(3, address),
            Err(call_fault(14, 3)),
            "{address}"
        );
    }
    assert_eq!((session.edits(), all(&session)), (0, bytes.clone()));
    // The light picker is a later block than the light, but no parent.
    session.reparent(6, 5).unwrap();
    assert_eq!(session.path(6), Some(3));
}

#[test]
fn dressing() {
    let bytes = scene();
    let mut session = opened(&bytes);
    assert_eq!(session.dress(8, 9, 9), Err(call_fault(18, 8)));
    for number in [0, 2, 6, 7] {
        assert_eq!(session.dress(number, 9, 9), Err(call_fault(19, number)));
    }
    for position in [2, 3, 65536, u64::MAX, 1 << 62] {
        assert_eq!(
            session.dress(4, position, 9),
            Err(call_fault(21, 4)),
            "{position}"
        );
    }
    for address in [1, 3, 5, 6, 9, u32::MAX] {
        assert_eq!(
            session.dress(4, 0, address),
            Err(call_fault(14, 4)),
            "{address}"
        );
    }
    // Head: 4 + 96 + 3, geometry 4, count 2: the materials are 109 bytes into the body at 192.
    session.dress(4, 0, 2).unwrap();
    session.dress(4, 1, 0).unwrap();
    let both = laid(&bytes, 192 + 109, &[2, 0, 0, 0, 0, 0, 0, 0]);
    assert_eq!(all(&session), both);
    assert_eq!([0, 1].map(|at| session.material(4, at)), [Some(2), Some(0)]);
    session.undo().unwrap();
    assert_eq!([0, 1].map(|at| session.material(4, at)), [Some(2), Some(2)]);
    session.undo().unwrap();
    assert_eq!(all(&session), bytes);
}

#[test]
fn an_address_is_refused_where_the_changed_document_would_be() {
    let bytes = scene();
    let mut session = opened(&bytes);
    for address in (0..12).chain([256, u32::MAX]) {
        let read_with = |place: u64| read(&laid(&bytes, place as usize, &address.to_le_bytes())).1;
        for block in [2, 3, 4, 6] {
            let place = PLACES[block as usize] + 11;
            let expected = read_with(place).map_err(|fault| {
                assert_eq!((fault.cause, fault.place, fault.block), (14, place, block));
                call_fault(14, block)
            });
            assert_eq!(
                session.reparent(block, address),
                expected,
                "{block} {address}"
            );
        }
        for position in 0..2 {
            let place = 192 + 109 + 4 * position;
            let expected = read_with(place).map_err(|_| call_fault(14, 4));
            assert_eq!(
                session.dress(4, position, address),
                expected,
                "{position} {address}"
            );
        }
        let edited = all(&session);
        let again = opened(&edited);
        for block in 0..8 {
            assert_eq!(session.record(block), again.record(block));
            assert_eq!(session.path(block), again.path(block));
        }
    }
}

#[test]
fn a_refused_nudge() {
    let bytes = scene();
    let mut session = opened(&bytes);
    let no_single = Content::Single(0x7f80_0001);
    let no_double = Content::Double(0xfff0_0000_0000_0001);
    assert_eq!(session.nudge(8, 99, no_double), Err(call_fault(18, 8)));
    assert_eq!(session.nudge(1, 99, no_double), Err(call_fault(19, 1)));
    for cell in [12, 13, u64::MAX, 1 << 61] {
        assert_eq!(session.nudge(3, cell, no_double), Err(call_fault(22, 3)));
    }
    assert_eq!(session.nudge(3, 11, no_double), Err(call_fault(23, 3)));
    assert_eq!(session.nudge(4, 11, no_single), Err(call_fault(23, 4)));
    assert_eq!(session.nudge(3, 11, no_single), Err(call_fault(24, 3)));
    assert_eq!(session.nudge(4, 11, no_double), Err(call_fault(24, 4)));
    assert_eq!((session.edits(), all(&session)), (0, bytes.clone()));
}

#[test]
fn nudging() {
    let bytes = scene();
    let mut session = opened(&bytes);
    let one = Content::Single(1_f32.to_bits());
    let two = Content::Double(2_f64.to_bits());
    // Cell 0 of block 3 is at 108 + 11 + 4 and cell 11 of block 4 at 192 + 4 + 88.
    session.nudge(3, 0, one).unwrap();
    let first = laid(&bytes, 123, &[0, 0, 0x80, 0x3f]);
    assert_eq!(all(&session), first);
    session.nudge(4, 11, two).unwrap();
    let both = laid(&first, 284, &[0, 0, 0, 0, 0, 0, 0, 0x40]);
    assert_eq!(all(&session), both);
    assert_eq!(
        (session.cell(3, 0), session.cell(4, 11)),
        (Some(one), Some(two))
    );
    assert_eq!(
        (session.cell(3, 12), session.cell(3, u64::MAX)),
        (None, None)
    );
    assert_eq!((session.cell(7, 0), session.cell(5, 0)), (None, None));
    // Infinity and minus zero are numbers, and lay their own bits.
    session.nudge(6, 5, Content::Single(0xff80_0000)).unwrap();
    session.nudge(6, 6, Content::Single(0x8000_0000)).unwrap();
    session
        .nudge(4, 0, Content::Double(0x7ff0_0000_0000_0000))
        .unwrap();
    assert_eq!(session.cell(6, 5), Some(Content::Single(0xff80_0000)));
    assert_eq!(session.cell(6, 6), Some(Content::Single(0x8000_0000)));
    assert_eq!(
        session.cell(4, 0),
        Some(Content::Double(0x7ff0_0000_0000_0000))
    );
    for _ in 0..5 {
        session.undo().unwrap();
    }
    assert_eq!(all(&session), bytes);
}

#[test]
fn an_edit_near_the_end_adds_no_bytes() {
    let bytes = scene();
    let mut session = opened(&bytes);
    // Cell 11 of the light is at 328 + 11 + 4 + 44, 38 bytes before the document's end.
    session.nudge(6, 11, Content::Single(0x0403_0201)).unwrap();
    assert_eq!(
        (session.length(), session.byte(425), session.byte(447)),
        (425, None, None)
    );
    assert_eq!(all(&session), laid(&bytes, 387, &[1, 2, 3, 4]));
}

#[test]
fn bits_that_are_no_numbers_are_told_as_one() {
    let mut bytes = scene();
    bytes[123..127].copy_from_slice(&0xff80_0001_u32.to_le_bytes());
    bytes[196..204].copy_from_slice(&0x7fff_ffff_ffff_ffff_u64.to_le_bytes());
    let session = opened(&bytes);
    assert_eq!(session.cell(3, 0), Some(Content::Single(0x7fc0_0000)));
    assert_eq!(
        session.cell(4, 0),
        Some(Content::Double(0x7ff8_0000_0000_0000))
    );
    assert_eq!(all(&session), bytes);
}

#[test]
fn undo_goes_back_to_an_older_standing_edit() {
    let bytes = scene();
    let mut session = opened(&bytes);
    session.nudge(3, 5, Content::Single(1)).unwrap();
    session.dress(4, 1, 0).unwrap();
    session.nudge(3, 5, Content::Single(2)).unwrap();
    session.nudge(3, 5, Content::Single(2)).unwrap();
    assert_eq!(
        session.edits(),
        4,
        "an edit that lays what is there already is an edit"
    );
    session.undo().unwrap();
    assert_eq!(session.cell(3, 5), Some(Content::Single(2)));
    session.undo().unwrap();
    assert_eq!(session.cell(3, 5), Some(Content::Single(1)));
    assert_eq!(session.material(4, 1), Some(0));
    session.undo().unwrap();
    assert_eq!(
        (session.cell(3, 5), session.material(4, 1)),
        (Some(Content::Single(1)), Some(2))
    );
    session.undo().unwrap();
    assert_eq!(session.cell(3, 5), Some(Content::Single(0)));
}

#[test]
fn at_most_256_edits_stand() {
    let bytes = scene();
    let mut session = opened(&bytes);
    for k in 0..256 {
        session.nudge(3, k % 12, Content::Single(k as u32)).unwrap();
    }
    let full = all(&session);
    assert_eq!(session.edits(), 256);
    // 20 is told last.
    assert_eq!(
        session.nudge(3, 0, Content::Single(7)),
        Err(call_fault(20, 3))
    );
    assert_eq!(
        session.nudge(3, 0, Content::Single(0x7fc0_0000)),
        Err(call_fault(24, 3))
    );
    assert_eq!(session.reparent(3, 0), Err(call_fault(20, 3)));
    assert_eq!(session.reparent(3, 1), Err(call_fault(14, 3)));
    assert_eq!(session.dress(4, 0, 0), Err(call_fault(20, 4)));
    assert_eq!(session.dress(4, 0, 1), Err(call_fault(14, 4)));
    assert_eq!(session.dress(4, 2, 0), Err(call_fault(21, 4)));
    assert_eq!((session.edits(), all(&session)), (256, full));
    assert_eq!(session.cell(3, 3), Some(Content::Single(255)));
    session.undo().unwrap();
    assert_eq!(session.cell(3, 3), Some(Content::Single(243)));
    session.reparent(3, 0).unwrap();
    assert_eq!(session.undo(), Ok(()));
    for _ in 0..255 {
        session.undo().unwrap();
    }
    assert_eq!(
        (session.undo(), all(&session)),
        (Err(call_fault(25, 0)), bytes)
    );
}

#[test]
fn next_goes_on_while_edits_stand() {
    let bytes = scene();
    let mut session = Session::new(Run::new(&bytes));
    session.open().unwrap();
    for _ in 0..4 {
        session.next().unwrap();
    }
    session.reparent(3, 0).unwrap();
    assert_eq!(session.reparent(4, 0), Err(call_fault(18, 4)));
    assert_eq!(session.next(), Ok(Some(4)));
    assert_eq!(session.path(4), Some(1));
    session.undo().unwrap();
    assert_eq!(session.path(4), Some(2));
    assert_eq!(take_all(&mut session), Ok(()));
}

#[test]
fn a_refused_next_leaves_what_is_taken() {
    let blocks = [container(1, 0, ""), container(2, 1, ""), block(9, 9, &[])];
    let bytes = document(0, &blocks);
    let (mut session, end) = read(&bytes);
    let fault = fault(11, 12 + 73 + 73, 2, 1, None);
    assert_eq!(end, Err(fault));
    session.reparent(1, 0).unwrap();
    assert_eq!(session.next(), Err(fault));
    assert_eq!((session.count(), session.edits()), (2, 1));
    assert_eq!(session.record(1).unwrap().parent, Some(0));
}

#[test]
fn a_session_over_a_session() {
    let bytes = scene();
    let mut lower = opened(&bytes);
    lower.reparent(4, 3).unwrap();
    lower.nudge(4, 1, Content::Double(17)).unwrap();
    let below = all(&lower);
    let mut upper = Session::new(lower);
    assert_eq!((upper.edits(), all(&upper)), (0, below.clone()));
    upper.open().unwrap();
    take_all(&mut upper).unwrap();
    assert_eq!(
        (upper.record(4).unwrap().parent, upper.path(4)),
        (Some(3), Some(1))
    );
    upper.reparent(4, 0).unwrap();
    upper.nudge(4, 1, Content::Double(18)).unwrap();
    upper.nudge(4, 2, Content::Double(19)).unwrap();
    let cells = [0, 1, 2].map(|cell| upper.cell(4, cell));
    assert_eq!(cells, [0, 18, 19].map(|bits| Some(Content::Double(bits))));
    for _ in 0..3 {
        upper.undo().unwrap();
    }
    assert_eq!(upper.undo(), Err(call_fault(25, 0)));
    assert_eq!(
        (upper.record(4).unwrap().parent, all(&upper)),
        (Some(3), below.clone())
    );
    upper.reparent(4, 4).unwrap();
    let mut lower = upper.close();
    assert_eq!((lower.edits(), all(&lower)), (2, below));
    lower.undo().unwrap();
    lower.undo().unwrap();
    assert_eq!(
        (lower.record(4).unwrap().parent, all(&lower.close())),
        (Some(4), bytes)
    );
}

#[test]
fn a_session_over_a_window_over_pages() {
    // The scene lies 700 bytes into pages that lie in another order in their run.
    let mut joined = vec![0xee; 2048];
    let bytes = scene();
    joined[700..1125].copy_from_slice(&bytes);
    let list = [3, 1, 0, 2];
    let mut run = vec![0; 2048];
    for (at, page) in list.iter().enumerate() {
        let to = usize::from(*page) * 512;
        run[to..to + 512].copy_from_slice(&joined[at * 512..][..512]);
    }
    let mut pages = Pages::new();
    pages.fill(&run, &list, 2000).unwrap();
    let mut session = Session::new(Session::new(Window::new(&pages, 700, 425)));
    session.open().unwrap();
    take_all(&mut session).unwrap();
    session
        .nudge(4, 0, Content::Double(u64::from_le_bytes(*b"abcdefgh")))
        .unwrap();
    assert_eq!(all(&session), laid(&bytes, 196, b"abcdefgh"));
    assert_eq!(session.byte(425), None);
}

/// A document of containers with 8-byte cells, whose places have every offset in a word.
fn many_cells() -> Vec<u8> {
    let blocks: Vec<_> = (1..=40_u32)
        .map(|id| {
            let name = &"abcdefg"[..id as usize % 7];
            block(id, 22, &[head(id / 2, 8, name), vec![0; 8]].concat())
        })
        .collect();
    document(2, &blocks)
}

/// Numbers in no order: the upper bits of a linear sequence.
struct Dice(u64);

impl Dice {
    fn below(&mut self, count: u64) -> u64 {
        self.0 = self
            .0
            .wrapping_mul(6_364_136_223_846_793_005)
            .wrapping_add(1_442_695_040_888_963_407);
        (self.0 >> 33) % count
    }
}

/// Bytes and parents are as the standing edits, laid one after another over a document's bytes, say.
fn assert_laid(session: &Session<Run<'_>>, bytes: &[u8], standing: &[(usize, Vec<u8>)]) {
    let start = bytes.to_vec();
    let expected = standing
        .iter()
        .fold(start, |bytes, (place, over)| laid(&bytes, *place, over));
    assert_eq!(all(session), expected);
    for number in 0..session.count() {
        let record = session.record(number).unwrap();
        let parent = &expected[record.place as usize + 11..][..4];
        assert_eq!(
            record.parent,
            Some(u32::from_le_bytes(parent.try_into().unwrap()))
        );
    }
}

#[test]
fn bytes_are_those_of_the_latest_edit_in_every_history() {
    let bytes = many_cells();
    let mut session = opened(&bytes);
    let mut dice = Dice(1);
    let mut standing: Vec<(usize, Vec<u8>)> = Vec::new();
    for step in 0..4000 {
        let block = dice.below(40);
        let body = session.record(block).unwrap().place as usize + 11;
        match dice.below(8) {
            0..3 => assert_eq!(session.undo().is_ok(), standing.pop().is_some()),
            _ if standing.len() == 256 => {
                assert_eq!(session.reparent(block, 0), Err(call_fault(20, block)));
            }
            3 => {
                let address = dice.below(block + 1) as u32;
                session.reparent(block, address).unwrap();
                standing.push((body, address.to_le_bytes().to_vec()));
            }
            _ => {
                let (cell, bits) = (dice.below(12), dice.below(1 << 31) << 21);
                session.nudge(block, cell, Content::Double(bits)).unwrap();
                standing.push((body + 4 + 8 * cell as usize, bits.to_le_bytes().to_vec()));
            }
        }
        if step % 50 == 0 {
            assert_laid(&session, &bytes, &standing);
        }
    }
    while standing.pop().is_some() {
        session.undo().unwrap();
        assert_laid(&session, &bytes, &standing);
    }
}

#[test]
fn two_hundred_and_fifty_six_edits_of_two_words_each() {
    let bytes = many_cells();
    let mut session = opened(&bytes);
    let mut expected = bytes.clone();
    for k in 0..256 {
        let (block, cell) = (k / 12, k % 12);
        let bits = 0x0102_0304_0506_0708 + k;
        session.nudge(block, cell, Content::Double(bits)).unwrap();
        let place = (session.record(block).unwrap().place + 15 + 8 * cell) as usize;
        expected = laid(&expected, place, &bits.to_le_bytes());
    }
    assert_eq!(all(&session), expected);
    for _ in 0..256 {
        session.undo().unwrap();
    }
    assert_eq!(all(&session), bytes);
}

#[test]
fn calls_and_answers_as_values() {
    let bytes = scene();
    let mut session = Session::new(Run::new(&bytes));
    let mut ask = |call| make(&mut session, call);
    assert_eq!(ask(Call::Next), Answer::Refused(call_fault(8, 0)));
    assert_eq!(ask(Call::Count), Answer::Number(0));
    assert!(matches!(ask(Call::Open), Answer::Opened(header) if header.flags == 16));
    assert_eq!(ask(Call::Open), Answer::Refused(call_fault(1, 0)));
    for number in 0..8 {
        assert_eq!(ask(Call::Next), Answer::Number(number));
    }
    assert_eq!(ask(Call::Next), Answer::None);
    assert_eq!(ask(Call::Count), Answer::Number(8));
    assert_eq!(ask(Call::Reparent(6, 5)), Answer::Done);
    assert_eq!(ask(Call::Dress(4, 1, 0)), Answer::Done);
    assert_eq!(ask(Call::Nudge(4, 1, Content::Double(3))), Answer::Done);
    assert_eq!(
        ask(Call::Nudge(4, 1, Content::Single(3))),
        Answer::Refused(call_fault(23, 4))
    );
    assert_eq!(ask(Call::Edits), Answer::Number(3));
    assert_eq!(ask(Call::Cell(4, 1)), Answer::Cell(Content::Double(3)));
    assert_eq!(ask(Call::Undo), Answer::Done);
    assert_eq!(ask(Call::Cell(4, 1)), Answer::Cell(Content::Double(0)));
    assert_eq!(ask(Call::Cell(4, 12)), Answer::None);
    assert_eq!(ask(Call::Material(4, 1)), Answer::Number(0));
    assert_eq!(ask(Call::Material(4, 2)), Answer::None);
    assert_eq!(ask(Call::NumberOf(8)), Answer::Number(7));
    assert_eq!(ask(Call::NumberOf(0)), Answer::None);
    assert_eq!(
        (ask(Call::Path(6)), ask(Call::Path(0))),
        (Answer::Number(3), Answer::None)
    );
    assert!(
        matches!(ask(Call::Record(2)), Answer::Block(record) if record.name == Some((34 + 65, 1)))
    );
    assert_eq!(ask(Call::Record(8)), Answer::None);
    assert_eq!(ask(Call::Length), Answer::Number(425));
    assert_eq!(
        (ask(Call::Byte(0)), ask(Call::Byte(425))),
        (Answer::Number(65), Answer::None)
    );
}
