//! Blocks and bodies: what a session tells of them, and each refusal at the place worked out by hand.

mod common;

use common::*;
use compare::roster::Record;
use compare::session::Session;
use compare::source::Run;

/// The empty block of kind 11 in front of most documents here: from 12 to 23, with ID 1.
fn first() -> Vec<u8> {
    block(1, 11, &[])
}

#[test]
fn the_kitchen() {
    let kitchen = document(0, &[first(), container(2, 0, "a"), mesh(3, 2, 1, &[])]);
    assert_eq!(kitchen.len(), 176);
    let mut session = Session::new(Run::new(&kitchen));
    session.open().unwrap();
    assert_eq!(session.record(0), None);
    for number in 0..3 {
        assert_eq!(session.next(), Ok(Some(number)));
    }
    assert_eq!((session.next(), session.next()), (Ok(None), Ok(None)));
    assert_eq!(session.count(), 3);
    let record = |id, kind, place, size, parent, name| {
        Some(Record {
            id,
            namespace: 0,
            kind,
            place,
            size,
            parent,
            name,
        })
    };
    assert_eq!(session.record(0), record(1, 11, 12, 0, None, None));
    assert_eq!(
        session.record(1),
        record(2, 22, 23, 63, Some(0), Some((88, 1)))
    );
    assert_eq!(
        session.record(2),
        record(3, 23, 97, 68, Some(2), Some((162, 0)))
    );
    assert_eq!(session.record(3), None);
    assert_eq!(session.record(u64::MAX), None);
    assert_eq!(
        [0, 1, 2, 3].map(|block| session.path(block)),
        [None, Some(0), Some(1), None]
    );
    let numbers = [0, 1, 2, 3, 4, u32::MAX].map(|id| session.number(id));
    assert_eq!(numbers, [None, Some(0), Some(1), Some(2), None, None]);
}

#[test]
fn the_fields_of_a_block_header_fit_the_document() {
    let places = [12, 12, 12, 16, 17, 18, 19, 19, 19, 19];
    for (bytes, place) in (1..).zip(places) {
        let cut = first()[..bytes].to_vec();
        assert_eq!(
            fault_of(0, &[cut]),
            fault(10, place, 0, 1, None),
            "{bytes} bytes"
        );
    }
    assert!(is_read(0, &[first()]));
}

#[test]
fn a_block_header_is_judged_field_by_field() {
    // What comes behind a field that is refused is not there.
    assert_eq!(fault_of(0, &[vec![2, 0, 0, 0]]), fault(11, 12, 0, 1, None));
    assert_eq!(
        fault_of(0, &[vec![1, 0, 0, 0, 0, 9, 8]]),
        fault(12, 18, 0, 1, None)
    );
    assert_eq!(
        fault_of(0, &[flagged(8, block(2, 9, &[]))]),
        fault(11, 12, 0, 1, None)
    );
    assert_eq!(
        fault_of(0, &[flagged(8, sized_block(1, 9, 1, &[]))]),
        fault(12, 18, 0, 1, None)
    );
    assert!(is_read(0, &[flagged(0xf7, block(1, 9, &[]))]));
}

#[test]
fn ids_follow_one_another() {
    let blocks = [
        foreign(7, block(1, 22, &[5])),
        block(0, 9, &[]),
        block(2, 9, &[]),
    ];
    let bytes = document(0, &blocks);
    let (session, end) = read(&bytes);
    assert!(end.is_ok());
    assert_eq!(
        [0, 1, 2, 3].map(|id| session.number(id)),
        [None, Some(0), Some(2), None]
    );
    assert_eq!(session.record(0).unwrap().namespace, 7);
    assert_eq!(
        (
            session.record(0).unwrap().name,
            session.record(0).unwrap().parent
        ),
        (None, None)
    );
    assert_eq!(
        fault_of(0, &[first(), block(1, 9, &[])]),
        fault(11, 23, 1, 1, None)
    );
    assert_eq!(
        fault_of(0, &[first(), block(3, 9, &[])]),
        fault(11, 23, 1, 1, None)
    );
    assert_eq!(
        fault_of(0, &[first(), block(0, 9, &[]), block(3, 9, &[])]).place,
        34
    );
    assert_eq!(
        fault_of(0, &[block(u32::MAX, 9, &[])]),
        fault(11, 12, 0, 1, None)
    );
}

#[test]
fn a_body_fits_the_document() {
    assert_eq!(
        fault_of(0, &[sized_block(1, 9, 1, &[])]),
        fault(10, 23, 0, 1, None)
    );
    assert_eq!(
        fault_of(0, &[sized_block(1, 22, u32::MAX, &[0; 63])]),
        fault(10, 23, 0, 1, None)
    );
    let foreign_block = foreign(1, sized_block(2, 22, 4, &[0; 3]));
    assert_eq!(
        fault_of(0, &[first(), foreign_block]),
        fault(10, 34, 1, 1, None)
    );
}

#[test]
fn five_hundred_and_twelve_blocks() {
    let mut blocks = vec![block(0, 9, &[]); 512];
    assert!(is_read(0, &blocks));
    // The byte behind is no block, and is not looked at. 12 + 512 × 11 = 5644.
    blocks.push(vec![9]);
    let bytes = document(0, &blocks);
    let (mut session, end) = read(&bytes);
    let too_many = fault(9, 5644, 512, 4, None);
    assert_eq!(end, Err(too_many));
    assert_eq!(session.next(), Err(too_many));
    assert_eq!(session.count(), 512);
    assert_eq!(session.record(511).unwrap().place, 5633);
}

/// A container's body of 83 bytes. From its start: the parent at 0, cells from 4, the name's length at 52 and its byte
/// at 54; the properties' total at 55, and in them a key at 59, a size at 61 and 3 bytes from 65; the user list's total
/// at 68, and in it a namespace at 72, a key's length at 73 and its byte at 75, a type at 76, a size at 77 and 2 bytes
/// from 81.
fn full_body() -> Vec<u8> {
    let properties = [9, 0, 0, 0, 1, 0, 3, 0, 0, 0, 7, 7, 7];
    let user = [11, 0, 0, 0, 4, 1, 0, b'k', 2, 2, 0, 0, 0, 5, 6];
    let body = [head(0, 4, "a"), properties.to_vec(), user.to_vec()].concat();
    assert_eq!(body.len(), 83);
    body
}

#[test]
fn the_fields_of_a_body_fit_it() {
    assert!(is_read(0, &[block(1, 22, &full_body())]));
    for size in 0..83 {
        let place = match size {
            0..52 => size / 4 * 4,
            52..54 => 52,
            54 => 54,
            55..59 => 55,
            59..68 => 59,
            68..72 => 68,
            _ => 72,
        };
        let block = sized_block(1, 22, size, &full_body());
        assert_eq!(
            fault_of(0, &[block]),
            fault(10, 23 + u64::from(place), 0, 2, None),
            "{size}"
        );
    }
    let longer = block(1, 22, &[full_body(), vec![0]].concat());
    assert_eq!(fault_of(0, &[longer]), fault(15, 23 + 83, 0, 1, None));
}

#[test]
fn the_fields_of_an_entry_fit_its_run() {
    let with = |at: usize, byte: u8| {
        let mut body = full_body();
        body[at] = byte;
        fault_of(0, &[block(1, 22, &body)])
    };
    for (total, place) in (1..9).zip([59, 61, 61, 61, 61, 65, 65, 65]) {
        assert_eq!(
            with(55, total),
            fault(10, 23 + place, 0, 3, Some(0)),
            "{total}"
        );
    }
    for (total, place) in (1..11).zip([73, 73, 75, 76, 77, 77, 77, 77, 81, 81]) {
        assert_eq!(
            with(68, total),
            fault(10, 23 + place, 0, 3, Some(0)),
            "{total}"
        );
    }
    assert_eq!(with(68, 0), fault(15, 23 + 72, 0, 1, None));
    assert_eq!(with(68, 12), fault(10, 23 + 72, 0, 2, None));
    assert_eq!(with(76, 9), fault(13, 23 + 76, 0, 3, Some(0)));
    assert_eq!(with(77, 3), fault(13, 23 + 77, 0, 3, Some(0)));
}

#[test]
fn an_entry_is_told_by_its_index() {
    // Three numeric attributes of 6, 7 and 8 bytes; the third one's size is 9 and does not fit. The total is at 23 + 54.
    let properties = [
        21, 0, 0, 0, 1, 0, 0, 0, 0, 0, 1, 0, 1, 0, 0, 0, 9, 1, 0, 9, 0, 0, 0, 8, 8,
    ];
    let body = [head(0, 4, ""), properties.to_vec(), NO_LIST.to_vec()].concat();
    assert_eq!(
        fault_of(0, &[block(1, 22, &body)]),
        fault(10, 23 + 77, 0, 3, Some(2))
    );
    // Two user attributes without a key: text of no bytes (8 bytes), then a type that is not there.
    let user = [
        16, 0, 0, 0, 0, 0, 0, 31, 0, 0, 0, 0, 0, 0, 0, 99, 0, 0, 0, 0,
    ];
    let body = [head(0, 4, ""), NO_LIST.to_vec(), user.to_vec()].concat();
    assert_eq!(
        fault_of(0, &[block(1, 22, &body)]),
        fault(13, 23 + 73, 0, 3, Some(1))
    );
}

#[test]
fn a_type_is_judged_before_its_size_is_looked_at() {
    // The user list, at 23 + 58, has a total of 4: the type is its last byte.
    let with = |kind: u8| {
        let user = [4, 0, 0, 0, 0, 0, 0, kind];
        let body = [head(0, 4, ""), NO_LIST.to_vec(), user.to_vec()].concat();
        fault_of(0, &[block(1, 22, &body)])
    };
    for kind in [0, 9, 20, 24, 30, 33, 255] {
        assert_eq!(with(kind), fault(13, 23 + 65, 0, 3, Some(0)), "{kind}");
    }
    for kind in [1, 2, 3, 4, 5, 6, 7, 8, 21, 22, 23, 31, 32] {
        assert_eq!(with(kind), fault(10, 23 + 66, 0, 3, Some(0)), "{kind}");
    }
}

#[test]
fn the_type_of_a_light() {
    assert!(is_read(0, &[light(1, 0, 1), light(2, 1, 2)]));
    for kind in [0, 3, 255] {
        assert_eq!(
            fault_of(0, &[light(1, 0, kind)]),
            fault(13, 23 + 54, 0, 2, None)
        );
    }
    let cut = sized_block(1, 41, 54, &[0; 54]);
    assert_eq!(fault_of(0, &[cut]), fault(10, 23 + 54, 0, 2, None));
}

#[test]
fn the_address_of_a_parent() {
    let front = [first(), container(2, 0, ""), foreign(3, block(3, 22, &[]))];
    let ends = [23, 23 + 73, 23 + 73 + 11];
    let with = |block| [&front[..], &[block]].concat();
    for parent in [0, 2] {
        assert!(is_read(0, &with(container(4, parent, ""))));
    }
    // A block of another kind, one of another namespace, the block itself and one that is not there.
    for parent in [1, 3, 4, 5, u32::MAX] {
        let fault_4 = fault(14, ends[2] + 11, 3, 2, None);
        assert_eq!(
            fault_of(0, &with(container(4, parent, ""))),
            fault_4,
            "{parent}"
        );
        assert_eq!(fault_of(0, &with(light(4, parent, 1))), fault_4, "{parent}");
        assert_eq!(
            fault_of(0, &with(mesh(4, parent, 1, &[]))),
            fault_4,
            "{parent}"
        );
    }
    assert!(is_read(0, &[light(1, 0, 1), container(2, 1, "")]));
    assert!(is_read(
        0,
        &[first(), mesh(2, 0, 1, &[]), container(3, 2, "")]
    ));
}

#[test]
fn the_address_of_a_geometry() {
    let geometry = block(2, 1, &[0; 12]);
    // The mesh instance is block 3 at 23 + 23 + 11 = 57, its geometry's address 54 bytes into its body.
    let with = |address| {
        vec![
            first(),
            geometry.clone(),
            block(3, 81, &[]),
            mesh(4, 0, address, &[]),
        ]
    };
    assert!(is_read(0, &with(1)));
    assert!(is_read(0, &with(2)));
    for address in [0, 3, 4, 9] {
        assert_eq!(
            fault_of(0, &with(address)),
            fault(14, 57 + 11 + 54, 3, 2, None),
            "{address}"
        );
    }
    // 0 names no block, not even a temporary one.
    let temporary = [block(0, 11, &[]), mesh(1, 0, 0, &[])];
    assert_eq!(fault_of(0, &temporary), fault(14, 23 + 11 + 54, 1, 2, None));
}

#[test]
fn the_addresses_of_materials_and_lights() {
    let front = [
        first(),
        block(2, 81, &[]),
        foreign(1, block(3, 81, &[])),
        light(4, 0, 1),
    ];
    // The first two blocks behind the first end at 34 and 45, the light at 45 + 11 + 63 = 119.
    let with = |block| [&front[..], &[block]].concat();
    assert!(is_read(0, &with(mesh(5, 4, 1, &[0, 2, 2, 0]))));
    for address in [1, 3, 4, 5, 6] {
        let fault_5 = fault(14, 119 + 11 + 60 + 8, 4, 3, Some(2));
        assert_eq!(
            fault_of(0, &with(mesh(5, 0, 1, &[2, 0, address]))),
            fault_5,
            "{address}"
        );
    }
    assert!(is_read(0, &with(picker(5, &[4, 4]))));
    assert!(is_read(0, &with(picker(5, &[]))));
    for address in [0, 1, 2, 3, 5] {
        let fault_5 = fault(14, 119 + 11 + 4 + 4, 4, 3, Some(1));
        assert_eq!(
            fault_of(0, &with(picker(5, &[4, address]))),
            fault_5,
            "{address}"
        );
    }
    // Two addresses are counted, and the body ends inside the second one.
    let mut cut = picker(5, &[4, 4]);
    cut.truncate(11 + 4 + 7);
    cut[7] = 11;
    assert_eq!(
        fault_of(0, &with(cut)),
        fault(10, 119 + 11 + 8, 4, 3, Some(1))
    );
}

#[test]
fn bodies_with_a_name_in_front() {
    let geometry = [text("geo"), vec![0; 10]].concat();
    let skeleton = [text("bones"), vec![0; 10]].concat();
    let picker = [text("p"), vec![0; 6]].concat();
    let blocks = [
        block(1, 1, &geometry),
        block(2, 101, &skeleton),
        block(3, 51, &picker),
    ];
    let bytes = document(0, &blocks);
    let (session, end) = read(&bytes);
    assert!(end.is_ok());
    let names = [0, 1, 2].map(|number| session.record(number).unwrap().name);
    // The bodies are of 15, 17 and 7 bytes, so that the blocks begin at 12, 38 and 66; a name's bytes stand 13 behind.
    assert_eq!(names, [Some((25, 3)), Some((51, 5)), Some((79, 1))]);
    assert_eq!(
        [0, 1, 2].map(|number| session.record(number).unwrap().parent),
        [None; 3]
    );
    assert_eq!([0, 1, 2].map(|number| session.path(number)), [None; 3]);
    assert_eq!([0, 1, 2].map(|number| session.cell(number, 0)), [None; 3]);
    let cut = sized_block(1, 51, 2, &[9, 0]);
    assert_eq!(fault_of(0, &[cut]), fault(10, 25, 0, 2, None));
}

#[test]
fn widths() {
    let wide = |width| [head(0, width, ""), vec![0; 8]].concat();
    let narrow = block(1, 22, &wide(4));
    let double = block(1, 22, &wide(8));
    // With cells of the other width, the name of 0 bytes is followed by lists that are too short, or bytes are left.
    assert!(is_read(0, &[&narrow]));
    assert!(is_read(2, &[&double]));
    assert!(!is_read(2, &[&narrow]));
    assert_eq!(fault_of(0, &[&double]), fault(15, 23 + 62, 0, 1, None));
    assert!(
        is_read(4 + 8, &[&narrow]),
        "other widths do not matter here"
    );
    assert!(is_read(16, &[flagged(1, double.clone())]));
    assert!(
        is_read(16 + 2, &[flagged(6, narrow.clone())]),
        "the block's own flags alone matter"
    );
    assert!(
        is_read(0, &[flagged(1, narrow.clone())]),
        "the document's flags alone matter"
    );
}

/// A geometry's body with one sub-geometry. From its start: the name at 0, the count at 2, properties at 4; the total of
/// the streams at 8, properties at 12, the streams from 16 on.
fn geometry_of(streams: &[u8]) -> Vec<u8> {
    let mut body = vec![0, 0, 1, 0, 0, 0, 0, 0];
    body.extend((streams.len() as u32).to_le_bytes());
    body.extend(NO_LIST);
    body.extend(streams);
    body.extend(NO_LIST);
    body.extend(NO_LIST);
    block(1, 1, &body)
}

fn stream(kind: u8, bytes: &[u8]) -> Vec<u8> {
    let mut stream = vec![kind, 200];
    stream.extend((bytes.len() as u32).to_le_bytes());
    stream.extend(bytes);
    stream
}

#[test]
fn the_sizes_of_streams() {
    let sizes = [
        (1, 12, 24),
        (2, 6, 6),
        (3, 8, 16),
        (4, 12, 24),
        (0, 1, 1),
        (5, 1, 1),
        (255, 1, 1),
    ];
    for (kind, single, double) in sizes {
        for (flags, item) in [(0, single), (4, double), (8 + 2, single)] {
            for size in 0..50 {
                let one = stream(kind, &vec![0; size]);
                // Behind vertices, so that a stream of faces is lawful.
                let vertices = stream(1, &[0; 24]);
                let streams = if kind == 2 {
                    [vertices, one].concat()
                } else {
                    one
                };
                let place = if kind == 2 {
                    23 + 16 + 30 + 2
                } else {
                    23 + 16 + 2
                };
                let blocks = [geometry_of(&streams)];
                if size % item == 0 {
                    assert!(is_read(flags, &blocks), "{kind} {size}");
                } else {
                    assert_eq!(fault_of(flags, &blocks), fault(13, place, 0, 3, Some(0)));
                }
            }
        }
    }
}

#[test]
fn the_fields_of_a_stream() {
    // A wrong size is told before the bytes are looked for.
    let stated = [1, 0, 13, 0, 0, 0];
    assert_eq!(
        fault_of(0, &[geometry_of(&stated)]),
        fault(13, 23 + 18, 0, 3, Some(0))
    );
    let stated = [1, 0, 12, 0, 0, 0];
    assert_eq!(
        fault_of(0, &[geometry_of(&stated)]),
        fault(10, 23 + 22, 0, 3, Some(0))
    );
    assert_eq!(
        fault_of(0, &[geometry_of(&stated[..5])]),
        fault(10, 23 + 18, 0, 3, Some(0))
    );
    assert_eq!(
        fault_of(0, &[geometry_of(&[1])]),
        fault(10, 23 + 17, 0, 3, Some(0))
    );
}

#[test]
fn faces_index_vertices() {
    let faces = |indices: [u16; 6]| stream(2, &indices.map(u16::to_le_bytes).concat());
    let three = stream(1, &[0; 36]);
    assert!(is_read(
        0,
        &[geometry_of(
            &[three.clone(), faces([0, 1, 2, 2, 1, 0])].concat()
        )]
    ));
    assert!(is_read(
        0,
        &[geometry_of(
            &[faces([0, 1, 2, 2, 1, 0]), three.clone()].concat()
        )]
    ));
    // The vertices take 42 bytes, and the indices begin 6 bytes behind them.
    let bad = geometry_of(&[three.clone(), faces([0, 1, 2, 3, 9, 0])].concat());
    assert_eq!(
        fault_of(0, &[bad]),
        fault(16, 23 + 16 + 42 + 6 + 6, 0, 3, Some(0))
    );
    let bad = geometry_of(&[faces([0, 1, 2, 0, 0, 0x100]), three.clone()].concat());
    assert_eq!(
        fault_of(0, &[bad]),
        fault(16, 23 + 16 + 6 + 10, 0, 3, Some(0))
    );
    // Of 72 bytes there are 6 vertices of 4-byte coordinates, and 3 of 8-byte ones.
    let six = geometry_of(&[stream(1, &[0; 72]), faces([5; 6])].concat());
    assert!(is_read(0, &[&six]));
    assert_eq!(
        fault_of(4, &[six]),
        fault(16, 23 + 16 + 78 + 6, 0, 3, Some(0))
    );
    // No vertices at all are none below any index.
    let none = geometry_of(&[stream(1, &[]), faces([0; 6])].concat());
    assert_eq!(
        fault_of(0, &[none]),
        fault(16, 23 + 16 + 6 + 6, 0, 3, Some(0))
    );
}

#[test]
fn streams_out_of_place() {
    let at = |streams: &[Vec<u8>]| fault_of(0, &[geometry_of(&streams.concat())]);
    let out = |place: u64| fault(17, 23 + 16 + place, 0, 3, Some(0));
    let empty = |kind| stream(kind, &[]);
    assert_eq!(at(&[empty(1), empty(1)]), out(6));
    assert_eq!(
        at(&[empty(2), empty(2)]),
        out(6),
        "a repeated stream is told before the missing one"
    );
    assert_eq!(at(&[empty(2), empty(1), empty(2), empty(1)]), out(12));
    assert_eq!(at(&[empty(1), empty(2), empty(1), empty(2)]), out(12));
    assert_eq!(at(&[empty(3), empty(2)]), out(6));
    // The streams are judged only when all are read.
    assert_eq!(
        at(&[empty(1), empty(1), vec![9]]),
        fault(10, 23 + 16 + 13, 0, 3, Some(0))
    );
    // A stream out of place is told before an index that is too large.
    assert_eq!(at(&[empty(1), stream(2, &[9; 6]), empty(1)]), out(18));
    let others = [3, 3, 4, 4, 0, 0, 9, 9].map(empty).concat();
    assert!(is_read(0, &[geometry_of(&others)]));
    assert!(is_read(0, &[geometry_of(&[empty(2), empty(1)].concat())]));
    // They are judged before the user list is looked at: cut off here, with the block's size made smaller by 8.
    let mut cut = geometry_of(&[empty(1), empty(1)].concat());
    cut.truncate(cut.len() - 8);
    cut[7] -= 8;
    assert_eq!(fault_of(0, &[cut]), out(6));
}

#[test]
fn a_fault_deep_inside_has_the_outermost_index() {
    // Three sub-geometries are counted: an empty one of 12 bytes, and one with a bad third numeric attribute.
    let mut body = vec![0, 0, 3, 0, 0, 0, 0, 0];
    body.extend([0; 12]);
    // From here 20: the total, the properties' total, two attributes of 6 bytes, the third's key at 40 and size at 42.
    body.extend([0, 0, 0, 0, 17, 0, 0, 0]);
    body.extend([0; 12]);
    body.extend([1, 0, 1, 0, 0]);
    body.extend([0; 40]);
    assert_eq!(
        fault_of(0, &[block(1, 1, &body)]),
        fault(10, 23 + 42, 0, 3, Some(1))
    );
    // The run of streams is larger than the body: no index of the run's own, but that of the sub-geometry.
    let mut body = vec![0, 0, 1, 0, 0, 0, 0, 0];
    body.extend([9, 0, 0, 0, 0, 0, 0, 0]);
    body.extend([0; 8]);
    assert_eq!(
        fault_of(0, &[block(1, 1, &body)]),
        fault(10, 23 + 16, 0, 3, Some(0))
    );
    // But the properties before it are read first.
    body[12] = 9;
    assert_eq!(
        fault_of(0, &[block(1, 1, &body)]),
        fault(10, 23 + 16, 0, 3, Some(0))
    );
    body[12] = 1;
    assert_eq!(
        fault_of(0, &[block(1, 1, &body)]),
        fault(10, 23 + 16, 0, 3, Some(0))
    );
    // A second one is counted and not there.
    let body = [
        0, 0, 2, 0, 0, 0, 0, 0, 0, 0, 0, 0, 0, 0, 0, 0, 0, 0, 0, 0, 7, 7,
    ];
    assert_eq!(
        fault_of(0, &[block(1, 1, &body)]),
        fault(10, 23 + 20, 0, 3, Some(1))
    );
}

/// A skeleton's body with joints of 62 bytes, the first of them from 8 on; their IDs and parents are given.
fn skeleton(joints: &[(u16, u16)]) -> Vec<u8> {
    let mut body = vec![0, 0];
    body.extend((joints.len() as u16).to_le_bytes());
    body.extend(NO_LIST);
    for (id, parent) in joints {
        body.extend(id.to_le_bytes());
        body.extend(parent.to_le_bytes());
        body.extend([0; 58]);
    }
    body.extend(NO_LIST);
    block(1, 101, &body)
}

#[test]
fn joints() {
    let none = 65535;
    assert!(is_read(0, &[skeleton(&[])]));
    assert!(is_read(
        0,
        &[skeleton(&[(0, none), (1, 0), (2, 0), (3, 2), (4, none)])]
    ));
    let wrong = |joints: &[(u16, u16)], place: u64, index| {
        assert_eq!(
            fault_of(0, &[skeleton(joints)]),
            fault(13, 23 + place, 0, 3, Some(index))
        );
    };
    wrong(&[(1, none)], 8, 0);
    wrong(&[(0, none), (2, 7)], 70, 1);
    wrong(&[(0, 0)], 10, 0);
    wrong(&[(0, 65534)], 10, 0);
    wrong(&[(0, none), (1, 0), (2, 2)], 8 + 124 + 2, 2);
    // With cells of 8 bytes a joint of 62 bytes ends inside its matrix: 10 at the cell at 14 + 6 × 8 = 62.
    assert_eq!(
        fault_of(2, &[skeleton(&[(0, none)])]),
        fault(10, 23 + 70, 0, 3, Some(0))
    );
}

#[test]
fn carried_blocks() {
    let bytes = document(
        0,
        &[block(1, 200, &[1, 2, 3]), foreign(1, block(2, 23, &[4]))],
    );
    let (session, end) = read(&bytes);
    assert!(end.is_ok());
    for number in 0..2 {
        let record = session.record(number).unwrap();
        assert_eq!((record.parent, record.name), (None, None));
        assert_eq!(
            (session.path(number), session.material(number, 0)),
            (None, None)
        );
        assert_eq!(session.cell(number, 0), None);
    }
}

#[test]
fn no_document_makes_the_reader_panic() {
    let lists = block(2, 22, &full_body());
    let good = [
        block(1, 1, &geometry_of(&stream(1, &[0; 24]))[11..]),
        lists,
        mesh(3, 2, 1, &[0, 0]),
        light(4, 2, 1),
        picker(5, &[4]),
    ];
    // A streaming document, so that any cut of it opens.
    let bytes = document(1, &good);
    assert!(read(&bytes).1.is_ok());
    for length in 12..=bytes.len() {
        let _ = read(&bytes[..length]);
    }
    for at in 12..bytes.len() {
        for byte in [0, 1, 2, 8, 31, 0x7f, 0x80, 0xff] {
            let mut changed = bytes.clone();
            changed[at] = byte;
            let (session, end) = read(&changed);
            if let Err(fault) = end {
                assert_eq!(fault.block, session.count());
                assert!(fault.place <= changed.len() as u64);
                assert_eq!(fault.layer == 3, fault.index.is_some());
            }
        }
    }
}
