//! The rows: what each does, on what document, and in what its cost is counted.

use crate::documents::{self, Numbers, SCENE_CONTAINERS};
use crate::sides::Work;
use compare::interface::call::{CELL, MATERIAL, NEXT, NUDGE_DOUBLE, NUDGE_SINGLE, NUMBER, OPEN, PATH, RECORD};
use compare::interface::{Call, Layers};
use std::rc::Rc;

const KIB: usize = 1 << 10;
const MIB: usize = 1 << 20;

const QUESTIONS: usize = 100_000;
const DEPTHS: [usize; 2] = [10, 500];

/// A row counts the cost of `work` less that of `baseline`, where it has one, in so many units.
pub struct Row {
    pub name: String,
    pub what: String,
    pub unit: &'static str,
    pub units: u64,
    pub work: Work,
    pub baseline: Option<Work>,
}

/// A row is made when it is asked for: some hold 16 MiB and more.
pub struct Plan {
    pub name: String,
    make: Box<dyn Fn(String) -> Row>,
}

impl Plan {
    fn new(name: impl Into<String>, make: impl Fn(String) -> Row + 'static) -> Plan {
        Plan {
            name: name.into(),
            make: Box::new(make),
        }
    }

    pub fn row(&self) -> Row {
        (self.make)(self.name.clone())
    }
}

/// The edits that stand while a session is copied.
#[derive(Clone, Copy)]
enum Edits {
    Cells(usize),
    OneCell(usize),
}

pub fn plans() -> Vec<Plan> {
    let mut plans = vec![
        Plan::new("list-small", list_small),
        Plan::new("number", number),
        Plan::new("addresses", addresses),
        Plan::new("material", material),
        Plan::new("cell", cell),
        Plan::new("record", record),
    ];
    plans.extend(DEPTHS.map(|depth| Plan::new(format!("path-{depth}"), move |name| path(name, depth))));
    for (size, label) in [(64 * KIB, "64k"), (MIB, "1m")] {
        for (edits, suffix) in [
            (Edits::Cells(0), "0"),
            (Edits::Cells(1), "1"),
            (Edits::Cells(256), "256"),
            (Edits::OneCell(256), "256-on-one"),
        ] {
            plans.push(Plan::new(format!("bytes-{label}-{suffix}"), move |name| bytes(name, size, edits)));
        }
    }
    for count in [0, 256] {
        plans.push(Plan::new(format!("layers-{count}"), move |name| layers(name, Edits::Cells(count))));
    }
    for mib in [1, 2, 4, 8, 16] {
        plans.push(Plan::new(format!("list-{mib}m"), move |name| list_large(name, mib)));
    }
    for mib in [2, 4, 8, 16] {
        plans.push(Plan::new(format!("bytes-{mib}m-256"), move |name| {
            bytes(name, mib * MIB, Edits::Cells(256))
        }));
    }
    plans
}

fn list_large(name: String, mib: usize) -> Row {
    let document: Rc<[u8]> = documents::geometries(mib * MIB).into();
    assert_eq!(document.len(), mib * MIB);
    Row {
        name,
        what: format!("list {mib} MiB of geometries"),
        unit: "byte",
        units: document.len() as u64,
        work: Work::List { document },
        baseline: None,
    }
}

fn list_small(name: String) -> Row {
    let document: Rc<[u8]> = documents::small_blocks().into();
    Row {
        name,
        what: "list 512 small blocks of all kinds".into(),
        unit: "block",
        units: 512,
        work: Work::List { document },
        baseline: None,
    }
}

fn addresses(name: String) -> Row {
    let work = |count| Work::List {
        document: documents::many_addresses(count).into(),
    };
    Row {
        name,
        what: "list a mesh instance of 65,535 material addresses behind 510 blocks".into(),
        unit: "address",
        units: 65_535,
        work: work(65_535),
        baseline: Some(work(0)),
    }
}

fn ask(what: u32) -> Call {
    Call { what, ..Call::default() }
}

fn taken(blocks: usize) -> Vec<Call> {
    let mut calls = vec![ask(OPEN)];
    calls.resize(1 + blocks, ask(NEXT));
    calls
}

/// Many questions to a session that has taken so many blocks, less the same without them.
fn questions(name: String, what: &str, document: Vec<u8>, blocks: usize, question: impl FnMut(usize) -> Call) -> Row {
    let document: Rc<[u8]> = document.into();
    let mut calls = taken(blocks);
    let baseline = Work::Replay {
        document: document.clone(),
        calls: calls.clone(),
    };
    calls.extend((0..QUESTIONS).map(question));
    Row {
        name,
        what: what.into(),
        unit: "call",
        units: QUESTIONS as u64,
        work: Work::Replay { document, calls },
        baseline: Some(baseline),
    }
}

fn number(name: String) -> Row {
    let mut numbers = Numbers::new(1);
    let question = move |_| Call {
        address: 1 + numbers.below(511) as u32,
        ..ask(NUMBER)
    };
    questions(
        name,
        "ask the number of an ID among 511 blocks",
        documents::materials(511),
        511,
        question,
    )
}

fn material(name: String) -> Row {
    let mut numbers = Numbers::new(2);
    let question = move |_| Call {
        number: 510,
        which: numbers.below(1000),
        ..ask(MATERIAL)
    };
    questions(
        name,
        "ask a material of a mesh instance",
        documents::many_addresses(1000),
        511,
        question,
    )
}

fn cell(name: String) -> Row {
    let mut numbers = Numbers::new(3);
    let blocks = 2 * SCENE_CONTAINERS;
    let question = move |_| Call {
        number: 2 * numbers.below(SCENE_CONTAINERS as u64),
        which: numbers.below(12),
        ..ask(CELL)
    };
    questions(name, "ask a cell of a matrix", documents::scene(64 * KIB), blocks, question)
}

fn record(name: String) -> Row {
    let mut numbers = Numbers::new(4);
    let question = move |_| Call {
        number: numbers.below(512),
        ..ask(RECORD)
    };
    questions(name, "ask the record of a block", documents::small_blocks(), 512, question)
}

fn path(name: String, depth: usize) -> Row {
    let question = move |_| Call {
        number: depth as u64,
        ..ask(PATH)
    };
    let what = format!("ask the path of a block with {depth} parents");
    let mut row = questions(name, &what, documents::deep(depth + 1), depth + 1, question);
    if let Work::Replay { calls, .. } = &mut row.work {
        // a long path takes long: fewer of them will do
        let count = QUESTIONS / depth;
        calls.truncate(1 + depth + 1 + count);
        row.units = count as u64;
    }
    row
}

fn nudge(edit: usize) -> Call {
    let container = edit / 12 % SCENE_CONTAINERS;
    let narrow = documents::matrix_flags(container) == 0;
    let value = edit as f32 - 0.5;
    Call {
        number: 2 * container as u64,
        which: edit as u64 % 12,
        content: if narrow {
            u64::from(value.to_bits())
        } else {
            f64::from(value).to_bits()
        },
        ..ask(if narrow { NUDGE_SINGLE } else { NUDGE_DOUBLE })
    }
}

/// Opens a scene, takes all blocks and edits.
fn edited(edits: Edits) -> Vec<Call> {
    let mut calls = taken(2 * SCENE_CONTAINERS);
    match edits {
        Edits::Cells(count) => calls.extend((0..count).map(nudge)),
        Edits::OneCell(count) => calls.extend((0..count).map(|_| nudge(5))),
    }
    calls
}

fn edits_text(edits: Edits) -> String {
    match edits {
        Edits::Cells(count) => format!("{count} edits"),
        Edits::OneCell(count) => format!("{count} edits of one cell"),
    }
}

/// Every byte of an edited session. The baseline is refused a buffer of one byte, after the calls.
fn bytes(name: String, size: usize, edits: Edits) -> Row {
    let document: Rc<[u8]> = documents::scene(size).into();
    assert_eq!(document.len(), size);
    let calls: Rc<[Call]> = edited(edits).into();
    Row {
        name,
        what: format!("copy the bytes of a session of {} KiB, {}", size / KIB, edits_text(edits)),
        unit: "byte",
        units: size as u64,
        work: Work::Save {
            document: document.clone(),
            calls: calls.clone(),
            room: size,
        },
        baseline: Some(Work::Save { document, calls, room: 1 }),
    }
}

/// The same through a session over a session over a window over shuffled pages.
fn layers(name: String, edits: Edits) -> Row {
    let start = 100;
    let document = documents::scene(MIB);
    let size = start + document.len();
    let (run, pages) = paged(&document, start);
    let (size, start, shown) = (size as u64, start as u64, document.len() as u64);
    let below = Rc::new(Layers {
        run,
        pages,
        size,
        start,
        shown,
        lower: edited(edits),
    });
    let calls: Rc<[Call]> = edited(edits).into();
    Row {
        name,
        what: format!(
            "copy 1 MiB through session, session, window and pages, {} in each session",
            edits_text(edits)
        ),
        unit: "byte",
        units: document.len() as u64,
        work: Work::SaveLayers {
            below: below.clone(),
            calls: calls.clone(),
            room: document.len(),
        },
        baseline: Some(Work::SaveLayers { below, calls, room: 1 }),
    }
}

/// A run in which the pages of a document, with some bytes in front, lie in another order, and the list that joins them again.
fn paged(document: &[u8], front: usize) -> (Vec<u8>, Vec<u16>) {
    let mut joined = vec![0; front];
    joined.extend(document);
    let count = joined.len().div_ceil(512);
    joined.resize(512 * count, 0);
    let mut pages: Vec<u16> = (0..count as u16).collect();
    let mut numbers = Numbers::new(5);
    for last in (1..count).rev() {
        pages.swap(last, numbers.below(last as u64 + 1) as usize);
    }
    let mut run = vec![0; 512 * count];
    for (content, &page) in joined.chunks(512).zip(&pages) {
        run[512 * usize::from(page)..][..512].copy_from_slice(content);
    }
    (run, pages)
}
