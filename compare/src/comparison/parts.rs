//! The parts of the comparison. Each makes the cases of one round from random numbers.

use super::case::{Case, Input};
use crate::generate::author::Plan;
use crate::generate::calls::history;
use crate::generate::document::{Document, Sample};
use crate::generate::layers::{layers, shown};
use crate::generate::random::Random;
use crate::generate::{extremes, flaws, noise, parts};
use crate::interface::Call;

/// A part: its name, how many rounds of it there are for a thousand, and a round.
pub struct Part {
    pub name: &'static str,
    /// Rounds in a thousand; 0 for a single round however many there are of others.
    pub share: u64,
    pub round: fn(&mut Random) -> Vec<Case>,
}

pub const PARTS: [Part; 10] = [
    Part {
        name: "lawful documents",
        share: 1000,
        round: lawful,
    },
    Part {
        name: "one fault in a document",
        share: 60,
        round: one_fault,
    },
    Part {
        name: "faults of headers and streams",
        share: 40,
        round: flaws_of_documents,
    },
    Part {
        name: "too many blocks",
        share: 2,
        round: too_many,
    },
    Part {
        name: "documents cut at every byte",
        share: 8,
        round: cut,
    },
    Part {
        name: "changed documents",
        share: 1000,
        round: changed,
    },
    Part {
        name: "documents as large as can be",
        share: 0,
        round: largest,
    },
    Part {
        name: "call lists",
        share: 1000,
        round: call_lists,
    },
    Part {
        name: "layers",
        share: 400,
        round: layered,
    },
    Part {
        name: "attributes",
        share: 100,
        round: attributes,
    },
];

/// Room for what there is, or more, or less.
fn room(random: &mut Random, needed: usize) -> usize {
    let more = needed + random.length(1, 4);
    let less = random.index(needed + 1);
    random.pick(&[
        needed,
        needed,
        needed,
        more,
        more,
        less,
        needed.saturating_sub(1),
        0,
    ])
}

fn listing(random: &mut Random, document: &Document, sample: Sample) -> Case {
    let room = room(random, document.blocks.len());
    Case::list(sample, room)
}

fn lawful(random: &mut Random) -> Vec<Case> {
    let plan = Plan::any(random);
    let large = random.once_in(30);
    let document = Document::new(random, Plan { large, ..plan });
    let sample = Sample::whole(&document, "a lawful document");
    vec![listing(random, &document, sample)]
}

/// Every field of a document damaged in every way.
fn one_fault(random: &mut Random) -> Vec<Case> {
    let document = Document::any(random);
    let mut samples = Vec::new();
    for mark in &document.marks {
        samples.extend(document.damages(random, mark));
    }
    for number in 0..document.blocks.len() {
        samples.extend(flaws::left_over(random, &document, number));
    }
    samples
        .into_iter()
        .map(|sample| listing(random, &document, sample))
        .collect()
}

fn flaws_of_documents(random: &mut Random) -> Vec<Case> {
    let document = Document::any(random);
    let mut samples = flaws::wrong_headers(&document);
    samples.extend(flaws::wrong_lengths(random, &document));
    samples.extend(flaws::wrong_streams(random));
    samples
        .into_iter()
        .map(|sample| listing(random, &document, sample))
        .collect()
}

fn too_many(random: &mut Random) -> Vec<Case> {
    flaws::too_many_blocks(random)
        .into_iter()
        .map(|sample| Case::list(sample, 515))
        .collect()
}

fn cut(random: &mut Random) -> Vec<Case> {
    let document = Document::any(random);
    let samples = noise::cut_everywhere(random, &document);
    samples
        .into_iter()
        .map(|sample| listing(random, &document, sample))
        .collect()
}

/// A document changed at random in each way.
fn changes(random: &mut Random, document: &Document) -> Vec<Sample> {
    let mut samples = vec![
        noise::flipped(random, document),
        noise::shifted(random, document),
    ];
    samples.push(noise::random_bytes(random));
    samples.extend(noise::swapped(random, document));
    samples.extend(noise::extreme_numbers(random, document));
    samples
}

fn changed(random: &mut Random) -> Vec<Case> {
    let document = Document::any(random);
    let samples = changes(random, &document);
    samples
        .into_iter()
        .map(|sample| listing(random, &document, sample))
        .collect()
}

fn largest(random: &mut Random) -> Vec<Case> {
    let mut samples = extremes::longest();
    samples.extend(extremes::fullest(random));
    samples
        .into_iter()
        .map(|sample| Case::list(sample, 5))
        .collect()
}

/// A document for a list of calls: mostly a lawful one.
fn for_calls(random: &mut Random) -> (Document, Vec<u8>) {
    let plan = Plan::any(random);
    let blocks = if random.once_in(200) {
        random.pick(&[511, 512, 513])
    } else {
        plan.blocks
    };
    let (plain, large) = (blocks > 500, random.once_in(40));
    let document = Document::new(
        random,
        Plan {
            blocks,
            plain,
            large,
            ..plan
        },
    );
    let bytes = if random.once_in(4) {
        let samples = changes(random, &document);
        samples[random.index(samples.len())].bytes.clone()
    } else {
        document.bytes.clone()
    };
    (document, bytes)
}

fn call_lists(random: &mut Random) -> Vec<Case> {
    let (document, bytes) = for_calls(random);
    let calls = history(random, &document);
    let answers = room(random, calls.len());
    let buffer = room(random, bytes.len());
    let save = Input::Save(bytes.clone(), until(random, &calls));
    vec![
        Case {
            what: "a call list",
            input: Input::Replay(bytes, calls),
            room: answers,
            aim: None,
        },
        Case {
            what: "a call list and a copy",
            input: save,
            room: buffer,
            aim: None,
        },
    ]
}

/// The beginning of a list of calls: mostly all of it.
fn until(random: &mut Random, calls: &[Call]) -> Vec<Call> {
    let end = if random.once_in(3) {
        random.index(calls.len() + 1)
    } else {
        calls.len()
    };
    calls[..end].to_vec()
}

fn layered(random: &mut Random) -> Vec<Case> {
    let document = Document::any(random);
    let (below, calls) = layers(random, &document);
    let answers = room(random, calls.len());
    let length = shown(&below).map_or(40, |bytes| bytes.len());
    let buffer = room(random, length);
    let save = Input::SaveLayers(below.clone(), until(random, &calls));
    vec![
        Case {
            what: "layers",
            input: Input::ReplayLayers(below, calls),
            room: answers,
            aim: None,
        },
        Case {
            what: "layers and a copy",
            input: save,
            room: buffer,
            aim: None,
        },
    ]
}

fn attributes(random: &mut Random) -> Vec<Case> {
    let count = random.below(6);
    let large = random.once_in(30);
    let mut samples = parts::parts(random, count, large);
    samples.extend((0..8).map(|_| parts::random_part(random)));
    let whole = count as usize;
    samples
        .into_iter()
        .map(|sample| Case::attributes(sample, room(random, whole)))
        .collect()
}
