//! Parts that hold user attributes one after another, lawful and damaged.

use super::author::{Author, Plan};
use super::document::Sample;
use super::random::Random;
use crate::interface::Fault;

/// A lawful part of so many attributes, and parts with one fault each, for every field of it.
pub fn parts(random: &mut Random, attributes: u64, large: bool) -> Vec<Sample> {
    let plan = Plan {
        large,
        ..Plan::any(random)
    };
    let mut author = Author::new(random, plan);
    for index in 0..attributes {
        author.user_attribute(index);
    }
    let part = author.finish_part();
    let mut samples = vec![Sample::taken(part.bytes.clone(), attributes, "attributes")];
    let marks = part.marks.iter();
    samples.extend(
        marks
            .flat_map(|mark| part.damages(random, mark))
            .map(of_part),
    );
    samples
}

/// The fault as the attribute reader tells it: of block 0, and the index says how many attributes came before.
fn of_part(mut sample: Sample) -> Sample {
    if let Some(aim) = &mut sample.aim {
        aim.count = aim.fault.index;
        aim.fault = Fault {
            block: 0,
            ..aim.fault
        };
    }
    sample
}

/// Random bytes that look like attributes.
pub fn random_part(random: &mut Random) -> Sample {
    let length = random.length(0, 80);
    let kinds = [0, 0, 0, 1, 2, 4, 7, 8, 21, 22, 23, 31, 32, 255];
    let bytes = (0..length).map(|_| random.pick(&kinds)).collect();
    Sample::any(bytes, "random attributes")
}
