//! The generator against the second reader: lawful documents are taken whole and tell what was written, every fault
//! that is aimed at is told, and every cause is met.

use compare::comparison::Comparison;
use compare::comparison::met::Met;
use compare::comparison::parts::PARTS;
use compare::generate::author::Plan;
use compare::generate::document::Document;
use compare::generate::random::Random;
use compare::interface::{Block, Interface};
use compare::reference::Reference;

#[test]
fn lawful_documents_tell_what_was_written() {
    let mut random = Random::new(7);
    for _ in 0..500 {
        let plan = Plan::any(&mut random);
        let large = random.once_in(10);
        let document = Document::new(&mut random, Plan { large, ..plan });
        let mut blocks = vec![Block::default(); document.blocks.len()];
        let listing = Reference.list(&document.bytes, &mut blocks);
        assert_eq!(
            listing.fault.cause, 0,
            "{:?} of {:02x?}",
            listing.fault, document.bytes
        );
        assert_eq!(listing.count as usize, document.blocks.len());
        for (block, written) in blocks.iter().zip(&document.blocks) {
            let (name_place, name_length) = written.name.unwrap_or((0, 0));
            let told = Block {
                place: written.place,
                name_place,
                id: written.id,
                size: written.size,
                parent: written.parent.map_or(0, |(_, address)| address),
                name_length,
                name_space: written.namespace,
                kind: written.kind,
                has_parent: u8::from(written.parent.is_some()),
                has_name: u8::from(written.name.is_some()),
            };
            assert_eq!(*block, told);
        }
    }
}

#[test]
fn every_aim_is_hit_and_every_cause_met() {
    let mut comparison = Comparison {
        first: &Reference,
        second: &Reference,
        seed: 1,
        met: Met::default(),
    };
    for part in &PARTS {
        for round in 0..(part.share / 4).max(1) {
            if let Err(difference) = comparison.round(part, round) {
                panic!("{difference}\n{}", difference.case.input.text());
            }
        }
    }
    assert_eq!(comparison.met.wrong(), []);
}

#[test]
fn a_round_comes_again_from_its_seed() {
    let part = &PARTS[0];
    let made = || (part.round)(&mut Random::of_part(9, part.name, 4));
    assert_eq!(format!("{:?}", made()), format!("{:?}", made()));
}
