//! Asks two readers the same and finds the first difference.

pub mod case;
pub mod met;
pub mod parts;
mod report;
pub mod texts;

use crate::generate::random::Random;
use crate::interface::Interface;
use case::{Case, Outcome};
use met::Met;
use parts::Part;

/// The first case in which something is not as it should be.
#[derive(Clone, Debug)]
pub struct Difference {
    pub part: &'static str,
    pub round: u64,
    /// Of the cases of its round, from 0.
    pub number: usize,
    pub case: Case,
    pub first: String,
    pub second: String,
}

/// Two readers that are to answer alike.
pub struct Comparison<'a> {
    pub first: &'a dyn Interface,
    pub second: &'a dyn Interface,
    pub seed: u64,
    pub met: Met,
}

impl Comparison<'_> {
    /// Makes a round of a part, and tells how many cases it had.
    pub fn round(&mut self, part: &Part, round: u64) -> Result<u64, Box<Difference>> {
        let mut random = Random::of_part(self.seed, part.name, round);
        let cases = (part.round)(&mut random);
        let count = cases.len() as u64;
        for (number, case) in cases.into_iter().enumerate() {
            let found = self.compare(&case);
            if let Err((first, second)) = found {
                return Err(Box::new(Difference {
                    part: part.name,
                    round,
                    number,
                    case,
                    first,
                    second,
                }));
            }
        }
        Ok(count)
    }

    /// Both answers in words where they differ, or where they are not what was aimed at.
    fn compare(&mut self, case: &Case) -> Result<(), (String, String)> {
        let first = case.ask(self.first);
        let second = case.ask(self.second);
        if first != second {
            return Err((first.told_beside(&second), second.told_beside(&first)));
        }
        if !case.hit_by(&first) {
            return Err((
                head(&first),
                format!("{:?} (aimed at by the generator)", case.aim),
            ));
        }
        self.met.count(case, &first);
        Ok(())
    }
}

/// An outcome without what was written.
fn head(outcome: &Outcome) -> String {
    match outcome {
        Outcome::Listed(listing, _) => format!("{listing:?}"),
        Outcome::Read(read, _) => format!("{read:?}"),
        Outcome::Saved(fault, _) | Outcome::ReplayedLayers(fault, _) => format!("{fault:?}"),
        Outcome::Replayed(count, _) => format!("{count}"),
    }
}
