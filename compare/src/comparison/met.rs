//! What was met in a comparison: causes by their layers, and answers by their calls.

use std::collections::BTreeMap;
use std::fmt;

use super::case::{Case, Input, Outcome};
use crate::interface::{Answer, Call, answer};

/// Every cause with every layer that it can have at this interface.
pub const CAUSES: [(u8, u8); 33] = [
    (1, 4),
    (2, 0),
    (3, 0),
    (4, 0),
    (5, 0),
    (6, 0),
    (7, 0),
    (8, 4),
    (9, 4),
    (10, 1),
    (10, 2),
    (10, 3),
    (11, 1),
    (12, 1),
    (13, 2),
    (13, 3),
    (14, 2),
    (14, 3),
    (14, 4),
    (15, 1),
    (16, 3),
    (17, 3),
    (18, 4),
    (19, 4),
    (20, 4),
    (21, 4),
    (22, 4),
    (23, 4),
    (24, 4),
    (25, 4),
    (26, 4),
    (27, 4),
    (28, 4),
];

/// Calls by their numbers.
const CALLS: [&str; 16] = [
    "open",
    "next",
    "reparent",
    "dress",
    "nudge (single)",
    "nudge (double)",
    "undo",
    "count",
    "edits",
    "record",
    "number",
    "material",
    "cell",
    "path",
    "length",
    "byte",
];

/// How often each cause was met in each layer, and how often a call was refused, answered none and answered else.
#[derive(Clone, Debug, Default)]
pub struct Met {
    causes: BTreeMap<(u8, u8), u64>,
    calls: BTreeMap<u32, [u64; 3]>,
}

impl Met {
    pub fn count(&mut self, case: &Case, outcome: &Outcome) {
        for fault in outcome.faults() {
            *self.causes.entry((fault.cause, fault.layer)).or_default() += 1;
        }
        if let (Input::Replay(_, calls), Outcome::Replayed(_, answers)) = (&case.input, outcome) {
            self.count_calls(calls, answers);
        }
        if let (Input::ReplayLayers(_, calls), Outcome::ReplayedLayers(fault, answers)) =
            (&case.input, outcome)
            && fault.cause == 0
        {
            self.count_calls(calls, answers);
        }
    }

    fn count_calls(&mut self, calls: &[Call], answers: &[Answer]) {
        for (call, answer) in calls.iter().zip(answers) {
            let column = match answer.what {
                answer::NO_CALL => continue,
                answer::REFUSED => 0,
                answer::NONE => 1,
                _ => 2,
            };
            self.calls.entry(call.what).or_default()[column] += 1;
        }
    }

    pub fn add(&mut self, other: &Self) {
        for (&place, count) in &other.causes {
            *self.causes.entry(place).or_default() += count;
        }
        for (&call, counts) in &other.calls {
            let sums = self.calls.entry(call).or_default();
            for (sum, count) in sums.iter_mut().zip(counts) {
                *sum += count;
            }
        }
    }

    /// Causes with layers that were not met, and those that were and should not have been.
    pub fn wrong(&self) -> Vec<(u8, u8)> {
        let missed = CAUSES
            .iter()
            .filter(|place| !self.causes.contains_key(place));
        let strange = self.causes.keys().filter(|place| !CAUSES.contains(place));
        missed.chain(strange).copied().collect()
    }
}

impl fmt::Display for Met {
    fn fmt(&self, f: &mut fmt::Formatter<'_>) -> fmt::Result {
        writeln!(f, "cause layer      met")?;
        for ((cause, layer), count) in &self.causes {
            writeln!(f, "{cause:5} {layer:5} {count:8}")?;
        }
        writeln!(f, "call             refused     none     else")?;
        for (call, [refused, none, other]) in &self.calls {
            let name = usize::try_from(*call)
                .ok()
                .and_then(|call| CALLS.get(call))
                .unwrap_or(&"");
            writeln!(f, "{name:15} {refused:8} {none:8} {other:8}")?;
        }
        Ok(())
    }
}
