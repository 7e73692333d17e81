//! What a row costs: wall time in this process, and instructions as valgrind counts them in another one.

use crate::rows::Row;
use crate::sides::{Output, Side, Work};
use std::hint::black_box;
use std::process::Command;
use std::time::{Duration, Instant};

/// For each side and row, at least so long in all, and at least so many turns; the best turn counts.
const AT_LEAST: Duration = Duration::from_millis(300);
const TURNS: u32 = 7;
/// A turn repeats short work until it takes about so long.
const TURN: Duration = Duration::from_millis(4);

#[derive(Clone, Copy, Debug)]
pub struct Cost {
    /// nanoseconds or instructions, for each unit of the row
    pub verified: f64,
    pub rust: f64,
}

impl Cost {
    pub fn ratio(self) -> f64 {
        self.verified / self.rust
    }
}

/// Makes sure that both sides do the work to its end and write the same.
pub fn agree(work: &Work, refused: bool) -> Result<(), String> {
    let outputs = Side::BOTH.map(|side| {
        let mut output = work.output();
        work.run(side, &mut output);
        output
    });
    if outputs[0] != outputs[1] {
        return Err("the sides differ".into());
    }
    if outputs[0].finished() == refused {
        return Err(format!("not finished: {:?}", outputs[0].fault));
    }
    Ok(())
}

pub fn repeat(work: &Work, side: Side, times: u64, output: &mut Output) {
    for _ in 0..times {
        black_box(work).run(side, output);
        black_box(&mut *output);
    }
}

fn timed(work: &Work, side: Side, times: u64, output: &mut Output) -> Duration {
    let start = Instant::now();
    repeat(work, side, times, output);
    start.elapsed()
}

/// The best time of one go of some work, for each side; the sides take turns.
fn best(work: &Work) -> [f64; 2] {
    let mut output = work.output();
    let times = Side::BOTH.map(|side| {
        let once = timed(work, side, 1, &mut output).max(Duration::from_nanos(1));
        (TURN.as_nanos() / once.as_nanos()).clamp(1, 1 << 20) as u64
    });
    let mut best = [f64::INFINITY; 2];
    let mut spent = [Duration::ZERO; 2];
    let mut turns = 0;
    while turns < TURNS || spent.iter().any(|&spent| spent < AT_LEAST) {
        for (place, side) in Side::BOTH.into_iter().enumerate() {
            let time = timed(work, side, times[place], &mut output);
            spent[place] += time;
            best[place] = best[place].min(time.as_nanos() as f64 / times[place] as f64);
        }
        turns += 1;
    }
    best
}

pub fn time(row: &Row) -> Cost {
    let [mut verified, mut rust] = best(&row.work);
    if let Some(baseline) = &row.baseline {
        let base = best(baseline);
        verified -= base[0];
        rust -= base[1];
    }
    per_unit(row, verified, rust)
}

fn per_unit(row: &Row, verified: f64, rust: f64) -> Cost {
    Cost {
        verified: verified / row.units as f64,
        rust: rust / row.units as f64,
    }
}

/// The instructions of this program with these arguments.
fn counted(arguments: &[&str]) -> Result<u64, String> {
    let program = std::env::current_exe().map_err(|error| error.to_string())?;
    let output = Command::new("valgrind")
        .args(["--tool=callgrind", "--callgrind-out-file=/dev/null"])
        .arg(program)
        .args(arguments)
        .output()
        .map_err(|error| format!("valgrind: {error}"))?;
    let text = String::from_utf8_lossy(&output.stderr);
    let line = text.lines().find_map(|line| line.split_once("Collected :"));
    let (_, number) = line.ok_or_else(|| format!("valgrind told no count: {text}"))?;
    number.trim().parse().map_err(|_| format!("no number: {number}"))
}

/// The instructions of one go, as the difference of two counts of goes: so what comes before drops out.
fn one_go(row: &Row, side: Side, baseline: bool) -> Result<f64, String> {
    let goes = |times: u64| {
        let times = times.to_string();
        let mut arguments = vec!["--row", &row.name, "--side", side.name(), "--times", &times];
        if baseline {
            arguments.push("--baseline");
        }
        counted(&arguments)
    };
    Ok((goes(3)? - goes(1)?) as f64 / 2.0)
}

pub fn instructions(row: &Row) -> Result<Cost, String> {
    let mut costs = [0.0; 2];
    for (cost, side) in costs.iter_mut().zip(Side::BOTH) {
        *cost = one_go(row, side, false)?;
        if row.baseline.is_some() {
            *cost -= one_go(row, side, true)?;
        }
    }
    Ok(per_unit(row, costs[0], costs[1]))
}
