//! The verified library beside a Rust reader that does the same work. docs/BENCHMARKS.md says what the rows are.

mod documents;
mod measure;
mod rows;
mod sides;

use measure::Cost;
use rows::{Plan, Row};
use sides::Side;
use std::process::ExitCode;

const USAGE: &str = "usage: bench [--no-instructions] [ROW..]
       bench --row ROW --side verified|rust --times N [--baseline]
       bench --list";

fn main() -> ExitCode {
    let words: Vec<String> = std::env::args().skip(1).collect();
    let done = match words.first().map(String::as_str) {
        Some("--row") => repeat_row(&words),
        Some("--list") => {
            list();
            Ok(())
        }
        _ => table(&words),
    };
    match done {
        Ok(()) => ExitCode::SUCCESS,
        Err(why) => {
            eprintln!("bench: {why}");
            ExitCode::FAILURE
        }
    }
}

fn list() {
    for plan in rows::plans() {
        println!("{}", plan.name);
    }
}

/// One row again and again on one side: what valgrind and perf are run over.
fn repeat_row(words: &[String]) -> Result<(), String> {
    let [_, name, _, side, _, times, rest @ ..] = words else {
        return Err(USAGE.into());
    };
    let side = Side::BOTH.into_iter().find(|one| one.name() == side).ok_or(USAGE)?;
    let times = times.parse().map_err(|_| USAGE)?;
    let plan = rows::plans().into_iter().find(|plan| plan.name == *name).ok_or("no such row")?;
    let row = plan.row();
    let work = if rest.is_empty() {
        &row.work
    } else {
        row.baseline.as_ref().ok_or("no baseline")?
    };
    measure::repeat(work, side, times, &mut work.output());
    Ok(())
}

fn table(words: &[String]) -> Result<(), String> {
    let count = !words.iter().any(|word| word == "--no-instructions");
    let wanted: Vec<&String> = words.iter().filter(|word| !word.starts_with("--")).collect();
    let plans = rows::plans();
    if let Some(unknown) = wanted.iter().find(|name| plans.iter().all(|plan| plan.name != ***name)) {
        return Err(format!("no row {unknown}\n{USAGE}"));
    }
    println!("| row | what | a | verified, ns | Rust, ns | ratio | verified, instructions | Rust, instructions | ratio |");
    println!("|---|---|---|---|---|---|---|---|---|");
    plans
        .iter()
        .filter(|plan| wanted.is_empty() || wanted.iter().any(|name| plan.name == **name))
        .try_for_each(|plan| print_row(plan, count))
}

fn print_row(plan: &Plan, count: bool) -> Result<(), String> {
    let row = plan.row();
    agree(&row)?;
    let time = measure::time(&row);
    let counts = if count { Some(measure::instructions(&row)?) } else { None };
    let Row { name, what, unit, .. } = &row;
    println!(
        "| {name} | {what} | {unit} | {} | {} |",
        cells(time, 2),
        counts.map_or("- | - | -".into(), |counts| cells(counts, 1))
    );
    Ok(())
}

fn agree(row: &Row) -> Result<(), String> {
    measure::agree(&row.work, false).map_err(|why| format!("{}: {why}", row.name))?;
    match &row.baseline {
        // a buffer that is too short is refused, and the other baselines are not
        Some(baseline @ (sides::Work::Save { .. } | sides::Work::SaveLayers { .. })) => measure::agree(baseline, true),
        Some(baseline) => measure::agree(baseline, false),
        None => Ok(()),
    }
    .map_err(|why| format!("{}, baseline: {why}", row.name))
}

fn cells(cost: Cost, digits: usize) -> String {
    format!("{:.digits$} | {:.digits$} | {:.2}", cost.verified, cost.rust, cost.ratio())
}
