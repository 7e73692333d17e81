//! Compares the verified library with the second reader on random documents, calls, layers and attributes.
//!
//! `compare [--seed N] [--cases N] [--part WORDS] [--verbose]`: the same seed gives the same cases; without one the
//! clock gives it, and it is printed. `--cases` says how many random documents there are in a part (1,000; other
//! parts have their share of it). `--part` makes only the part whose name has these words.

use std::panic::resume_unwind;
use std::process::ExitCode;
use std::time::{Instant, SystemTime, UNIX_EPOCH};
use std::{env, fs, thread};

use compare::comparison::met::Met;
use compare::comparison::parts::{PARTS, Part};
use compare::comparison::{Comparison, Difference, texts};
use compare::ffi::Library;
use compare::reference::Reference;

const USAGE: &str = "usage: compare [--seed N] [--cases N] [--part WORDS] [--verbose]";
const THREADS: u64 = 2;

struct Options {
    seed: u64,
    cases: u64,
    part: Option<String>,
    verbose: bool,
}

fn main() -> ExitCode {
    let Some(options) = options() else {
        eprintln!("{USAGE}");
        return ExitCode::from(2);
    };
    println!(
        "the verified library and the second reader, seed {}",
        options.seed
    );
    match compare_all(&options) {
        Ok(()) => ExitCode::SUCCESS,
        Err(message) => {
            println!("{message}");
            ExitCode::FAILURE
        }
    }
}

fn options() -> Option<Options> {
    let clock = SystemTime::now()
        .duration_since(UNIX_EPOCH)
        .map_or(0, |time| time.as_nanos() as u64);
    let mut options = Options {
        seed: clock,
        cases: 1000,
        part: None,
        verbose: false,
    };
    let mut arguments = env::args().skip(1);
    while let Some(argument) = arguments.next() {
        match argument.as_str() {
            "--seed" => options.seed = arguments.next()?.parse().ok()?,
            "--cases" => options.cases = arguments.next()?.parse().ok()?,
            "--part" => options.part = Some(arguments.next()?),
            "--verbose" => options.verbose = true,
            _ => return None,
        }
    }
    Some(options)
}

/// Makes the parts that are asked for and prints a line for each.
fn compare_all(options: &Options) -> Result<(), String> {
    let asked = |name: &str| {
        options
            .part
            .as_ref()
            .is_none_or(|words| name.contains(words))
    };
    let mut met = Met::default();
    for part in PARTS.iter().filter(|part| asked(part.name)) {
        let start = Instant::now();
        let (cases, met_here) =
            compare_part(options, part).map_err(|found| told(options.seed, &found))?;
        met.add(&met_here);
        println!(
            "{}: {cases} cases alike, {} ms",
            part.name,
            start.elapsed().as_millis()
        );
    }
    let asked_texts = texts::check(&Library)?;
    println!("texts of causes: {asked_texts} cases as they have to be");
    if options.verbose {
        print!("{met}");
    }
    let wrong = met.wrong();
    if options.part.is_none() && !wrong.is_empty() {
        return Err(format!(
            "causes (with layers) that were not met or cannot be: {wrong:?}"
        ));
    }
    Ok(())
}

type Compared = Result<(u64, Met), Box<Difference>>;

/// The rounds of a part, shared out to threads.
fn compare_part(options: &Options, part: &Part) -> Compared {
    let rounds = (part.share * options.cases / 1000).max(1);
    thread::scope(|scope| {
        let start = |first| scope.spawn(move || compare_rounds(options.seed, part, first, rounds));
        let running: Vec<_> = (0..THREADS).map(start).collect();
        let mut all = (0, Met::default());
        for thread in running {
            let (cases, met) = thread.join().unwrap_or_else(|panic| resume_unwind(panic))?;
            all.0 += cases;
            all.1.add(&met);
        }
        Ok(all)
    })
}

/// The rounds of one thread, from its first one on.
fn compare_rounds(seed: u64, part: &Part, first: u64, rounds: u64) -> Compared {
    let mut comparison = Comparison {
        first: &Library,
        second: &Reference,
        seed,
        met: Met::default(),
    };
    let mut cases = 0;
    for round in (first..rounds).step_by(THREADS as usize) {
        cases += comparison.round(part, round)?;
    }
    Ok((cases, comparison.met))
}

/// The difference in words; what was given goes to a file.
fn told(seed: u64, found: &Difference) -> String {
    let name = format!(
        "awd-compare-{seed}-{}-{}-{}.txt",
        found.part.replace(' ', "-"),
        found.round,
        found.number
    );
    let file = env::temp_dir().join(name);
    let kept = match fs::write(&file, found.case.input.text()) {
        Ok(()) => format!("what was given is in {}", file.display()),
        Err(error) => format!(
            "what was given could not be written to {}: {error}",
            file.display()
        ),
    };
    format!(
        "DIFFERENT, seed {seed} (first: the verified library, second: the second reader)\n{found}\n{kept}"
    )
}
