//! Compares the verified library with the reference and the reference model on many images and calls.

mod build;
mod cases;
mod context;
mod guarded;
mod request;
mod rng;
mod tally;
mod twin;

use cases::{Case, CASES};
use context::{Context, Failure, Outcome};
use rng::Rng;
use std::panic::{catch_unwind, AssertUnwindSafe};
use std::path::PathBuf;
use std::process::ExitCode;
use tally::{Tally, CODES};

const USAGE: &str = "usage: compare [--samples DIR] [--case NAME] [--seed S] [--quick]";

/// The name of the case that needs a folder.
const SAMPLES_CASE: &str = "samples";

/// The name of the case that looks at the counts of all others.
const CODES_CASE: &str = "every-code";

struct Options {
    samples: Option<PathBuf>,
    case: Option<String>,
    seed: u64,
    quick: bool,
}

fn options() -> Result<Options, String> {
    let mut options = Options {
        samples: None,
        case: None,
        seed: 1,
        quick: false,
    };
    let mut arguments = std::env::args().skip(1);
    while let Some(argument) = arguments.next() {
        let mut next = || {
            arguments
                .next()
                .ok_or(format!("{argument} lacks its value"))
        };
        match argument.as_str() {
            "--samples" => options.samples = Some(PathBuf::from(next()?)),
            "--case" => options.case = Some(next()?),
            "--seed" => options.seed = next()?.parse().map_err(|_| "the seed is no number")?,
            "--quick" => options.quick = true,
            other => return Err(format!("unknown option {other}")),
        }
    }
    match &options.case {
        Some(name) if !CASES.iter().any(|case| case.name == name) => {
            let names: Vec<&str> = CASES.iter().map(|case| case.name).collect();
            Err(format!(
                "no case {name}; the cases are: {}",
                names.join(", ")
            ))
        }
        _ => Ok(options),
    }
}

/// The arguments that run just one case again.
fn rerun(options: &Options, case: &Case) -> String {
    let mut text = format!("compare --seed {} --case {}", options.seed, case.name);
    if options.quick {
        text += " --quick";
    }
    if let Some(folder) = &options.samples {
        text += &format!(" --samples {}", folder.display());
    }
    text
}

/// Runs a case; a panic in it is a failure of it.
fn outcome(case: &Case, ctx: &mut Context) -> Outcome {
    let panicked = |_| Err(Failure("  panicked:  see the message above".to_string()));
    catch_unwind(AssertUnwindSafe(|| (case.run)(ctx))).unwrap_or_else(panicked)
}

/// Runs one case, prints its line, adds to the tally, and tells whether it passed.
fn run(options: &Options, case: &Case, tally: &mut Tally) -> bool {
    let mut ctx = Context {
        rng: Rng::for_case(options.seed, case.name),
        quick: options.quick,
        samples: options.samples.clone(),
        comparisons: 0,
        tally: Tally::default(),
        recipe: String::new(),
    };
    let outcome = outcome(case, &mut ctx);
    tally.merge(ctx.tally);
    match &outcome {
        Ok(()) => println!(
            "ok   compare: {} ({} comparisons)",
            case.name, ctx.comparisons
        ),
        Err(failure) => {
            println!("FAIL compare: {}", case.name);
            println!("  after:     {} comparisons", ctx.comparisons);
            println!(
                "  seed:      {} (rerun: {})",
                options.seed,
                rerun(options, case)
            );
            println!("{}", failure.0);
        }
    }
    outcome.is_ok()
}

/// Fails if a code of the table was not met or was met at few offsets, or if another code was met.
fn every_code(tally: &Tally) -> bool {
    let lacking = tally.lacking();
    match &lacking {
        None => println!("ok   compare: {CODES_CASE} ({} comparisons)", CODES.len()),
        Some(text) => println!("FAIL compare: {CODES_CASE}\n{text}"),
    }
    lacking.is_none()
}

fn main() -> ExitCode {
    let options = match options() {
        Ok(options) => options,
        Err(text) => {
            eprintln!("{text}\n{USAGE}");
            return ExitCode::from(2);
        }
    };
    let mut tally = Tally::default();
    let mut results = Vec::new();
    let wanted = |case: &&Case| options.case.as_deref().is_none_or(|name| name == case.name);
    for case in CASES.iter().filter(wanted) {
        if case.name == SAMPLES_CASE && options.samples.is_none() {
            println!("skip compare: {SAMPLES_CASE} (no --samples folder is given)");
            continue;
        }
        results.push(run(&options, case, &mut tally));
    }
    if options.case.is_none() {
        results.push(every_code(&tally));
    }
    println!("{}", tally.lines());
    let failed = results.iter().filter(|passed| !**passed).count();
    println!("{} passed, {failed} failed", results.len() - failed);
    ExitCode::from((failed > 0) as u8)
}
