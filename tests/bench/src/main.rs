//! Times the library beside the reference and, where there is one, beside a plain C loop.

mod calls;
mod format;
mod inputs;
mod limit;
mod rows;
mod table;
mod timing;

use inputs::Kind;
use rows::Bench;
use std::path::PathBuf;
use std::process::ExitCode;
use std::time::Duration;
use table::{Growth, Row};
use timing::Effort;

/// What the command line asks for.
struct Options {
    folder: PathBuf,
    names: Option<PathBuf>,
    quick: bool,
}

/// Reads the command line.
fn options() -> Result<Options, String> {
    let usage = "usage: bench [--quick] [--names FILE] FOLDER";
    let mut arguments = std::env::args_os().skip(1);
    let (mut folder, mut names, mut quick) = (None, None, false);
    while let Some(argument) = arguments.next() {
        match argument.to_str() {
            Some("--quick") => quick = true,
            Some("--names") => names = Some(arguments.next().ok_or(usage)?.into()),
            _ if folder.is_none() => folder = Some(argument.into()),
            _ => return Err(usage.to_string()),
        }
    }
    Ok(Options {
        folder: folder.ok_or(usage)?,
        names,
        quick,
    })
}

/// The explanation above the table of times.
const TIMES: &str = "Each time is the least of many rounds, in which the sides take turns. \
An edit starts from a fresh copy of the image, made before the clock starts. \
Both sides gave the same answers and bytes before they were timed. \
The reference copies the variables into vectors on the heap. \
The limit is a plain C loop over the same bytes: for check the sum of the headers; \
for count and read `memchr` over the used bytes, or `memcpy` of the large value; \
for set and remove on large areas only the writes \
(`memmove`, `memcpy` of the new pair, `memset` of the rest).";

/// The explanation above the table of growth.
const GROWTH: &str =
    "How the time of count grows with the variables and with the bytes that they use.";

/// Measures all rows and prints both tables.
fn run() -> Result<(), String> {
    let options = options()?;
    let (milliseconds, rounds) = if options.quick { (20, 2) } else { (300, 5) };
    let share = Duration::from_millis(milliseconds);
    let bench = Bench {
        effort: Effort { share, rounds },
    };
    let mut growth = Vec::new();
    println!("{TIMES}\n");
    table::print_times_head();
    for input in inputs::all(&options.folder, options.names.as_deref())? {
        let mut done = |row: &Row| {
            table::print_times(row);
            if let (Kind::Many, "count", Some(variables)) =
                (input.kind, row.call.as_str(), &input.variables)
            {
                growth.push(Growth {
                    input: row.input.clone(),
                    variables: variables.count,
                    bytes: variables.used,
                    library: row.library,
                    reference: row.reference,
                });
            }
        };
        bench.input(&input, &mut done)?;
    }
    println!("\n{GROWTH}\n");
    table::print_growth(&growth);
    Ok(())
}

fn main() -> ExitCode {
    match run() {
        Ok(()) => ExitCode::SUCCESS,
        Err(text) => {
            eprintln!("bench: {text}");
            ExitCode::FAILURE
        }
    }
}
