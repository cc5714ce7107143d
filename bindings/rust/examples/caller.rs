//! Sets the variable `tally` of a card in memory, reads it back and counts the variables.
use std::error::Error;
use std::process::ExitCode;

fn tally(path: &str) -> Result<(), Box<dyn Error>> {
    let mut image = std::fs::read(path)?;
    nvram::set(&mut image, b"tally", b"1041")?;
    let mut buffer = [0; 16];
    let value = nvram::read(&image, b"tally", &mut buffer)?;
    let variables = nvram::count(&image)?;
    println!(
        "tally={}, {variables} variables",
        String::from_utf8_lossy(value)
    );
    Ok(())
}

fn main() -> ExitCode {
    let Some(path) = std::env::args().nth(1) else {
        eprintln!("usage: caller CARD");
        return ExitCode::from(2);
    };
    match tally(&path) {
        Ok(()) => ExitCode::SUCCESS,
        Err(error) => {
            eprintln!("{path}: {error}");
            ExitCode::FAILURE
        }
    }
}
