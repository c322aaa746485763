//! The baseline at the command line.
//!
//! - `baseline print` reads standard input and writes what the printing program
//!   writes: the save after all forcings, or one line `refused R at P`.
//! - `baseline example13` runs example 13 on mesh T and writes 37 lines, which
//!   [`baseline::example_13`] sets out line by line.
//! - `baseline cases DIR` writes into a folder, for each input on which the
//!   printing program is tried, `NAME.in` and what must be printed, `NAME.out`.
//! - `baseline script [FILE…]` runs each file, or standard input, as a script
//!   and writes what it prints; the exit status is 2 where a line was bad.
//! - `baseline generate SEED INDEX` writes one generated script, and `baseline
//!   generate SEED FIRST COUNT DIR` many, each to a file of its own.
//! - `baseline coverage SEED FIRST COUNT` runs generated scripts and writes what
//!   they reach; the exit status is 1 where something is missed.
//!
//! `generate` and `coverage` take the word `grids` before the seed, for the
//! scripts of grid texts, `gauges`, for those of gauges, or `lists`, for those of
//! lists of forcings; without it they are those of runs and forcings.

use baseline::Family;
use std::env;
use std::ffi::OsString;
use std::fs;
use std::io::{self, Read, Write};
use std::ops::Range;
use std::path::Path;
use std::process::ExitCode;

/// The exit status of a script with a bad line.
const BAD_LINE: u8 = 2;

const USAGE: &str = "usage: baseline print | example13 | cases DIR | script [FILE…]
    | generate [FAMILY] SEED INDEX | generate [FAMILY] SEED FIRST COUNT DIR
    | coverage [FAMILY] SEED FIRST COUNT
FAMILY is grids, gauges or lists";

fn main() -> ExitCode {
    let mut arguments = env::args_os().skip(1);
    let command = arguments.next().unwrap_or_default();
    let arguments: Vec<OsString> = arguments.collect();
    let outcome = match command.to_str() {
        Some("print") => print(),
        Some("example13") => example13(),
        Some("cases") => cases(&arguments),
        Some("script") => script(&arguments),
        Some("generate") => generate(&arguments),
        Some("coverage") => coverage(&arguments),
        _ => Err(usage()),
    };
    outcome.unwrap_or_else(|error| {
        eprintln!("{error}");
        ExitCode::FAILURE
    })
}

fn standard_input() -> io::Result<Vec<u8>> {
    let mut input = Vec::new();
    io::stdin().read_to_end(&mut input)?;
    Ok(input)
}

fn written(text: &[u8]) -> io::Result<ExitCode> {
    io::stdout().write_all(text)?;
    Ok(ExitCode::SUCCESS)
}

fn print() -> io::Result<ExitCode> {
    written(&baseline::print(&standard_input()?))
}

/// Writes 18 patterns after the first step (earlier z, z, U, V, Wx, Wy, each of
/// nodes 0, 1, 2), 18 after the second, one a line, then the step number.
fn example13() -> io::Result<ExitCode> {
    let text = baseline::example_13()
        .map_err(|answer| io::Error::other(format!("refused {}", answer.number)))?;
    written(text.as_bytes())
}

/// Each file is a script of its own, with everything empty at its start.
fn script(files: &[OsString]) -> io::Result<ExitCode> {
    if files.is_empty() {
        return run_script(&standard_input()?);
    }
    let mut exit = ExitCode::SUCCESS;
    for file in files {
        let named = |error| io::Error::other(format!("{}: {error}", file.display()));
        let ended = run_script(&fs::read(file).map_err(named)?)?;
        if ended != ExitCode::SUCCESS {
            exit = ended;
        }
    }
    Ok(exit)
}

fn run_script(script: &[u8]) -> io::Result<ExitCode> {
    let printed = baseline::run(script);
    written(&printed.text)?;
    Ok(match printed.bad_line {
        Some(_) => ExitCode::from(BAD_LINE),
        None => ExitCode::SUCCESS,
    })
}

/// A whole number of the command line.
fn number(argument: &OsString) -> io::Result<u64> {
    let number = argument.to_str().and_then(|word| word.parse().ok());
    number.ok_or_else(usage)
}

fn usage() -> io::Error {
    io::Error::other(USAGE)
}

/// The family of scripts that the first word names, and the words after it.
fn family(arguments: &[OsString]) -> (Family, &[OsString]) {
    match arguments {
        [first, rest @ ..] if first == "grids" => (Family::Grids, rest),
        [first, rest @ ..] if first == "gauges" => (Family::Gauges, rest),
        [first, rest @ ..] if first == "lists" => (Family::Lists, rest),
        _ => (Family::Runs, arguments),
    }
}

fn generate(arguments: &[OsString]) -> io::Result<ExitCode> {
    let (family, arguments) = family(arguments);
    let script = |seed, index| baseline::generate(family, seed, index);
    match arguments {
        [seed, index] => written(&script(number(seed)?, number(index)?)),
        [seed, first, count, folder] => {
            let (seed, first, count) = (number(seed)?, number(first)?, number(count)?);
            let indices = first..first.saturating_add(count);
            write_all(folder, indices, |index| script(seed, index))
        }
        _ => Err(usage()),
    }
}

/// Writes each script to a file of its number, `000123.script`.
fn write_all(
    folder: &OsString,
    indices: Range<u64>,
    script: impl Fn(u64) -> Vec<u8>,
) -> io::Result<ExitCode> {
    let folder = Path::new(folder);
    fs::create_dir_all(folder)?;
    for index in indices {
        let file = folder.join(format!("{index:06}.script"));
        fs::write(file, script(index))?;
    }
    Ok(ExitCode::SUCCESS)
}

fn coverage(arguments: &[OsString]) -> io::Result<ExitCode> {
    let (family, arguments) = family(arguments);
    let [seed, first, count] = arguments else {
        return Err(usage());
    };
    let (seed, first, count) = (number(seed)?, number(first)?, number(count)?);
    let (text, whole) = baseline::coverage(family, seed, first, count);
    written(text.as_bytes())?;
    Ok(if whole {
        ExitCode::SUCCESS
    } else {
        ExitCode::FAILURE
    })
}

fn cases(arguments: &[OsString]) -> io::Result<ExitCode> {
    let [folder] = arguments else {
        return Err(usage());
    };
    let folder = Path::new(folder);
    for case in baseline::cases() {
        fs::write(folder.join(format!("{}.in", case.name)), &case.input)?;
        let printed = baseline::print(&case.input);
        fs::write(folder.join(format!("{}.out", case.name)), printed)?;
    }
    Ok(ExitCode::SUCCESS)
}
