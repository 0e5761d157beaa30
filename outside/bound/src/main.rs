//! bound ARCHIVE... -- NAME=LIMIT...   the stack of each call in bytes, and its deepest path
//! bound --starts ARCHIVE...           where each instruction of each function begins
//! Exit 1: a call that cannot be bounded, or goes deeper than its limit. Exit 2: wrong usage.

use std::io::Write;
use std::process::ExitCode;

use bound::calls::{Bound, Calls};
use bound::starts::lines;

const USAGE: &str = "bound ARCHIVE... -- NAME=LIMIT...   or   bound --starts ARCHIVE...";

fn main() -> ExitCode {
    let arguments: Vec<String> = std::env::args().skip(1).collect();
    let done = match arguments.split_first() {
        Some((first, files)) if first == "--starts" && !files.is_empty() => starts(files),
        _ => match wanted(&arguments) {
            Some((files, names)) => bounds(files, &names),
            None => {
                eprintln!("{USAGE}");
                return ExitCode::from(2);
            }
        },
    };
    match done {
        Ok(true) => ExitCode::SUCCESS,
        Ok(false) => ExitCode::FAILURE,
        Err(why) => {
            eprintln!("bound: {why}");
            ExitCode::FAILURE
        }
    }
}

/// A name and its limit.
type Limit<'a> = (&'a str, u64);

/// The archives, and the names with their limits.
fn wanted(arguments: &[String]) -> Option<(&[String], Vec<Limit<'_>>)> {
    let middle = arguments.iter().position(|one| one == "--")?;
    let (files, names) = (&arguments[..middle], &arguments[middle + 1..]);
    let mut limits = Vec::new();
    for one in names {
        let (name, limit) = one.split_once('=')?;
        limits.push((name, limit.parse().ok()?));
    }
    (!files.is_empty() && !limits.is_empty()).then_some((files, limits))
}

fn read(files: &[String]) -> Result<Calls, String> {
    let mut calls = Calls::default();
    for file in files {
        let bytes = std::fs::read(file).map_err(|why| format!("{file}: {why}"))?;
        calls.add(&bytes).map_err(|why| format!("{file}: {why}"))?;
    }
    Ok(calls)
}

fn starts(files: &[String]) -> Result<bool, String> {
    let mut text = lines(&read(files)?)?.join("\n");
    text.push('\n');
    let written = std::io::stdout().write_all(text.as_bytes());
    written.map_err(|why| why.to_string())?;
    Ok(true)
}

/// A line for each call; whether all are bounded and within their limits.
fn bounds(files: &[String], names: &[Limit]) -> Result<bool, String> {
    let mut calls = read(files)?;
    let mut good = true;
    for &(name, limit) in names {
        match calls.bound(name) {
            Ok(bound) => {
                println!("{name} {}: {}", bound.bytes, path(&bound));
                if bound.bytes > limit {
                    eprintln!(
                        "bound: {name}: {} bytes, above its limit of {limit}",
                        bound.bytes
                    );
                    good = false;
                }
            }
            Err(why) => {
                eprintln!("bound: {name} cannot be bounded: {why}");
                good = false;
            }
        }
    }
    Ok(good)
}

fn path(bound: &Bound) -> String {
    let parts: Vec<String> = bound
        .path
        .iter()
        .map(|(name, bytes)| format!("{name} {bytes}"))
        .collect();
    parts.join(", ")
}
