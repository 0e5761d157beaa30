//! compare [--seed S] [--events N] [--rows N] [--sheets N] [--questions N] [--texts N] [--blocks N]
//!     [--track-events N] [--track-rows N] [--track-sheets N] [--track-questions N] [--only CASE] -- CMD ARGS..
//! compare --desk [--seed S] [--sheets N] [--track-sheets N] [--only CASE] -- CMD ARGS..
//! The options that begin with --track are of two tracks, on both forms of a sheet. The words of the working program
//! are put behind CMD ARGS.

use std::process::ExitCode;
use std::time::Instant;

use compare::cases::{sorts, Wanted, WHOLE};
use compare::child::{ChildLibrary, TIME_LIMIT};
use compare::program::{compare_program, only_program, Sheets};
use compare::run::{compare, named_case, only, Difference};
use compare::tracks::cases as tracks;

const USAGE: &str = "compare [--desk] [--seed S] [--events N] [--rows N] [--sheets N] \
    [--questions N] [--texts N] [--blocks N] [--track-events N] [--track-rows N] \
    [--track-sheets N] [--track-questions N] [--only CASE] -- CMD ARGS..";

const FIXED_SEED: u64 = 317_944;

struct Options {
    desk: bool,
    seed: u64,
    /// Of a library. The sheets of a program are so many where that is not said.
    wanted: Wanted,
    tracks: tracks::Wanted,
    sheets: Option<u64>,
    track_sheets: Option<u64>,
    only: Option<String>,
    command: Vec<String>,
}

impl Default for Options {
    fn default() -> Self {
        Options {
            desk: false,
            seed: FIXED_SEED,
            wanted: WHOLE,
            tracks: tracks::WHOLE,
            sheets: None,
            track_sheets: None,
            only: None,
            command: Vec::new(),
        }
    }
}

impl Options {
    /// Says how many of something are wanted; whether there is such an option.
    fn count(&mut self, name: &str, number: u64) -> bool {
        match name {
            "--seed" => self.seed = number,
            "--events" => self.wanted.events = number,
            "--rows" => self.wanted.rows = number,
            "--sheets" => self.sheets = Some(number),
            "--questions" => self.wanted.questions = number,
            "--texts" => self.wanted.texts = number,
            "--blocks" => self.wanted.blocks = number,
            "--track-events" => self.tracks.events = number,
            "--track-rows" => self.tracks.rows = number,
            "--track-sheets" => self.track_sheets = Some(number),
            "--track-questions" => self.tracks.questions = number,
            _ => return false,
        }
        true
    }

    fn of_one_track(&self) -> Wanted {
        let sheets = self.sheets.unwrap_or(self.wanted.sheets);
        Wanted {
            sheets,
            ..self.wanted
        }
    }

    fn of_two_tracks(&self) -> tracks::Wanted {
        let sheets = self.track_sheets.unwrap_or(self.tracks.sheets);
        tracks::Wanted {
            sheets,
            ..self.tracks
        }
    }
}

fn options(mut arguments: impl Iterator<Item = String>) -> Result<Options, String> {
    let mut options = Options::default();
    while let Some(name) = arguments.next() {
        if name == "--" {
            options.command = arguments.by_ref().collect();
            break;
        }
        if name == "--desk" {
            options.desk = true;
            continue;
        }
        let value = arguments.next().ok_or(USAGE)?;
        if name == "--only" {
            options.only = Some(value);
            continue;
        }
        let number = value.replace(['_', ','], "").parse();
        let number = number.map_err(|_| format!("{name} {value}: no number"))?;
        if !options.count(&name, number) {
            return Err(USAGE.to_string());
        }
    }
    if options.command.is_empty() {
        return Err(USAGE.to_string());
    }
    Ok(options)
}

fn run_desk(options: &Options) -> Result<(), String> {
    let Options { command, seed, .. } = options;
    let differs = |text| format!("DIFFERENCE in {text}");
    if let Some(name) = &options.only {
        only_program(command, *seed, name).map_err(differs)?;
        println!("the program agrees with the model: {name}");
        return Ok(());
    }
    let sheets = Sheets {
        of_one: options.sheets.unwrap_or(300),
        of_either: options.track_sheets.unwrap_or(1_000),
    };
    let done = compare_program(command, *seed, sheets).map_err(differs)?;
    all_was_seen(&done.missing)?;
    println!("the program agrees with the model: {}", done.text);
    Ok(())
}

fn all_was_seen(missing: &[String]) -> Result<(), String> {
    match missing {
        [] => Ok(()),
        _ => Err(format!("NOT ALL WAS SEEN:\n  {}", missing.join("\n  "))),
    }
}

fn told(seed: u64, difference: Difference) -> String {
    let Difference { name, text } = difference;
    format!("DIFFERENCE in {name} (seed {seed}), {text}\n  again: --seed {seed} --only {name}")
}

/// One case alone, of one track or of two.
fn run_only(seed: u64, name: &str, mut library: ChildLibrary) -> Result<(), String> {
    let known = [sorts(), tracks::sorts()].into_iter().find_map(|sorts| {
        let case = named_case(&sorts, seed, name)?;
        Some((sorts, case))
    });
    let (sorts, case) =
        known.ok_or("no such case: a sort's name, a colon and a number are wanted")?;
    println!("{:?}", case.request);
    only(&sorts, case, &mut library).map_err(|difference| told(seed, difference))?;
    println!("{name} agrees with the model");
    library.finish()
}

fn run_library(options: &Options) -> Result<(), String> {
    let seed = options.seed;
    let mut library = ChildLibrary::new(&options.command, TIME_LIMIT)
        .map_err(|error| format!("the library could not be started: {error}"))?;
    if let Some(name) = &options.only {
        return run_only(seed, name, library);
    }
    let told = |difference| told(seed, difference);
    let (one, two) = (sorts(), tracks::sorts());
    let tally = compare(&one, seed, options.of_one_track(), &mut library).map_err(told)?;
    print!("{}", tally.text(&one));
    let wanted = options.of_two_tracks();
    let of_two = tracks::compare_tracks(&two, seed, wanted, &mut library).map_err(told)?;
    library.finish()?;
    print!("of two tracks: {}", of_two.text(&two));
    let missing = [tally.missing(&one), of_two.missing(&two)].concat();
    all_was_seen(&missing)?;
    println!("the library agrees with the model");
    Ok(())
}

fn main() -> ExitCode {
    let options = match options(std::env::args().skip(1)) {
        Ok(options) => options,
        Err(text) => {
            eprintln!("{text}");
            return ExitCode::from(2);
        }
    };
    println!("seed {}", options.seed);
    let began = Instant::now();
    let outcome = if options.desk {
        run_desk(&options)
    } else {
        run_library(&options)
    };
    println!("{:.1} seconds", began.elapsed().as_secs_f64());
    match outcome {
        Ok(()) => ExitCode::SUCCESS,
        Err(text) => {
            println!("{text}");
            ExitCode::FAILURE
        }
    }
}
