//! A small run of two tracks against a desk in this process.

use compare::desk::{Desk, InProcess};
use compare::run::Difference;
use compare::tracks::cases::{compare_tracks, sorts, Wanted};
use compare::tracks::tally::TrackTally;

pub const SMALL: Wanted = Wanted {
    events: 60_000,
    rows: 20_000,
    sheets: 8_000,
    questions: 4_000,
};

pub fn small_run(desk: impl Desk) -> Result<TrackTally, Difference> {
    compare_tracks(&sorts(), 1, SMALL, &mut InProcess(desk))
}

/// The same of sheets alone.
pub fn run_of_sheets(desk: impl Desk) -> Result<TrackTally, Difference> {
    let sheets = Wanted {
        events: 0,
        rows: 0,
        ..SMALL
    };
    compare_tracks(&sorts(), 1, sheets, &mut InProcess(desk))
}

pub fn is_found(name: &str, run: Result<TrackTally, Difference>) {
    match run {
        Ok(_) => panic!("not found: {name}"),
        Err(difference) => println!("{name}: {}, {}", difference.name, difference.text),
    }
}

pub fn must_differ(name: &str, desk: impl Desk) {
    is_found(name, small_run(desk));
}
