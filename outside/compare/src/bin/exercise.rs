//! exercise POSTS EVENTS [CIRCUIT]
//! Writes a lively sheet, not yet answered, to standard output: always the same for the same numbers. Without a circuit
//! it is one of ordinary posts on one track, with it (0 or 1) one of two tracks.

use std::io::{self, Write};
use std::process::ExitCode;

use compare::histories::ordinary_event;
use compare::random::Random;
use compare::sheets::sheet_on;
use compare::tables::ordinary_table;
use compare::tracks::sheets::on_circuit;
use model::MOST_EVENTS;

/// The bytes of the sheet that these numbers ask for, if they are right.
fn exercise(numbers: &[usize]) -> Option<Vec<u8>> {
    let &[posts @ 2..=32, events @ 0..=MOST_EVENTS, ref circuit @ ..] = numbers else {
        return None;
    };
    let mut random = Random::of_case(0, posts as u64, events as u64);
    match circuit {
        [] => {
            let kinds = ordinary_table(&mut random, posts);
            Some(sheet_on(&mut random, kinds, events, ordinary_event).bytes())
        }
        &[circuit @ 0..=1] => {
            let sizes = [posts, events];
            Some(on_circuit(&mut random, circuit as u32, sizes, ordinary_event).bytes())
        }
        _ => None,
    }
}

fn main() -> ExitCode {
    let numbers: Vec<usize> = std::env::args()
        .skip(1)
        .filter_map(|word| word.parse().ok())
        .collect();
    let Some(sheet) = exercise(&numbers) else {
        eprintln!("exercise POSTS EVENTS [CIRCUIT]: 2 to 32 posts, at most 3780 events, 0 or 1");
        return ExitCode::from(2);
    };
    match io::stdout().write_all(&sheet) {
        Ok(()) => ExitCode::SUCCESS,
        Err(_) => ExitCode::FAILURE,
    }
}
