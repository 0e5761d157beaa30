//! Questions of since when, on sheets of two tracks: events refused 8, 9 or 13 on each track,
//! other answers and positions, answers and tracks altered, sheets damaged.

use model::circuit::{POLARISED, VIBRATED};

use crate::histories::{lively_event, pupils_event};
use crate::questions::{self, TOLD};
use crate::random::Random;
use crate::request::Request;
use crate::tracks::damage;
use crate::tracks::request::TrackRequest;
use crate::tracks::sheets::{on_circuit, TrackSheet};
use crate::variety::Variety;

const QUESTIONS: &[Variety] = &[
    ("8 on track 1", |random| told(random, 0, 8)),
    ("8 on track 2", |random| told(random, 1, 8)),
    ("9 on track 1", |random| told(random, 0, 9)),
    ("9 on track 2", |random| told(random, 1, 9)),
    ("13 on track 1", |random| told(random, 0, 13)),
    ("13 on track 2", |random| told(random, 1, 13)),
    ("25", |random| {
        let (sheet, at) = chosen(random, POLARISED, |_, answer| answer == 25);
        ask(sheet.bytes(), at)
    }),
    ("any event", |random| {
        let (sheet, at) = some_chosen(random, |_, _| true);
        ask(sheet.bytes(), at)
    }),
    ("no such event", |random| {
        let (sheet, _) = some_chosen(random, |_, _| true);
        let past = sheet.events.len() as u32 + 1;
        ask(sheet.bytes(), random.pick(&[0, past, u32::MAX]))
    }),
    ("not answered", |random| {
        let (mut sheet, at) = some_chosen(random, |_, answer| TOLD.contains(&answer));
        sheet.events.iter_mut().for_each(|event| event[2] = 31);
        ask(sheet.bytes(), at)
    }),
    ("an answer altered", |random| {
        altered(random, |random, sheet, at| {
            sheet.events[at][2] = random.small(0, 31)
        })
    }),
    ("a track altered", |random| {
        altered(random, |_, sheet, at| sheet.tracks[at] ^= 1)
    }),
    ("the circuit altered", |random| {
        altered(random, |_, sheet, _| {
            if let Some(circuit) = sheet.table.last_mut() {
                *circuit ^= 1;
            }
        })
    }),
    ("of one track", |random| {
        let (_, make) = random.pick(questions::QUESTIONS);
        match make(random) {
            Request::Why { sheet, position } => ask(sheet, position),
            other => other,
        }
    }),
];

/// Those, and one about each kind of sheet.
pub fn names() -> Vec<String> {
    let own = QUESTIONS.iter().map(|question| question.0.to_string());
    own.chain(damage::names()).collect()
}

pub fn question(random: &mut Random, variety: usize) -> Request {
    match variety.checked_sub(QUESTIONS.len()) {
        None => QUESTIONS[variety].1(random),
        Some(kind) => {
            let sheet = damage::of_kind(random, kind);
            let position = random.small(0, 70);
            ask(sheet, random.pick(&[1, 2, position]))
        }
    }
}

pub fn ask(sheet: Vec<u8>, position: u32) -> Request {
    Request::Tracks(TrackRequest::Why { sheet, position })
}

/// A worked sheet on this circuit, and the position, from 1, of some event of which this holds,
/// by its track and answer.
fn chosen(
    random: &mut Random,
    circuit: u32,
    wanted: impl Fn(u32, u32) -> bool,
) -> (TrackSheet, u32) {
    loop {
        let (posts, count) = (random.between(2, 6), random.between(30, 150));
        let next = random.pick(&[pupils_event, lively_event]);
        let sheet = on_circuit(random, circuit, [posts, count], next).worked();
        let events = sheet.events.iter().zip(&sheet.tracks);
        let such: Vec<u32> = (1..)
            .zip(events)
            .filter(|(_, (event, track))| wanted(**track, event[2]))
            .map(|(position, _)| position)
            .collect();
        if !such.is_empty() {
            return (sheet, random.pick(&such));
        }
    }
}

fn some_chosen(random: &mut Random, wanted: impl Fn(u32, u32) -> bool) -> (TrackSheet, u32) {
    let circuit = random.pick(&[POLARISED, VIBRATED]);
    chosen(random, circuit, wanted)
}

fn told(random: &mut Random, track: u32, answer: u32) -> Request {
    let (sheet, at) = some_chosen(random, |on, given| (on, given) == (track, answer));
    ask(sheet.bytes(), at)
}

/// A question about an event that can be asked about, in a sheet altered at some event.
fn altered(random: &mut Random, change: fn(&mut Random, &mut TrackSheet, usize)) -> Request {
    let (mut sheet, at) = some_chosen(random, |_, answer| TOLD.contains(&answer));
    let altered = random.below(sheet.events.len());
    change(random, &mut sheet, altered);
    ask(sheet.bytes(), at)
}
