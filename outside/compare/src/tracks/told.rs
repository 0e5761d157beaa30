//! Requests of two tracks and the words of their replies, told to a reader.

use crate::describe::{named, out_bytes, record_word, row_text, split, TOLD};
use crate::request::POST_WORDS;
use crate::tracks::request::{turn_words, TrackRequest, FOUND_FRONT, RECORDS_AT, WORKED_FRONT};
use crate::tracks::sheets::TrackSheet;
use crate::tracks::two::Two;

const FOUND: [&str; FOUND_FRONT] = [
    "number",
    "block",
    "position",
    "tracks",
    "posts",
    "stamp",
    "events",
    "number of the test",
    "block of the test",
    "position of the test",
];

const WORKED: [&str; WORKED_FRONT] = [
    "number",
    "block",
    "position",
    "tracks",
    "records of track 1",
    "records of track 2",
    "events taken",
    "last stamp",
];

/// A record's word, of track 1's so many and then of track 2's.
fn track_word(first: usize, at: usize) -> String {
    match at.checked_sub(first * POST_WORDS) {
        None => format!("track 1, {}", record_word(at)),
        Some(past) => format!("track 2, {}", record_word(past)),
    }
}

impl TrackRequest {
    /// What the word at this place of the reply is.
    pub fn name_of(&self, reply: &[u32], at: usize) -> String {
        match self {
            TrackRequest::Valid(two) => {
                named(&["valid"], at, |rest| track_word(two.rows[0].len(), rest))
            }
            TrackRequest::Start { rows, .. } | TrackRequest::Event(Two { rows, .. }, _) => {
                named(TOLD, at, |rest| track_word(rows[0].len(), rest))
            }
            TrackRequest::Run { tables, steps, .. } => {
                let (turn, rest) = split(at, turn_words(tables));
                let name = named(TOLD, rest, |rest| track_word(tables[0].len(), rest));
                match turn.checked_sub(1) {
                    None => format!("start: {name}"),
                    Some(k) => format!("event {turn} of the history {:?}: {name}", steps[k]),
                }
            }
            TrackRequest::Read { .. } => {
                named(&FOUND, at, |rest| format!("word {rest} of the rooms"))
            }
            TrackRequest::Write { .. } => named(&["number"], at, out_bytes),
            TrackRequest::Work { .. } => {
                let records = self.said_records(reply) as usize * POST_WORDS;
                named(&WORKED, at, |rest| match rest.checked_sub(records) {
                    Some(past) => out_bytes(past),
                    None => track_word(reply[RECORDS_AT[0]] as usize, rest),
                })
            }
            TrackRequest::Why { .. } => named(&["number", "block", "position"], at, out_bytes),
        }
    }

    /// The inputs in short.
    pub fn short(&self) -> String {
        match self {
            TrackRequest::Start {
                rows,
                tables,
                circuit,
                stamp,
            } => {
                let lengths = [rows[0].len(), rows[1].len()];
                format!("start of {lengths:?} records by {tables:?} on {circuit} at {stamp}")
            }
            TrackRequest::Valid(two) => format!("valid? {}", lines_text(two)),
            TrackRequest::Event(two, step) => format!("event {step:?} {}", lines_text(two)),
            TrackRequest::Run {
                tables,
                circuit,
                stamp,
                steps,
            } => {
                let events = steps.len();
                format!("history of {events} events on {tables:?}, {circuit}, from {stamp}")
            }
            _ => self.sheet_short(),
        }
    }

    fn sheet_short(&self) -> String {
        match self {
            TrackRequest::Read { sheet, rooms, .. } => {
                let bytes = sheet.len();
                format!("testing and reading {bytes} bytes of either form into rooms of {rooms:?}")
            }
            TrackRequest::Write { sheet, out_len, .. } => {
                let TrackSheet { form, table, .. } = sheet;
                let counts = [sheet.events.len(), sheet.tracks.len()];
                format!(
                    "writing form {form}, {table:?}, {counts:?} events and tracks \
                    into {out_len} bytes"
                )
            }
            TrackRequest::Work { sheet, out_len, .. } => {
                let bytes = sheet.len();
                format!("working {bytes} bytes of either form into {out_len} bytes")
            }
            TrackRequest::Why { sheet, position } => {
                let bytes = sheet.len();
                format!("since when, of event {position} of {bytes} bytes of either form")
            }
            _ => String::new(),
        }
    }
}

fn lines_text(two: &Two) -> String {
    let rows = two.rows.iter().map(|row| row_text(row) + "\n");
    let rows: String = rows.collect();
    format!("on {}, {:?}{rows}", two.circuit, two.head)
}
