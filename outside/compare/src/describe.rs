//! Requests and the words of their replies, told to a reader.

use model::Post;

use crate::checks::plain_sum;
use crate::request::{post_words, Request, POST_WORDS, RECORDS_AT};

const FIELDS: [&str; POST_WORDS] = [
    "relay word",
    "kind",
    "a",
    "x",
    "y",
    "v",
    "g",
    "r",
    "q",
    "e",
    "c",
];

const FOUND: &[&str] = &[
    "number",
    "block",
    "position",
    "posts",
    "stamp",
    "events",
    "number of the test",
    "block of the test",
    "position of the test",
];

const WORKED: &[&str] = &[
    "number",
    "block",
    "position",
    "records",
    "events taken",
    "last stamp",
];

const EXPORTED: &[&str] = &["number", "block", "position", "bytes", "bytes, upper word"];

const IMPORTED: &[&str] = &[
    "number",
    "record",
    "record, upper word",
    "bytes",
    "bytes, upper word",
];

pub const TOLD: &[&str] = &["answer", "events taken", "last stamp"];

impl Request {
    /// What the word at this place of the reply is.
    pub fn name_of(&self, reply: &[u32], at: usize) -> String {
        match self {
            Request::Valid { .. } => named(&["valid"], at, record_word),
            Request::Start { .. } | Request::Event { .. } => named(TOLD, at, record_word),
            Request::Read { kinds_room, .. } => {
                named(FOUND, at, |rest| read_word(*kinds_room, rest))
            }
            Request::Write { .. } => named(&["number"], at, out_bytes),
            Request::Work { .. } => {
                let records = reply[RECORDS_AT] as usize * POST_WORDS;
                named(WORKED, at, |rest| match rest.checked_sub(records) {
                    Some(past) => out_bytes(past),
                    None => record_word(rest),
                })
            }
            Request::Why { .. } => named(&["number", "block", "position"], at, out_bytes),
            Request::Export { .. } => named(EXPORTED, at, out_bytes),
            Request::Import { .. } => named(IMPORTED, at, out_bytes),
            Request::Check { .. } => named(&["checks"], at, block_word),
            Request::Tracks(request) => request.name_of(reply, at),
            Request::Run { kinds, steps, .. } => {
                let (turn, rest) = split(at, 3 + kinds.len() * POST_WORDS);
                let name = named(TOLD, rest, record_word);
                match turn.checked_sub(1) {
                    None => format!("start: {name}"),
                    Some(k) => format!("event {turn} of the history {:?}: {name}", steps[k]),
                }
            }
        }
    }

    /// The inputs in short.
    pub fn short(&self) -> String {
        match self {
            Request::Start { row, kinds, stamp } => {
                format!("start of {} records by {kinds:?} at {stamp}", row.len())
            }
            Request::Valid { row, head } => format!("valid? {head:?}{}", row_text(row)),
            Request::Event { row, head, step } => {
                let [number, place, stamp] = step;
                let row = row_text(row);
                format!("event {number} at {place}, stamp {stamp}, {head:?}{row}")
            }
            Request::Run {
                kinds,
                stamp,
                steps,
            } => {
                format!(
                    "history of {} events on {kinds:?} from {stamp}",
                    steps.len()
                )
            }
            Request::Tracks(request) => request.short(),
            _ => self.sheet_short(),
        }
    }

    /// The same for the calls on sheets.
    fn sheet_short(&self) -> String {
        match self {
            Request::Read {
                sheet,
                kinds_room,
                events_room,
                ..
            } => format!(
                "testing and reading {} bytes into rooms of {kinds_room} kinds and {events_room} events",
                sheet.len()
            ),
            Request::Write {
                kinds,
                events,
                out_len,
                ..
            } => format!(
                "writing {kinds:?} and {} events into {out_len} bytes",
                events.len()
            ),
            Request::Work { sheet, out_len, .. } => {
                format!("working {} bytes into {out_len} bytes", sheet.len())
            }
            Request::Why { sheet, position } => {
                format!("since when, of event {position} of {} bytes", sheet.len())
            }
            Request::Export { sheet, out_len, .. } => {
                format!("exporting {} bytes into {out_len} bytes", sheet.len())
            }
            Request::Import { text, out_len, .. } => {
                let (bytes, start) = (text.len(), text_start(text));
                format!("importing {bytes} bytes into {out_len} bytes:\n{start}")
            }
            Request::Check { block, number } => {
                let (bytes, sum) = (block.len(), plain_sum(block));
                format!("check of {bytes} bytes as block {number}; their words add up to {sum:#x}")
            }
            _ => String::new(),
        }
    }
}

/// A text that is not long, else its start; a line of it on each line.
fn text_start(text: &[u8]) -> String {
    let start = &text[..text.len().min(600)];
    let line = |line: &[u8]| format!("    {}\n", line.escape_ascii());
    start
        .split_inclusive(|&byte| byte == b'\n')
        .map(line)
        .collect()
}

pub fn split(at: usize, size: usize) -> (usize, usize) {
    (at / size, at % size)
}

pub fn named(front: &[&str], at: usize, rest: impl Fn(usize) -> String) -> String {
    match front.get(at) {
        Some(name) => (*name).to_string(),
        None => rest(at - front.len()),
    }
}

pub fn record_word(at: usize) -> String {
    let (post, field) = split(at, POST_WORDS);
    format!("{} of post {post}", FIELDS[field])
}

fn read_word(kinds_room: usize, at: usize) -> String {
    match at.checked_sub(kinds_room) {
        None => format!("kind {at} of the room"),
        Some(past) => {
            let (event, field) = split(past, 4);
            let name = ["number", "post", "answer", "stamp"][field];
            format!("{name} of event {event} of the room")
        }
    }
}

pub fn out_bytes(at: usize) -> String {
    format!("output bytes {} to {}", 4 * at, 4 * at + 3)
}

fn block_word(at: usize) -> String {
    format!("word {at} of the block")
}

pub fn row_text(row: &[Post]) -> String {
    let line = |post: &Post| format!("\n    {:?}", post_words(post));
    row.iter().map(line).collect()
}
