//! Reading and working of all kinds of sheets of either form, into rooms around what is needed.

use model::EVENTS_PER_BLOCK;

use crate::random::Random;
use crate::request::Request;
use crate::rooms::{about, OUTPUTS};
use crate::tracks::damage::{count, names, of_kind, sizes};
use crate::tracks::questions::ask;
use crate::tracks::request::TrackRequest;
use crate::tracks::sheets::{some, two_tracks, TrackSheet};
use crate::upper_bits::bad_of;

/// Rooms for a reading: by how much those of the table, the events and the tracks differ from
/// what is needed. A room can't be below nothing.
const ROOMS: &[(&str, [i64; 3])] = &[
    ("rooms exact", [0, 0, 0]),
    ("rooms one over", [1, 1, 1]),
    ("rooms far over", [9, 70, 70]),
    ("table room one short", [-1, 1, 1]),
    ("events room one short", [1, -1, 1]),
    ("tracks room one short", [1, 1, -1]),
    ("all rooms one short", [-1, -1, -1]),
    ("no table room", [-999, 1, 1]),
    ("no events room", [1, -9999, 1]),
    ("no tracks room", [1, 1, -9999]),
];

pub fn reading_names() -> Vec<String> {
    let rooms = ROOMS.iter().map(|room| room.0.to_string());
    names().into_iter().chain(rooms).collect()
}

pub fn reading(random: &mut Random, variety: usize) -> Request {
    match variety.checked_sub(count()) {
        None => {
            let sheet = of_kind(random, variety);
            read_of(random, sheet)
        }
        Some(at) => {
            let sheet = of_either_form(random).bytes();
            read_into(random, sheet, ROOMS[at].1)
        }
    }
}

/// Most often a sheet of two tracks.
fn of_either_form(random: &mut Random) -> TrackSheet {
    match random.chance(25) {
        true => crate::sheets::some(random, 1).into(),
        false => some(random, 1),
    }
}

/// The reading of any sheet, most often into rooms that are long enough.
fn read_of(random: &mut Random, sheet: Vec<u8>) -> Request {
    let far_over = random.chance(80);
    let rooms = if far_over {
        ROOMS[2]
    } else {
        random.pick(ROOMS)
    };
    read_into(random, sheet, rooms.1)
}

pub fn read_into(random: &mut Random, sheet: Vec<u8>, by: [i64; 3]) -> Request {
    let [words, events] = sizes(&sheet);
    let needed = [words, events, events];
    Request::Tracks(TrackRequest::Read {
        rooms: [0, 1, 2].map(|at| about(needed[at], by[at])),
        sheet,
        fill: random.word(),
    })
}

pub fn working_names() -> Vec<String> {
    let outputs = OUTPUTS.iter().map(|out| out.0.to_string());
    names().into_iter().chain(outputs).collect()
}

pub fn working(random: &mut Random, variety: usize) -> Request {
    let (sheet, by) = match variety.checked_sub(count()) {
        None => (of_kind(random, variety), 0),
        Some(at) => (of_either_form(random).bytes(), OUTPUTS[at].1),
    };
    work_into(random, sheet, by)
}

pub fn work_into(random: &mut Random, sheet: Vec<u8>, by: i64) -> Request {
    Request::Tracks(TrackRequest::Work {
        out_len: about(sheet.len(), by),
        sheet,
        fill: random.word() as u8,
    })
}

/// The calls that are given sheets with upper bits in an event word.
const CALLS: [&str; 3] = ["read", "work", "why"];

/// Each call, and each position of a block.
pub fn field_names() -> Vec<String> {
    let each = |position| CALLS.map(|call| format!("{call}, position {position}"));
    (0..EVENTS_PER_BLOCK).flat_map(each).collect()
}

pub fn bad_field(random: &mut Random, variety: usize) -> Request {
    let call = CALLS[variety % CALLS.len()];
    // To be worked, a sheet is not answered; to be asked about, it is.
    let answered = call == "why" || (call == "read" && random.chance(50));
    let (sheet, at) = bad_of(random, variety / CALLS.len(), answered, two_tracks);
    match call {
        "read" => read_of(random, sheet),
        "work" => work_into(random, sheet, 0),
        _ => ask(sheet, random.pick(&[0, 1, at, u32::MAX])),
    }
}
