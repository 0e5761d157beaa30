//! Reading, working and export of all kinds of sheets, into rooms around what is needed.

use model::EVENTS_PER_BLOCK;

use crate::damage::KINDS;
use crate::random::Random;
use crate::request::Request;
use crate::sheets::{blocks, get, some};
use crate::texts::exported;

/// Rooms for a reading: its name, and by how much each differs from what is needed.
/// A room can't be below nothing, so a far lower one has no place at all.
type Rooms = (&'static str, i64, i64);

pub const ROOMS: &[Rooms] = &[
    ("rooms exact", 0, 0),
    ("rooms one over", 1, 1),
    ("rooms far over", 9, 70),
    ("kinds room one short", -1, 1),
    ("events room one short", 1, -1),
    ("both rooms one short", -1, -1),
    ("no kinds room", -999, 1),
    ("no events room", 1, -9999),
];

/// Outputs: a name, and by how much it differs from what is needed.
pub const OUTPUTS: &[(&str, i64)] = &[
    ("output exact", 0),
    ("output one short", -1),
    ("output one over", 1),
    ("output a block over", 512),
    ("output a block short", -512),
    ("no output", -99_999),
];

pub fn about(needed: usize, by: i64) -> usize {
    (needed as i64 + by).max(0) as usize
}

/// The kinds of sheets, and then these.
fn kinds_and(others: impl Iterator<Item = &'static str>) -> Vec<String> {
    let kinds = KINDS.iter().map(|kind| kind.0);
    kinds.chain(others).map(str::to_string).collect()
}

pub fn reading_names() -> Vec<String> {
    kinds_and(ROOMS.iter().map(|rooms| rooms.0))
}

pub fn reading(random: &mut Random, variety: usize) -> Request {
    let Some(at) = variety.checked_sub(KINDS.len()) else {
        let sheet = KINDS[variety].1(random);
        return read_of(random, sheet);
    };
    let sheet = some(random, 0);
    let (posts, events) = (sheet.kinds.len(), sheet.events.len());
    read_into(random, sheet.bytes(), [posts, events], ROOMS[at])
}

/// The reading of any sheet, most often into rooms that are long enough.
pub fn read_of(random: &mut Random, sheet: Vec<u8>) -> Request {
    // What it says of itself, if it is as long as that.
    let posts = if sheet.len() < 8 {
        0
    } else {
        get(&sheet, 0, 1)
    };
    let events = EVENTS_PER_BLOCK * blocks(&sheet).saturating_sub(1);
    let rooms = if random.chance(80) {
        ROOMS[2]
    } else {
        random.pick(ROOMS)
    };
    read_into(random, sheet, [posts.min(40) as usize, events], rooms)
}

fn read_into(
    random: &mut Random,
    sheet: Vec<u8>,
    [posts, events]: [usize; 2],
    rooms: Rooms,
) -> Request {
    Request::Read {
        sheet,
        kinds_room: about(posts, rooms.1),
        events_room: about(events, rooms.2),
        fill: random.word(),
    }
}

/// The varieties of working and of export.
pub fn output_names() -> Vec<String> {
    kinds_and(OUTPUTS.iter().map(|out| out.0))
}

/// A sheet of the variety, and by how much the output differs from what is needed.
fn sheet_and_output(random: &mut Random, variety: usize) -> (Vec<u8>, i64) {
    match variety.checked_sub(KINDS.len()) {
        Some(at) => (some(random, 0).bytes(), OUTPUTS[at].1),
        None => {
            let by = some_output(random);
            (KINDS[variety].1(random), by)
        }
    }
}

/// Most often as long as is needed.
fn some_output(random: &mut Random) -> i64 {
    if random.chance(80) {
        0
    } else {
        random.pick(OUTPUTS).1
    }
}

pub fn working(random: &mut Random, variety: usize) -> Request {
    let (sheet, by) = sheet_and_output(random, variety);
    work_into(random, sheet, by)
}

/// The working of any sheet.
pub fn work_of(random: &mut Random, sheet: Vec<u8>) -> Request {
    let by = some_output(random);
    work_into(random, sheet, by)
}

fn work_into(random: &mut Random, sheet: Vec<u8>, by: i64) -> Request {
    Request::Work {
        out_len: about(sheet.len(), by),
        sheet,
        fill: random.word() as u8,
    }
}

pub fn exporting(random: &mut Random, variety: usize) -> Request {
    let (sheet, by) = sheet_and_output(random, variety);
    export_into(random, sheet, by)
}

/// The export of any sheet.
pub fn export_of(random: &mut Random, sheet: Vec<u8>) -> Request {
    let by = some_output(random);
    export_into(random, sheet, by)
}

/// A sheet that is refused has a room about its own length.
fn export_into(random: &mut Random, sheet: Vec<u8>, by: i64) -> Request {
    let needed = exported(&sheet).map_or(sheet.len(), |text| text.len());
    Request::Export {
        out_len: about(needed, by),
        sheet,
        fill: random.word() as u8,
    }
}
