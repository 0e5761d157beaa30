//! Writes: right ones, fields out of range, wrong tables, rooms around the need.

use model::Entry;

use crate::histories::some_posts;
use crate::random::Random;
use crate::request::Request;
use crate::sheets::{some, Sheet};
use crate::tables::{put_number, table, Place};
use crate::variety::Variety;

pub const WRITES: &[Variety] = &[
    ("right", |random| {
        let sheet = some(random, 0);
        written(random, sheet, 0)
    }),
    ("any fields", |random| {
        let count = random.between(0, 70);
        let sheet = any_sheet(random, count);
        written(random, sheet, 0)
    }),
    ("0, 1, 59, 60, 61 or 120 events", |random| {
        let count = random.pick(&[0, 1, 59, 60, 61, 120]);
        let sheet = any_sheet(random, count);
        written(random, sheet, 0)
    }),
    ("output one short", |random| sized(random, -1)),
    ("output one over", |random| sized(random, 1)),
    ("output a block over", |random| sized(random, 512)),
    ("output a block short", |random| sized(random, -512)),
    ("no output", |random| sized(random, -99_999)),
    ("event number out of its field", |random| {
        out_of_field(random, 0)
    }),
    ("post out of its field", |random| out_of_field(random, 1)),
    ("answer out of its field", |random| out_of_field(random, 2)),
    ("wrong table", |random| {
        let count = random.between(0, 5);
        let mut sheet = any_sheet(random, count);
        wrong_table(random, &mut sheet);
        written(random, sheet, 0)
    }),
    ("any number first", |random| any_at(random, Place::First)),
    ("any number inside", |random| any_at(random, Place::Inside)),
    ("any number last", |random| any_at(random, Place::Last)),
    ("several faults", several_faults),
];

/// The greatest value of each field of an event, and of a stamp.
const MOST: Entry = [31, 63, 31, u32::MAX];

/// Fields of any value that fits, often the greatest.
pub fn any_entry(random: &mut Random) -> Entry {
    MOST.map(|most| match random.below(3) {
        0 => most,
        _ if most == u32::MAX => random.edge_word(),
        _ => random.small(0, most),
    })
}

pub fn any_sheet(random: &mut Random, count: usize) -> Sheet {
    let posts = some_posts(random);
    any_sheet_of(random, posts, count)
}

/// The same of so many posts, of which there may be too many.
pub fn any_sheet_of(random: &mut Random, posts: usize, count: usize) -> Sheet {
    Sheet {
        kinds: table(random, posts),
        stamp: random.edge_word(),
        events: (0..count).map(|_| any_entry(random)).collect(),
    }
}

pub fn written(random: &mut Random, sheet: Sheet, by: i64) -> Request {
    let out_len = (sheet.length() as i64 + by).max(0) as usize;
    Request::Write {
        kinds: sheet.kinds,
        stamp: sheet.stamp,
        events: sheet.events,
        out_len,
        fill: random.word() as u8,
    }
}

fn sized(random: &mut Random, by: i64) -> Request {
    let count = random.pick(&[0, 1, 7, 59, 60, 61]);
    let sheet = any_sheet(random, count);
    written(random, sheet, by)
}

/// One field of one event, seldom the first, is just out of range or far out.
pub fn push_out(random: &mut Random, sheet: &mut Sheet, field: usize) {
    push_out_of(random, &mut sheet.events, field);
}

/// The same of these events.
pub fn push_out_of(random: &mut Random, events: &mut [Entry], field: usize) {
    let at = random.below(events.len());
    let just = MOST[field] + 1;
    let wrong = [just, just, just + 1, 2 * just, 1 << 16, 1 << 31, u32::MAX];
    events[at][field] = random.pick(&wrong);
}

fn out_of_field(random: &mut Random, field: usize) -> Request {
    let count = random.pick(&[1, 2, 10, 61]);
    let mut sheet = any_sheet(random, count);
    push_out(random, &mut sheet, field);
    written(random, sheet, 0)
}

/// Any number in this place of a right table.
fn any_at(random: &mut Random, place: Place) -> Request {
    let (posts, count) = (some_posts(random).max(3), random.between(0, 5));
    let mut sheet = any_sheet_of(random, posts, count);
    put_number(random, &mut sheet.kinds, place);
    written(random, sheet, 0)
}

pub fn wrong_table(random: &mut Random, sheet: &mut Sheet) {
    let posts = sheet.kinds.len();
    match random.below(4) {
        0 => sheet.kinds.truncate(random.pick(&[0, 1, posts - 1])),
        1 => {
            let posts = random.pick(&[33, 34, 64]);
            sheet.kinds = table(random, posts);
        }
        2 => sheet.kinds[0] = random.pick(&[1, 2, 3, 4, 5, 16, 17]),
        _ => sheet.kinds[posts - 1] = random.pick(&[0, 2, 5, 16, 18, 21, u32::MAX]),
    }
}

/// Two or three of: a wrong table, an event out of its field, too short an output.
fn several_faults(random: &mut Random) -> Request {
    let count = random.between(1, 20);
    let mut sheet = any_sheet(random, count);
    let left_out = random.below(4);
    if left_out != 0 {
        wrong_table(random, &mut sheet);
    }
    if left_out != 1 {
        let field = random.below(3);
        push_out(random, &mut sheet, field);
    }
    let by = if left_out == 2 { 0 } else { -1 };
    written(random, sheet, by)
}
