//! Writes of sheets of either form: right ones, each fault alone, several, and too many events.

use model::MOST_EVENTS;

use crate::histories::some_posts;
use crate::random::Random;
use crate::request::Request;
use crate::rooms::about;
use crate::tables::{put_number, Place};
use crate::tracks::request::TrackRequest;
use crate::tracks::sheets::TrackSheet;
use crate::tracks::two::{some_neither, tables_of, CIRCUITS};
use crate::variety::Variety;
use crate::writes::{any_entry, any_sheet, push_out_of};

pub const WRITES: &[Variety] = &[
    ("right, of two tracks", |random| written(random, |_, _| ())),
    ("right, of one track", |random| {
        let sheet = of_one(random);
        into(random, sheet, 0)
    }),
    ("output one short", |random| sized(random, -1)),
    ("output one over", |random| sized(random, 1)),
    ("no output", |random| sized(random, -99_999)),
    ("no form", |random| {
        written(random, |random, sheet| {
            sheet.form = random.pick(&[0, 3, 4, 1 << 16 | 2, u32::MAX])
        })
    }),
    ("the other form", |random| {
        let mut sheet = either(random);
        sheet.form = 3 - sheet.form;
        into(random, sheet, 0)
    }),
    ("any number in track 1's table", |random| {
        written(random, |random, sheet| any_number(random, sheet, 0))
    }),
    ("any number in track 2's table", |random| {
        written(random, |random, sheet| any_number(random, sheet, 1))
    }),
    ("no circuit", |random| {
        written(random, |random, sheet| {
            let at = sheet.table.len() - 1;
            sheet.table[at] = some_neither(random);
        })
    }),
    ("a word less or more", |random| {
        written(random, |random, sheet| match random.below(3) {
            0 => sheet.table.truncate(random.below(sheet.table.len())),
            1 => sheet.table.push(0),
            _ => sheet.table.insert(0, 0),
        })
    }),
    ("a track out of its field", |random| {
        with_events(random, |random, sheet| {
            let at = random.below(sheet.tracks.len());
            sheet.tracks[at] = some_neither(random);
        })
    }),
    ("track 2 in a sheet of one", |random| {
        let mut sheet = of_one(random);
        if let Some(track) = sheet.tracks.first_mut() {
            *track = 1;
        }
        into(random, sheet, 0)
    }),
    ("an event without a track", |random| {
        with_events(random, |_, sheet| {
            sheet.tracks.truncate(sheet.events.len() - 1)
        })
    }),
    ("a track without an event", |random| {
        written(random, |_, sheet| sheet.tracks.push(0))
    }),
    ("no tracks", |random| {
        with_events(random, |_, sheet| sheet.tracks.clear())
    }),
    ("a field of an event too large", |random| {
        with_events(random, |random, sheet| {
            let field = random.below(3);
            push_out_of(random, &mut sheet.events, field);
        })
    }),
    ("several faults", several),
    ("as many events as fit, or more", |random| {
        let count = random.pick(&[MOST_EVENTS, MOST_EVENTS + 1, MOST_EVENTS + 60]);
        let mut sheet = of_two(random, 0);
        sheet.events = vec![[1, 2, 31, 4]; count];
        sheet.tracks = (0..count as u32).map(|at| at % 2).collect();
        if random.chance(20) {
            sheet.tracks.pop();
        }
        let by = random.pick(&[0, 0, -1]);
        into(random, sheet, by)
    }),
];

fn of_two(random: &mut Random, count: usize) -> TrackSheet {
    let posts = some_posts(random);
    let [first, second] = tables_of(random, posts);
    TrackSheet {
        form: 2,
        table: [first, second, vec![random.pick(&CIRCUITS)]].concat(),
        stamp: random.edge_word(),
        events: (0..count).map(|_| any_entry(random)).collect(),
        tracks: (0..count).map(|_| random.small(0, 1)).collect(),
    }
}

fn of_one(random: &mut Random) -> TrackSheet {
    let count = random.pick(&[0, 1, 59, 60, 61]);
    any_sheet(random, count).into()
}

fn either(random: &mut Random) -> TrackSheet {
    let count = random.between(0, 70);
    match random.chance(50) {
        true => of_one(random),
        false => of_two(random, count),
    }
}

fn into(random: &mut Random, sheet: TrackSheet, by: i64) -> Request {
    Request::Tracks(TrackRequest::Write {
        out_len: about(sheet.length(), by),
        sheet,
        fill: random.word() as u8,
    })
}

fn sized(random: &mut Random, by: i64) -> Request {
    let sheet = either(random);
    into(random, sheet, by)
}

/// A right sheet of two tracks, altered.
type Change = fn(&mut Random, &mut TrackSheet);

fn written(random: &mut Random, change: Change) -> Request {
    let count = random.pick(&[0, 1, 59, 60, 61, 120]);
    let mut sheet = of_two(random, count);
    change(random, &mut sheet);
    into(random, sheet, 0)
}

/// The same of a sheet that has events.
fn with_events(random: &mut Random, change: Change) -> Request {
    let count = random.between(1, 70);
    let mut sheet = of_two(random, count);
    change(random, &mut sheet);
    into(random, sheet, 0)
}

fn any_number(random: &mut Random, sheet: &mut TrackSheet, track: usize) {
    let posts = sheet.posts();
    let place = random.pick(&[Place::First, Place::Inside, Place::Last]);
    put_number(random, &mut sheet.table[track * posts..][..posts], place);
}

/// Two or three of: no circuit, a track out of its field, too short an output.
fn several(random: &mut Random) -> Request {
    let count = random.between(1, 20);
    let mut sheet = of_two(random, count);
    let left_out = random.below(4);
    if left_out != 0 {
        let at = sheet.table.len() - 1;
        sheet.table[at] = some_neither(random);
    }
    if left_out != 1 {
        let at = random.below(count);
        sheet.tracks[at] = some_neither(random);
    }
    let by = if left_out == 2 { 0 } else { -1 };
    into(random, sheet, by)
}
