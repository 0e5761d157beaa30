//! The heavy ones: registers of 3,780 events, of one more, of 10,000 and a wrong one, and of
//! more than 16 bits can count.

use model::MOST_EVENTS;

use crate::misprints::alter;
use crate::random::Random;
use crate::request::Request;
use crate::texts::{import, Text};
use crate::variety::Variety;
use crate::writes::any_sheet;

pub const LONG: &[Variety] = &[
    ("3,780 events", |random| full(random, MOST_EVENTS, 0)),
    ("3,780 events, output one short", |random| {
        full(random, MOST_EVENTS, -1)
    }),
    ("3,780 events, output one over", |random| {
        full(random, MOST_EVENTS, 1)
    }),
    ("3,779 events", |random| full(random, MOST_EVENTS - 1, 0)),
    ("3,781 events", |random| full(random, MOST_EVENTS + 1, 0)),
    ("3,781 events, no output", |random| {
        full(random, MOST_EVENTS + 1, -99_999)
    }),
    ("3,840 events and more", |random| {
        let count = random.between(3_840, 4_200);
        full(random, count, 512)
    }),
    ("3,780 events, the last one wrong", |random| {
        wrong(random, MOST_EVENTS, MOST_EVENTS)
    }),
    ("3,780 events and a wrong one", |random| {
        wrong(random, MOST_EVENTS + 1, MOST_EVENTS + 1)
    }),
    ("3,781 events and a wrong one", |random| {
        wrong(random, MOST_EVENTS + 2, MOST_EVENTS + 2)
    }),
    ("more than 3,780 events, a wrong one among them", |random| {
        let (count, at) = (random.between(3_900, 4_100), random.between(1, 3_900));
        wrong(random, count, at)
    }),
    ("10,000 events", |random| full(random, 10_000, 0)),
    ("10,000 events and a wrong one", |random| {
        wrong(random, 10_001, 10_001)
    }),
    ("10,000 events and a blank line", |random| {
        let mut bytes = written(random, 10_000).bytes();
        bytes.extend_from_slice(b"\r\n");
        import(random, bytes, MOST_EVENTS, 0)
    }),
    ("more than 2^16 events and a wrong one", |random| {
        let count = 65_536 + random.between(1, 3_000);
        let mut text = Text::of(&any_sheet(random, count));
        let at = 1 + text.posts + count;
        // What the position would be if it were counted in 16 bits.
        text.records[at].fields[0] = (count - 65_536).to_string();
        import(random, text.bytes(), MOST_EVENTS, 0)
    }),
    ("a quote never closed before 3,781 events", |random| {
        let mut text = written(random, MOST_EVENTS + 1);
        text.records[2].fields[0] = "\"".to_string();
        import(random, text.bytes(), MOST_EVENTS, 0)
    }),
];

fn written(random: &mut Random, count: usize) -> Text {
    let mut text = Text::of(&any_sheet(random, count));
    text.quote_somehow(random);
    text
}

/// A right text of this many events, into a room that differs by so much from what the
/// longest sheet of them needs.
fn full(random: &mut Random, count: usize, by: i64) -> Request {
    let mut text = written(random, count);
    if random.chance(50) {
        text.drop_last_end();
    }
    import(random, text.bytes(), count.min(MOST_EVENTS), by)
}

/// The event at this position, from 1, is wrong in some way.
fn wrong(random: &mut Random, count: usize, position: usize) -> Request {
    let mut text = written(random, count);
    let at = 1 + text.posts + position;
    match random.below(4) {
        0 => text.records[at].end = random.pick(&["\n", "\r"]),
        1 => alter(&mut text.records[at].fields[4], |_| "32".to_string()),
        2 => alter(&mut text.records[at].fields[0], |bare| format!("0{bare}")),
        _ => text.records[at].fields.push(String::new()),
    }
    let by = random.pick(&[0, 0, -1]);
    import(random, text.bytes(), count.min(MOST_EVENTS), by)
}
