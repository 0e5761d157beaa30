//! What the imports and exports of a run have come upon.

use model::{sheet_length, MOST_EVENTS};

use crate::counts::Wanted;
use crate::misprints::inside;
use crate::texts::exported;

/// A text of as many events or more is counted among the long ones.
pub const LONG_FROM: usize = 3_000;

pub const IMPORTS: &[Wanted<Import>] = &[
    ("taken, nothing quoted", |i| {
        i.taken() && i.quoted == Some(0)
    }),
    ("taken, everything quoted", |i| {
        i.taken() && i.quoted == Some(i.fields)
    }),
    ("taken, some fields quoted", |i| {
        i.taken() && i.quoted.is_some_and(|q| 0 < q && q < i.fields)
    }),
    ("taken, with its last line end", |i| i.taken() && i.ended),
    ("taken, no last line end", |i| i.taken() && !i.ended),
    ("taken, no event", |i| i.taken() && i.events() == 0),
    ("taken, more than 60 events", |i| {
        i.taken() && i.events() > 60
    }),
    ("taken, 2 posts", |i| i.taken() && i.posts == 2),
    ("taken, 32 posts", |i| i.taken() && i.posts == 32),
    ("taken, output exact", |i| i.taken() && i.room == i.needed()),
    ("taken, output longer", |i| i.taken() && i.room > i.needed()),
    ("21, output one short", |i| {
        i.number == 21 && i.room + 1 == i.needed()
    }),
    ("21, no output", |i| i.number == 21 && i.room == 0),
    ("28 at the header", |i| i.wrong() == Some(Named::Header)),
    ("28 at the start stamp", |i| i.wrong() == Some(Named::Start)),
    ("28 at post 0", |i| i.wrong() == Some(Named::Post(0))),
    ("28 at another post", |i| {
        matches!(i.wrong(), Some(Named::Post(1..=30)))
    }),
    ("28 at post 31", |i| i.wrong() == Some(Named::Post(31))),
    ("28 at the first event", |i| {
        i.wrong() == Some(Named::Event(1))
    }),
    ("28 at another event", |i| {
        matches!(i.wrong(), Some(Named::Event(2..)))
    }),
    ("28, the header or the start stamp is missing", |i| {
        i.is_missing() && i.record <= 2
    }),
    ("28, a post is missing", |i| i.is_missing() && i.record > 2),
    ("28 and the output too short", |i| {
        i.number == 28 && i.room < 512
    }),
    ("28 at the last record", |i| {
        i.number == 28 && i.record as usize == i.records
    }),
    ("28, many records behind it", |i| {
        i.number == 28 && (i.record as usize) + 3 < i.records
    }),
];

pub const LONG: &[Wanted<Import>] = &[
    ("3,780 events, taken", |i| {
        i.taken() && i.events() == MOST_EVENTS
    }),
    ("3,780 events, 21", |i| {
        i.number == 21 && i.events() == MOST_EVENTS
    }),
    ("3,781 events, 18", |i| {
        i.number == 18 && i.events() == MOST_EVENTS + 1
    }),
    ("18 and no output", |i| i.number == 18 && i.room == 0),
    ("10,000 events, 18", |i| {
        i.number == 18 && i.events() == 10_000
    }),
    ("28 at the last of 3,780 events", |i| {
        i.wrong() == Some(Named::Event(MOST_EVENTS))
    }),
    ("28 at event 3,781", |i| {
        i.wrong() == Some(Named::Event(MOST_EVENTS + 1))
    }),
    ("28 at event 3,782", |i| {
        i.wrong() == Some(Named::Event(MOST_EVENTS + 2))
    }),
    ("28 at event 10,001", |i| {
        i.wrong() == Some(Named::Event(10_001))
    }),
    ("28 past event 2^16", |i| {
        matches!(i.wrong(), Some(Named::Event(65_537..)))
    }),
    ("28 before event 3,780, and more than 3,780", |i| {
        let early = |named| matches!(named, Named::Event(at) if at < MOST_EVENTS);
        i.wrong().is_some_and(early) && i.events() > MOST_EVENTS
    }),
];

pub const EXPORTS: &[Wanted<Export>] = &[
    ("0, output exact", |e| e.number == 0 && e.room == e.needed),
    ("0, output longer", |e| e.number == 0 && e.room > e.needed),
    ("18", |e| e.number == 18),
    ("19", |e| e.number == 19),
    ("20", |e| e.number == 20),
    ("24", |e| e.number == 24),
    ("19 or 20 in a later block", |e| {
        e.number < 21 && e.block > 0
    }),
    ("21, output one short", |e| {
        e.number == 21 && e.room + 1 == e.needed
    }),
    ("21, no output", |e| e.number == 21 && e.room == 0),
];

/// The record that 28 names, where it is there: posts from 0, events from 1.
#[derive(Clone, Copy, PartialEq)]
pub enum Named {
    Header,
    Start,
    Post(usize),
    Event(usize),
}

/// An import and the model's reply. Records and fields are told by line ends and commas
/// alone, so that they are right for a text that can stand and roughly for another.
pub struct Import {
    ended: bool,
    records: usize,
    posts: usize,
    fields: usize,
    /// How many fields are quoted, if that can be told.
    quoted: Option<usize>,
    room: usize,
    number: u32,
    record: u64,
}

impl Import {
    pub fn new(text: &[u8], room: usize, reply: &[u32]) -> Self {
        let text = String::from_utf8_lossy(text);
        let bare = text.strip_suffix("\r\n").unwrap_or(&text);
        let rows: Vec<&str> = match text.is_empty() {
            true => Vec::new(),
            false => bare.split("\r\n").collect(),
        };
        let ends = |row: &&str| {
            row.split(',')
                .nth(1)
                .is_some_and(|kind| matches!(inside(kind), "1" | "17"))
        };
        let posts = rows
            .iter()
            .skip(2)
            .position(ends)
            .map_or(rows.len(), |at| at + 1);
        let fields = rows.iter().map(|row| row.split(',').count()).sum();
        let quotes = text.matches('"').count();
        Import {
            ended: text.ends_with("\r\n"),
            records: rows.len(),
            posts,
            fields,
            quoted: quotes.is_multiple_of(2).then_some(quotes / 2),
            room,
            number: reply[0],
            record: u64::from(reply[1]) | u64::from(reply[2]) << 32,
        }
    }

    pub fn events(&self) -> usize {
        self.records.saturating_sub(2 + self.posts)
    }

    fn needed(&self) -> usize {
        sheet_length(self.events())
    }

    fn taken(&self) -> bool {
        self.number == 0
    }

    fn is_missing(&self) -> bool {
        self.number == 28 && self.record as usize > self.records
    }

    fn wrong(&self) -> Option<Named> {
        let table = 2 + self.posts;
        match self.record as usize {
            _ if self.number != 28 || self.is_missing() => None,
            1 => Some(Named::Header),
            2 => Some(Named::Start),
            record if record <= table => Some(Named::Post(record - 3)),
            record => Some(Named::Event(record - table)),
        }
    }
}

/// An export, the model's reply, and how long the text would be.
pub struct Export {
    needed: usize,
    room: usize,
    number: u32,
    block: u32,
}

impl Export {
    pub fn new(sheet: &[u8], room: usize, reply: &[u32]) -> Self {
        Export {
            needed: exported(sheet).map_or(0, |text| text.len()),
            room,
            number: reply[0],
            block: reply[1],
        }
    }
}
