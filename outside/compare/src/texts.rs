//! Registers as texts (02, item 3): their records and fields, quotings, right texts, and
//! every cut of a short one.

use model::{sheet_length, EVENTS_PER_BLOCK};

use crate::random::Random;
use crate::request::Request;
use crate::rooms::about;
use crate::sheets::Sheet;
use crate::variety::Variety;
use crate::writes::{any_sheet, any_sheet_of};

/// What ends a record.
pub const CRLF: &str = "\r\n";

/// A record as it is written: its fields, quoted or not, and what stands behind them.
#[derive(Clone)]
pub struct Record {
    pub fields: Vec<String>,
    pub end: &'static str,
}

/// A text by its records: the header, the start stamp, the posts, the events.
#[derive(Clone)]
pub struct Text {
    pub records: Vec<Record>,
    pub posts: usize,
}

/// The sorts of records, by turns.
#[derive(Clone, Copy, Debug, PartialEq)]
pub enum Place {
    Header,
    Start,
    Post,
    Event,
}

pub const PLACES: [(Place, &str); 4] = [
    (Place::Header, "the header"),
    (Place::Start, "the start stamp"),
    (Place::Post, "a post"),
    (Place::Event, "an event"),
];

impl Text {
    /// The register of a table, a stamp and events, of which a sheet may be too small.
    pub fn of(sheet: &Sheet) -> Text {
        let mut rows = vec![
            "position,event,post,stamp,answer".to_string(),
            format!(",,,{},", sheet.stamp),
        ];
        for (post, kind) in sheet.kinds.iter().enumerate() {
            rows.push(format!(",{kind},{post},,"));
        }
        for (position, [event, post, answer, stamp]) in (1..).zip(&sheet.events) {
            rows.push(format!("{position},{event},{post},{stamp},{answer}"));
        }
        let record = |row: &String| Record {
            fields: row.split(',').map(str::to_string).collect(),
            end: CRLF,
        };
        Text {
            records: rows.iter().map(record).collect(),
            posts: sheet.kinds.len(),
        }
    }

    pub fn bytes(&self) -> Vec<u8> {
        let row = |record: &Record| record.fields.join(",") + record.end;
        self.records
            .iter()
            .map(row)
            .collect::<String>()
            .into_bytes()
    }

    /// So often in a hundred, a field is quoted.
    pub fn quote(&mut self, random: &mut Random, percent: usize) {
        for field in self.records.iter_mut().flat_map(|r| &mut r.fields) {
            if random.chance(percent) {
                *field = quoted(field);
            }
        }
    }

    /// Some quoting; as exported, all and a few among them.
    pub fn quote_somehow(&mut self, random: &mut Random) {
        let percent = random.pick(&[0, 0, 10, 50, 100]);
        self.quote(random, percent);
    }

    pub fn drop_last_end(&mut self) {
        if let Some(last) = self.records.last_mut() {
            last.end = "";
        }
    }

    /// Some record of this sort, by its place from 0.
    pub fn some_record(&self, random: &mut Random, place: Place) -> usize {
        match place {
            Place::Header => 0,
            Place::Start => 1,
            Place::Post => random.between(2, 1 + self.posts),
            Place::Event => random.between(2 + self.posts, self.records.len() - 1),
        }
    }

    pub fn events(&self) -> usize {
        self.records.len().saturating_sub(2 + self.posts)
    }
}

pub fn quoted(field: &str) -> String {
    format!("\"{field}\"")
}

/// A register of at least so many events, mostly few, with fields of any value that fits.
pub fn some_text(random: &mut Random, least: usize) -> Text {
    let count = match random.below(50) {
        0 => random.pick(&[59, 60, 61, 120, 121]),
        1..=15 => least,
        _ => random.between(least, 8),
    };
    Text::of(&any_sheet(random, count))
}

/// The same, quoted somehow, with its last line end or without.
pub fn some_written(random: &mut Random, least: usize) -> Text {
    let mut text = some_text(random, least);
    text.quote_somehow(random);
    if random.chance(40) {
        text.drop_last_end();
    }
    text
}

/// The text of a good sheet. A block of 512 bytes is 60 events, which are at most 26 bytes
/// each.
pub fn exported(sheet: &[u8]) -> Option<Vec<u8>> {
    let mut text = vec![0; 4 * sheet.len()];
    let told = model::export(sheet, &mut text);
    text.truncate(told.bytes);
    (told.number == 0).then_some(text)
}

/// The import of a text, into a room that differs by so much from what its sheet needs.
pub fn import(random: &mut Random, text: Vec<u8>, events: usize, by: i64) -> Request {
    Request::Import {
        text,
        out_len: about(sheet_length(events), by),
        fill: random.word() as u8,
    }
}

/// The same, into a room that most often is long enough.
pub fn import_somewhere(random: &mut Random, text: Vec<u8>, events: usize) -> Request {
    let by = random.pick(&[0, 0, 0, 0, 3, 512, -1, -99_999]);
    import(random, text, events, by)
}

fn right(random: &mut Random, text: Text, by: i64) -> Request {
    import(random, text.bytes(), text.events(), by)
}

/// A text so quoted, into a room that fits.
fn quoted_by(random: &mut Random, percent: usize) -> Request {
    let mut text = some_text(random, 0);
    text.quote(random, percent);
    right(random, text, 0)
}

fn into_room(random: &mut Random, by: i64) -> Request {
    let text = some_written(random, 0);
    right(random, text, by)
}

fn of_posts(random: &mut Random, posts: usize) -> Request {
    let count = random.between(0, 3);
    let mut text = Text::of(&any_sheet_of(random, posts, count));
    text.quote_somehow(random);
    right(random, text, 0)
}

pub const RIGHT: &[Variety] = &[
    ("as exported", |random| quoted_by(random, 0)),
    ("all quoted", |random| quoted_by(random, 100)),
    ("half quoted", |random| quoted_by(random, 50)),
    ("a few quoted", |random| quoted_by(random, 10)),
    ("no last line end", |random| {
        let mut text = some_text(random, 0);
        text.quote_somehow(random);
        text.drop_last_end();
        right(random, text, 0)
    }),
    ("one record quoted", |random| {
        let mut text = some_text(random, 0);
        let at = random.below(text.records.len());
        for field in &mut text.records[at].fields {
            *field = quoted(field);
        }
        right(random, text, 0)
    }),
    ("empty fields quoted", |random| {
        let mut text = some_text(random, 0);
        let fields = text.records.iter_mut().flat_map(|r| &mut r.fields);
        fields.filter(|f| f.is_empty()).for_each(|f| *f = quoted(f));
        right(random, text, 0)
    }),
    ("no event", |random| {
        let text = Text::of(&any_sheet(random, 0));
        right(random, text, 0)
    }),
    ("2 posts", |random| of_posts(random, 2)),
    ("31 posts", |random| of_posts(random, 31)),
    ("32 posts", |random| of_posts(random, 32)),
    ("61 events and more", |random| {
        let count = random.between(EVENTS_PER_BLOCK + 1, 4 * EVENTS_PER_BLOCK);
        let text = Text::of(&any_sheet(random, count));
        right(random, text, 0)
    }),
    ("about a block of events", |random| {
        let count = random.between(EVENTS_PER_BLOCK - 1, EVENTS_PER_BLOCK + 1);
        let text = Text::of(&any_sheet(random, count));
        right(random, text, 0)
    }),
    ("output one short", |random| into_room(random, -1)),
    ("output one over", |random| into_room(random, 1)),
    ("output a block over", |random| into_room(random, 512)),
    ("output a block short", |random| into_room(random, -512)),
    ("no output", |random| into_room(random, -99_999)),
];

/// A short register: three posts, the last of two digits, and two events.
fn short() -> Text {
    Text::of(&Sheet {
        kinds: vec![0, 3, 17],
        stamp: 17,
        events: vec![[5, 0, 31, 1000], [12, 63, 0, u32::MAX]],
    })
}

/// The short register as exported, with every field quoted, and with every other one.
fn short_texts() -> [(&'static str, Vec<u8>); 3] {
    let quoted_so = |every: fn(usize) -> bool| {
        let mut text = short();
        let fields = text.records.iter_mut().flat_map(|r| &mut r.fields);
        for (_, field) in fields.enumerate().filter(|(at, _)| every(*at)) {
            *field = quoted(field);
        }
        text.bytes()
    };
    [
        ("as exported", short().bytes()),
        ("all quoted", quoted_so(|_| true)),
        ("half quoted", quoted_so(|at| at % 2 == 1)),
    ]
}

/// Which of these texts, and how many bytes of it are left.
fn cuts(texts: &[(&str, Vec<u8>)]) -> Vec<(usize, usize)> {
    let of = |which: usize| (0..=texts[which].1.len()).map(move |at| (which, at));
    (0..texts.len()).flat_map(of).collect()
}

pub fn cut_names() -> Vec<String> {
    let texts = short_texts();
    let name = |(which, at): (usize, usize)| format!("{}, {at} bytes of it", texts[which].0);
    cuts(&texts).into_iter().map(name).collect()
}

pub fn cut(random: &mut Random, variety: usize) -> Request {
    let texts = short_texts();
    let (which, at) = cuts(&texts)[variety];
    import_somewhere(random, texts[which].1[..at].to_vec(), 2)
}
