//! Registers that are wrong as a whole: posts, kinds and positions out of order or out of
//! range, records too many or too few, ends that come too soon, and bytes changed.

use crate::misprints::{alter, inside};
use crate::random::Random;
use crate::request::Request;
use crate::tables::{any_number, in_some_form, kind_inside};
use crate::texts::{import_somewhere, quoted, some_text, some_written, Place, Record, Text};
use crate::variety::Variety;
use crate::writes::any_sheet_of;

pub const SPOILED: &[Variety] = &[
    ("a post out of order", |random| {
        spoiled(random, 0, |random, text| {
            let at = text.some_record(random, Place::Post);
            alter_number(random, &mut text.records[at].fields[2]);
        })
    }),
    ("a position out of order", |random| {
        spoiled(random, 1, |random, text| {
            let at = text.some_record(random, Place::Event);
            alter_number(random, &mut text.records[at].fields[0]);
        })
    }),
    ("a kind wrong", |random| {
        spoiled(random, 0, |random, text| {
            let at = text.some_record(random, Place::Post);
            put_kind(random, text, at);
        })
    }),
    ("the first kind wrong", |random| {
        spoiled(random, 0, |random, text| put_kind(random, text, 2))
    }),
    ("the last kind wrong", |random| {
        spoiled(random, 1, |random, text| {
            put_kind(random, text, 1 + text.posts)
        })
    }),
    ("a table with no end", |random| {
        spoiled(random, 0, |random, text| {
            let kind = kind_inside(random).to_string();
            let at = 1 + text.posts;
            alter(&mut text.records[at].fields[1], |_| kind);
            text.records.truncate(at + 1);
        })
    }),
    ("31 posts and no end", |random| {
        let kind = kind_inside(random);
        long_table(random, 31, Some(kind))
    }),
    ("32 posts, any number for the last kind", |random| {
        let number = any_number(random);
        long_table(random, 32, Some(number))
    }),
    ("33 posts", |random| long_table(random, 33, None)),
    ("34 posts and more", |random| {
        let posts = random.pick(&[34, 64, 65, 200, 257]);
        long_table(random, posts, None)
    }),
    ("event out of its range", |random| {
        out_of_range(random, 1, 32)
    }),
    ("post out of its range", |random| {
        out_of_range(random, 2, 64)
    }),
    ("stamp out of its range", |random| {
        out_of_range(random, 3, 1 << 32)
    }),
    ("answer out of its range", |random| {
        out_of_range(random, 4, 32)
    }),
    ("start stamp out of its range", |random| {
        spoiled(random, 0, |random, text| {
            let wrong = just_past(random, 1 << 32);
            alter(&mut text.records[1].fields[3], |_| wrong);
        })
    }),
    ("all at the edges of their ranges", edges),
    ("a record left out", |random| {
        spoiled(random, 1, |random, text| {
            text.records.remove(random.below(text.records.len()));
        })
    }),
    ("a record twice", |random| {
        spoiled(random, 1, |random, text| {
            let at = random.below(text.records.len());
            text.records.insert(at, text.records[at].clone());
        })
    }),
    ("two records changed places", |random| {
        spoiled(random, 1, |random, text| {
            let at = random.between(1, text.records.len() - 1);
            text.records.swap(at - 1, at);
        })
    }),
    ("a record of another sort", |random| {
        spoiled(random, 1, |random, text| {
            let [from, to] = [(); 2].map(|()| random.below(text.records.len()));
            text.records[to].fields = text.records[from].fields.clone();
        })
    }),
    ("ends after any record", |random| {
        spoiled(random, 0, |random, text| {
            text.records.truncate(random.below(text.records.len() + 1));
        })
    }),
    ("ends before the table does", |random| {
        spoiled(random, 0, |random, text| {
            text.records.truncate(random.between(0, 1 + text.posts));
            if random.chance(50) {
                text.drop_last_end();
            }
        })
    }),
    ("ends before the posts", |random| {
        spoiled(random, 0, |random, text| {
            text.records.truncate(random.below(3));
            if random.chance(50) {
                text.drop_last_end();
            }
        })
    }),
    ("ends anywhere", |random| {
        changed(random, |random, bytes| {
            bytes.truncate(random.below(bytes.len() + 1));
        })
    }),
    ("a blank line at the end", |random| {
        tailed(random, &["\r\n", "\r\n", "\r\n\r\n"])
    }),
    ("something behind the end", |random| {
        tailed(
            random,
            &["\r", "\n", " ", "\0", "\"", "\"\"", ",,,,", "\x1a"],
        )
    }),
    ("a line end cut", |random| {
        spoiled(random, 0, |random, text| {
            let at = text.records.len() - 1;
            text.records[at].end = random.pick(&["\r", "\n", "\r\r\n", "\r\n\r"]);
        })
    }),
    ("two wrong records", |random| {
        spoiled(random, 1, |random, text| {
            for _ in 0..2 {
                let place = random.pick(&[Place::Header, Place::Start, Place::Post, Place::Event]);
                let at = text.some_record(random, place);
                text.records[at].fields.push(String::new());
            }
        })
    }),
    ("a mark of the order of bytes before it", |random| {
        changed(random, |_, bytes| {
            bytes.splice(0..0, *b"\xEF\xBB\xBF");
        })
    }),
    ("a bit flipped", |random| {
        changed(random, |random, bytes| {
            let at = random.below(bytes.len());
            bytes[at] ^= 1 << random.below(8);
        })
    }),
    ("a byte changed", |random| {
        changed(random, |random, bytes| {
            let at = random.below(bytes.len());
            bytes[at] = random.pick(BYTES);
        })
    }),
    ("a byte put in", |random| {
        changed(random, |random, bytes| {
            let at = random.below(bytes.len() + 1);
            bytes.insert(at, random.pick(BYTES));
        })
    }),
    ("a byte taken out", |random| {
        changed(random, |random, bytes| {
            bytes.remove(random.below(bytes.len()));
        })
    }),
    ("a piece again", |random| {
        changed(random, |random, bytes| {
            let from = random.below(bytes.len());
            let to = random.between(from, bytes.len());
            let piece = bytes[from..to].to_vec();
            bytes.splice(to..to, piece);
        })
    }),
    ("the same quoted in a second round", |random| {
        changed(random, |_, bytes| {
            let text = String::from_utf8_lossy(bytes).into_owned();
            let row = |row: &str| row.split(',').map(quoted).collect::<Vec<_>>().join(",");
            let rows: Vec<String> = text.split("\r\n").map(row).collect();
            *bytes = rows.join("\r\n").into_bytes();
        })
    }),
    ("any of its bytes", |random| {
        let count = random.between(0, 60);
        let mut bytes: Vec<u8> = (0..count).map(|_| random.pick(BYTES)).collect();
        if random.chance(50) {
            bytes = [b"position,event,post,stamp,answer\r\n,,,0,\r\n", &bytes[..]].concat();
        }
        import_somewhere(random, bytes, 0)
    }),
];

/// The bytes that a register is made of, and some that it is not.
const BYTES: &[u8] = b",,,,\"\"\"\"\r\r\n\n001123456789 positeventx\0\x80\xFF";

/// A text of at least so many events, changed so.
fn spoiled(random: &mut Random, events: usize, change: fn(&mut Random, &mut Text)) -> Request {
    let mut text = some_written(random, events);
    change(random, &mut text);
    import_somewhere(random, text.bytes(), text.events())
}

/// The same for the bytes of it.
fn changed(random: &mut Random, change: fn(&mut Random, &mut Vec<u8>)) -> Request {
    let text = some_written(random, 0);
    let mut bytes = text.bytes();
    change(random, &mut bytes);
    import_somewhere(random, bytes, text.events())
}

/// Another number, often the one beside it or one that is the same in its lower bits.
fn alter_number(random: &mut Random, field: &mut String) {
    let right: u64 = inside(field).parse().unwrap_or(0);
    let wrong = [
        right + 1,
        right.wrapping_sub(1),
        0,
        1,
        right + 2,
        right + 256,
        right + (1 << 16),
        right + (1 << 32),
        right + 10,
    ];
    let wrong = random.pick(&wrong).to_string();
    alter(field, |_| wrong);
}

/// Any kind that there is, or one that there is not.
fn put_kind(random: &mut Random, text: &mut Text, at: usize) {
    let number = any_number(random).to_string();
    alter(&mut text.records[at].fields[1], |_| number);
}

/// A table that would be right if it were not so long, or whose last kind is another.
fn long_table(random: &mut Random, posts: usize, last: Option<u32>) -> Request {
    let count = random.between(0, 2);
    let mut text = Text::of(&any_sheet_of(random, posts, count));
    if let Some(kind) = last {
        text.records[1 + posts].fields[1] = kind.to_string();
        // Behind it: events, nothing, or one post more, which would end the table.
        if random.chance(50) {
            text.records.truncate(2 + posts);
        }
        if random.chance(50) {
            text.records.truncate(2 + posts);
            let last = in_some_form(random, 1).to_string();
            text.records.push(Record {
                fields: ["", &last, &posts.to_string(), "", ""]
                    .map(str::to_string)
                    .to_vec(),
                end: "\r\n",
            });
        }
    }
    text.quote_somehow(random);
    import_somewhere(random, text.bytes(), count)
}

fn just_past(random: &mut Random, limit: u64) -> String {
    let wrong = [
        limit,
        limit,
        limit + 1,
        2 * limit,
        10 * limit,
        1 << 32,
        u64::MAX,
    ];
    random.pick(&wrong).to_string()
}

fn out_of_range(random: &mut Random, field: usize, limit: u64) -> Request {
    let mut text = some_written(random, 1);
    let at = text.some_record(random, Place::Event);
    let wrong = just_past(random, limit);
    alter(&mut text.records[at].fields[field], |_| wrong);
    import_somewhere(random, text.bytes(), text.events())
}

/// The greatest and the least that may stand, or just past it in one field.
fn edges(random: &mut Random) -> Request {
    let mut text = some_text(random, 1);
    for record in text.records.iter_mut().skip(2 + text.posts) {
        for (field, limit) in record.fields[1..].iter_mut().zip([32, 64, 1u64 << 32, 32]) {
            *field = random.pick(&[0, limit - 1]).to_string();
        }
    }
    if random.chance(50) {
        let at = text.some_record(random, Place::Event);
        let (field, limit) = random.pick(&[(1, 32), (2, 64), (3, 1u64 << 32), (4, 32)]);
        text.records[at].fields[field] = limit.to_string();
    }
    text.quote_somehow(random);
    import_somewhere(random, text.bytes(), text.events())
}

/// A right text that ends in CR LF, and one of these behind it.
fn tailed(random: &mut Random, tails: &[&str]) -> Request {
    let mut text = some_text(random, 0);
    text.quote_somehow(random);
    let mut bytes = text.bytes();
    bytes.extend_from_slice(random.pick(tails).as_bytes());
    import_somewhere(random, bytes, text.events())
}
