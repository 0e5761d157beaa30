//! Damage to one record of a register, each kind of it in each sort of record: line ends,
//! quotes, fields too many or too few, spaces, and numbers as they must not be.

use crate::random::Random;
use crate::request::Request;
use crate::texts::{import_somewhere, quoted, some_written, Place, Record, Text, PLACES};

/// A kind of damage: its name, and what it does to the record at a place of a text.
type Misprint = (&'static str, fn(&mut Random, &mut Text, usize));

/// After each of these the record at that place can't stand.
pub const MISPRINTS: &[Misprint] = &[
    ("LF for CR LF", |_, text, at| text.records[at].end = "\n"),
    ("CR for CR LF", |_, text, at| text.records[at].end = "\r"),
    ("LF CR for CR LF", |_, text, at| {
        text.records[at].end = "\n\r"
    }),
    ("CR CR LF", |_, text, at| text.records[at].end = "\r\r\n"),
    ("a lone CR in it", |random, text, at| {
        put_in(random, text, at, "\r")
    }),
    ("a lone LF in it", |random, text, at| {
        put_in(random, text, at, "\n")
    }),
    ("a blank line in its place", |_, text, at| {
        let blank = Record {
            fields: vec![String::new()],
            end: "\r\n",
        };
        text.records.insert(at, blank);
    }),
    ("a quote inside a field", |random, text, at| {
        let field = some_used(random, text, at);
        let mut bare = inside(field).to_string();
        bare.insert(random.between(1, bare.len()), '"');
        *field = bare;
    }),
    ("quotes inside a field", |random, text, at| {
        let field = some_used(random, text, at);
        *field = format!("{0}\"{0}\"", inside(field));
    }),
    ("behind a closing quote", |random, text, at| {
        let more = random.pick(&[" ", "0", "x", "\t", "\0", "1", ";"]);
        let field = some_field(random, text, at);
        *field = quoted(inside(field)) + more;
    }),
    ("a quote behind a closing quote", |random, text, at| {
        let field = some_field(random, text, at);
        *field = quoted(inside(field)) + random.pick(&["\"", "\"\"", "\"0\""]);
    }),
    ("a quote before a quoted field", |random, text, at| {
        let field = some_used(random, text, at);
        *field = format!("\"\"{}\"\"", inside(field));
    }),
    ("a quote never closed", |random, text, at| {
        let field = some_field(random, text, at);
        *field = format!("\"{}", inside(field));
    }),
    ("doubled quotes in a quoted field", |random, text, at| {
        let field = some_field(random, text, at);
        let before = random.chance(50);
        *field = quoted(&beside(inside(field), "\"\"", before));
    }),
    ("a comma in a quoted field", |random, text, at| {
        let fields = &mut text.records[at].fields;
        let second = random.between(1, fields.len() - 1);
        let joined = [&fields[second - 1], &fields[second]].map(|f| inside(f));
        fields[second - 1] = quoted(&joined.join(","));
        fields.remove(second);
    }),
    ("CR LF in a quoted field", |random, text, at| {
        let end = random.pick(&["\r\n", "\r", "\n"]);
        let field = some_field(random, text, at);
        *field = quoted(&format!("{}{end}", inside(field)));
    }),
    ("a field too few", |random, text, at| {
        let fields = &mut text.records[at].fields;
        fields.remove(random.below(fields.len()));
    }),
    ("the last field too few", |_, text, at| {
        text.records[at].fields.pop();
    }),
    ("a field too many", |random, text, at| {
        let fields = &mut text.records[at].fields;
        let more = random.pick(&["", "\"\"", "0"]).to_string();
        fields.insert(random.below(fields.len() + 1), more);
    }),
    ("one field alone", |_, text, at| {
        text.records[at].fields.truncate(1);
    }),
    ("a field emptied", |random, text, at| {
        alter(some_used(random, text, at), |_| String::new());
    }),
    ("an unused field used", |random, text, at| {
        let more = random.pick(&["0", "1", "x"]);
        let fields = &mut text.records[at].fields;
        let unused = |field: &&mut String| inside(field).is_empty();
        let mut unused: Vec<&mut String> = fields.iter_mut().filter(unused).collect();
        match unused.len() {
            // A record that uses all its fields has one that says more than it may.
            0 => alter(some_field(random, text, at), |bare| format!("{bare}x")),
            count => alter(unused[random.below(count)], |_| more.to_string()),
        }
    }),
    ("a space or a tab", |random, text, at| {
        let space = random.pick(&[" ", " ", "\t", "\u{a0}"]);
        let (before, field) = (random.chance(50), some_field(random, text, at));
        alter(field, |bare| beside(bare, space, before));
    }),
    ("a space outside quotes", |random, text, at| {
        let (before, field) = (random.chance(50), some_field(random, text, at));
        *field = beside(&quoted(inside(field)), " ", before);
    }),
    ("leading zeros", |random, text, at| {
        let zeros = random.pick(&["0", "0", "00", "0000000000"]);
        alter(some_used(random, text, at), |bare| format!("{zeros}{bare}"));
    }),
    ("a sign", |random, text, at| {
        let sign = random.pick(&["+", "-"]);
        alter(some_used(random, text, at), |bare| format!("{sign}{bare}"));
    }),
    ("400 digits", |random, text, at| {
        let digit = random.pick(&["0", "1", "9"]);
        let more = digit.repeat(400);
        let before = random.chance(50);
        alter(some_used(random, text, at), |bare| {
            beside(bare, &more, before)
        });
    }),
    ("a number that comes round", |random, text, at| {
        let turns = random.pick(&[1 << 32, 1 << 33, 1 << 64, 3 << 64, 1 << 40]);
        alter(some_used(random, text, at), |bare| turned(bare, turns));
    }),
    (
        "a number that comes round at its field",
        |random, text, at| {
            let fields = &mut text.records[at].fields;
            let field = used_place(random, fields);
            let least = [256, 32, 64, 1 << 32, 32][field];
            let turns = random.pick(&[least, 2 * least, 8 * least, 1 << 48]);
            alter(&mut fields[field], |bare| turned(bare, turns));
        },
    ),
    ("no digits", |random, text, at| {
        let wrong = [
            "x", "0x1", "1e1", "1.0", "1;", "\u{661}", "\u{ff11}", "-", "#",
        ];
        let wrong = random.pick(&wrong);
        alter(some_used(random, text, at), |_| wrong.to_string());
    }),
    ("another character", |random, text, at| {
        let other = random.pick(&["\0", "\u{7f}", "\u{e9}", "\u{feff}", "'", "/", ":", "\x1a"]);
        put_in(random, text, at, other)
    }),
];

pub fn names() -> Vec<String> {
    let at_all = |(misprint, _): &Misprint| {
        let at = |(_, place): &(Place, &str)| format!("{misprint}, {place}");
        PLACES.iter().map(at).collect::<Vec<_>>()
    };
    MISPRINTS.iter().flat_map(at_all).collect()
}

/// A text with this misprint, and the number of the record that has it.
pub fn misprinted(random: &mut Random, variety: usize) -> (Text, usize) {
    let (_, damage) = MISPRINTS[variety / PLACES.len()];
    let (place, _) = PLACES[variety % PLACES.len()];
    let mut text = some_written(random, usize::from(place == Place::Event));
    let at = text.some_record(random, place);
    damage(random, &mut text, at);
    (text, at + 1)
}

pub fn misprint(random: &mut Random, variety: usize) -> Request {
    let (text, _) = misprinted(random, variety);
    import_somewhere(random, text.bytes(), text.events())
}

/// A field without its quotes.
pub fn inside(field: &str) -> &str {
    let quoted = field.strip_prefix('"').and_then(|f| f.strip_suffix('"'));
    quoted.unwrap_or(field)
}

/// Another content of a field, which stays quoted or not.
pub fn alter(field: &mut String, change: impl FnOnce(&str) -> String) {
    let bare = inside(field);
    let changed = change(bare);
    let was_quoted = bare.len() < field.len();
    *field = if was_quoted {
        quoted(&changed)
    } else {
        changed
    };
}

/// A number and so much; of a name its capitals.
fn turned(bare: &str, turns: u128) -> String {
    let number: Result<u128, _> = bare.parse();
    number.map_or(bare.to_uppercase(), |number| (number + turns).to_string())
}

fn beside(field: &str, more: &str, before: bool) -> String {
    match before {
        true => format!("{more}{field}"),
        false => format!("{field}{more}"),
    }
}

fn some_field<'a>(random: &mut Random, text: &'a mut Text, at: usize) -> &'a mut String {
    let fields = &mut text.records[at].fields;
    let field = random.below(fields.len());
    &mut fields[field]
}

/// A field that is not empty.
fn some_used<'a>(random: &mut Random, text: &'a mut Text, at: usize) -> &'a mut String {
    let fields = &mut text.records[at].fields;
    let field = used_place(random, fields);
    &mut fields[field]
}

fn used_place(random: &mut Random, fields: &[String]) -> usize {
    let used = |field: &usize| !inside(&fields[*field]).is_empty();
    let used: Vec<usize> = (0..fields.len()).filter(used).collect();
    random.pick(&used)
}

/// Put anywhere in a field, inside its quotes or not.
fn put_in(random: &mut Random, text: &mut Text, at: usize, more: &str) {
    let field = some_field(random, text, at);
    field.insert_str(random.below(field.len() + 1), more);
}
