//! Libraries that are the model with one fault about the import of a register put in (02,
//! item 3): each must be found by a small run. And what the makers of texts say of them.

mod common;

use common::{compare_only, must_differ_on};
use compare::desk::Desk;
use compare::misprints::{inside, misprinted, names};
use compare::random::Random;
use compare::texts::CRLF;
use model::{sheet_length, Imported};

/// The sorts of cases that import.
const IMPORTING: [&str; 5] = [
    "right-texts",
    "misprints",
    "spoiled-texts",
    "cut-texts",
    "long-texts",
];

/// A desk that imports by this.
struct Imports(Import);

impl Desk for Imports {
    fn import(&mut self, text: &[u8], out: &mut [u8]) -> Imported {
        (self.0)(text, out)
    }
}

type Import = fn(&[u8], &mut [u8]) -> Imported;
type ImportFault = (&'static str, Import);

/// The text as this desk takes it: bytes as characters, so that any can be looked at.
fn mended(text: &[u8], out: &mut [u8], mend: impl Fn(&str) -> String) -> Imported {
    let text: String = text.iter().map(|&byte| char::from(byte)).collect();
    let mended: Vec<u8> = mend(&text).chars().map(|c| c as u8).collect();
    model::import(&mended, out)
}

/// Each row mended, by its place from 0 and how many posts stand before it if it is an event
/// (else 0).
fn rows(text: &[u8], out: &mut [u8], mend: impl Fn(usize, usize, &str) -> String) -> Imported {
    mended(text, out, |text| {
        let mut posts = 0;
        let mut rows = Vec::new();
        for (at, row) in text.split(CRLF).enumerate() {
            let row = mend(at, posts, row);
            let kind = row.split(',').nth(1).map(inside);
            if at > 1 && posts == 0 && matches!(kind, Some("1" | "17")) {
                posts = at - 1;
            }
            rows.push(row);
        }
        rows.join(CRLF)
    })
}

/// Each field mended, by its record as above and its own place.
fn fields(
    text: &[u8],
    out: &mut [u8],
    mend: impl Fn(usize, usize, usize, &str) -> String,
) -> Imported {
    rows(text, out, |at, posts, row| {
        let field = |(place, field): (usize, &str)| mend(at, posts, place, field);
        let fields: Vec<String> = row.split(',').enumerate().map(field).collect();
        fields.join(",")
    })
}

/// The content of every field mended, its quotes left.
fn contents(text: &[u8], out: &mut [u8], mend: fn(&str) -> String) -> Imported {
    fields(text, out, |_, _, _, field| {
        let bare = inside(field);
        field.replacen(bare, &mend(bare), usize::from(!bare.is_empty()))
    })
}

/// The model's answer where it is a refusal, changed so.
fn refused(text: &[u8], out: &mut [u8], change: fn(Imported, &[u8]) -> Imported) -> Imported {
    let told = model::import(text, out);
    match told.number {
        0 => told,
        _ => change(told, text),
    }
}

/// Digits with the zeros before them taken off.
fn no_zeros(digits: &str) -> String {
    let is_number = !digits.is_empty() && digits.bytes().all(|byte| byte.is_ascii_digit());
    match digits.trim_start_matches('0') {
        "" if is_number => "0".to_string(),
        rest if is_number => rest.to_string(),
        _ => digits.to_string(),
    }
}

/// A number that is written as it should be, so that no other fault is mended with one.
fn plain(digits: &str) -> Option<u128> {
    let number: u128 = digits.parse().ok()?;
    (number.to_string() == digits).then_some(number)
}

/// A number carried round.
fn round(digits: &str, at: u128) -> String {
    plain(digits).map_or(digits.to_string(), |number| (number % at).to_string())
}

/// The field of an event's position, right where it is the same as the right one when both
/// are carried round.
fn position_round(text: &[u8], out: &mut [u8], turn: u128) -> Imported {
    fields(text, out, |at, posts, place, field| {
        let right = (at as u128).wrapping_sub(1 + posts as u128);
        match plain(inside(field)) {
            Some(number) if posts > 0 && place == 0 && number % turn == right % turn => {
                right.to_string()
            }
            _ => field.to_string(),
        }
    })
}

/// 28 at this record.
fn cannot_stand(record: u64) -> Imported {
    Imported {
        number: 28,
        record,
        bytes: 0,
    }
}

fn too_short() -> Imported {
    Imported {
        number: 21,
        ..Imported::default()
    }
}

fn too_long() -> Imported {
    Imported {
        number: 18,
        ..Imported::default()
    }
}

/// How many records there are by line ends alone.
fn count(text: &[u8]) -> usize {
    let ends = text.windows(2).filter(|two| two == b"\r\n").count();
    ends + usize::from(!text.is_empty() && !text.ends_with(b"\r\n"))
}

const LINE_ENDS: &[ImportFault] = &[
    ("LF for CR LF", |text, out| {
        mended(text, out, |text| {
            text.replace(CRLF, "\n").replace('\n', CRLF)
        })
    }),
    ("LF alone, where CR LF is refused", |text, out| {
        mended(text, out, |text| {
            let marked = text.replace(CRLF, "\x01");
            marked.replace('\n', CRLF).replace('\x01', "\n")
        })
    }),
    ("CR for CR LF", |text, out| {
        mended(text, out, |text| {
            text.replace(CRLF, "\r").replace('\r', CRLF)
        })
    }),
    ("a lone CR at the end let in", |text, out| {
        model::import(text.strip_suffix(b"\r").unwrap_or(text), out)
    }),
    ("a lone LF at the end let in", |text, out| {
        mended(text, out, |text| match text.strip_suffix('\n') {
            Some(rest) if !rest.ends_with('\r') => rest.to_string(),
            _ => text.to_string(),
        })
    }),
    ("last line end demanded", |text, out| {
        let mut tried = out.to_vec();
        let told = model::import(text, &mut tried);
        if told.number == 28 || text.ends_with(b"\r\n") {
            return model::import(text, out);
        }
        cannot_stand(count(text) as u64)
    }),
    ("last line end refused", |text, out| {
        let mut tried = out.to_vec();
        let told = model::import(text, &mut tried);
        if told.number == 28 || !text.ends_with(b"\r\n") {
            return model::import(text, out);
        }
        cannot_stand(count(text) as u64 + 1)
    }),
    ("a blank line at the end let in", |text, out| {
        model::import(text.strip_suffix(b"\r\n\r\n").unwrap_or(text), out)
    }),
    ("blank lines let in", |text, out| {
        mended(text, out, |text| text.replace("\r\n\r\n", CRLF))
    }),
];

const QUOTES: &[ImportFault] = &[
    ("a quote inside a field let in", |text, out| {
        fields(text, out, |_, _, _, field| match field.starts_with('"') {
            true => field.to_string(),
            false => field.replace('"', ""),
        })
    }),
    ("every quote passed over", |text, out| {
        mended(text, out, |text| text.replace('"', ""))
    }),
    ("anything behind a closing quote", |text, out| {
        fields(text, out, |_, _, _, field| {
            let closed = field
                .rfind('"')
                .filter(|&at| at > 0 && field.starts_with('"'));
            closed.map_or(field, |at| &field[..=at]).to_string()
        })
    }),
    ("a space behind a closing quote", |text, out| {
        mended(text, out, |text| text.replace("\" ", "\""))
    }),
    ("CR or LF behind a closing quote", |text, out| {
        mended(text, out, |text| {
            let marked = text.replace("\"\r\n", "\x01");
            let ended = marked.replace("\"\n", "\x01").replace("\"\r", "\x01");
            ended.replace('\x01', "\"\r\n")
        })
    }),
    ("a quote never closed let in at the end", |text, out| {
        mended(text, out, |text| match text.matches('"').count() % 2 {
            0 => text.to_string(),
            _ => format!("{}\"", text.strip_suffix(CRLF).unwrap_or(text)),
        })
    }),
    ("a doubled quote is none", |text, out| {
        fields(text, out, |_, _, _, field| match inside(field) {
            bare if bare.len() < field.len() => format!("\"{}\"", bare.replace("\"\"", "")),
            _ => field.to_string(),
        })
    }),
    ("no quotes about an empty field", |text, out| {
        fields(text, out, |_, _, _, field| {
            field.replace("\"\"", "x").to_string()
        })
    }),
    ("no quotes in the header", |text, out| {
        fields(text, out, |at, _, _, field| match at {
            0 => field.replace('"', "x"),
            _ => field.to_string(),
        })
    }),
    ("no quotes about numbers", |text, out| {
        fields(text, out, |at, _, _, field| match at {
            0 => field.to_string(),
            _ if inside(field).is_empty() => field.to_string(),
            _ => field.replace('"', "x"),
        })
    }),
    ("no quotes about the last field", |text, out| {
        fields(text, out, |_, _, place, field| match place {
            4 => field.replace('"', "x"),
            _ => field.to_string(),
        })
    }),
];

/// Unused fields of the start stamp and of posts emptied, where what they have is such.
fn unused(text: &[u8], out: &mut [u8], such: fn(&str) -> bool) -> Imported {
    fields(text, out, |at, posts, place, field| {
        let used: &[usize] = match (at, posts) {
            (0, _) | (_, 1..) => &[0, 1, 2, 3, 4],
            (1, _) => &[3],
            _ => &[1, 2],
        };
        match used.contains(&place) || place > 4 || !such(inside(field)) {
            true => field.to_string(),
            false => String::new(),
        }
    })
}

const FIELDS: &[ImportFault] = &[
    ("a leading zero let in", |text, out| {
        contents(text, out, no_zeros)
    }),
    ("00 let in", |text, out| {
        contents(text, out, |bare| match bare {
            "00" => "0".to_string(),
            _ => bare.to_string(),
        })
    }),
    ("a plus let in", |text, out| {
        contents(text, out, |bare| bare.trim_start_matches('+').to_string())
    }),
    ("spaces let in", |text, out| {
        contents(text, out, |bare| bare.trim_matches(' ').to_string())
    }),
    ("tabs let in", |text, out| {
        contents(text, out, |bare| bare.trim_matches('\t').to_string())
    }),
    ("the header not looked at", |text, out| {
        fields(text, out, |at, _, place, field| {
            let names = ["position", "event", "post", "stamp", "answer"];
            let is_name = inside(field).chars().all(char::is_alphanumeric);
            match names.get(place) {
                Some(name) if at == 0 && is_name => name.to_string(),
                _ => field.to_string(),
            }
        })
    }),
    ("the header's case not looked at", |text, out| {
        fields(text, out, |at, _, _, field| match at {
            0 => field.to_lowercase(),
            _ => field.to_string(),
        })
    }),
    ("a mark of the order of bytes let in", |text, out| {
        model::import(text.strip_prefix(b"\xEF\xBB\xBF").unwrap_or(text), out)
    }),
    ("numbers come round at 2^32", |text, out| {
        contents(text, out, |bare| round(bare, 1 << 32))
    }),
    ("numbers come round at 2^64", |text, out| {
        contents(text, out, |bare| round(bare, 1 << 64))
    }),
    ("an event's post comes round at 64", |text, out| {
        fields(text, out, |_, posts, place, field| match (posts, place) {
            (1.., 2) => field.replace(inside(field), &round(inside(field), 64)),
            _ => field.to_string(),
        })
    }),
    ("an empty number is 0", |text, out| {
        fields(text, out, |at, posts, place, field| {
            let number = at == 1 && place == 3 || posts > 0 && place > 0;
            match number && inside(field).is_empty() && at > 0 {
                true => "0".to_string(),
                false => field.to_string(),
            }
        })
    }),
    ("an unused field not looked at", |text, out| {
        unused(text, out, |_| true)
    }),
    ("a number in an unused field let in", |text, out| {
        unused(text, out, |bare| plain(bare).is_some())
    }),
    ("a sixth field let in", |text, out| {
        rows(text, out, |_, _, row| {
            row.split(',').take(5).collect::<Vec<_>>().join(",")
        })
    }),
    ("a last field that is empty left out", |text, out| {
        rows(text, out, |_, _, row| match row.matches(',').count() {
            3 => format!("{row},"),
            _ => row.to_string(),
        })
    }),
];

/// A field of an event let in up to this, the greatest that may stand put for it.
fn up_to(text: &[u8], out: &mut [u8], field: usize, wrong: &'static str) -> Imported {
    fields(text, out, move |_, posts, place, given| {
        let most = ["", "31", "63", "4294967295", "31"][field];
        match posts > 0 && place == field && inside(given) == wrong {
            true => most.to_string(),
            false => given.to_string(),
        }
    })
}

const ORDER: &[ImportFault] = &[
    ("kinds' posts not looked at", |text, out| {
        fields(text, out, |at, posts, place, field| {
            let looked_at = posts > 0 || place != 2 || at < 2 || plain(inside(field)).is_none();
            match looked_at {
                true => field.to_string(),
                false => (at - 2).to_string(),
            }
        })
    }),
    ("position not looked at", |text, out| {
        position_round(text, out, 1)
    }),
    ("positions from 0", |text, out| {
        fields(text, out, |_, posts, place, field| {
            match plain(inside(field)) {
                Some(number) if posts > 0 && place == 0 => (number + 1).to_string(),
                _ => field.to_string(),
            }
        })
    }),
    ("position carried round at 256", |text, out| {
        position_round(text, out, 1 << 8)
    }),
    ("position carried round at 2^16", |text, out| {
        position_round(text, out, 1 << 16)
    }),
    ("position carried round at 2^32", |text, out| {
        position_round(text, out, 1 << 32)
    }),
    ("position carried round at 2^64", |text, out| {
        position_round(text, out, 1 << 64)
    }),
    ("event 32 let in", |text, out| up_to(text, out, 1, "32")),
    ("post 64 let in", |text, out| up_to(text, out, 2, "64")),
    ("stamp 2^32 let in", |text, out| {
        up_to(text, out, 3, "4294967296")
    }),
    ("answer 32 let in", |text, out| up_to(text, out, 4, "32")),
    ("kind 5 let in", |text, out| {
        fields(text, out, |at, posts, place, field| match (posts, place) {
            (0, 1) if at > 2 && inside(field) == "5" => "4".to_string(),
            _ => field.to_string(),
        })
    }),
    ("kind 0 let in between", |text, out| {
        fields(text, out, |at, posts, place, field| match (posts, place) {
            (0, 1) if at > 2 && inside(field) == "0" => "4".to_string(),
            _ => field.to_string(),
        })
    }),
    ("the first kind not looked at", |text, out| {
        fields(text, out, |at, _, place, field| match (at, place) {
            (2, 1) if inside(field).len() == 1 => "0".to_string(),
            _ => field.to_string(),
        })
    }),
    ("a table without an end ended by the desk", |text, out| {
        let told = model::import(text, &mut []);
        match told.number == 28 && told.record as usize > count(text) && told.record > 3 {
            true => mended(text, out, |text| {
                let post = told.record - 3;
                format!("{}\r\n,1,{post},,", text.strip_suffix(CRLF).unwrap_or(text))
            }),
            false => model::import(text, out),
        }
    }),
    ("a table of 32 posts refused at post 31", |text, out| {
        let mut tried = out.to_vec();
        let told = model::import(text, &mut tried);
        let of_32 = told.number == 0 && tried[4] == 32;
        match of_32 {
            true => cannot_stand(34),
            false => model::import(text, out),
        }
    }),
    ("post 31 may go on", |text, out| {
        refused(text, out, |told, text| {
            let text = String::from_utf8_lossy(text).replace('"', "");
            let goes_on = [",2,31,,", ",3,31,,", ",4,31,,"];
            let last = text.split(CRLF).nth(33).unwrap_or("");
            match told == cannot_stand(34) && goes_on.contains(&last) {
                true => cannot_stand(35),
                false => told,
            }
        })
    }),
];

const ANSWERS: &[ImportFault] = &[
    ("the record counted from 0", |text, out| {
        refused(text, out, |told, _| Imported {
            record: told.record.saturating_sub(1),
            ..told
        })
    }),
    ("the header not counted", |text, out| {
        refused(text, out, |told, _| Imported {
            record: told.record.max(2) - 1,
            ..told
        })
    }),
    ("an empty text lacks record 0", |text, out| {
        refused(text, out, |told, text| match text {
            b"" => cannot_stand(0),
            _ => told,
        })
    }),
    ("an empty text is an empty sheet", |text, out| match text {
        b"" => Imported::default(),
        _ => model::import(text, out),
    }),
    ("what is missing named by the last there", |text, out| {
        refused(text, out, |told, text| {
            match told.number == 28 && told.record as usize > count(text) {
                true => cannot_stand(count(text) as u64),
                false => told,
            }
        })
    }),
    ("the last wrong record named", |text, out| {
        refused(text, out, |told, text| match told.number {
            28 => cannot_stand(told.record.max(count(text) as u64)),
            _ => told,
        })
    }),
    ("18 before 28", |text, out| {
        refused(text, out, |told, text| match count(text) > 3_900 {
            true => too_long(),
            false => told,
        })
    }),
    ("only 3,781 events looked at", |text, out| {
        let row = |row: &&[u8]| row.len() + 1;
        let rows: Vec<&[u8]> = text.split(|&byte| byte == b'\n').collect();
        match rows.len() > 3_900 {
            true => {
                let length: usize = rows[..3_850].iter().map(row).sum();
                model::import(&text[..length], out)
            }
            false => model::import(text, out),
        }
    }),
    ("21 before 28", |text, out| {
        let told = model::import(text, out);
        match told.number == 28 && out.len() < 512 {
            true => too_short(),
            false => told,
        }
    }),
    ("21 before 18", |text, out| {
        let told = model::import(text, out);
        match told.number == 18 && out.len() < 32_768 {
            true => too_short(),
            false => told,
        }
    }),
    ("18 names a record", |text, out| {
        refused(text, out, |told, _| match told.number {
            18 => Imported {
                record: 3_785,
                ..told
            },
            _ => told,
        })
    }),
    ("21 names a record", |text, out| {
        refused(text, out, |told, text| match told.number {
            21 => Imported {
                record: count(text) as u64,
                ..told
            },
            _ => told,
        })
    }),
    ("3,780 events are too many", |text, out| {
        let mut tried = out.to_vec();
        let told = model::import(text, &mut tried);
        match told.bytes == sheet_length(3_780) {
            true => too_long(),
            false => model::import(text, out),
        }
    }),
    ("a record of 16 bits", |text, out| {
        refused(text, out, |told, _| Imported {
            record: told.record % 65_536,
            ..told
        })
    }),
    ("a record of 8 bits", |text, out| {
        refused(text, out, |told, _| Imported {
            record: told.record % 256,
            ..told
        })
    }),
];

const OUTPUTS: &[ImportFault] = &[
    ("output touched on a refusal", |text, out| {
        let told = model::import(text, out);
        if told.number == 28 && out.len() >= 512 && told.record > 4 {
            out[0] = 1;
        }
        told
    }),
    ("output cleared before 21", |text, out| {
        let told = model::import(text, out);
        if told.number == 21 {
            out.fill(0);
        }
        told
    }),
    ("output filled before 18", |text, out| {
        let told = model::import(text, out);
        if told.number == 18 {
            out.fill(0);
        }
        told
    }),
    ("past the sheet cleared", |text, out| {
        let told = model::import(text, out);
        if told.number == 0 {
            out[told.bytes..].fill(0);
        }
        told
    }),
    ("an output that just fits refused", |text, out| {
        let mut tried = out.to_vec();
        let told = model::import(text, &mut tried);
        if told.number == 0 && told.bytes == out.len() {
            return too_short();
        }
        model::import(text, out)
    }),
    ("bytes of a refusal", |text, out| {
        refused(text, out, |told, _| Imported { bytes: 512, ..told })
    }),
    ("bytes one block less", |text, out| {
        let told = model::import(text, out);
        Imported {
            bytes: told.bytes.max(512) - 512,
            ..told
        }
    }),
    ("answers not taken over", |text, out| {
        let told = model::import(text, out);
        for at in (512..told.bytes).step_by(512) {
            for word in (4..484).step_by(8) {
                out[at + word + 1] |= 0xF8;
            }
            model::renew_check(&mut out[at..at + 512], (at / 512) as u32);
        }
        told
    }),
];

fn all_found(faults: &[ImportFault]) {
    for (name, fault) in faults {
        must_differ_on(&IMPORTING, name, Imports(*fault));
    }
}

#[test]
fn wrong_line_ends_are_found() {
    all_found(LINE_ENDS);
}

#[test]
fn wrong_quotes_are_found() {
    all_found(QUOTES);
}

#[test]
fn wrong_fields_are_found() {
    all_found(FIELDS);
}

#[test]
fn a_wrong_order_is_found() {
    all_found(ORDER);
}

#[test]
fn wrong_answers_are_found() {
    all_found(ANSWERS);
}

#[test]
fn wrong_outputs_are_found() {
    all_found(OUTPUTS);
}

/// So that what finds the faults above is the fault, and not the way it is put in.
#[test]
fn what_mends_nothing_is_not_found() {
    let same: [Import; 4] = [
        |text, out| mended(text, out, str::to_string),
        |text, out| rows(text, out, |_, _, row| row.to_string()),
        |text, out| contents(text, out, str::to_string),
        |text, out| refused(text, out, |told, _| told),
    ];
    for import in same {
        assert!(compare_only(&IMPORTING, Imports(import)).is_ok());
    }
}

/// After each misprint the record that has it can't stand, and those before it can.
#[test]
fn each_misprint_is_named() {
    for (variety, name) in names().iter().enumerate() {
        for index in 0..300 {
            let mut random = Random::of_case(7, variety as u64, index);
            let (text, record) = misprinted(&mut random, variety);
            let bytes = text.bytes();
            let told = model::import(&bytes, &mut []);
            let shown = String::from_utf8_lossy(&bytes);
            assert_eq!(told, cannot_stand(record as u64), "{name}: {shown:?}");
        }
    }
}
