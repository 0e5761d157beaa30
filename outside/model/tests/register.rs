//! 02, item 3: the register, each sentence of it by example, and once more in another way.

mod common;

use common::{fifteen, sheet, work_whole};
use model::program::{asked, wrote, Asked, Wrote};
use model::*;

/// A register written by hand: three posts, a start stamp, two events, one answered.
const HAND: &str = "position,event,post,stamp,answer\r
,,,4294967295,\r
,0,0,,\r
,3,1,,\r
,1,2,,\r
1,5,0,0,0\r
2,31,63,4294967295,31\r
";

fn hand_sheet() -> Vec<u8> {
    let events = [[5, 0, 0, 0], [31, 63, 31, u32::MAX]];
    sheet(&[0, 3, 1], u32::MAX, &events)
}

fn exported(sheet: &[u8]) -> String {
    let mut out = vec![7; MOST_TEXT];
    let Exported {
        number,
        block,
        position,
        bytes,
    } = export(sheet, &mut out);
    assert_eq!((number, block, position), (0, 0, 0));
    assert!(out[bytes..].iter().all(|&byte| byte == 7));
    String::from_utf8(out[..bytes].to_vec()).expect("a text")
}

/// The sheet that a text says, or the number and the record of the refusal, which leaves
/// the output as it was.
fn imported(text: impl AsRef<[u8]>) -> Result<Vec<u8>, (u32, u64)> {
    let mut out = vec![7; MOST_BLOCKS * BLOCK_BYTES];
    let Imported {
        number,
        record,
        bytes,
    } = import(text.as_ref(), &mut out);
    assert!(out[bytes..].iter().all(|&byte| byte == 7));
    out.truncate(bytes);
    match number {
        0 => Ok(out),
        number => Err((number, record)),
    }
}

/// The hand-written register with the first of these put for the second, once.
fn changed(from: &str, to: &str) -> Result<Vec<u8>, (u32, u64)> {
    assert_eq!(HAND.matches(from).count(), 1, "{from:?}");
    imported(HAND.replace(from, to))
}

/// A register of this many events on two posts.
fn many(events: usize) -> String {
    let mut text = "position,event,post,stamp,answer\r\n,,,0,\r\n,0,0,,\r\n,1,1,,\r\n".to_string();
    for position in 1..=events {
        text += &format!("{position},1,0,0,31\r\n");
    }
    text
}

#[test]
fn by_hand() {
    assert_eq!(exported(&hand_sheet()), HAND);
    assert_eq!(imported(HAND), Ok(hand_sheet()));
    let paper = work_whole(&fifteen());
    assert_eq!(exported(&paper), paper::REGISTER);
    assert_eq!(imported(paper::REGISTER), Ok(paper));
    let alone = sheet(&[0, 1], 0, &[]);
    assert_eq!(exported(&alone), many(0));
    assert_eq!(imported(many(0)), Ok(alone));
}

#[test]
fn any_field_is_quoted_or_not() {
    let quoted = |text: &str| {
        let line = |line: &str| format!("\"{}\"", line.replace(',', "\",\""));
        text.trim_end().split("\r\n").map(line).collect::<Vec<_>>()
    };
    let all = quoted(HAND).join("\r\n");
    assert!(all.contains("\"\",\"0\",\"0\",\"\",\"\"\r\n"));
    assert_eq!(imported(&all), Ok(hand_sheet()));
    assert_eq!(imported(all + "\r\n"), Ok(hand_sheet()));
    for (from, to) in [
        ("position", "\"position\""),
        (",answer", ",\"answer\""),
        (",,,4", "\"\",,,4"),
        ("5,\r\n,0", "5,\"\"\r\n,0"),
        (",4294967295,31", ",\"4294967295\",31"),
        ("31\r\n", "\"31\"\r\n"),
        ("31\r\n", "\"31\""),
        ("31\r\n", "31"),
    ] {
        assert_eq!(changed(from, to), Ok(hand_sheet()), "{to:?}");
    }
}

/// What is put for what in the hand-written register, and the record that is named.
const WRONG: &[(&str, &str, u64)] = &[
    // CR LF and nothing else between records, and nowhere else
    ("answer\r\n", "answer\n", 1),
    ("answer\r\n", "answer\r", 1),
    ("answer\r\n", "answer\n\r", 1),
    ("answer\r\n", "answer\r\r\n", 1),
    ("answer\r\n", "answer\r\n\n", 2),
    ("1,5,0,0,0\r\n", "1,5,0,0,0\n", 6),
    ("31\r\n", "31\r", 7),
    ("31\r\n", "31\n", 7),
    ("31\r\n", "31\r\n\r", 8),
    ("31\r\n", "31\r\n\n", 8),
    ("31\r\n", "31\r\n ", 8),
    ("31\r\n", "31\r\n\r\n", 8),
    ("31\r\n", "31\r\n\r\n\r\n", 8),
    ("31\r\n", "31\r\n\"", 8),
    (",,,4", "\r\n,,,4", 2),
    // quotes
    ("position", "posit\"ion", 1),
    ("position", "position\"", 1),
    ("position", "\"position", 1),
    ("position", "\"position\" ", 1),
    ("position", "\"position\"\"\"", 1),
    ("position", "\"\"position\"\"", 1),
    (",,,4294967295", ",,,\"4294967295", 2),
    (",,,4294967295", ",,,4294967295\"", 2),
    (",3,1,,", ",\"3\"3,1,,", 4),
    (",3,1,,", ",\"\"3,1,,", 4),
    (",3,1,,", ",\"3\"\"\",1,,", 4),
    (",3,1,,", ",\"3,1\",,", 4),
    (",3,1,,", ",3,1,,\"\r\n\"", 4),
    (",3,1,,", ",3,1,\"\",\"", 4),
    ("31\r\n", "\"31\r\n", 7),
    ("31\r\n", "\"31\"\r", 7),
    ("31\r\n", "\"31\"\n", 7),
    ("31\r\n", "\"31\r\n\"", 7),
    // no spaces, no leading zeros, no signs, other digits
    (",post", ", post", 1),
    (",post", ",post ", 1),
    ("position", "Position", 1),
    ("position", "\u{feff}position", 1),
    (",,,4", ",,,04", 2),
    (",,,4", ",,, 4", 2),
    (",,,4", ",,,+4", 2),
    (",0,0,,", ",00,0,,", 3),
    (",0,0,,", ",0,00,,", 3),
    (",0,0,,", ",-0,0,,", 3),
    (",0,0,,", ", 0,0,,", 3),
    (",3,1,,", ",3,1, ,", 4),
    ("2,31,63", "02,31,63", 7),
    ("2,31,63", "2,\u{663}1,63", 7),
    ("1,5,0,0,0", "1,5,0,0,00", 6),
    ("1,5,0,0,0", "1,5,0,0x0,0", 6),
    ("1,5,0,0,0", "1,5,0,0.0,0", 6),
    // five fields, used and unused as they are
    (",stamp,answer", ",stamp", 1),
    (",answer", ",answer,", 1),
    (",stamp,answer", ",answer,stamp", 1),
    (",,,4294967295,", ",,,4294967295", 2),
    (",,,4294967295,", ",,,4294967295,,", 2),
    (",,,4294967295,", ",,4294967295,,", 2),
    (",,,4294967295,", ",,,,", 2),
    (",,,4294967295,", "0,,,4294967295,", 2),
    (",,,4294967295,", ",,,4294967295,0", 2),
    (",3,1,,", "1,3,1,,", 4),
    (",3,1,,", ",3,1,0,", 4),
    (",3,1,,", ",3,1,,0", 4),
    (",3,1,,", ",3,1,", 4),
    (",3,1,,", ",3,,,", 4),
    ("1,5,0,0,0", ",5,0,0,0", 6),
    ("1,5,0,0,0", "1,5,0,0,", 6),
    ("1,5,0,0,0", "1,5,0,0", 6),
    ("1,5,0,0,0", "1,5,0,0,0,", 6),
    // posts in order; 0 first, 2, 3 or 4 between, a 1 ends the table, also in short forms
    (",3,1,,", ",3,0,,", 4),
    (",3,1,,", ",3,2,,", 4),
    (",3,1,,", ",3,257,,", 4),
    (",0,0,,", ",0,1,,", 3),
    (",0,0,,", ",1,0,,", 3),
    (",0,0,,", ",2,0,,", 3),
    (",3,1,,", ",0,1,,", 4),
    (",3,1,,", ",5,1,,", 4),
    (",3,1,,", ",256,1,,", 4),
    (",3,1,,", ",4294967299,1,,", 4),
    (",3,1,,", ",1,1,,", 5),
    (",1,2,,", ",2,2,,", 6),
    (",0,0,,", ",16,0,,", 3),
    (",0,0,,", ",17,0,,", 3),
    (",0,0,,", ",18,0,,", 3),
    (",3,1,,", ",16,1,,", 4),
    (",3,1,,", ",21,1,,", 4),
    (",3,1,,", ",019,1,,", 4),
    (",3,1,,", ",19 ,1,,", 4),
    (",3,1,,", ",35,1,,", 4),
    (",3,1,,", ",275,1,,", 4),
    (",3,1,,", ",17,1,,", 5),
    (",1,2,,", ",16,2,,", 5),
    (",1,2,,", ",21,2,,", 5),
    (",1,2,,", ",18,2,,", 6),
    (",1,2,,", ",20,2,,", 6),
    // positions in order from 1
    ("1,5,0,0,0", "0,5,0,0,0", 6),
    ("1,5,0,0,0", "2,5,0,0,0", 6),
    ("2,31,63", "1,31,63", 7),
    ("2,31,63", "3,31,63", 7),
    ("2,31,63", "258,31,63", 7),
    ("2,31,63", "4294967298,31,63", 7),
    ("2,31,63", "18446744073709551618,31,63", 7),
    // fields in their ranges
    (",,,4294967295,", ",,,4294967296,", 2),
    (",,,4294967295,", ",,,18446744073709551616,", 2),
    ("2,31,63", "2,32,63", 7),
    ("2,31,63", "2,31,64", 7),
    ("63,4294967295", "63,4294967296", 7),
    (",31\r\n", ",32\r\n", 7),
    (",31\r\n", ",287\r\n", 7),
];

#[test]
fn the_first_record_that_cannot_stand() {
    for &(from, to, record) in WRONG {
        assert_eq!(changed(from, to), Err((28, record)), "{from:?} to {to:?}");
    }
    // The first, also where a later one is wrong too.
    for &(from, to, record) in WRONG.iter().filter(|wrong| wrong.2 < 7) {
        let both = HAND.replace(from, to).replace("63,", "64,");
        assert_eq!(imported(both), Err((28, record)), "{from:?} to {to:?}");
    }
}

#[test]
fn numbers_do_not_come_round() {
    let long = "1".repeat(400);
    for (from, to, record) in [
        (",,,4294967295,", format!(",,,{long},"), 2),
        (",3,1,,", format!(",{long},1,,"), 4),
        (",3,1,,", format!(",3,{long},,"), 4),
        ("2,31,63", format!("{long},31,63"), 7),
        ("2,31,63", format!("2,31,{long}"), 7),
        (",31\r\n", format!(",{long}\r\n"), 7),
        (",31\r\n", format!(",{}31\r\n", "0".repeat(400)), 7),
    ] {
        assert_eq!(changed(from, &to), Err((28, record)), "{to}");
    }
}

#[test]
fn what_is_missing() {
    let rows: Vec<&str> = HAND.split_inclusive("\r\n").collect();
    for count in 0..5 {
        let text = rows[..count].concat();
        let lacks = Err((28, count as u64 + 1));
        assert_eq!(imported(&text), lacks);
        assert_eq!(imported(text.trim_end()), lacks);
    }
    for count in 5..7 {
        assert!(imported(rows[..count].concat()).is_ok());
    }
    assert_eq!(imported("\r\n"), Err((28, 1)));
    assert_eq!(imported("\""), Err((28, 1)));
    assert_eq!(imported("\u{0}"), Err((28, 1)));
    assert_eq!(imported([0xFF]), Err((28, 1)));
}

#[test]
fn the_table_ends_at_post_31() {
    let table = |posts: usize, last: u32| {
        let mut text = "position,event,post,stamp,answer\r\n,,,0,\r\n,0,0,,\r\n".to_string();
        for post in 1..posts - 1 {
            text += &format!(",4,{post},,\r\n");
        }
        text + &format!(",{last},{},,\r\n", posts - 1)
    };
    assert!(imported(table(31, 1)).is_ok());
    assert!(imported(table(32, 1)).is_ok());
    assert_eq!(imported(table(31, 4)), Err((28, 34)));
    assert_eq!(imported(table(32, 4)), Err((28, 34)));
    assert_eq!(imported(table(33, 1)), Err((28, 34)));
    assert!(imported(table(31, 17)).is_ok());
    assert!(imported(table(32, 17)).is_ok());
    for last in [0, 2, 3, 5, 15, 16, 18, 19, 20, 21, 33] {
        assert_eq!(imported(table(32, last)), Err((28, 34)), "{last}");
    }
    assert_eq!(imported(table(33, 17)), Err((28, 34)));
}

#[test]
fn more_events_than_a_sheet_holds() {
    assert_eq!(imported(many(3_780)).map(|sheet| sheet.len()), Ok(32_768));
    assert_eq!(imported(many(3_781)), Err((18, 0)));
    assert_eq!(imported(many(10_000)), Err((18, 0)));
    assert_eq!(imported(many(10_000) + "10001,1,0,0,32"), Err((28, 10_005)));
    assert_eq!(imported(many(10_000) + "\r\n"), Err((28, 10_005)));
}

#[test]
fn then_the_room() {
    for (room, number) in [(1023, 21), (0, 21), (1024, 0), (1025, 0)] {
        let mut out = vec![7; room];
        let told = import(HAND.as_bytes(), &mut out);
        let bytes = if number == 0 { 1024 } else { 0 };
        let right = Imported {
            number,
            record: 0,
            bytes,
        };
        assert_eq!(told, right, "{room}");
        assert!(out[bytes..].iter().all(|&byte| byte == 7));
    }
    let told = |text: &str| import(text.as_bytes(), &mut []).number;
    assert_eq!((told("x"), told(&many(3_781))), (28, 18));
    let length = HAND.len();
    for (room, number) in [(length - 1, 21), (0, 21), (length, 0), (length + 1, 0)] {
        let mut out = vec![7; room];
        let told = export(&hand_sheet(), &mut out);
        let bytes = if number == 0 { length } else { 0 };
        let right = Exported {
            number,
            bytes,
            ..Exported::default()
        };
        assert_eq!(told, right, "{room}");
        assert!(out[bytes..].iter().all(|&byte| byte == 7));
    }
}

#[test]
fn export_refuses_as_reading_does() {
    let told = |sheet: &[u8]| {
        let told = export(sheet, &mut []);
        assert_eq!(told.bytes, 0);
        (told.number, told.block)
    };
    let mut bytes = hand_sheet();
    assert_eq!(told(&bytes), (21, 0));
    assert_eq!(told(&[]), (18, 0));
    assert_eq!(told(&bytes[..1000]), (18, 0));
    bytes[512 + 4 * 126] = 1;
    assert_eq!(told(&bytes), (19, 1));
    renew_check(&mut bytes[512..], 1);
    assert_eq!(told(&bytes), (20, 1));
}

#[test]
fn the_longest_text() {
    let kinds: Vec<u32> = (0..32)
        .map(|post| [0, 20, 17][post.min(1) + post / 31])
        .collect();
    let full = sheet(&kinds, u32::MAX, &vec![[31, 63, 31, u32::MAX]; MOST_EVENTS]);
    let text = exported(&full);
    assert_eq!(text.len(), MOST_TEXT);
    assert_eq!(imported(text), Ok(full));
}

/// The same question asked otherwise. No right field has a comma, a quote, CR or LF in it,
/// so a record that can stand goes to the next CR LF, and its fields to the next comma;
/// each is what is exported, alone or between two quotes. Where a text fails this, the
/// record fails, whatever RFC 4180 would make of it.
fn first_wrong(text: &[u8]) -> Option<u64> {
    let text: String = text.iter().map(|&byte| char::from(byte)).collect();
    let rows: Vec<&str> = match text.strip_suffix("\r\n").unwrap_or(&text) {
        "" if text.is_empty() => Vec::new(),
        rows => rows.split("\r\n").collect(),
    };
    let (mut posts, mut events, mut ended) = (0, 0, false);
    for (number, row) in (1..).zip(&rows) {
        let row = unquoted(row);
        let right = match (number, ended) {
            (1, _) => row == "position,event,post,stamp,answer",
            (2, _) => {
                let stamp = row.strip_prefix(",,,").and_then(|r| r.strip_suffix(','));
                stamp.is_some_and(is_word)
            }
            (_, false) => {
                let kinds: &[u32] = match posts {
                    0 => &[0],
                    31 => &[1, 17],
                    _ => &[1, 2, 3, 4, 17, 18, 19, 20],
                };
                let says = |k: &u32| row == format!(",{k},{posts},,");
                let right = kinds.iter().any(says);
                ended = posts > 0 && (says(&1) || says(&17));
                posts += 1;
                right
            }
            _ => {
                events += 1;
                is_event(&row, events)
            }
        };
        if !right {
            return Some(number);
        }
    }
    (!ended).then_some(rows.len() as u64 + 1)
}

fn unquoted(row: &str) -> String {
    let inside = |field: &str| Some(field.strip_prefix('"')?.strip_suffix('"')?.to_string());
    let bare = |field: &str| inside(field).unwrap_or(field.to_string());
    row.split(',').map(bare).collect::<Vec<_>>().join(",")
}

fn is_event(row: &str, position: usize) -> bool {
    let below = |most: usize, field: &str| (0..most).any(|n| n.to_string() == field);
    match row.split(',').collect::<Vec<_>>()[..] {
        [first, event, post, stamp, answer] => {
            first == position.to_string()
                && below(32, event)
                && below(64, post)
                && is_word(stamp)
                && below(32, answer)
        }
        _ => false,
    }
}

/// Decimal digits, no leading zero, below 2^32.
fn is_word(digits: &str) -> bool {
    let plain = !digits.is_empty() && digits.bytes().all(|byte| byte.is_ascii_digit());
    let short = digits.len() < 10 || digits.len() == 10 && digits <= "4294967295";
    plain && short && (digits == "0" || !digits.starts_with('0'))
}

fn asked_twice(text: &[u8]) {
    let told = imported(text).err();
    let right = first_wrong(text).map(|record| (28, record));
    assert_eq!(told, right, "{:?}", String::from_utf8_lossy(text));
}

#[test]
fn every_cut_and_every_byte_changed() {
    let quoted = HAND.replace(',', "\",\"").replace("\r\n", "\"\r\n\"");
    let quoted = format!("\"{}", quoted.strip_suffix('"').unwrap_or(&quoted));
    assert_eq!(imported(&quoted), Ok(hand_sheet()));
    let short = HAND.replace(",3,1,,", ",19,1,,");
    let short = short.replace(",1,2,,", ",17,2,,");
    for text in [HAND.as_bytes(), quoted.as_bytes(), short.as_bytes()] {
        for at in 0..=text.len() {
            asked_twice(&text[..at]);
            asked_twice(&[&text[..at], &text[(at + 1).min(text.len())..]].concat());
            for byte in *b"\r\n\", 0123579ax+-\0\xFF" {
                asked_twice(&[&text[..at], &[byte], &text[at..]].concat());
                if at < text.len() {
                    asked_twice(&[&text[..at], &[byte], &text[at + 1..]].concat());
                }
            }
        }
    }
    for &(from, to, record) in WRONG {
        assert_eq!(first_wrong(HAND.replace(from, to).as_bytes()), Some(record));
    }
}

#[test]
fn what_the_program_writes() {
    assert_eq!(asked(&["export"]), Some(Asked::Exported));
    assert_eq!(asked(&["import"]), Some(Asked::Imported));
    for words in [["export", "x"], ["import", ""], ["export", "import"]] {
        assert_eq!(asked(&words), None);
    }
    let printed = Wrote {
        printed: hand_sheet(),
        ..Wrote::default()
    };
    assert_eq!(wrote(Asked::Imported, HAND.as_bytes()), printed);
    assert_eq!(wrote(Asked::Exported, &hand_sheet()), Wrote::printing(HAND));
    for (asked, input, text) in [
        (Asked::Exported, "x".to_string(), "refused 18 0\n"),
        (Asked::Imported, String::new(), "refused 28 1\n"),
        (Asked::Imported, many(3_781), "refused 18 0\n"),
        (Asked::Imported, many(3_781) + "\r\n", "refused 28 3786\n"),
    ] {
        assert_eq!(wrote(asked, input.as_bytes()), Wrote::saying(text));
    }
    assert_eq!(
        wrote(Asked::Exported, &[0; 1024]),
        Wrote::saying("refused 19 0\n")
    );
}
