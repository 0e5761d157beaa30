//! Each call once through the wrapper: that pointers, counts and returned structs meet the C calling convention.
mod common;

use common::{since, verdict};
use desk::relay::{AN, JAM, KPG, RL, W241, W314};
use desk::{
    check, event, export, import, read, start, test, valid, why, work, write, Entry, Exported,
    Found, Head, Imported, Post, Verdict, Worked, SHEET, TEXT,
};
use model::paper::{EXAMPLE, KINDS, REGISTER};
use model::{renew_check, short, stuck, Listed, MOST_TEXT};

fn is_last(row: &[Post]) -> bool {
    let (up, down) = (row[0], row[1]);
    [up.a, down.r, up.x, down.q, down.e, up.y, up.v, up.g] == [1, 1, 0, 1, 1, 1, 0, 1]
}

#[test]
fn the_listing_event_by_event() {
    let mut row = [Post::default(); 2];
    let mut told = start(&mut row, &KINDS, 0);
    assert_eq!(told.answer, 0);
    for [number, place, answer, stamp] in EXAMPLE.answered() {
        told = event(&mut row, told.head, number, place, stamp);
        assert_eq!(told.answer, answer);
    }
    assert!(valid(&row, told.head) && is_last(&row));
    assert!(!valid(&row, Head { taken: 0, last: 0 }));
}

#[test]
fn the_listing_as_a_sheet() {
    let (mut sheet, mut out) = ([0; 1024], [7; 1025]);
    assert_eq!(write(&KINDS, 0, &EXAMPLE.unanswered(), &mut sheet), 0);
    assert_eq!(test(&sheet), Verdict::default());
    let worked = work(&sheet, &mut out);
    assert_eq!((worked.number, worked.block, worked.position), (0, 0, 0));
    assert!(is_last(worked.row.posts()));
    assert_eq!(out[1024], 7);
    let (mut kinds, mut events) = ([9; 3], [[9; 4]; 16]);
    let found = read(&out[..1024], &mut kinds, &mut events);
    let right = Found {
        posts: 2,
        events: 15,
        ..Found::default()
    };
    assert_eq!(found, right);
    assert_eq!(kinds, [0, 1, 9]);
    assert_eq!(events[..15], EXAMPLE.answered());
    assert_eq!(events[15], [9; 4]);
}

/// Each event of an example, one after the other from a fresh line.
fn played<const N: usize>(kinds: &[u32; N], events: &[Entry]) -> ([Post; N], Head) {
    let mut row = [Post::default(); N];
    let mut told = start(&mut row, kinds, 0);
    for &[number, place, answer, stamp] in events {
        told = event(&mut row, told.head, number, place, stamp);
        assert_eq!(told.answer, answer, "event {number} at {place}");
    }
    (row, told.head)
}

#[test]
fn a_jam_event_by_event() {
    let (mut row, head) = played(&stuck::KINDS, &stuck::EXAMPLE.answered());
    assert_eq!((row[0].x, row[1].r), (2, 1));
    assert_eq!(row[0].word & (RL | W314 | W241), 0);
    assert_eq!(row[1].word & (AN | JAM), JAM);
    assert!(valid(&row, head));
    row[0].word |= JAM;
    assert!(!valid(&row, head));
}

#[test]
fn short_posts_event_by_event() {
    let (mut row, head) = played(&short::KINDS, &short::EXAMPLE.answered());
    assert_eq!(row.map(|post| post.q), [0, 2, 1, 1]);
    assert_eq!(row.map(|post| post.e), [0, 2, 1, 1]);
    assert_eq!(row[1].c, 1);
    // A passage with no announcement may stand at a short post, and at no other.
    for (post, may) in [(1, true), (2, false), (3, true)] {
        let before = row;
        assert!(valid(&row, head));
        row[post].word |= KPG;
        row[post].q += 1;
        assert_eq!(valid(&row, head), may, "post {post}");
        row = before;
    }
    row[0].kind = 16;
    assert!(!valid(&row, head));
}

/// The sheet of an example, worked to its answers, and what working returned.
fn worked_so(example: &Listed) -> ([u8; 1024], Worked) {
    let (mut sheet, mut answered, mut out) = ([0; 1024], [0; 1024], [0; 1024]);
    assert_eq!(
        write(example.kinds, 0, &example.unanswered(), &mut sheet),
        0
    );
    assert_eq!(
        write(example.kinds, 0, &example.answered(), &mut answered),
        0
    );
    let worked = work(&sheet, &mut out);
    assert_eq!((worked.number, out), (0, answered));
    (out, worked)
}

#[test]
fn a_jam_as_a_sheet() {
    let (out, worked) = worked_so(&stuck::EXAMPLE);
    assert_eq!(worked.row.posts()[1].word & JAM, JAM);
    assert_eq!(why(&out, 21), since(0, 0, 20));
    assert_eq!(why(&out, 7), since(29, 0, 0));
}

#[test]
fn short_posts_as_a_sheet() {
    let (mut out, _) = worked_so(&short::EXAMPLE);
    assert_eq!(why(&out, 14), since(0, 0, 12));
    assert_eq!(why(&out, 3), since(29, 0, 0));
    let (mut text, mut back) = (vec![7; TEXT], [0; 1024]);
    let told = export(&out, &mut text);
    assert_eq!((told.number, told.block, told.position), (0, 0, 0));
    assert_eq!(import(&text[..told.bytes], &mut back), imported(0, 0, 1024));
    assert_eq!(back, out);
    for kinds in [[16, 17], [0, 16], [0, 21], [0, 18], [17, 17]] {
        assert_eq!(write(&kinds, 0, &[], &mut out), 1);
    }
}

/// The longest register fits the room that any register fits into.
#[test]
fn the_longest_register() {
    let mut kinds = [20; 32];
    (kinds[0], kinds[31]) = (0, 17);
    let events = vec![[31, 63, 31, u32::MAX]; 3_780];
    let (mut sheet, mut text) = (vec![0; SHEET], vec![7; TEXT]);
    assert_eq!(write(&kinds, u32::MAX, &events, &mut sheet), 0);
    assert_eq!(export(&sheet, &mut text), exported(0, 0, 0, MOST_TEXT));
}

#[test]
fn empty_slices() {
    let told = start(&mut [], &[], 5);
    assert_eq!((told.answer, told.head), (1, Head::default()));
    assert!(!valid(&[], Head::default()));
    assert_eq!(test(&[]).number, 18);
    assert!(!check(&[], 0));
    assert_eq!(work(&[], &mut []).number, 18);
    assert_eq!(write(&KINDS, 0, &[], &mut []), 21);
    assert_eq!(read(&[], &mut [], &mut []).number, 18);
    assert_eq!(why(&[], 1), since(18, 0, 0));
    assert_eq!(export(&[], &mut []), exported(18, 0, 0, 0));
    assert_eq!(import(&[], &mut []), imported(28, 1, 0));
    assert_eq!(import(REGISTER.as_bytes(), &mut []), imported(21, 0, 0));
}

#[test]
fn since_when_the_lever_is_locked() {
    let mut sheet = [0; 1024];
    assert_eq!(write(&KINDS, 0, &EXAMPLE.answered(), &mut sheet), 0);
    assert_eq!(why(&sheet, 5), since(0, 0, 2));
    assert_eq!(why(&sheet, 13), since(0, 0, 2));
    assert_eq!(why(&sheet, 9), since(29, 0, 0));
    sheet[600] ^= 1;
    assert_eq!(why(&sheet, 5), since(19, 1, 0));
}

#[test]
fn a_bad_block_is_named() {
    let mut sheet = [0; 1024];
    write(&KINDS, 0, &EXAMPLE.unanswered(), &mut sheet);
    sheet[600] ^= 1;
    assert_eq!(test(&sheet), verdict(19, 1, 0));
}

/// Each call that reads the sheet refuses it so, and writes nothing.
fn refused_so(sheet: &[u8], right: Verdict) {
    let Verdict {
        number,
        block,
        position,
    } = right;
    assert_eq!(test(sheet), right);
    let (mut kinds, mut events, mut out) = ([9; 32], [[9; 4]; 200], [7; 4096]);
    let found = Found {
        number,
        block,
        position,
        ..Found::default()
    };
    assert_eq!(read(sheet, &mut kinds, &mut events), found);
    let worked = work(sheet, &mut out);
    assert_eq!((worked.number, worked.block), (number, block));
    assert_eq!(worked.position, position);
    assert_eq!(
        (worked.row.posts(), worked.head),
        (&[][..], Head::default())
    );
    assert_eq!(why(sheet, 1), since(number, block, position));
    assert_eq!(
        export(sheet, &mut out),
        exported(number, block, position, 0)
    );
    assert_eq!((kinds, events), ([9; 32], [[9; 4]; 200]));
    assert!(out.iter().all(|&byte| byte == 7));
}

/// Upper bits of an event word, in a sheet of three blocks: its block and its position there.
#[test]
fn a_bad_field_is_named() {
    let mut good = [0; 1536];
    assert_eq!(write(&KINDS, 0, &[[1, 0, 31, 5]; 100], &mut good), 0);
    assert_eq!(test(&good), Verdict::default());
    for (block, position) in [(1, 0), (1, 59), (2, 0), (2, 17), (2, 39)] {
        for upper in [2, 3] {
            let (mut sheet, from) = (good, 512 * block);
            sheet[from + 4 + 8 * position + upper] = 0x80;
            renew_check(&mut sheet[from..from + 512], block as u32);
            refused_so(&sheet, verdict(24, block as u32, position as u32));
            // The count comes before it, a word that should be zero behind it.
            sheet[from + 4 * 126] = 1;
            renew_check(&mut sheet[from..from + 512], block as u32);
            refused_so(&sheet, verdict(24, block as u32, position as u32));
            sheet[from] = 61;
            renew_check(&mut sheet[from..from + 512], block as u32);
            refused_so(&sheet, verdict(20, block as u32, 0));
        }
    }
    // An event answered already: 20 of its block, with no position.
    let mut sheet = good;
    sheet[1024 + 5] = 0;
    renew_check(&mut sheet[1024..], 2);
    let worked = work(&sheet, &mut [0; 1536]);
    assert_eq!((worked.number, worked.block), (20, 2));
    assert_eq!((worked.position, test(&sheet)), (0, Verdict::default()));
    // To write, a field that would reach those bits.
    assert_eq!(write(&KINDS, 0, &[[1, 0, 32, 5]], &mut good), 20);
}

#[test]
fn a_block_by_itself() {
    let mut sheet = [0; 1025];
    write(&KINDS, 0, &EXAMPLE.unanswered(), &mut sheet);
    assert!(check(&sheet[..512], 0) && check(&sheet[512..1024], 1));
    assert!(!check(&sheet[..512], 1) && !check(&sheet[512..1024], 0));
    for length in [0, 1, 508, 511, 513, 1024] {
        assert!(!check(&sheet[..length], 0), "{length} bytes");
    }
    // At another place, not that of a word.
    sheet.copy_within(..512, 3);
    assert!(check(&sheet[3..515], 0));
    // The largest number: all words but one are zero.
    let largest = u32::MAX - 317_944;
    let mut block = [0; 512];
    assert!(!check(&block, largest + 1));
    block[508..].fill(0xFF);
    assert!(check(&block, largest) && !check(&block, u32::MAX));
}

fn exported(number: u32, block: u32, position: u32, bytes: usize) -> Exported {
    Exported {
        number,
        block,
        position,
        bytes,
    }
}

fn imported(number: u32, record: u64, bytes: usize) -> Imported {
    Imported {
        number,
        record,
        bytes,
    }
}

#[test]
fn a_register_there_and_back() {
    let (mut sheet, mut out) = ([0; 1024], [7; 1025]);
    assert_eq!(write(&KINDS, 0, &EXAMPLE.answered(), &mut sheet), 0);
    let mut text = vec![7; TEXT];
    let bytes = REGISTER.len();
    assert_eq!(export(&sheet, &mut text), exported(0, 0, 0, bytes));
    assert_eq!(text[..bytes], *REGISTER.as_bytes());
    assert!(text[bytes..].iter().all(|&byte| byte == 7));
    let quoted = REGISTER.replace("position", "\"position\"");
    for text in [REGISTER, REGISTER.trim_end(), &quoted] {
        out.fill(7);
        assert_eq!(import(text.as_bytes(), &mut out), imported(0, 0, 1024));
        assert_eq!((&out[..1024], out[1024]), (&sheet[..], 7));
    }
}

#[test]
fn a_register_refused() {
    let mut sheet = [0; 1024];
    assert_eq!(write(&KINDS, 0, &EXAMPLE.answered(), &mut sheet), 0);
    let mut out = vec![7; REGISTER.len() - 1];
    assert_eq!(export(&sheet, &mut out), exported(21, 0, 0, 0));
    sheet[600] ^= 1;
    assert_eq!(export(&sheet, &mut out), exported(19, 1, 0, 0));
    let wrong = REGISTER.replace("9000,12", "09000,12");
    assert_eq!(import(wrong.as_bytes(), &mut out), imported(28, 13, 0));
    assert_eq!(
        import(&REGISTER.as_bytes()[..40], &mut out),
        imported(28, 2, 0)
    );
    let mut short = [7; 1023];
    assert_eq!(import(REGISTER.as_bytes(), &mut short), imported(21, 0, 0));
    assert!(out.iter().chain(&short).all(|&byte| byte == 7));
}

/// A record beyond 2^16, and more events than a sheet holds.
#[test]
fn a_long_register() {
    let mut text = REGISTER.to_string();
    for position in 16..=70_000 {
        text += &format!("{position},1,0,0,31\r\n");
    }
    let mut out = vec![7; SHEET];
    assert_eq!(import(text.as_bytes(), &mut out), imported(18, 0, 0));
    text += "70001,1,0,0,32";
    assert_eq!(import(text.as_bytes(), &mut out), imported(28, 70_005, 0));
    assert!(out.iter().all(|&byte| byte == 7));
}
