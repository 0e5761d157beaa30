//! 02, item 6: say which field is bad.

mod common;

use common::{set_word, sheet, word, work_whole};
use model::number::*;
use model::program::{wrote, Asked, Wrote};
use model::*;

/// How many events stand in each block of `good`; block 0 has none.
const HELD: [usize; 4] = [0, 60, 60, 31];

/// Block 0, two full blocks and one of 31 events, none of them answered. The stamps have all
/// their bits in use.
fn good() -> Vec<u8> {
    let count = HELD.iter().sum::<usize>() as u32;
    let entry = |k: u32| [1 + k % 12, k % 3, UNANSWERED, u32::MAX - 7 * (count - k)];
    let events: Vec<Entry> = (0..count).map(entry).collect();
    sheet(&[0, 3, 1], u32::MAX - 9_999, &events)
}

fn seal(bytes: &mut [u8], block: usize) {
    renew_check(
        &mut bytes[block * BLOCK_BYTES..][..BLOCK_BYTES],
        block as u32,
    );
}

/// Alters a word of a block, and nothing else.
fn alter(bytes: &mut [u8], block: usize, at: usize, change: impl Fn(u32) -> u32) {
    let at = 128 * block + at;
    set_word(bytes, at, change(word(bytes, at)));
}

/// Puts these bits to the event word at a position of a block, under a right check.
fn put_bits(bytes: &mut [u8], block: usize, position: usize, bits: u32) {
    alter(bytes, block, 1 + 2 * position, |word| word | bits);
    seal(bytes, block);
}

/// The good sheet with the lowest of those bits there.
fn bad_at(block: usize, position: usize) -> Vec<u8> {
    let mut bytes = good();
    put_bits(&mut bytes, block, position, 1 << 16);
    bytes
}

/// Every place of the good sheet: block and position.
fn places() -> Vec<(usize, usize)> {
    let held = HELD.iter().enumerate();
    held.flat_map(|(block, &m)| (0..m).map(move |position| (block, position)))
        .collect()
}

/// A refusal by its three numbers.
type Said = (u32, usize, usize);

fn verdict((number, block, position): Said) -> Verdict {
    Verdict {
        number,
        block: block as u32,
        position: position as u32,
    }
}

/// Each call refuses the sheet so, whatever room it has, and writes nothing.
fn calls_say(bytes: &[u8], said: Said) {
    let right = verdict(said);
    assert_eq!(test(bytes), right);
    for (k, m) in [(32, 200), (0, 200), (32, 0), (2, 150)] {
        let (mut kinds, mut events) = (vec![7; k], vec![[7; 4]; m]);
        assert_eq!(read(bytes, &mut kinds, &mut events), right.into());
        assert!(kinds.iter().chain(events.as_flattened()).all(|&w| w == 7));
    }
    for room in [0, 511, bytes.len().max(1) - 1, bytes.len(), MOST_TEXT] {
        let mut out = vec![7; room];
        assert_eq!(work(bytes, &mut out), right.into());
        assert_eq!(export(bytes, &mut out), right.into());
        assert!(out.iter().all(|&byte| byte == 7));
    }
    for position in [0, 1, 7, 151, 152, u32::MAX] {
        assert_eq!(why(bytes, position), right.into());
    }
}

/// The program says this line of the sheet, whatever it is asked.
fn program_says(bytes: &[u8], line: &str) {
    let printed = [Asked::Listing, Asked::Why(0), Asked::Why(7)];
    for asked in printed {
        assert_eq!(wrote(asked, bytes), Wrote::printing(line), "{asked:?}");
    }
    for asked in [Asked::Worked, Asked::Exported] {
        assert_eq!(wrote(asked, bytes), Wrote::saying(line), "{asked:?}");
    }
}

fn all_say(bytes: &[u8], said: Said) {
    calls_say(bytes, said);
    let (number, block, position) = said;
    let line = match number {
        24 => format!("refused 24 {block} {position}\n"),
        _ => format!("refused {number} {block}\n"),
    };
    program_says(bytes, &line);
}

#[test]
fn unpacking_says_when_the_upper_bits_are_not_zero() {
    for low in 0..=0xFFFF {
        let fields = [low % 32, low / 32 % 64, low / 2048];
        assert_eq!(unpack(low), Some(fields));
        for bit in 16..32 {
            assert_eq!(unpack(low | 1 << bit), None);
        }
        assert_eq!(unpack(low | 0xFFFF_0000), None);
    }
}

#[test]
fn the_good_sheet_is_good() {
    let bytes = good();
    assert_eq!(test(&bytes), Verdict::default());
    let worked = work_whole(&bytes);
    assert_eq!(test(&worked), Verdict::default());
    assert!(listing(&bytes).starts_with("1 1 0 "));
}

/// Bits 16 to 31, each alone, in each place of each block; and without it all is as before.
#[test]
fn each_bit_in_each_place() {
    for (block, position) in places() {
        for bit in 16..32 {
            let mut bytes = good();
            put_bits(&mut bytes, block, position, 1 << bit);
            assert_eq!(test(&bytes), verdict((24, block, position)), "bit {bit}");
            alter(&mut bytes, block, 1 + 2 * position, |word| word & 0xFFFF);
            seal(&mut bytes, block);
            assert_eq!(bytes, good());
        }
        let mut bytes = bad_at(block, position);
        all_say(&bytes, (24, block, position));
        put_bits(&mut bytes, block, position, 0xFFFF_0000);
        all_say(&bytes, (24, block, position));
    }
}

#[test]
fn the_lines_as_they_are_printed() {
    program_says(&bad_at(1, 0), "refused 24 1 0\n");
    program_says(&bad_at(2, 7), "refused 24 2 7\n");
    program_says(&bad_at(1, 59), "refused 24 1 59\n");
    program_says(&bad_at(3, 30), "refused 24 3 30\n");
    let mut bytes = good();
    alter(&mut bytes, 3, 126, |_| 1);
    program_says(&bytes, "refused 19 3\n");
    seal(&mut bytes, 3);
    program_says(&bytes, "refused 20 3\n");
    program_says(&bytes[1..], "refused 18 0\n");
}

/// "The first such event word of the first bad block."
#[test]
fn the_first_of_several() {
    for (block, position) in places() {
        for later in [position + 1, HELD[block] - 1] {
            let mut bytes = bad_at(block, position);
            put_bits(&mut bytes, block, later.min(HELD[block] - 1), 1 << 31);
            calls_say(&bytes, (24, block, position));
        }
        for later in block + 1..HELD.len() {
            let mut bytes = bad_at(block, position);
            put_bits(&mut bytes, later, 0, 1 << 20);
            calls_say(&bytes, (24, block, position));
        }
    }
    let mut bytes = good();
    for (block, position) in places().into_iter().rev() {
        put_bits(&mut bytes, block, position, 1 << (16 + position % 16));
        assert_eq!(test(&bytes), verdict((24, block, position)));
    }
}

/// A change to a sheet, and what is then said of it where block 2 has upper bits at 7.
type Beside = (&'static str, fn(&mut Vec<u8>), Said);

const BESIDE: &[Beside] = &[
    // Its own block: 19, then 20 for m, then 24, then 20 for the words that should be zero.
    ("its check", |b| alter(b, 2, 127, |w| w + 1), (19, 2, 0)),
    ("m of 0", |b| set_m(b, 2, 0), (20, 2, 0)),
    ("m of 7", |b| set_m(b, 2, 7), (20, 2, 0)),
    ("m of 8", |b| set_m(b, 2, 8), (20, 2, 0)),
    ("m of 59", |b| set_m(b, 2, 59), (20, 2, 0)),
    ("m of 61", |b| set_m(b, 2, 61), (20, 2, 0)),
    ("m of 2^16 + 60", |b| set_m(b, 2, 65_596), (20, 2, 0)),
    ("word 121", |b| sealed(b, 2, 121, 1), (24, 2, 7)),
    ("word 126", |b| sealed(b, 2, 126, 1 << 16), (24, 2, 7)),
    // Blocks before it.
    (
        "check of block 0",
        |b| alter(b, 0, 2, |w| w - 1),
        (19, 0, 0),
    ),
    ("version", |b| sealed(b, 0, 0, 2), (20, 0, 0)),
    ("N", |b| sealed(b, 0, 1, 33), (20, 0, 0)),
    ("a kind", |b| sealed(b, 0, 4, 5), (20, 0, 0)),
    (
        "upper bits of a kind",
        |b| sealed(b, 0, 4, 3 | 1 << 16),
        (20, 0, 0),
    ),
    ("filler of block 0", |b| sealed(b, 0, 126, 1), (20, 0, 0)),
    (
        "check of block 1",
        |b| alter(b, 1, 5, |w| w ^ 1),
        (19, 1, 0),
    ),
    ("m of block 1", |b| set_m(b, 1, 59), (20, 1, 0)),
    ("filler of block 1", |b| sealed(b, 1, 126, 1), (20, 1, 0)),
    (
        "upper bits in block 1",
        |b| put_bits(b, 1, 59, 1 << 31),
        (24, 1, 59),
    ),
    // The block behind it.
    (
        "check of block 3",
        |b| alter(b, 3, 5, |w| w ^ 1),
        (24, 2, 7),
    ),
    ("m of block 3", |b| set_m(b, 3, 0), (24, 2, 7)),
    ("filler of block 3", |b| sealed(b, 3, 126, 1), (24, 2, 7)),
    (
        "upper bits in block 3",
        |b| put_bits(b, 3, 0, 1 << 16),
        (24, 2, 7),
    ),
    // The length.
    ("one byte more", |b| b.push(0), (18, 0, 0)),
    ("one byte less", |b| b.truncate(2047), (18, 0, 0)),
    ("no block 2", |b| b.truncate(1024), (0, 0, 0)),
    ("65 blocks", |b| b.resize(33_280, 0), (18, 0, 0)),
];

fn sealed(bytes: &mut [u8], block: usize, at: usize, value: u32) {
    alter(bytes, block, at, |_| value);
    seal(bytes, block);
}

fn set_m(bytes: &mut [u8], block: usize, m: u32) {
    sealed(bytes, block, 0, m);
}

#[test]
fn beside_each_other_fault() {
    for (name, change, said) in BESIDE {
        let mut bytes = bad_at(2, 7);
        change(&mut bytes);
        println!("{name}");
        match said.0 {
            0 => assert_eq!(test(&bytes), Verdict::default()),
            _ => all_say(&bytes, *said),
        }
    }
}

/// In the last block, which is not full: an event word past m is a word that should be zero.
#[test]
fn event_words_past_the_count() {
    for position in 31..60 {
        for bit in [0, 11, 16, 31] {
            let mut bytes = good();
            put_bits(&mut bytes, 3, position, 1 << bit);
            all_say(&bytes, (20, 3, 0));
            put_bits(&mut bytes, 3, 30, 1 << 16);
            all_say(&bytes, (24, 3, 30));
        }
    }
    // A count that leaves the bad word out, and one that takes it in.
    for (m, said) in [(7, (20, 3, 0)), (8, (24, 3, 7)), (60, (24, 3, 7))] {
        let mut bytes = bad_at(3, 7);
        set_m(&mut bytes, 3, m);
        all_say(&bytes, said);
    }
}

/// "Working a sheet reads it whole first": 24 comes before the answers, and a 20 for those
/// has no position.
#[test]
fn answered_events() {
    let answer = |bytes: &mut [u8], (block, position): (usize, usize)| {
        alter(bytes, block, 1 + 2 * position, |word| word & !(31 << 11));
        seal(bytes, block);
    };
    for at in [(1, 0), (1, 59), (2, 6), (2, 7), (2, 8), (3, 30)] {
        let mut bytes = good();
        answer(&mut bytes, at);
        let right = verdict((20, at.0, 0));
        assert_eq!(work(&bytes, &mut vec![0; bytes.len()]), right.into());
        let line = format!("refused 20 {}\n", at.0);
        assert_eq!(listing(&bytes), line);
        assert_eq!(wrote(Asked::Worked, &bytes), Wrote::saying(&line));
        assert_eq!(test(&bytes), Verdict::default());
        let mut bytes = bad_at(2, 7);
        answer(&mut bytes, at);
        all_say(&bytes, (24, 2, 7));
    }
}

/// A question about a worked sheet: 24 comes before 29 and before an event named.
#[test]
fn questions_of_a_worked_sheet() {
    let events: Vec<Entry> = vec![[5, 0, UNANSWERED, 0]; 70];
    let mut bytes = work_whole(&sheet(&[0, 1], 0, &events));
    let named = Since {
        position: 1,
        ..Since::default()
    };
    assert_eq!((why(&bytes, 2), why(&bytes, 70)), (named, named));
    assert_eq!(why(&bytes, 71), verdict((29, 0, 0)).into());
    put_bits(&mut bytes, 2, 9, 1 << 16);
    for position in [0, 1, 2, 70, 71] {
        assert_eq!(why(&bytes, position), verdict((24, 2, 9)).into());
    }
}

/// "An event to write is out of its field" gives 20 as before, and a register never 24.
#[test]
fn writing_and_import_never_give_24() {
    let large = [32, 64, 1 << 16, 1 << 21, u32::MAX];
    for (field, most) in [(0, 31), (1, 63), (2, 31)] {
        for value in large.into_iter().filter(|value| *value > most) {
            let mut event = [1, 0, UNANSWERED, u32::MAX];
            event[field] = value;
            assert_eq!(write(&[0, 1], 0, &[event], &mut [0; 1024]), CONTENTS);
            let [number, post, answer, stamp] = event;
            let text = format!(
                "position,event,post,stamp,answer\r\n,,,0,\r\n,0,0,,\r\n,1,1,,\r\n\
                1,{number},{post},{stamp},{answer}\r\n"
            );
            let told = import(text.as_bytes(), &mut [0; 1024]);
            assert_eq!((told.number, told.record), (CANNOT_STAND, 5));
            let said = wrote(Asked::Imported, text.as_bytes());
            assert_eq!(said, Wrote::saying("refused 28 5\n"));
        }
    }
}

/// The order once more, told as a list: the first of these that holds of a block.
fn first_fault(bytes: &[u8], block: usize) -> Option<Said> {
    let words: Vec<u32> = (0..128).map(|at| word(bytes, 128 * block + at)).collect();
    let sum = words.iter().fold(0, |sum: u32, w| sum.wrapping_add(*w));
    let is_last = 512 * (block + 1) == bytes.len();
    let m = words[0] as usize;
    let events = || (0..m).map(|j| words[1 + 2 * j] >= 1 << 16);
    if sum != 317_944 + block as u32 {
        return Some((19, block, 0));
    }
    if !(1..=60).contains(&m) || (m < 60 && !is_last) {
        return Some((20, block, 0));
    }
    if let Some(position) = events().position(|is_bad| is_bad) {
        return Some((24, block, position));
    }
    let zero = words[1 + 2 * m..127].iter().all(|w| *w == 0);
    (!zero).then_some((20, block, 0))
}

/// Every bit of the later blocks flipped, alone and with another, under a right check or not.
#[test]
fn every_flipped_bit_is_told_by_the_order() {
    let mut seen = [0; 32];
    for bit in 8 * 512..8 * good().len() {
        for other in [0, 8 * 1024 + 8 * 28 + 20, 8 * 1536 + 8 * 400] {
            for block in 1..4 {
                let mut bytes = good();
                bytes[bit / 8] ^= 1 << (bit % 8);
                if other > 0 && other != bit {
                    bytes[other / 8] ^= 1 << (other % 8);
                }
                seal(&mut bytes, block);
                let right = (1..4).find_map(|block| first_fault(&bytes, block));
                let right = right.map_or(Verdict::default(), verdict);
                assert_eq!(test(&bytes), right, "bit {bit}, other {other}");
                seen[right.number as usize] += 1;
            }
        }
    }
    for number in [TAKEN, CHECK_WRONG, CONTENTS, UPPER_BITS] {
        assert!(seen[number as usize] > 500, "{number}");
    }
}
