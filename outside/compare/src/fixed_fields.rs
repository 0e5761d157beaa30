//! The program's fixed runs on sheets with upper bits in an event word (02, item 6): each word
//! that reads a sheet, each position of a block, and beside each other fault.

use model::program::Wrote;
use model::{EVENTS_PER_BLOCK, MOST_EVENTS};

use crate::fixed::{short_sheet, Fixed};
use crate::sheets::{get, put, renew};

/// Words of the program, and how it writes a refusal: printed, or said on standard error.
type Refusing = (&'static [&'static str], fn(&str) -> Wrote);

/// The words that read a sheet.
pub const WORDS: [Refusing; 4] = [
    (&[], Wrote::printing),
    (&["work"], Wrote::saying),
    (&["why", "1"], Wrote::printing),
    (&["export"], Wrote::saying),
];

/// What is refused is typed in, not computed.
pub fn field_cases() -> Vec<Fixed> {
    let mut cases = Vec::new();
    for position in 0..EVENTS_PER_BLOCK {
        let block = 1 + position % 3;
        let line = format!("refused 24 {block} {position}\n");
        let sheet = bad(good(200), block, position);
        cases.extend(refused("upper bits in each position", &sheet, &line));
    }
    for (name, change, line) in BESIDE {
        let mut sheet = bad(good(200), 2, 7);
        change(&mut sheet);
        cases.extend(refused(name, &sheet, line));
    }
    let last = bad(good(MOST_EVENTS), 63, 59);
    let name = "upper bits: the last of 3,780 events";
    cases.extend(refused(name, &last, "refused 24 63 59\n"));
    cases
}

/// The sheet for each of the words.
fn refused(name: &'static str, sheet: &[u8], line: &str) -> [Fixed; WORDS.len()] {
    WORDS.map(|(words, wrote)| Fixed {
        name,
        words,
        input: sheet.to_vec(),
        wrote: wrote(line),
    })
}

/// Blocks of 60 and one of the rest.
fn good(events: usize) -> Vec<u8> {
    short_sheet(&vec![(1, 0); events]).bytes()
}

/// The sheet with bit 16 in this word.
fn bad(mut sheet: Vec<u8>, block: usize, position: usize) -> Vec<u8> {
    put_bits(&mut sheet, block, position, 1 << 16);
    sheet
}

fn put_bits(sheet: &mut [u8], block: usize, position: usize, bits: u32) {
    let word = get(sheet, block, 1 + 2 * position);
    put_sealed(sheet, block, 1 + 2 * position, word | bits);
}

fn put_sealed(sheet: &mut [u8], block: usize, word: usize, value: u32) {
    put(sheet, block, word, value);
    renew(sheet, block);
}

/// What else is done to a sheet of 200 events that has upper bits in block 2 at position 7,
/// and what is then written of it.
type Beside = (&'static str, fn(&mut Vec<u8>), &'static str);

const BESIDE: &[Beside] = &[
    ("upper bits: alone", |_| (), "refused 24 2 7\n"),
    (
        "upper bits: all of them",
        |s| put_bits(s, 2, 7, 0xFFFF_0000),
        "refused 24 2 7\n",
    ),
    (
        "upper bits: the event before too",
        |s| put_bits(s, 2, 6, 1 << 31),
        "refused 24 2 6\n",
    ),
    (
        "upper bits: the next event too",
        |s| put_bits(s, 2, 8, 1 << 31),
        "refused 24 2 7\n",
    ),
    (
        "upper bits: an earlier block too",
        |s| put_bits(s, 1, 59, 1 << 20),
        "refused 24 1 59\n",
    ),
    (
        "upper bits: a later block too",
        |s| put_bits(s, 3, 0, 1 << 20),
        "refused 24 2 7\n",
    ),
    (
        "upper bits: a word that should be zero",
        |s| put_sealed(s, 2, 126, 1),
        "refused 24 2 7\n",
    ),
    (
        "upper bits: answered before",
        |s| put_sealed(s, 1, 1, 1),
        "refused 24 2 7\n",
    ),
    (
        "upper bits: answered in its block",
        |s| put_sealed(s, 2, 1, 1),
        "refused 24 2 7\n",
    ),
    (
        "upper bits: a later check",
        |s| put(s, 3, 127, 1),
        "refused 24 2 7\n",
    ),
    (
        "upper bits: a later count",
        |s| put_sealed(s, 3, 0, 59),
        "refused 24 2 7\n",
    ),
    (
        "upper bits: its check",
        |s| put(s, 2, 127, 1),
        "refused 19 2\n",
    ),
    (
        "upper bits: its count",
        |s| put_sealed(s, 2, 0, 61),
        "refused 20 2\n",
    ),
    (
        "upper bits: its count below 60",
        |s| put_sealed(s, 2, 0, 59),
        "refused 20 2\n",
    ),
    (
        "upper bits: an earlier check",
        |s| put(s, 1, 127, 1),
        "refused 19 1\n",
    ),
    (
        "upper bits: an earlier count",
        |s| put_sealed(s, 1, 0, 0),
        "refused 20 1\n",
    ),
    (
        "upper bits: an earlier word that should be zero",
        |s| put_sealed(s, 1, 121, 1),
        "refused 20 1\n",
    ),
    (
        "upper bits: check of block 0",
        |s| put(s, 0, 127, 1),
        "refused 19 0\n",
    ),
    (
        "upper bits: contents of block 0",
        |s| put_sealed(s, 0, 0, 2),
        "refused 20 0\n",
    ),
    (
        "upper bits: of a kind",
        |s| put_sealed(s, 0, 4, 1 << 16 | 1),
        "refused 20 0\n",
    ),
    ("upper bits: cut", |s| s.truncate(2047), "refused 18 0\n"),
    // The last block has 20 events: event words behind those are words that should be zero.
    (
        "upper bits past the count",
        |s| {
            put_sealed(s, 2, 15, 31 << 11 | 1);
            put_bits(s, 4, 20, 1 << 16)
        },
        "refused 20 4\n",
    ),
    (
        "upper bits past the count and before it",
        |s| {
            put_sealed(s, 2, 15, 31 << 11 | 1);
            put_bits(s, 4, 20, 1 << 16);
            put_bits(s, 4, 19, 1 << 16)
        },
        "refused 24 4 19\n",
    ),
];
