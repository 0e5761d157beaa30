//! Sheets and lines for the tests, each of which uses some of them.
#![allow(dead_code)]

pub mod two;

use model::number::TAKEN;
use model::program::{asked, wrote, Wrote};
use model::{
    event, listing, paper, start, valid, work, write, Entry, Head, Listed, Post, BLOCK_BYTES,
    EVENTS_PER_BLOCK,
};

pub fn sheet(kinds: &[u32], stamp: u32, events: &[Entry]) -> Vec<u8> {
    let mut out = vec![0; BLOCK_BYTES * (1 + events.len().div_ceil(EVENTS_PER_BLOCK))];
    assert_eq!(write(kinds, stamp, events, &mut out), TAKEN);
    out
}

/// The word at this place, counted from the front of the sheet.
pub fn word(bytes: &[u8], at: usize) -> u32 {
    u32::from_le_bytes(bytes[4 * at..4 * at + 4].try_into().unwrap())
}

pub fn set_word(bytes: &mut [u8], at: usize, word: u32) {
    bytes[4 * at..4 * at + 4].copy_from_slice(&word.to_le_bytes());
}

pub fn fifteen() -> Vec<u8> {
    sheet(&paper::KINDS, 0, &paper::EXAMPLE.unanswered())
}

pub fn work_whole(sheet: &[u8]) -> Vec<u8> {
    let mut out = vec![0; sheet.len()];
    assert_eq!(work(sheet, &mut out).number, TAKEN);
    out
}

pub fn fresh(kinds: &[u32], stamp: u32) -> (Vec<Post>, Head) {
    let mut row = vec![Post::default(); kinds.len()];
    let told = start(&mut row, kinds, stamp);
    assert_eq!(told.answer, TAKEN);
    (row, told.head)
}

/// The line of this table after these events at stamp 0, each of them taken.
pub fn after_on(kinds: &[u32], events: &[(u32, u32)]) -> (Vec<Post>, Head) {
    let (mut row, mut head) = fresh(kinds, 0);
    for &(number, place) in events {
        let told = event(&mut row, head, number, place, 0);
        assert_eq!(told.answer, 0, "{number} at {place} of {events:?}");
        head = told.head;
    }
    (row, head)
}

/// Before, event, post, answer.
pub type Example = (&'static [(u32, u32)], u32, u32, u32);

/// Each example is answered so on this table; a refusal leaves all as it was.
pub fn answered_so(kinds: &[u32], examples: &[Example]) {
    for &(before, number, place, answer) in examples {
        let (mut row, head) = after_on(kinds, before);
        let line = row.clone();
        let told = event(&mut row, head, number, place, 0);
        assert_eq!(told.answer, answer, "{before:?} {number} {place}");
        assert!(valid(&row, told.head));
        if answer != 0 {
            assert_eq!((row, told.head), (line, head));
        }
    }
}

/// Its sheet is listed so, worked to these answers, and asked since when.
pub fn listed_so(example: &Listed) {
    let handed_in = sheet(example.kinds, 0, &example.unanswered());
    let answered = sheet(example.kinds, 0, &example.answered());
    assert_eq!(listing(&handed_in), example.text);
    assert_eq!(work_whole(&handed_in), answered);
    for (words, text) in example.since {
        let given = asked(words).map(|asked| wrote(asked, &answered));
        assert_eq!(given, Some(Wrote::printing(text)), "{words:?}");
    }
}
