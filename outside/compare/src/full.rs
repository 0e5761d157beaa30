//! The heavy ones: sheets of 64 blocks, lengths past them, 3,780 and 3,781 events.

use model::{BLOCK_BYTES, EVENTS_PER_BLOCK, MOST_BLOCKS, MOST_EVENTS};

use crate::histories::some_posts;
use crate::questions::{ask, chosen, TOLD};
use crate::random::Random;
use crate::request::Request;
use crate::rooms::export_of;
use crate::sheets::{get, lively_sheet, put, renew, Sheet};
use crate::variety::Variety;
use crate::writes::{any_sheet, push_out, written, wrong_table};

const FULL_BYTES: usize = BLOCK_BYTES * MOST_BLOCKS;

pub const FULL: &[Variety] = &[
    ("read 3,780 events", |random| {
        let sheet = full_sheet(random).bytes();
        read(random, sheet, MOST_EVENTS)
    }),
    ("read 3,780 events, room one short", |random| {
        let sheet = full_sheet(random).bytes();
        read(random, sheet, MOST_EVENTS - 1)
    }),
    ("read, last block bad", |random| {
        let sheet = last_bad(random);
        read(random, sheet, 1)
    }),
    ("work 3,780 events", |random| {
        let sheet = full_sheet(random).bytes();
        work(random, sheet, 0)
    }),
    ("work 3,780 events, long output", |random| {
        let sheet = full_sheet(random).bytes();
        work(random, sheet, 513)
    }),
    ("work, last block bad", |random| {
        let sheet = last_bad(random);
        work(random, sheet, 0)
    }),
    ("why or export, last block bad", |random| {
        let sheet = last_bad(random);
        match random.chance(50) {
            true => ask(sheet, MOST_EVENTS as u32),
            false => export_of(random, sheet),
        }
    }),
    ("work, last event answered", |random| {
        let mut sheet = full_sheet(random);
        sheet.events[MOST_EVENTS - 1][2] = random.small(0, 30);
        work(random, sheet.bytes(), 0)
    }),
    ("32,768 bytes of zeros", |random| {
        work(random, vec![0; FULL_BYTES], 0)
    }),
    ("33,280 bytes of right checks", |random| {
        let sheet = one_block_more(full_sheet(random).bytes());
        if random.chance(50) {
            return read(random, sheet, 3900);
        }
        work(random, sheet, 0)
    }),
    ("lengths about 32,768 and past", |random| {
        let mut sheet = full_sheet(random).bytes();
        let lengths = [
            FULL_BYTES - 1,
            FULL_BYTES + 1,
            33_279,
            33_281,
            33_792,
            40_000,
        ];
        sheet.resize(random.pick(&lengths), 0);
        work(random, sheet, 0)
    }),
    ("why, 3,780 events", |random| {
        let (sheet, at) = chosen(random, &TOLD, full_worked);
        ask(sheet.bytes(), at as u32 + 1)
    }),
    ("why, the last of 3,780 answers altered", |random| {
        let (mut sheet, at) = chosen(random, &TOLD, full_worked);
        sheet.events[MOST_EVENTS - 1][2] ^= 1;
        ask(sheet.bytes(), at as u32 + 1)
    }),
    ("write 3,780 events", |random| write(random, MOST_EVENTS, 0)),
    ("write 3,780 events, output one short", |random| {
        write(random, MOST_EVENTS, -1)
    }),
    ("write 3,781 events", |random| {
        write(random, MOST_EVENTS + 1, 0)
    }),
    ("write 3,781 events, no output", |random| {
        write(random, MOST_EVENTS + 1, -99_999)
    }),
    ("write 3,781 events, the last out of its field", |random| {
        let mut sheet = any_sheet(random, MOST_EVENTS + 1);
        sheet.events[MOST_EVENTS] = [1, 64, 0, 0];
        written(random, sheet, 0)
    }),
    ("write 3,781 events, all faults", |random| {
        let mut sheet = any_sheet(random, MOST_EVENTS + 1);
        push_out(random, &mut sheet, 0);
        wrong_table(random, &mut sheet);
        written(random, sheet, -99_999)
    }),
];

fn full_sheet(random: &mut Random) -> Sheet {
    let posts = some_posts(random);
    lively_sheet(random, posts, MOST_EVENTS)
}

fn full_worked(random: &mut Random) -> Sheet {
    full_sheet(random).worked()
}

fn last_bad(random: &mut Random) -> Vec<u8> {
    let mut sheet = full_sheet(random).bytes();
    spoil_last(random, &mut sheet, 16);
    sheet
}

/// The last block of a full sheet is made wrong in its check or, under a right one, in its
/// contents or in this bit of the last event of all.
pub fn spoil_last(random: &mut Random, sheet: &mut [u8], bit: u32) {
    let (last, last_event) = (MOST_BLOCKS - 1, 2 * EVENTS_PER_BLOCK - 1);
    match random.below(4) {
        0 | 1 => {
            let word = get(sheet, last, last_event);
            put(sheet, last, last_event, word | 1 << bit);
        }
        _ => put(sheet, last, 126, 1),
    }
    if random.chance(70) {
        renew(sheet, last);
    }
}

/// A full sheet, and one block of one event behind it, under a right check.
pub fn one_block_more(mut sheet: Vec<u8>) -> Vec<u8> {
    sheet.resize(FULL_BYTES + BLOCK_BYTES, 0);
    put(&mut sheet, MOST_BLOCKS, 0, 1);
    renew(&mut sheet, MOST_BLOCKS);
    sheet
}

fn read(random: &mut Random, sheet: Vec<u8>, events_room: usize) -> Request {
    Request::Read {
        sheet,
        kinds_room: 32,
        events_room,
        fill: random.word(),
    }
}

fn work(random: &mut Random, sheet: Vec<u8>, over: usize) -> Request {
    Request::Work {
        out_len: sheet.len() + over,
        sheet,
        fill: random.word() as u8,
    }
}

fn write(random: &mut Random, count: usize, by: i64) -> Request {
    let sheet = any_sheet(random, count);
    written(random, sheet, by)
}
