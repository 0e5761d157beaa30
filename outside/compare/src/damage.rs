//! The kinds of sheets to read and to work: good, answered, damaged.

// A damage is given the vector, since some of them cut or lengthen the sheet.
#![allow(clippy::ptr_arg)]

use model::{BLOCK_BYTES, CHECK, EVENTS_PER_BLOCK};

use crate::histories::{early_event, some_posts, stuck_event, Next};
use crate::random::Random;
use crate::request::padded;
use crate::sheets::{blocks, get, lively_sheet, put, renew, renewed, sheet_by, some, Sheet};
use crate::tables::{any_number, table, Place};
use crate::upper_bits::some_bad;

/// A kind of sheet: its name and its maker.
pub type Kind = (&'static str, fn(&mut Random) -> Vec<u8>);

pub const KINDS: &[Kind] = &[
    ("good, unanswered", |random| some(random, 0).bytes()),
    ("good, any fields", |random| any_fields(random).bytes()),
    ("good, stuck buttons", |random| good(random, stuck_event)),
    ("good, early trains", |random| good(random, early_event)),
    ("worked", worked),
    ("partly answered", partly_answered),
    ("answered in any block", answered_in_any_block),
    ("any answers", any_answers),
    ("fewer blocks", |random| damaged(random, 61, fewer_blocks)),
    ("cut", |random| damaged(random, 0, cut)),
    ("lengthened by zeros", lengthened_by_zeros),
    ("lengthened by an empty block", lengthened_by_empty),
    ("lengthened by some bytes", |random| {
        damaged(random, 0, lengthened_by_bytes)
    }),
    ("one bit flipped", |random| damaged(random, 0, bit_flipped)),
    ("moved between words", |random| {
        damaged(random, 0, moved_between_words)
    }),
    ("two blocks swapped", |random| {
        damaged(random, 61, blocks_swapped)
    }),
    ("word 0 of the table", |random| damaged(random, 0, word_0)),
    ("N wrong", |random| damaged(random, 0, word_1)),
    ("N of 33 and more", table_too_long),
    ("any number for the first kind", |random| {
        number_for(random, Place::First)
    }),
    ("any number for a kind inside", |random| {
        number_for(random, Place::Inside)
    }),
    ("any number for the last kind", |random| {
        number_for(random, Place::Last)
    }),
    ("filler of the table", table_filler),
    ("m of 0", |random| damaged(random, 1, no_events)),
    ("m of 61 and more", |random| {
        let least = random.pick(&[1, 60]);
        damaged(random, least, too_many_events)
    }),
    ("m below 60 in the middle", |random| {
        damaged(random, 61, middle_short)
    }),
    ("upper bits of an event", |random| {
        damaged(random, 1, |random, bytes| {
            one_block(random, bytes, 1, upper_bits)
        })
    }),
    ("upper bits, and what else is wrong", some_bad),
    ("filler of a later block", |random| {
        damaged(random, 1, later_filler)
    }),
    ("any words, right check", |random| {
        damaged(random, 0, any_words)
    }),
    ("wrong check", |random| damaged(random, 0, wrong_check)),
    ("check without the block", |random| {
        damaged(random, 1, check_without_block)
    }),
    ("check and contents wrong", |random| {
        damaged(random, 0, check_and_contents)
    }),
    ("several bad blocks", |random| {
        damaged(random, 61, several_bad)
    }),
    ("any bytes of some length", any_bytes),
];

/// What is done to the bytes of a good sheet, of whatever form.
pub type Damage = fn(&mut Random, &mut Vec<u8>);

/// A good sheet of at least so many events, damaged.
fn damaged(random: &mut Random, least: usize, damage: Damage) -> Vec<u8> {
    let mut bytes = some(random, least).bytes();
    damage(random, &mut bytes);
    bytes
}

/// "Event numbers, posts, stamps and answers of any value that fits its field may
/// stand in a sheet."
fn any_fields(random: &mut Random) -> Sheet {
    let mut sheet = some(random, 0);
    for [number, post, _, stamp] in &mut sheet.events {
        if random.chance(40) {
            *number = random.small(0, 31);
            *post = random.small(0, 63);
            *stamp = random.edge_word();
        }
    }
    sheet
}

/// A good sheet of such events.
fn good(random: &mut Random, next: Next) -> Vec<u8> {
    let posts = some_posts(random);
    let count = random.between(20, 3 * EVENTS_PER_BLOCK);
    sheet_by(random, posts, count, next).bytes()
}

fn worked(random: &mut Random) -> Vec<u8> {
    some(random, 0).worked().bytes()
}

fn partly_answered(random: &mut Random) -> Vec<u8> {
    let mut sheet = some(random, 1);
    for _ in 0..random.between(1, 2) {
        let at = random.below(sheet.events.len());
        sheet.events[at][2] = random.small(0, 30);
    }
    sheet.bytes()
}

/// An event of any block, often its first or its last, is answered; no event before it.
fn answered_in_any_block(random: &mut Random) -> Vec<u8> {
    let posts = some_posts(random);
    let count = random.between(1, 4 * EVENTS_PER_BLOCK);
    let mut sheet = lively_sheet(random, posts, count);
    let first = EVENTS_PER_BLOCK * random.below(count.div_ceil(EVENTS_PER_BLOCK));
    let last = count.min(first + EVENTS_PER_BLOCK) - 1;
    let at = random.between(first, last);
    let at = random.pick(&[first, last, at]);
    sheet.events[at][2] = random.small(0, 30);
    sheet.bytes()
}

fn any_answers(random: &mut Random) -> Vec<u8> {
    let mut sheet = some(random, 0);
    for event in &mut sheet.events {
        event[2] = random.small(0, 31);
    }
    sheet.bytes()
}

/// Cut after a block that holds 60 events, so that the sheet is still good.
pub fn fewer_blocks(random: &mut Random, bytes: &mut Vec<u8>) {
    let kept = random.between(1, blocks(bytes) - 1);
    bytes.truncate(kept * BLOCK_BYTES);
}

pub fn cut(random: &mut Random, bytes: &mut Vec<u8>) {
    let length = bytes.len();
    let anywhere = random.below(length);
    bytes.truncate(random.pick(&[0, 511, length - 1, length - 4, anywhere]));
}

/// A last block that holds 60 leaves nothing wrong but the block added.
fn before_addition(random: &mut Random) -> Vec<u8> {
    if random.chance(50) {
        return some(random, 0).bytes();
    }
    let posts = some_posts(random);
    let count = random.pick(&[0, 60, 120]);
    lively_sheet(random, posts, count).bytes()
}

fn lengthened_by_zeros(random: &mut Random) -> Vec<u8> {
    let mut bytes = before_addition(random);
    bytes.resize(bytes.len() + BLOCK_BYTES, 0);
    bytes
}

fn lengthened_by_empty(random: &mut Random) -> Vec<u8> {
    let mut bytes = lengthened_by_zeros(random);
    let last = blocks(&bytes) - 1;
    renew(&mut bytes, last);
    bytes
}

pub fn lengthened_by_bytes(random: &mut Random, bytes: &mut Vec<u8>) {
    let more = random.pick(&[1, 1, 2, 4, 511, 513]);
    bytes.resize(bytes.len() + more, 0);
}

pub fn bit_flipped(random: &mut Random, bytes: &mut Vec<u8>) {
    let at = random.below(bytes.len());
    bytes[at] ^= 1 << random.below(8);
}

/// The sum stays right: what one word gains another of its block loses.
pub fn moved_between_words(random: &mut Random, bytes: &mut Vec<u8>) {
    let at = random.below(blocks(bytes));
    let by = random.pick(&[1, 2, 32, 1 << 11, 1 << 16, u32::MAX]);
    let (one, other) = (random.below(128), random.below(128));
    let gained = get(bytes, at, one).wrapping_add(by);
    put(bytes, at, one, gained);
    let lost = get(bytes, at, other).wrapping_sub(by);
    put(bytes, at, other, lost);
}

pub fn blocks_swapped(random: &mut Random, bytes: &mut Vec<u8>) {
    let count = blocks(bytes);
    let one = random.below(count - 1);
    let other = random.between(one + 1, count - 1);
    let (front, back) = bytes.split_at_mut(other * BLOCK_BYTES);
    front[one * BLOCK_BYTES..][..BLOCK_BYTES].swap_with_slice(&mut back[..BLOCK_BYTES]);
}

pub fn word_0(random: &mut Random, bytes: &mut Vec<u8>) {
    table_word(random, bytes, 0);
}

pub fn word_1(random: &mut Random, bytes: &mut Vec<u8>) {
    table_word(random, bytes, 1);
}

/// Word 0 or word 1 of block 0 wrong under a right check.
fn table_word(random: &mut Random, bytes: &mut [u8], word: usize) {
    let right = get(bytes, 0, word);
    let near = right.wrapping_add(random.pick(&[1, u32::MAX]));
    let far = [0, 1, 33, 64, 123, 124, 125, 126, 1 << 31, u32::MAX];
    let wrong = if random.chance(40) {
        near
    } else {
        random.pick(&far)
    };
    put(bytes, 0, word, wrong);
    renew(bytes, 0);
}

/// A table that would be right if it were not so long.
fn table_too_long(random: &mut Random) -> Vec<u8> {
    let mut bytes = some(random, 0).bytes();
    let posts = random.pick(&[33, 34, 64, 124]);
    let kinds = table(random, posts);
    put(&mut bytes, 0, 1, posts as u32);
    for (at, kind) in kinds.iter().enumerate() {
        put(&mut bytes, 0, 3 + at, *kind);
    }
    renewed(bytes, 0)
}

fn number_for(random: &mut Random, place: Place) -> Vec<u8> {
    let (posts, count) = (some_posts(random).max(3), random.between(0, 70));
    let bytes = lively_sheet(random, posts, count).bytes();
    with_number(random, bytes, place)
}

/// Any number in this place of the table of a good sheet.
pub fn with_number(random: &mut Random, mut bytes: Vec<u8>, place: Place) -> Vec<u8> {
    let posts = get(&bytes, 0, 1) as usize;
    let at = place.some_post(random, posts);
    put(&mut bytes, 0, 3 + at, any_number(random));
    renewed(bytes, 0)
}

fn table_filler(random: &mut Random) -> Vec<u8> {
    let sheet = some(random, 0);
    let first = 3 + sheet.kinds.len();
    let anywhere = random.between(first, 126);
    let at = random.pick(&[first, 126, anywhere]);
    let mut bytes = sheet.bytes();
    put(&mut bytes, 0, at, filler(random));
    renewed(bytes, 0)
}

/// A change to the words of one block.
type BlockChange = fn(&mut Random, &mut [u32]);

/// One block (a later one if `first` is 1) changed under a right check.
fn one_block(random: &mut Random, bytes: &mut [u8], first: usize, change: BlockChange) {
    let at = random.between(first, blocks(bytes) - 1);
    let range = at * BLOCK_BYTES..(at + 1) * BLOCK_BYTES;
    let mut words = padded(&bytes[range]);
    change(random, &mut words);
    for (word, value) in words.iter().enumerate() {
        put(bytes, at, word, *value);
    }
    renew(bytes, at);
}

pub fn no_events(random: &mut Random, bytes: &mut Vec<u8>) {
    one_block(random, bytes, 1, |random, block| set_m(random, block, &[0]));
}

fn set_m(random: &mut Random, block: &mut [u32], list: &[u32]) {
    block[0] = random.pick(list);
    // Half of the time it is the only fault.
    if block[0] == 0 && random.chance(50) {
        block[1..127].fill(0);
    }
}

pub fn too_many_events(random: &mut Random, bytes: &mut Vec<u8>) {
    let wrong = [61, 61, 62, 63, 64, 127, 128, 1 << 31, u32::MAX];
    let at = random.between(1, blocks(bytes) - 1);
    put(bytes, at, 0, random.pick(&wrong));
    renew(bytes, at);
}

/// A middle block of fewer than 60, right in all else.
pub fn middle_short(random: &mut Random, bytes: &mut Vec<u8>) {
    let at = random.between(1, blocks(bytes) - 2);
    let anywhere = random.small(1, 59);
    let m = random.pick(&[1, 59, anywhere]);
    put(bytes, at, 0, m);
    for word in 1 + 2 * m as usize..127 {
        put(bytes, at, word, 0);
    }
    renew(bytes, at);
}

fn upper_bits(random: &mut Random, block: &mut [u32]) {
    let event = random.below(block[0] as usize);
    block[1 + 2 * event] |= 1 << random.between(16, 31);
}

pub fn later_filler(random: &mut Random, bytes: &mut Vec<u8>) {
    one_block(random, bytes, 1, |random, block| {
        let first = 1 + 2 * block[0] as usize;
        let anywhere = random.between(first, 126);
        block[random.pick(&[first, 126, anywhere])] = filler(random);
    });
}

pub fn any_words(random: &mut Random, bytes: &mut Vec<u8>) {
    one_block(random, bytes, 0, |random, block| {
        for word in block {
            if random.chance(50) {
                *word = random.edge_word();
            }
        }
    });
}

pub fn check_and_contents(random: &mut Random, bytes: &mut Vec<u8>) {
    let at = random.below(blocks(bytes));
    break_contents(random, bytes, at);
}

pub fn filler(random: &mut Random) -> u32 {
    random.pick(&[1, 31 << 11, 1 << 16, 1 << 31, u32::MAX])
}

pub fn wrong_check(random: &mut Random, bytes: &mut Vec<u8>) {
    let at = random.below(blocks(bytes));
    break_check(random, bytes, at);
}

/// Every block sums to 317944, as if its number did not matter.
pub fn check_without_block(_: &mut Random, bytes: &mut Vec<u8>) {
    for at in 1..blocks(bytes) {
        let without = get(bytes, at, 127).wrapping_sub(at as u32);
        put(bytes, at, 127, without);
    }
}

pub fn break_check(random: &mut Random, bytes: &mut [u8], at: usize) {
    let by = random.pick(&[1, u32::MAX, 1 << 31, CHECK]);
    let wrong = get(bytes, at, 127).wrapping_add(by);
    put(bytes, at, 127, wrong);
}

/// Wrong contents, and the check left as it was.
pub fn break_contents(random: &mut Random, bytes: &mut [u8], at: usize) {
    let word = random.pick(&[0, 126]);
    let wrong = if word == 0 { 61 } else { filler(random) };
    put(bytes, at, word, wrong);
}

/// Upper bits in an event word of this block, or of the first after block 0, under a right check.
pub fn break_field(random: &mut Random, bytes: &mut [u8], at: usize) {
    let at = at.max(1);
    let held = (get(bytes, at, 0) as usize).clamp(1, EVENTS_PER_BLOCK);
    let word = 1 + 2 * random.below(held);
    let wrong = get(bytes, at, word) | 1 << random.between(16, 31);
    put(bytes, at, word, wrong);
    renew(bytes, at);
}

/// Two or three blocks wrong, each in its check, its contents or both.
pub fn several_bad(random: &mut Random, bytes: &mut Vec<u8>) {
    for _ in 0..random.between(2, 3) {
        let at = random.below(blocks(bytes));
        match random.below(4) {
            0 => break_check(random, bytes, at),
            1 => break_contents(random, bytes, at),
            2 => break_field(random, bytes, at),
            _ => {
                break_contents(random, bytes, at);
                renew(bytes, at);
            }
        }
    }
}

fn any_bytes(random: &mut Random) -> Vec<u8> {
    let length = random.pick(&[0, 1, 4, 511, 512, 513, 1023, 1024, 1025, 1536]);
    if random.chance(50) {
        return vec![0; length];
    }
    (0..length).map(|_| random.word() as u8).collect()
}
