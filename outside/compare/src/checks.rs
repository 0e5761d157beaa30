//! Single blocks, each with a number: of good sheets, damaged, made to add up, and of
//! other lengths than a block has (02, item 4).

use model::{renew_check, BLOCK_BYTES, CHECK};

use crate::random::Random;
use crate::request::{padded, Request};
use crate::sheets::{blocks, get, put, some};
use crate::variety::Variety;

/// The largest number that a block can have: 317944 more is 2^32 - 1.
pub const LARGEST: u32 = u32::MAX - CHECK;

/// Two varieties that are wanted to be true.
pub const GOOD: &str = "of a good sheet, its own number";
pub const CANCELLED: &str = "two damages that cancel";

pub const BLOCKS: &[Variety] = &[
    (GOOD, |random| asked(good(random))),
    ("of a good sheet, another number", another_number),
    ("one bit flipped", |random| damaged(random, flip)),
    ("one word altered", |random| damaged(random, alter)),
    (CANCELLED, |random| {
        damaged(random, |random, block| {
            let by = damage(random);
            move_between(random, block, by, by);
        })
    }),
    ("two damages that do not cancel", |random| {
        damaged(random, |random, block| {
            let by = damage(random);
            let other = by.wrapping_add(damage(random));
            move_between(random, block, by, other);
        })
    }),
    ("two words swapped", |random| damaged(random, swap)),
    ("the bytes of each word turned", |random| {
        damaged(random, |_, block| {
            block.chunks_mut(4).for_each(<[u8]>::reverse)
        })
    }),
    ("adding up for any number", |random| {
        let number = any_number(random);
        asked(adding_up(random, number))
    }),
    ("adding up for 0", |random| asked(adding_up(random, 0))),
    ("adding up for 63", |random| asked(adding_up(random, 63))),
    ("adding up for 64", |random| asked(adding_up(random, 64))),
    ("adding up for more than 64", |random| {
        let number = more_than_64(random);
        asked(adding_up(random, number))
    }),
    ("adding up for the largest number", |random| {
        asked(adding_up(random, LARGEST))
    }),
    ("adding up for a number near the largest", |random| {
        let number = LARGEST - random.small(1, 70);
        asked(adding_up(random, number))
    }),
    ("carried round to one past the largest", |random| {
        asked(adding_up(random, LARGEST + 1))
    }),
    ("carried round to 2^32 - 1 and 317944", |random| {
        asked(adding_up(random, u32::MAX))
    }),
    ("carried round to a number too large", |random| {
        let number = LARGEST + 1 + random.small(0, CHECK - 1);
        asked(adding_up(random, number))
    }),
    ("a number too large", |random| {
        let (block, number) = good(random);
        let number = random.pick(&[LARGEST + 1 + number, u32::MAX - number]);
        ask(block, number)
    }),
    ("one off", one_off),
    ("large words that add up", large_words),
    ("all ones but for one word", |random| {
        let number = any_number(random);
        asked((summing(random, vec![0xFF; BLOCK_BYTES], number), number))
    }),
    ("all ones", all_ones),
    ("zeros", zeros),
    ("any bytes", |random| {
        let (block, number) = (any_bytes(random, BLOCK_BYTES), any_number(random));
        ask(block, number)
    }),
    ("any bytes, the number of their sum", |random| {
        let block = any_bytes(random, BLOCK_BYTES);
        let number = carried(&block).wrapping_sub(CHECK);
        ask(block, number)
    }),
    ("no bytes", |random| shorter(random, 0)),
    ("1 byte", |random| shorter(random, 1)),
    ("4 bytes", |random| shorter(random, 4)),
    ("508 bytes", |random| shorter(random, 508)),
    ("511 bytes", |random| shorter(random, 511)),
    ("513 bytes", |random| longer(random, 513)),
    ("516 bytes", |random| longer(random, 516)),
    ("1,024 bytes", |random| longer(random, 1024)),
    ("fewer bytes", |random| {
        let length = random.between(2, 510);
        shorter(random, length)
    }),
    ("more bytes", |random| {
        let length = more_bytes(random);
        longer(random, length)
    }),
    ("a whole sheet", |random| {
        let number = random.small(0, 2);
        ask(some(random, 1).bytes(), number)
    }),
];

/// A block and its number.
type Numbered = (Vec<u8>, u32);

fn ask(block: Vec<u8>, number: u32) -> Request {
    Request::Check { block, number }
}

fn asked((block, number): Numbered) -> Request {
    ask(block, number)
}

/// The sum of the words, not carried round; zero bytes fill up the last one.
pub fn plain_sum(bytes: &[u8]) -> u64 {
    padded(bytes).into_iter().map(u64::from).sum()
}

/// The same, carried round at 2^32.
pub fn carried(bytes: &[u8]) -> u32 {
    plain_sum(bytes) as u32
}

/// A block of a good sheet and its number there. A later one stands now and then further
/// behind.
fn good(random: &mut Random) -> Numbered {
    let sheet = some(random, 0).bytes();
    let at = random.below(blocks(&sheet));
    let mut block = sheet[at * BLOCK_BYTES..][..BLOCK_BYTES].to_vec();
    let mut number = at as u32;
    if at > 0 && random.chance(30) {
        number = random.small(1, 63);
        renew_check(&mut block, number);
    }
    (block, number)
}

/// Near it, the same in its lower bits, and what a sum carried round could take for it.
fn another_number(random: &mut Random) -> Request {
    let (block, number) = good(random);
    let bit = random.small(0, 31);
    let other = random.pick(&[
        number ^ 1,
        number + 1,
        number.wrapping_sub(1),
        number + 64,
        number ^ 1 << bit,
        number.wrapping_neg().wrapping_sub(1),
        number.wrapping_sub(CHECK),
        CHECK + number,
    ]);
    ask(block, other)
}

fn damaged(random: &mut Random, damage: fn(&mut Random, &mut [u8])) -> Request {
    let (mut block, number) = good(random);
    damage(random, &mut block);
    ask(block, number)
}

fn flip(random: &mut Random, block: &mut [u8]) {
    let at = random.below(BLOCK_BYTES);
    block[at] ^= 1 << random.below(8);
}

/// By how much a word is altered.
fn damage(random: &mut Random) -> u32 {
    let bit = random.small(0, 31);
    let any = random.word().max(1);
    random.pick(&[1, u32::MAX, 1 << 16, 1 << 31, 1 << bit, any])
}

fn add(block: &mut [u8], word: usize, by: u32) {
    let sum = get(block, 0, word).wrapping_add(by);
    put(block, 0, word, sum);
}

/// Often the first or the last word, or one where a half ends.
fn some_word(random: &mut Random) -> usize {
    let any = random.below(128);
    random.pick(&[0, 63, 64, 126, 127, any, any, any])
}

fn alter(random: &mut Random, block: &mut [u8]) {
    let word = some_word(random);
    add(block, word, damage(random));
}

/// Two words: one gains, another loses.
fn move_between(random: &mut Random, block: &mut [u8], gained: u32, lost: u32) {
    let one = some_word(random);
    let other = (one + random.between(1, 127)) % 128;
    add(block, one, gained);
    add(block, other, lost.wrapping_neg());
}

fn swap(random: &mut Random, block: &mut [u8]) {
    let (one, other) = (some_word(random), some_word(random));
    let (first, second) = (get(block, 0, one), get(block, 0, other));
    put(block, 0, one, second);
    put(block, 0, other, first);
}

/// In a sheet, or as large as it may be.
fn any_number(random: &mut Random) -> u32 {
    let (in_sheet, any) = (random.small(0, 63), random.small(0, LARGEST));
    random.pick(&[in_sheet, in_sheet, any])
}

fn more_than_64(random: &mut Random) -> u32 {
    let bit = random.small(7, 31);
    let any = random.small(65, LARGEST);
    random.pick(&[65, 127, 128, (1 << bit) - 1, 1 << bit, CHECK, any])
}

fn any_bytes(random: &mut Random, length: usize) -> Vec<u8> {
    (0..length).map(|_| random.word() as u8).collect()
}

/// Any bytes, words at the edges, small words, or a few words among zeros.
fn some_bytes(random: &mut Random) -> Vec<u8> {
    let mut block = any_bytes(random, BLOCK_BYTES);
    let sort = random.below(4);
    for word in 0..128 {
        let few = random.edge_word() * u32::from(random.chance(5));
        match sort {
            1 => put(&mut block, 0, word, random.edge_word()),
            2 => put(&mut block, 0, word, random.small(0, 1000)),
            3 => put(&mut block, 0, word, few),
            _ => {}
        }
    }
    block
}

/// One word is altered, so that they add up for this number, carried round both.
fn summing(random: &mut Random, mut bytes: Vec<u8>, number: u32) -> Vec<u8> {
    let word = random.below(bytes.len() / 4);
    let by = CHECK.wrapping_add(number).wrapping_sub(carried(&bytes));
    add(&mut bytes, word, by);
    bytes
}

/// Good for every number but one that is too large.
fn adding_up(random: &mut Random, number: u32) -> Numbered {
    let block = some_bytes(random);
    (summing(random, block, number), number)
}

/// One word is one more or one less than it should be.
fn one_off(random: &mut Random) -> Request {
    let any = any_number(random);
    let number = random.pick(&[0, 63, 64, LARGEST, any]);
    let (mut block, number) = adding_up(random, number);
    let word = some_word(random);
    add(&mut block, word, random.pick(&[1, u32::MAX]));
    ask(block, number)
}

/// Carried round at nearly every word.
fn large_words(random: &mut Random) -> Request {
    let mut block = any_bytes(random, BLOCK_BYTES);
    block[3..]
        .iter_mut()
        .step_by(4)
        .for_each(|top| *top |= 0xF0);
    let number = any_number(random);
    ask(summing(random, block, number), number)
}

/// They add up to 2^32 - 128, carried round; to 2^32 - 1 for a sum that stops there.
fn all_ones(random: &mut Random) -> Request {
    let any = any_number(random);
    let number = random.pick(&[LARGEST - 127, LARGEST, any]);
    ask(vec![0xFF; BLOCK_BYTES], number)
}

/// They add up to 0, which is 317944 plus no number.
fn zeros(random: &mut Random) -> Request {
    let any = any_number(random);
    let number = random.pick(&[0, LARGEST, LARGEST + 1, any]);
    ask(vec![0; BLOCK_BYTES], number)
}

/// What is left of a block whose words behind it were zero, so that the words which are
/// there add up, if there is one.
fn shorter(random: &mut Random, length: usize) -> Request {
    let mut bytes = some_bytes(random);
    bytes.truncate(length);
    let any = any_number(random);
    let number = random.pick(&[any, any, LARGEST + 1]);
    match length {
        0..=3 => ask(bytes, number),
        _ => ask(summing(random, bytes, number), number),
    }
}

/// Often a whole number of blocks; seldom 2^16 bytes more than a block.
fn more_bytes(random: &mut Random) -> usize {
    let any = random.between(514, 2047);
    let lengths = [514, 515, 640, 768, 1536, 2048, any, any];
    match random.chance(5) {
        true => BLOCK_BYTES + (1 << 16),
        false => random.pick(&lengths),
    }
}

/// The first 512 bytes add up, or the last, or all of them.
fn longer(random: &mut Random, length: usize) -> Request {
    let (block, number) = match random.below(2) {
        0 => good(random),
        _ => {
            let number = any_number(random);
            adding_up(random, number)
        }
    };
    let past = length - BLOCK_BYTES;
    let more = any_bytes(random, past);
    match random.below(5) {
        0 | 1 => ask([block, more].concat(), number),
        2 => ask([block, vec![0; past]].concat(), number),
        3 => ask([more, block].concat(), number),
        _ => ask(summing(random, [block, more].concat(), number), number),
    }
}
