//! Libraries that are the model with one fault about the check of a single block put in
//! (02, item 4): each must be found by a small run. And what the makers of blocks say of
//! them.

mod common;

use common::{compare_only, must_differ_on};
use compare::checks::{carried, plain_sum, CANCELLED, GOOD, LARGEST};
use compare::desk::Desk;
use compare::random::Random;
use compare::request::{padded, Request};
use model::{check, BLOCK_BYTES, CHECK};

/// The sort of cases that checks single blocks.
const BLOCKS: [&str; 1] = ["blocks"];

/// A desk that checks by this.
struct Checks(fn(&mut [u8], u32) -> bool);

impl Desk for Checks {
    fn check(&mut self, block: &mut [u8], number: u32) -> bool {
        (self.0)(block, number)
    }
}

type CheckFault = (&'static str, fn(&mut [u8], u32) -> bool);

/// 512 bytes, and this sum of theirs is the one of this number.
fn block_with(block: &[u8], number: u32, sum: u32) -> bool {
    block.len() == BLOCK_BYTES && CHECK.checked_add(number) == Some(sum)
}

/// The sum of the words, each changed so.
fn sum_of(block: &[u8], change: fn(usize, u32) -> u32) -> u32 {
    let words = padded(block).into_iter().enumerate();
    words.fold(0, |sum, (at, word)| sum.wrapping_add(change(at, word)))
}

/// A check that has part of the bytes as its block.
fn part(block: &[u8], number: u32, from: usize, to: usize) -> bool {
    block
        .get(from..to)
        .is_some_and(|block| check(block, number))
}

const SUMS: &[CheckFault] = &[
    ("127 words", |block, number| {
        let last = |at, word| if at < 127 { word } else { 0 };
        block_with(block, number, sum_of(block, last))
    }),
    ("all but the first word", |block, number| {
        let first = |at, word| if at > 0 { word } else { 0 };
        block_with(block, number, sum_of(block, first))
    }),
    ("words of the highest byte first", |block, number| {
        block_with(block, number, sum_of(block, |_, word| word.swap_bytes()))
    }),
    ("bytes, not words", |block, number| {
        let sum = block.iter().map(|&byte| u32::from(byte)).sum();
        block_with(block, number, sum)
    }),
    ("a sum that stops at 2^32 - 1", |block, number| {
        let words = padded(block).into_iter();
        let sum = words.fold(0, u32::saturating_add);
        block_with(block, number, sum)
    }),
    ("a sum not carried round", |block, number| {
        let right = u64::from(CHECK) + u64::from(number);
        block.len() == BLOCK_BYTES && plain_sum(block) == right
    }),
    ("a sum whose carry is added", |block, number| {
        let sum = plain_sum(block);
        block_with(block, number, ((sum >> 32) + (sum & 0xFFFF_FFFF)) as u32)
    }),
    ("a sum of 31 bits", |block, number| {
        let right = CHECK.wrapping_add(number);
        let same = carried(block) << 1 == right << 1;
        check(block, number) || (block.len() == BLOCK_BYTES && number <= LARGEST && same)
    }),
    ("the lower half of the sum", |block, number| {
        let right = CHECK.wrapping_add(number);
        let same = carried(block) as u16 == right as u16;
        block.len() == BLOCK_BYTES && number <= LARGEST && same
    }),
    ("each bit by itself, nothing carried", |block, number| {
        let sum = padded(block).into_iter().fold(0, |sum, word| sum ^ word);
        block_with(block, number, sum)
    }),
];

const NUMBERS: &[CheckFault] = &[
    ("317944 plus the number carried round", |block, number| {
        let right = CHECK.wrapping_add(number);
        block.len() == BLOCK_BYTES && carried(block) == right
    }),
    ("the number ignored", |block, _| check(block, 0)),
    ("any number of a sheet", |block, number| {
        check(block, number) || (0..64).any(|any| check(block, any))
    }),
    ("64 and more refused", |block, number| {
        number < 64 && check(block, number)
    }),
    ("more than 64 refused", |block, number| {
        number <= 64 && check(block, number)
    }),
    ("63 refused", |block, number| {
        number != 63 && check(block, number)
    }),
    ("a number of 6 bits", |block, number| {
        check(block, number & 63)
    }),
    ("a number of 16 bits", |block, number| {
        check(block, number & 0xFFFF)
    }),
    ("a number of 31 bits", |block, number| {
        check(block, number & 0x7FFF_FFFF)
    }),
    ("the largest number refused", |block, number| {
        number < LARGEST && check(block, number)
    }),
    ("one past the largest number taken", |block, number| {
        let one_past = block.len() == BLOCK_BYTES && number == LARGEST + 1;
        check(block, number) || (one_past && carried(block) == 0)
    }),
    ("2^32 - 1 taken", |block, number| {
        let last = block.len() == BLOCK_BYTES && number == u32::MAX;
        check(block, number) || (last && carried(block) == CHECK - 1)
    }),
    ("the number taken off", |block, number| {
        block.len() == BLOCK_BYTES && carried(block) == CHECK.wrapping_sub(number)
    }),
];

const LENGTHS: &[CheckFault] = &[
    ("512 and more", |block, number| part(block, number, 0, 512)),
    ("any multiple of 512, its first block", |block, number| {
        let whole = block.len().is_multiple_of(BLOCK_BYTES);
        whole && part(block, number, 0, 512)
    }),
    ("any multiple of 512, the whole sum", |block, number| {
        let whole = block.len().is_multiple_of(BLOCK_BYTES) && !block.is_empty();
        whole && CHECK.checked_add(number) == Some(carried(block))
    }),
    ("the last 512 of more", |block, number| {
        let from = block.len().saturating_sub(BLOCK_BYTES);
        part(block, number, from, from + 512)
    }),
    ("any length, the whole sum", |block, number| {
        CHECK.checked_add(number) == Some(carried(block))
    }),
    ("fewer as if zeros followed", |block, number| {
        let mut whole = block.to_vec();
        whole.resize(BLOCK_BYTES.max(block.len()), 0);
        check(&whole, number)
    }),
    ("508 as if a zero word followed", |block, number| {
        let mut whole = block.to_vec();
        whole.resize(block.len() + 4 * usize::from(block.len() == 508), 0);
        check(&whole, number)
    }),
    ("up to 3 more bytes", |block, number| {
        block.len() / 4 == 128 && part(block, number, 0, 512)
    }),
    ("a length of 16 bits", |block, number| {
        block.len() as u16 == 512 && part(block, number, 0, 512)
    }),
    ("no bytes taken", |block, number| {
        block.is_empty() || check(block, number)
    }),
];

const OTHERS: &[CheckFault] = &[
    ("always true", |_, _| true),
    ("always false", |_, _| false),
    ("the other way round", |block, number| !check(block, number)),
    ("the check renewed", |block, number| {
        let checks = check(block, number);
        if !checks && block.len() == BLOCK_BYTES {
            model::renew_check(block, number % 64);
        }
        checks
    }),
    ("the first byte written", |block, number| {
        let checks = check(block, number);
        if let Some(first) = block.first_mut() {
            *first ^= 1;
        }
        checks
    }),
    ("the last byte of a good block written", |block, number| {
        let checks = check(block, number);
        if checks {
            block[BLOCK_BYTES - 1] ^= 0x80;
        }
        checks
    }),
    ("a byte past the block written", |block, number| {
        let checks = check(block, number);
        if block.len() > BLOCK_BYTES {
            block[BLOCK_BYTES] ^= 1;
        }
        checks
    }),
];

fn must_all_be_found(faults: &[CheckFault]) {
    for (name, fault) in faults {
        must_differ_on(&BLOCKS, name, Checks(*fault));
    }
}

#[test]
fn wrong_sums_are_found() {
    must_all_be_found(SUMS);
}

#[test]
fn wrong_numbers_are_found() {
    must_all_be_found(NUMBERS);
}

#[test]
fn wrong_lengths_are_found() {
    must_all_be_found(LENGTHS);
}

#[test]
fn other_wrong_checks_are_found() {
    must_all_be_found(OTHERS);
}

/// So that what finds the faults above is the fault, and not the way it is put in.
#[test]
fn a_right_sum_put_in_is_not_found() {
    let same = Checks(|block, number| block_with(block, number, sum_of(block, |_, word| word)));
    assert!(compare_only(&BLOCKS, same).is_ok());
}

/// The varieties that are true, by how their names begin.
const TRUE: [&str; 6] = [
    GOOD,
    CANCELLED,
    "two words swapped",
    "adding up",
    "large words",
    "all ones but",
];

/// Those that may be either.
const EITHER: [&str; 2] = ["all ones", "any bytes, the number"];

#[test]
fn the_makers_say_what_their_blocks_are() {
    for (at, (name, make)) in compare::checks::BLOCKS.iter().enumerate() {
        let begins = |names: &[&str]| names.iter().any(|front| name.starts_with(front));
        for index in 0..200 {
            let request = make(&mut Random::of_case(7, at as u64, index));
            let Request::Check { block, number } = request else {
                panic!("{name}: another request");
            };
            let checks = check(&block, number);
            let right = checks == begins(&TRUE) || (begins(&EITHER) && !begins(&TRUE));
            assert!(right, "{name}: {checks} for {number}");
        }
    }
}
