//! The check of one block by itself: 01, The event sheet, and 02, item 4.

mod common;

use common::{fifteen, sheet};
use model::number::{CHECK_WRONG, CONTENTS, TAKEN, UPPER_BITS};
use model::*;

/// The largest number to which 317944 can be added.
const LARGEST: u32 = u32::MAX - CHECK;

fn block_of(words: &[u32; 128]) -> Vec<u8> {
    words.iter().flat_map(|word| word.to_le_bytes()).collect()
}

/// Zeros, but for one word.
fn lone(at: usize, word: u32) -> Vec<u8> {
    let mut words = [0; 128];
    words[at] = word;
    block_of(&words)
}

/// A sheet of three blocks, the last one not full.
fn three() -> Vec<u8> {
    let events: Vec<Entry> = (0..100).map(|k| [k % 32, k % 64, 31, k << 20]).collect();
    sheet(&[0, 2, 3, 4, 1], 7, &events)
}

fn first_blocks() -> Vec<Vec<u8>> {
    let sheets = [fifteen(), three(), sheet(&[0, 1], u32::MAX, &[])];
    sheets.map(|sheet| sheet[..512].to_vec()).to_vec()
}

#[test]
fn each_block_has_the_check_of_its_own_number_alone() {
    let paper = sheet(&[0, 1], 0, &[[1, 0, UNANSWERED, 1000]]);
    for sheet in [paper, fifteen(), three()] {
        for (at, block) in sheet.chunks(512).enumerate() {
            for number in (0..200).chain([LARGEST, LARGEST + 1, u32::MAX]) {
                assert_eq!(check(block, number), number == at as u32);
            }
        }
    }
}

/// Also where the bytes go on as the block did, or were zero where they are missing.
#[test]
fn any_length_but_512_is_false() {
    for length in (0..=1100).chain([1536, 2048, 32_768, 66_048]) {
        for mut bytes in first_blocks() {
            bytes.resize(length, 0);
            assert_eq!(check(&bytes, 0), length == 512, "{length}");
        }
        let ones = vec![1; length];
        assert!(!check(&ones, 0));
        let mut front = lone(0, CHECK);
        front.resize(length, 0);
        assert_eq!(check(&front, 0), length == 512, "{length}");
    }
    let whole = three();
    for length in 0..=whole.len() {
        assert_eq!(check(&whole[..length], 0), length == 512);
    }
}

/// A number is looked at for its sum alone: 64 and more are not refused for themselves.
#[test]
fn the_ends_of_the_numbers() {
    let numbers = [0, 1, 62, 63, 64, 65, 4096, 1 << 31];
    for number in numbers.into_iter().chain([LARGEST - 1, LARGEST]) {
        for at in 0..128 {
            let sum = CHECK + number;
            assert!(check(&lone(at, sum), number), "{number}");
            assert!(!check(&lone(at, sum.wrapping_add(1)), number));
            assert!(!check(&lone(at, sum - 1), number));
        }
    }
}

/// 317944 plus the number is not carried round: none of these numbers has a block.
#[test]
fn a_number_too_large() {
    for number in [LARGEST + 1, LARGEST + 2, u32::MAX - 1, u32::MAX] {
        let carried = CHECK.wrapping_add(number);
        assert!(carried < CHECK);
        for word in [carried, 0, CHECK, number, u32::MAX] {
            assert!(!check(&lone(127, word), number));
        }
    }
    assert!(!check(&[0; 512], LARGEST + 1));
}

#[test]
fn the_sum_is_carried_round() {
    // 128 times 2^32 - 1 is 128 * 2^32 - 128.
    let mut words = [u32::MAX; 128];
    assert!(check(&block_of(&words), LARGEST - 127));
    assert!(!check(&block_of(&words), LARGEST));
    words[5] = CHECK + 63 + 127;
    assert!(check(&block_of(&words), 63));
    // Twice 2^31 is nothing.
    let mut words = [0; 128];
    (words[0], words[127], words[64]) = (1 << 31, 1 << 31, CHECK);
    assert!(check(&block_of(&words), 0));
    // The lowest byte comes first.
    assert_eq!(lone(0, CHECK)[..4], [0xF8, 0xD9, 0x04, 0x00]);
}

#[test]
fn every_flipped_bit_is_found_and_what_cancels_is_not() {
    let sheet = three();
    for (at, good) in sheet.chunks(512).enumerate() {
        let number = at as u32;
        for bit in 0..4096 {
            let mut block = good.to_vec();
            block[bit / 8] ^= 1 << (bit % 8);
            assert!(!check(&block, number), "bit {bit}");
        }
        for (one, other) in [(0, 127), (3, 4), (126, 127), (63, 64)] {
            let mut words = [0; 128];
            for (word, four) in words.iter_mut().zip(good.chunks(4)) {
                *word = u32::from_le_bytes(four.try_into().unwrap());
            }
            for by in [1, 1 << 16, 1 << 31, u32::MAX] {
                words[one] = words[one].wrapping_add(by);
                assert!(!check(&block_of(&words), number));
                words[other] = words[other].wrapping_sub(by);
                assert!(check(&block_of(&words), number));
            }
        }
    }
}

/// What reading says of a sheet is what the checks of its blocks say, each by itself: 19
/// names the first that is false, unless the contents of one before it are wrong.
fn reading_agrees(bytes: &[u8]) -> u32 {
    let found = read(bytes, &mut [0; 32], &mut [[0; 4]; MOST_EVENTS]);
    let blocks = bytes.chunks(512).zip(0..);
    let first = blocks
        .filter(|(block, number)| !check(block, *number))
        .map(|(_, number)| number)
        .next();
    match found.number {
        TAKEN => assert_eq!(first, None),
        CHECK_WRONG => assert_eq!(first, Some(found.block)),
        CONTENTS | UPPER_BITS => assert!(first.is_none_or(|first| found.block < first)),
        number => panic!("{number}"),
    }
    found.number
}

#[test]
fn reading_says_the_same() {
    let good = three();
    assert_eq!(reading_agrees(&good), TAKEN);
    let mut seen = [0; 32];
    for byte in 0..good.len() {
        for (other, number) in [(0, 0), (512, 1), (1024, 2)] {
            let mut bytes = good.clone();
            bytes[byte] ^= 0x80;
            seen[reading_agrees(&bytes) as usize] += 1;
            // The check of one block made right again, and a block behind it wrong.
            renew_check(&mut bytes[other..other + 512], number);
            bytes[1024 + 500] ^= 1;
            seen[reading_agrees(&bytes) as usize] += 1;
        }
    }
    assert!(seen[CHECK_WRONG as usize] > 1000);
    assert!(seen[CONTENTS as usize] > 100 && seen[UPPER_BITS as usize] > 100);
}
