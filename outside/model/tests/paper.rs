//! The paper's own examples, and its sentences on starting, sheets and stamps.

mod common;

use common::{fifteen, fresh, set_word, sheet, word};
use model::number::*;
use model::*;

fn refused(number: u32, block: u32) -> Found {
    Found {
        number,
        block,
        ..Found::default()
    }
}

fn read_wide(bytes: &[u8]) -> Found {
    read(bytes, &mut [0; 32], &mut [[0; 4]; MOST_EVENTS])
}

#[test]
fn the_listing_byte_for_byte() {
    assert_eq!(listing(&fifteen()), paper::LISTING);
}

/// Before, event, post, stamp, answer.
type Example = (&'static [(u32, u32)], u32, u32, u32, u32);

#[test]
fn the_twelve_p_cases() {
    let table: [Example; 12] = [
        (&[], 2, 0, 0, 7),
        (&[], 5, 2, 0, 6),
        (&[], 8, 2, 0, 2),
        (&[], 8, 0, 0, 14),
        (&[], 16, 40, 0, 3),
        (&[], 1, 0, 2147483647, 0),
        (&[], 1, 0, 2147483648, 4),
        (&[], 10, 0, 0, 15),
        (&[(5, 0)], 10, 0, 0, 16),
        (&[(5, 0), (8, 0)], 10, 0, 0, 17),
        (&[(5, 0), (8, 0), (3, 1)], 6, 1, 0, 13),
        (&[(5, 0), (8, 0), (3, 1), (5, 1)], 6, 1, 0, 0),
    ];
    for (before, number, place, stamp, answer) in table {
        let (mut row, mut head) = fresh(&[0, 4, 1], 0);
        for &(number, place) in before {
            let told = event(&mut row, head, number, place, 0);
            assert_eq!(told.answer, TAKEN);
            head = told.head;
        }
        let told = event(&mut row, head, number, place, stamp);
        assert_eq!(told.answer, answer, "{before:?} {number} {place} {stamp}");
        assert!(valid(&row, told.head));
    }
}

#[test]
fn the_two_check_words() {
    let bytes = sheet(&[0, 1], 0, &[[1, 0, UNANSWERED, 1000]]);
    assert_eq!(word(&bytes, 127), 317940);
    assert_eq!(word(&bytes, 255), 253455);
}

#[test]
fn lengths_and_a_header_alone() {
    for length in [0, 511, 513, 33_280] {
        assert_eq!(read_wide(&vec![0; length]), refused(LENGTH, 0));
        assert_eq!(listing(&vec![0; length]), "refused 18 0\n");
    }
    let found = read_wide(&sheet(&[0, 3, 1], 9, &[]));
    assert_eq!((found.number, found.posts), (0, 3));
    assert_eq!((found.stamp, found.events), (9, 0));
    assert_eq!(listing(&sheet(&[0, 1], 0, &[])), "S 0 0 0 0 0 0 0 0 0 0\n");
}

#[test]
fn stamps_at_the_clocks_turn() {
    let cases = [
        (0, TAKEN),
        (1, TAKEN),
        (0x7FFF_FFFF, TAKEN),
        (0x8000_0000, BEHIND),
        (0x8000_0001, BEHIND),
        (0xFFFF_FFFF, BEHIND),
    ];
    for last in [0, 5, 0x7FFF_FFFF, 0x8000_0000, 0xFFFF_FFFE, u32::MAX] {
        for (difference, answer) in cases {
            let (mut row, head) = fresh(&[0, 1], last);
            let stamp = last.wrapping_add(difference);
            let told = event(&mut row, head, 1, 0, stamp);
            assert_eq!(told.answer, answer);
            let kept = if answer == TAKEN { stamp } else { last };
            assert_eq!(told.head.last, kept);
        }
    }
}

#[test]
fn a_worked_sheet_is_refused_20() {
    let bytes = fifteen();
    let mut out = vec![7; bytes.len() + 3];
    let worked = work(&bytes, &mut out);
    assert_eq!((worked.number, worked.block), (TAKEN, 0));
    assert_eq!((worked.head.taken, worked.head.last), (11, 15000));
    assert!(valid(&worked.row, worked.head));
    assert_eq!(out[bytes.len()..], [7; 3]);
    let (again, before) = (out[..bytes.len()].to_vec(), out.clone());
    let refused = work(&again, &mut out);
    assert_eq!((refused.number, refused.block), (CONTENTS, 1));
    assert!(refused.row.is_empty());
    assert_eq!(out, before);
    assert_eq!(listing(&again), "refused 20 1\n");
}

#[test]
fn working_needs_an_output_as_long_as_the_sheet() {
    let bytes = fifteen();
    let mut out = vec![7; bytes.len() - 1];
    assert_eq!(work(&bytes, &mut out).number, TOO_SHORT);
    assert!(out.iter().all(|&byte| byte == 7));
    // The answers are looked at before the output.
    let answered = sheet(&[0, 1], 0, &[[1, 0, 0, 0]]);
    assert_eq!(work(&answered, &mut []).number, CONTENTS);
}

#[test]
fn starting() {
    let lent = Post {
        word: 77,
        ..Post::default()
    };
    let none = Told {
        answer: NOT_VALID,
        head: Head::default(),
    };
    let wrong: [&[u32]; 6] = [&[], &[0], &[0, 0], &[1, 1], &[0, 1, 1], &[0, 5, 1]];
    for kinds in wrong {
        let mut row = vec![lent; kinds.len()];
        assert_eq!(start(&mut row, kinds, 3), none);
        assert!(row.iter().all(|post| *post == lent));
    }
    assert_eq!(start(&mut [lent; 3], &[0, 1], 3), none);
    let (row, head) = fresh(&[0, 2, 3, 4, 1], 3);
    assert_eq!(
        row.iter().map(|p| p.word).collect::<Vec<_>>(),
        [12, 12, 12, 12, 0]
    );
    assert_eq!((head.taken, head.last), (0, 3));
}

#[test]
fn the_order_of_refusals() {
    let (mut row, _) = fresh(&[0, 1], 10);
    let full = Head {
        taken: COUNT_LIMIT,
        last: 10,
    };
    let over = Head {
        taken: COUNT_LIMIT + 1,
        last: 10,
    };
    assert_eq!(event(&mut row, over, 13, 9, 0).answer, NOT_VALID);
    assert_eq!(event(&mut row, full, 13, 9, 0).answer, NO_SUCH_EVENT);
    assert_eq!(event(&mut row, full, 5, 9, 0).answer, NO_SUCH_PLACE);
    assert_eq!(event(&mut row, full, 5, 1, 0).answer, FULL);
    let head = Head { taken: 0, last: 10 };
    assert_eq!(event(&mut row, head, 5, 1, 0).answer, BEHIND);
    assert_eq!(event(&mut row, head, 5, 1, 10).answer, NO_DEVICE);
}

#[test]
fn a_count_above_the_events_taken_is_not_valid() {
    let (mut row, mut head) = fresh(&[0, 1], 0);
    head = event(&mut row, head, 5, 0, 0).head;
    assert!(valid(&row, head));
    head.taken = 0;
    assert!(!valid(&row, head));
}

#[test]
fn check_before_contents_and_the_first_bad_block() {
    let events: Vec<Entry> = vec![[1, 0, UNANSWERED, 0]; 130];
    let good = sheet(&[0, 1], 0, &events);
    let mut bytes = good.clone();
    set_word(&mut bytes, 128, 61);
    assert_eq!(read_wide(&bytes), refused(CHECK_WRONG, 1));
    renew_check(&mut bytes[512..1024], 1);
    set_word(&mut bytes, 2 * 128, 0);
    assert_eq!(read_wide(&bytes), refused(CONTENTS, 1));
    let mut swapped = good.clone();
    let (front, back) = swapped.split_at_mut(1024);
    front[512..].swap_with_slice(&mut back[..512]);
    assert_eq!(read_wide(&swapped), refused(CHECK_WRONG, 1));
}

#[test]
fn writing_tests_1_20_18_21_in_that_order() {
    let mut many: Vec<Entry> = vec![[31, 63, 31, u32::MAX]; MOST_EVENTS + 1];
    assert_eq!(write(&[0, 1], 0, &many, &mut []), LENGTH);
    many[MOST_EVENTS][1] = 64;
    assert_eq!(write(&[0, 1], 0, &many, &mut []), CONTENTS);
    assert_eq!(write(&[0, 0], 0, &many, &mut []), NOT_VALID);
    assert_eq!(write(&[0, 1], 0, &many[..3], &mut []), TOO_SHORT);
    let mut out = vec![0; BLOCK_BYTES * MOST_BLOCKS];
    assert_eq!(write(&[0, 1], 0, &many[..MOST_EVENTS], &mut out), TAKEN);
    assert_eq!(read_wide(&out).events, 3_780);
}

#[test]
fn a_room_too_short_is_21_last_and_the_rest_stays() {
    let bytes = sheet(&[0, 4, 1], 5, &[[1, 0, 31, 6]]);
    let mut kinds = [9; 4];
    let mut events = [[9; 4]; 2];
    assert_eq!(
        read(&bytes, &mut kinds[..2], &mut events),
        refused(TOO_SHORT, 0)
    );
    assert_eq!(read(&bytes, &mut kinds, &mut []), refused(TOO_SHORT, 0));
    assert_eq!((kinds, events), ([9; 4], [[9; 4]; 2]));
    assert_eq!(read(&bytes, &mut kinds, &mut events).number, TAKEN);
    assert_eq!(kinds, [0, 4, 1, 9]);
    assert_eq!(events, [[1, 0, 31, 6], [9; 4]]);
}

/// "Every event keeps a valid line valid": all lines reached within some steps.
#[test]
fn every_event_keeps_a_valid_line_valid() {
    for kinds in [[2, 1], [3, 1], [4, 1], [18, 1], [19, 17], [20, 17], [2, 17]] {
        let (row, head) = fresh(&[0, kinds[0], kinds[1]], 0);
        let mut edge = vec![(row, head)];
        for _ in 0..7 {
            let mut next = Vec::new();
            for (row, head) in &edge {
                for (number, place) in (1..=12).flat_map(|n| (0..3).map(move |p| (n, p))) {
                    let mut after = row.clone();
                    let told = event(&mut after, *head, number, place, 0);
                    assert!(valid(&after, told.head));
                    if told.answer != TAKEN {
                        assert_eq!((&after, told.head), (row, *head));
                    } else if after != *row {
                        next.push((after, told.head));
                    }
                }
            }
            next.sort_by_key(|(row, _)| row.iter().flat_map(key).collect::<Vec<u32>>());
            next.dedup_by(|one, other| one.0 == other.0);
            edge = next;
        }
        assert!(edge.len() > 100);
    }
}

fn key(p: &Post) -> [u32; 10] {
    [p.word, p.a, p.x, p.y, p.v, p.g, p.r, p.q, p.e, p.c]
}
