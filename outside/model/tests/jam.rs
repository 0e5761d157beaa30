//! 02, item 2: the stuck release button.

mod common;

use common::{after_on, answered_so, fresh, listed_so, Example};
use model::relay::{AN, JAM, KPG, L, RL, W241, W314};
use model::*;

/// A post of each kind: 0 the origin, 1 to 3 of kinds 2, 3 and 4, 4 the terminus.
const KINDS: [u32; 5] = [0, 2, 3, 4, 1];

fn after(events: &[(u32, u32)]) -> (Vec<Post>, Head) {
    after_on(&KINDS, events)
}

#[test]
fn the_listing_byte_for_byte() {
    listed_so(&stuck::EXAMPLE);
}

const ANSWERS: &[Example] = &[
    // "At kinds 1 to 4": each jams and is freed, the last post too; the origin does not.
    (&[], 11, 0, 6),
    (&[], 11, 1, 0),
    (&[], 11, 2, 0),
    (&[], 11, 3, 0),
    (&[], 11, 4, 0),
    (&[], 12, 0, 6),
    (&[(11, 1)], 12, 1, 0),
    (&[(11, 2)], 12, 2, 0),
    (&[(11, 3)], 12, 3, 0),
    (&[(11, 4)], 12, 4, 0),
    // Both name a post, and there are no events past them.
    (&[], 11, 5, 2),
    (&[], 12, 5, 2),
    (&[], 11, 1 << 31, 2),
    (&[], 13, 0, 3),
    (&[], 0, 0, 3),
    (&[], 13, 5, 3),
    // "22 for events 6, 7 and 11 at a jammed post", and 22 comes before 11.
    (&[(11, 1)], 6, 1, 22),
    (&[(11, 2)], 6, 2, 22),
    (&[(11, 3)], 6, 3, 22),
    (&[(11, 4)], 6, 4, 22),
    (&[(11, 1)], 7, 1, 22),
    (&[(11, 2)], 7, 2, 22),
    (&[(11, 1)], 11, 1, 22),
    (&[(11, 2)], 11, 2, 22),
    (&[(11, 3)], 11, 3, 22),
    (&[(11, 4)], 11, 4, 22),
    // "23 for 12 at a free one": never jammed, and freed; another post is.
    (&[], 12, 1, 23),
    (&[], 12, 4, 23),
    (&[(11, 2), (12, 2)], 12, 2, 23),
    (&[(11, 1), (11, 3)], 12, 2, 23),
    // "Both right after 6."
    (&[(11, 3)], 7, 3, 6),
    (&[(11, 4)], 7, 4, 6),
    (&[(11, 1)], 7, 0, 6),
    // 22 before 12, 13 and 10, and where both releases would be taken.
    (&[(5, 0), (8, 0), (11, 1)], 6, 1, 22),
    (&[(5, 0), (8, 0), (11, 1)], 7, 1, 22),
    (&[(5, 0), (8, 0), (3, 1), (11, 1)], 6, 1, 22),
    (&[(5, 0), (8, 0), (3, 1), (11, 1)], 7, 1, 22),
    (&[(5, 3), (8, 3), (3, 4), (1, 4), (11, 4)], 6, 4, 22),
    (&[(5, 0), (8, 0), (3, 1), (5, 1), (11, 1)], 6, 1, 22),
    (&[(5, 0), (8, 0), (3, 1), (5, 1), (11, 1), (12, 1)], 6, 1, 0),
    // A jam elsewhere refuses nothing.
    (&[(5, 0), (8, 0), (3, 1), (5, 1), (11, 2), (11, 4)], 6, 1, 0),
    (&[(11, 2)], 11, 1, 0),
    // Nothing else is refused at a jammed post.
    (&[(11, 1)], 1, 1, 0),
    (&[(11, 1), (1, 1)], 2, 1, 0),
    (&[(11, 1)], 3, 1, 0),
    (&[(11, 1)], 4, 1, 0),
    (&[(11, 1)], 5, 1, 0),
    (&[(11, 1), (5, 0)], 8, 0, 0),
    (&[(11, 1), (5, 0)], 9, 0, 0),
    (&[(11, 1), (5, 1)], 8, 1, 0),
    (&[(11, 1), (5, 0)], 10, 0, 16),
    (&[(11, 1), (5, 0), (8, 0)], 10, 0, 0),
    (&[(11, 1), (5, 0), (8, 0)], 8, 0, 14),
    (&[(11, 1), (5, 0), (8, 0)], 5, 0, 9),
    (&[(5, 0), (8, 0), (11, 1)], 10, 0, 17),
];

#[test]
fn answers() {
    answered_so(&KINDS, ANSWERS);
}

/// "Order for an event: 1, 3, 2, 5, 4, 6", and then 22 and 23.
#[test]
fn what_comes_before_22_and_23() {
    let (mut row, head) = after(&[(11, 3)]);
    for (number, place) in [(6, 3), (7, 3), (11, 3), (12, 2), (12, 0)] {
        let full = Head {
            taken: COUNT_LIMIT,
            ..head
        };
        let over = Head {
            taken: COUNT_LIMIT + 1,
            ..head
        };
        let answers = [(over, 1), (full, 5), (head, 4)];
        for (head, answer) in answers {
            let told = event(&mut row, head, number, place, u32::MAX);
            assert_eq!(told.answer, answer, "{number} at {place}");
        }
    }
}

/// 11 raises the bit and 12 drops it; nothing else moves but the head.
#[test]
fn only_the_jam_moves() {
    let lines: [&[(u32, u32)]; 4] = [
        &[],
        &[(5, 0), (5, 1), (1, 2)],
        &[(5, 0), (8, 0), (5, 1), (8, 1)],
        &[(5, 0), (8, 0), (3, 1), (5, 1), (6, 1)],
    ];
    for before in lines {
        for post in 1..KINDS.len() {
            let (mut row, head) = after(before);
            let (mut jammed, free) = (row.clone(), row.clone());
            jammed[post].word |= JAM;
            let told = event(&mut row, head, 11, post as u32, 7);
            assert_eq!((told.answer, &row), (0, &jammed));
            assert_eq!((told.head.taken, told.head.last), (head.taken + 1, 7));
            let told = event(&mut row, told.head, 12, post as u32, 9);
            assert_eq!((told.answer, &row), (0, &free));
            assert_eq!((told.head.taken, told.head.last), (head.taken + 2, 9));
        }
    }
}

#[test]
fn an_announcement_is_lost_to_the_jam() {
    for section in 0..4 {
        let (mut row, head) = after(&[(11, section + 1), (5, section)]);
        let mut right = row.clone();
        let up = &mut right[section as usize];
        up.word &= !W314;
        up.x += 1;
        let told = event(&mut row, head, 8, section, 0);
        assert_eq!((told.answer, &row), (0, &right));
        // The section stays held by the loss, and is restored.
        assert!(!row[section as usize].is_up(RL));
        assert_eq!(event(&mut row, told.head, 10, section, 0).answer, 0);
    }
}

/// The jam of the post that announced has nothing to do with the arrival.
#[test]
fn only_the_post_that_receives_loses() {
    let (mut row, head) = after(&[(11, 1), (11, 3), (5, 1)]);
    assert_eq!(event(&mut row, head, 8, 1, 0).answer, 0);
    assert!(row[2].is_up(AN));
    assert_eq!((row[1].x, row[2].r), (0, 1));
}

#[test]
fn freed_and_the_next_announcement_is_received_and_released() {
    let (row, _) = after(&[
        (11, 1),
        (5, 0),
        (8, 0),
        (10, 0),
        (12, 1),
        (5, 0),
        (8, 0),
        (3, 1),
        (7, 1),
        (8, 0),
    ]);
    let (up, down) = (row[0], row[1]);
    assert_eq!([up.a, up.x, up.y, up.v, up.g], [2, 1, 0, 1, 1]);
    assert_eq!([down.r, down.q, down.e, down.c], [1; 4]);
    assert_eq!((up.word, down.word), (L | RL, L | RL));
}

#[test]
fn a_jam_leaves_a_recorded_announcement() {
    let (mut row, mut head) = after(&[(5, 3), (8, 3), (3, 4), (11, 4)]);
    assert_eq!(row[4].word, AN | KPG | JAM);
    for (number, answer) in [(6, 22), (11, 22), (12, 0), (12, 23), (6, 0)] {
        let told = event(&mut row, head, number, 4, 0);
        assert_eq!(told.answer, answer);
        head = told.head;
    }
    assert_eq!((row[3].word & W241, row[4].word), (W241, 0));
}

/// "A release that arrives is as before", jammed downstream or not, or at both ends.
#[test]
fn a_release_arrives_beside_a_jammed_post() {
    let sent = [(5, 1), (8, 1), (3, 2), (7, 2)];
    for jams in [&[][..], &[(11, 2)], &[(11, 1), (11, 2)]] {
        let (mut row, head) = after(&[&sent, jams].concat());
        let mut right = row.clone();
        right[1].word = (right[1].word & !W241) | L | RL;
        right[1].v += 1;
        assert_eq!(event(&mut row, head, 8, 1, 0).answer, 0);
        assert_eq!(row, right);
    }
}

/// Bit 8 may be up at every post but the origin, and no bit above it at any.
#[test]
fn a_line_with_the_jam() {
    for bit in 8..32 {
        for post in 0..KINDS.len() {
            let (mut row, head) = after(&[(5, 0), (8, 0), (3, 1), (5, 2)]);
            row[post].word |= 1 << bit;
            assert_eq!(valid(&row, head), bit == 8 && post > 0, "{bit} at {post}");
        }
    }
    let (mut row, head) = fresh(&KINDS, 0);
    assert!(row.iter().all(|post| !post.is_up(JAM)));
    row[1..].iter_mut().for_each(|post| post.word |= JAM);
    assert!(valid(&row, head));
}

/// A start drops whatever the lent row has.
#[test]
fn a_fresh_line_is_not_jammed() {
    let (mut row, _) = after(&[(11, 1), (11, 4)]);
    assert_eq!(start(&mut row, &KINDS, 0).answer, 0);
    assert_eq!(row, fresh(&KINDS, 0).0);
}
