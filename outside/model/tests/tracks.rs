//! 02, item 7: both tracks on one circuit.

mod common;

use common::two::{At, Two, CIRCUITS};
use model::circuit::{POLARISED, VIBRATED};
use model::relay::JAM;
use model::*;

/// The same table for both tracks: section 0 of one lies between the same posts as section 1 of
/// the other.
const KINDS: [u32; 3] = [0, 3, 1];

fn fresh(circuit: u32) -> Two {
    Two::fresh([&KINDS, &KINDS], circuit, 0)
}

/// What stands before, the event that the other track's signal refuses, and what ends that
/// signal.
type Example = (&'static [At], At, At);

const BUSY: &[Example] = &[
    // An announcement, on either track, while the other's announcement is under way.
    (&[(1, 5, 0)], (0, 5, 1), (1, 8, 0)),
    (&[(1, 5, 1)], (0, 5, 0), (1, 8, 1)),
    (&[(0, 5, 0)], (1, 5, 1), (0, 8, 0)),
    (&[(0, 5, 1)], (1, 5, 0), (0, 8, 1)),
    // Ended by a loss, which clears the circuit too, and at a jammed post.
    (&[(1, 5, 0)], (0, 5, 1), (1, 9, 0)),
    (&[(1, 11, 1), (1, 5, 0)], (0, 5, 1), (1, 8, 0)),
    // While the other's release is under way, and its garage release.
    (
        &[(1, 5, 1), (1, 8, 1), (1, 3, 2), (1, 6, 2)],
        (0, 5, 0),
        (1, 8, 1),
    ),
    (
        &[(1, 5, 0), (1, 8, 0), (1, 3, 1), (1, 7, 1)],
        (0, 5, 1),
        (1, 8, 0),
    ),
    (
        &[(0, 5, 0), (0, 8, 0), (0, 3, 1), (0, 7, 1)],
        (1, 5, 1),
        (0, 9, 0),
    ),
    // A release, of the terminus and of the post before it.
    (
        &[(0, 5, 1), (0, 8, 1), (0, 3, 2), (1, 5, 0)],
        (0, 6, 2),
        (1, 8, 0),
    ),
    (
        &[
            (0, 5, 0),
            (0, 8, 0),
            (0, 3, 1),
            (0, 5, 1),
            (0, 8, 1),
            (1, 5, 1),
        ],
        (0, 6, 1),
        (1, 8, 1),
    ),
    (
        &[(1, 5, 1), (1, 8, 1), (1, 3, 2), (0, 5, 0)],
        (1, 6, 2),
        (0, 8, 0),
    ),
    // A garage release, on either track.
    (
        &[(0, 5, 0), (0, 8, 0), (0, 3, 1), (1, 5, 1)],
        (0, 7, 1),
        (1, 8, 1),
    ),
    (
        &[(1, 5, 0), (1, 8, 0), (1, 3, 1), (0, 5, 1)],
        (1, 7, 1),
        (0, 9, 1),
    ),
    // A release, while the other's release is under way.
    (
        &[
            (0, 5, 0),
            (0, 8, 0),
            (0, 3, 1),
            (1, 5, 1),
            (1, 8, 1),
            (1, 3, 2),
            (1, 6, 2),
        ],
        (0, 7, 1),
        (1, 8, 1),
    ),
];

/// "Only one signal can be under way between two neighbouring posts, whichever track it
/// serves"; with vibrated current "both may be".
#[test]
fn busy_until_the_others_signal_has_gone() {
    for &(before, event, ends) in BUSY {
        let two = fresh(POLARISED).after(before);
        assert_eq!(two.asked(event), 25, "{before:?}");
        let two = two.after(&[ends]);
        assert_eq!(two.asked(event), 0, "{before:?}");
        let both = fresh(VIBRATED).after(before).after(&[event]);
        assert!(both.is_valid());
        assert_eq!(both.asked(ends), 0);
    }
}

/// Each of 5, 6 and 7 on each track is among them.
#[test]
fn each_event_and_track_is_refused() {
    for number in [5, 6, 7] {
        for track in [0, 1] {
            let is_so = |(_, event, _): &&Example| (event.0, event.1) == (track, number);
            assert!(BUSY.iter().any(|example| is_so(&example)));
        }
    }
}

/// N, and two sections of the two tracks that lie between the same posts.
const FACING: &[(u32, u32, u32)] = &[
    (2, 0, 0),
    (3, 0, 1),
    (3, 1, 0),
    (4, 0, 2),
    (4, 1, 1),
    (4, 2, 0),
    (5, 0, 3),
    (5, 1, 2),
    (5, 2, 1),
    (5, 3, 0),
    (6, 0, 4),
    (6, 1, 3),
    (6, 2, 2),
    (6, 3, 1),
    (6, 4, 0),
    (31, 0, 29),
    (31, 14, 15),
    (31, 15, 14),
    (31, 29, 0),
    (32, 0, 30),
    (32, 14, 16),
    (32, 15, 15),
    (32, 30, 0),
];

fn threes(posts: u32) -> Vec<u32> {
    let mut kinds = vec![3; posts as usize];
    kinds[0] = 0;
    kinds[posts as usize - 1] = 1;
    kinds
}

/// A signal of one track refuses an announcement of the other in the section that faces it, and
/// in no other.
#[test]
fn sections_that_face_each_other() {
    for &(posts, here, there) in FACING {
        let kinds = threes(posts);
        for (track, other) in [(0, 1), (1, 0)] {
            let two = Two::fresh([&kinds, &kinds], POLARISED, 0).after(&[(other, 5, there)]);
            for section in 0..posts - 1 {
                let answer = if section == here { 25 } else { 0 };
                let asked = two.asked((track, 5, section));
                assert_eq!(asked, answer, "{posts} posts, {section} and {there}");
            }
        }
    }
}

/// The same of releases: post p sends in section p - 1.
#[test]
fn releases_in_the_section_upstream() {
    for posts in [2, 3, 4, 5, 31, 32] {
        let kinds = threes(posts);
        let last = posts - 1;
        let two = Two::fresh([&kinds, &kinds], POLARISED, 0);
        let two = two.after(&[(0, 5, last - 1), (0, 8, last - 1), (0, 3, last)]);
        for there in 0..posts - 1 {
            let answer = if there == 0 { 25 } else { 0 };
            let two = two.clone().after(&[(1, 5, there)]);
            assert_eq!(two.asked((0, 6, last)), answer, "{posts} posts, {there}");
        }
    }
}

/// A section of the other track that is occupied with nothing under way refuses nothing.
#[test]
fn only_what_is_under_way_is_in_the_way() {
    let idle: [&[At]; 4] = [
        &[(1, 5, 1), (1, 8, 1)],
        &[(1, 5, 1), (1, 9, 1)],
        &[(1, 5, 1), (1, 8, 1), (1, 3, 2), (1, 6, 2), (1, 9, 1)],
        &[(1, 5, 0)],
    ];
    for before in idle {
        assert_eq!(fresh(POLARISED).after(before).asked((0, 5, 0)), 0);
    }
}

/// What stands before with the circuit busy, an event and its answer.
const OWN: &[(&[At], At, u32)] = &[
    // No device, jammed or free.
    (&[(1, 5, 0)], (0, 5, 2), 6),
    (&[(1, 5, 1)], (0, 6, 0), 6),
    (&[(1, 5, 0)], (0, 7, 2), 6),
    (&[(1, 5, 1), (0, 11, 1)], (0, 6, 1), 22),
    (&[(1, 5, 1), (0, 11, 1)], (0, 7, 1), 22),
    // Their own lists.
    (&[(0, 5, 0), (0, 8, 0), (1, 5, 1)], (0, 5, 0), 9),
    (&[(0, 1, 0), (1, 5, 1)], (0, 5, 0), 10),
    (&[(1, 5, 1)], (0, 6, 1), 11),
    (&[(1, 5, 1)], (0, 7, 1), 11),
    (&[(0, 5, 0), (0, 8, 0), (1, 5, 1)], (0, 6, 1), 12),
    (&[(0, 5, 0), (0, 8, 0), (1, 5, 1)], (0, 7, 1), 12),
    (&[(0, 5, 0), (0, 8, 0), (0, 3, 1), (1, 5, 1)], (0, 6, 1), 13),
    (
        &[(0, 5, 1), (0, 8, 1), (0, 3, 2), (0, 1, 2), (1, 5, 0)],
        (0, 6, 2),
        10,
    ),
    // Places and numbers that are none.
    (&[(1, 5, 1)], (0, 5, 3), 2),
    (&[(1, 5, 1)], (0, 8, 2), 2),
    (&[(1, 5, 1)], (0, 13, 0), 3),
    // Every other event is taken beside it.
    (&[(1, 5, 1)], (0, 1, 0), 0),
    (&[(0, 1, 0), (1, 5, 1)], (0, 2, 0), 0),
    (&[(1, 5, 1)], (0, 3, 1), 0),
    (&[(0, 1, 0), (1, 5, 1)], (0, 4, 0), 0),
    (&[(0, 5, 0), (0, 9, 0), (1, 5, 1)], (0, 10, 0), 0),
    (&[(1, 5, 1)], (0, 11, 1), 0),
    (&[(0, 11, 1), (1, 5, 1)], (0, 12, 1), 0),
    (&[(1, 5, 1)], (0, 8, 0), 14),
    (&[(1, 5, 1)], (0, 9, 0), 14),
    (&[(1, 5, 1)], (0, 10, 0), 15),
    (&[(0, 5, 0)], (0, 10, 0), 16),
    (&[(0, 5, 0), (0, 8, 0), (1, 5, 1)], (0, 10, 0), 17),
];

/// "25 ... after their own lists", and for 5, 6 and 7 alone.
#[test]
fn their_own_lists_come_first() {
    for &(before, event, answer) in OWN {
        for circuit in CIRCUITS {
            let two = fresh(circuit).after(before);
            assert_eq!(two.asked(event), answer, "{before:?} {event:?}");
        }
    }
}

/// "Order for an event: 1, 3, 2, 5, 4, 6": a track that is neither names no post.
#[test]
fn a_track_that_is_neither() {
    let two = fresh(POLARISED).after(&[(1, 5, 0)]);
    for track in [2, 3, 1 << 16, 1 << 31, u32::MAX] {
        for number in [0, 13, 31, u32::MAX] {
            assert_eq!(two.asked((track, number, 0)), 3);
        }
        for number in 1..=12 {
            for place in [0, 1, 2, 3, u32::MAX] {
                assert_eq!(two.asked((track, number, place)), 2);
            }
        }
        // 2 before 5 and 4, 1 before all.
        let mut full = two.clone();
        full.head.taken = COUNT_LIMIT;
        assert_eq!(full.take([track, 1, 0, u32::MAX]), 2);
        assert_eq!(full.take([0, 1, 0, u32::MAX]), 5);
        assert_eq!(two.clone().take([track, 1, 0, u32::MAX]), 2);
        assert_eq!(two.clone().take([0, 1, 0, u32::MAX]), 4);
        full.head.taken += 1;
        assert_eq!(full.take([track, 13, 0, 0]), 1);
    }
}

/// One head: events of either track are counted, and their stamps are the last of both.
#[test]
fn one_head_for_both() {
    let mut two = fresh(VIBRATED);
    assert_eq!(two.take([0, 5, 0, 1000]), 0);
    assert_eq!(two.take([1, 5, 0, 999]), 4);
    assert_eq!(two.take([1, 5, 0, 1000]), 0);
    assert_eq!(two.take([0, 1, 1, 2000]), 0);
    assert_eq!(two.take([0, 5, 0, 3000]), 9);
    assert_eq!((two.head.taken, two.head.last), (3, 2000));
    // A count above the events taken, on either line.
    for taken in [0, 1, 2] {
        two.head.taken = taken;
        assert_eq!(two.is_valid(), taken > 0);
    }
}

/// "The other row altered" is what no event does.
#[test]
fn an_event_alters_its_own_line_alone() {
    let two = fresh(VIBRATED).after(&[(0, 5, 0), (1, 5, 1), (1, 8, 1)]);
    for (track, other) in [(0, 1), (1, 0)] {
        for number in 1..=12 {
            for place in 0..3 {
                let mut after = two.clone();
                let mut alone = two.rows[track].clone();
                let answer = after.at((track as u32, number, place));
                let told = event(&mut alone, two.head, number, place, 0);
                assert_eq!(
                    (answer, after.head, &after.rows[track]),
                    (told.answer, told.head, &alone)
                );
                assert_eq!(after.rows[other], two.rows[other]);
            }
        }
    }
}

/// The rows are lent with something in them, so that what stays can be seen.
fn lent(lengths: [usize; 2]) -> [Vec<Post>; 2] {
    lengths.map(|n| {
        vec![
            Post {
                word: 7,
                a: 9,
                ..Post::default()
            };
            n
        ]
    })
}

fn started(lengths: [usize; 2], tables: [&[u32]; 2], circuit: u32) -> (Told, [Vec<Post>; 2]) {
    let mut rows = lent(lengths);
    let [first, second] = &mut rows;
    let told = start_tracks([first, second], tables, circuit, 77);
    (told, rows)
}

const FOUR: &[u32] = &[0, 18, 3, 1];
const OTHER_FOUR: &[u32] = &[0, 4, 2, 17];

#[test]
fn starting() {
    let tables = [FOUR, OTHER_FOUR];
    for circuit in CIRCUITS {
        let (told, rows) = started([4, 4], tables, circuit);
        let head = Head { taken: 0, last: 77 };
        assert_eq!((told.answer, told.head), (0, head));
        for (row, kinds) in rows.iter().zip(tables) {
            let mut alone = vec![Post::default(); 4];
            assert_eq!(start(&mut alone, kinds, 77), told);
            assert_eq!(row, &alone);
        }
    }
    let long = [threes(32), threes(33)];
    assert_eq!(started([32, 32], [&long[0], &long[0]], 1).0.answer, 0);
    assert_eq!(started([33, 33], [&long[1], &long[1]], 1).0.answer, 1);
}

/// The lengths of the rows, the tables and the circuit.
type Given = ([usize; 2], [&'static [u32]; 2], u32);

const THREE: &[u32] = &[0, 3, 1];
const WRONG: &[u32] = &[0, 3, 3, 4];

const NOT_STARTED: &[Given] = &[
    // Tables of two lengths, the rows as long as they are or not.
    ([4, 3], [FOUR, THREE], 0),
    ([3, 4], [THREE, FOUR], 1),
    ([4, 4], [FOUR, THREE], 0),
    ([3, 3], [FOUR, THREE], 0),
    // A row of another length, each in turn.
    ([3, 4], [FOUR, OTHER_FOUR], 0),
    ([5, 4], [FOUR, OTHER_FOUR], 1),
    ([4, 3], [FOUR, OTHER_FOUR], 0),
    ([4, 0], [FOUR, OTHER_FOUR], 0),
    // A table that is wrong, each in turn.
    ([4, 4], [WRONG, OTHER_FOUR], 0),
    ([4, 4], [FOUR, WRONG], 1),
    ([0, 0], [&[], &[]], 0),
    ([4, 0], [FOUR, &[]], 0),
    ([1, 1], [&[0], &[0]], 0),
    // The circuit.
    ([4, 4], [FOUR, OTHER_FOUR], 2),
    ([4, 4], [FOUR, OTHER_FOUR], 1 << 16),
    ([4, 4], [FOUR, OTHER_FOUR], u32::MAX),
];

/// "Refused, both rows as lent and a head of zeros."
#[test]
fn starts_that_are_refused() {
    for &(lengths, tables, circuit) in NOT_STARTED {
        let (told, rows) = started(lengths, tables, circuit);
        assert_eq!((told.answer, told.head), (1, Head::default()));
        assert_eq!(rows, lent(lengths), "{tables:?}");
    }
}

/// Every event on it is answered 1, whatever it names, and nothing is altered.
fn may_not_be_used(two: &Two) {
    assert!(!two.is_valid());
    for step in [[0, 5, 0, 0], [1, 1, 0, 0], [2, 13, 9, 0], [0, 13, 0, 0]] {
        let mut after = two.clone();
        assert_eq!(after.take(step), 1);
        assert_eq!(after, *two);
    }
}

#[test]
fn two_lengths_and_other_circuits() {
    let tables = [threes(4), threes(5)];
    let [four, five] = [&tables[0], &tables[1]].map(|kinds| Two::fresh([kinds, kinds], 1, 0));
    for circuit in CIRCUITS {
        for rows in [[&four, &five], [&five, &four]] {
            may_not_be_used(&Two {
                rows: [rows[0].rows[0].clone(), rows[1].rows[1].clone()],
                circuit,
                head: four.head,
            });
        }
    }
    for circuit in [2, 3, 1 << 16, 1 << 31, u32::MAX] {
        may_not_be_used(&Two {
            circuit,
            ..four.clone()
        });
    }
}

/// Each line by itself: a fault in either is a fault of both.
#[test]
fn a_fault_in_either_line() {
    for circuit in CIRCUITS {
        for track in [0, 1] {
            let mut two = fresh(circuit);
            two.rows[track][0].word |= JAM;
            may_not_be_used(&two);
            let mut two = fresh(circuit);
            two.rows[track][1].kind = 1;
            may_not_be_used(&two);
            let mut two = fresh(circuit);
            two.rows[track].clear();
            may_not_be_used(&two);
        }
    }
}

/// "With polarised current no pair of neighbouring posts with a signal under way on both tracks."
#[test]
fn signals_of_both_tracks_between_the_same_posts() {
    for &(posts, here, there) in FACING {
        let kinds = threes(posts);
        let vibrated = Two::fresh([&kinds, &kinds], VIBRATED, 0);
        for section in 0..posts - 1 {
            let two = vibrated.clone().after(&[(0, 5, section), (1, 5, there)]);
            assert!(two.is_valid());
            let polarised = Two {
                circuit: POLARISED,
                ..two
            };
            assert_eq!(polarised.is_valid(), section != here);
            if section == here {
                may_not_be_used(&polarised);
            }
        }
    }
    // Releases count as announcements do.
    let released: [&[At]; 2] = [
        &[(0, 5, 0), (0, 8, 0), (0, 3, 1), (0, 7, 1), (1, 5, 1)],
        &[(1, 5, 1), (1, 8, 1), (1, 3, 2), (1, 6, 2), (0, 5, 0)],
    ];
    for before in released {
        let mut two = fresh(VIBRATED).after(before);
        two.circuit = POLARISED;
        may_not_be_used(&two);
    }
}
