//! 02, item 5: short sections.

mod common;

use common::{after_on, answered_so, fresh, listed_so, sheet, Example};
use model::relay::{AN, JAM, KPG, L, LEVER, RL, SIGNAL, W241};
use model::*;

/// A post of each short kind behind the origin, and the same line of ordinary ones.
const KINDS: [u32; 5] = [0, 18, 19, 20, 17];
const ORDINARY: [u32; 5] = [0, 2, 3, 4, 1];

fn after(events: &[(u32, u32)]) -> (Vec<Post>, Head) {
    after_on(&KINDS, events)
}

/// The posts behind the origin.
fn posts() -> impl Iterator<Item = u32> {
    1..KINDS.len() as u32
}

#[test]
fn the_listing_byte_for_byte() {
    listed_so(&short::EXAMPLE);
}

#[test]
fn the_forms_of_a_kind() {
    for number in (0..100).chain([256 + 17, 1 << 31 | 18, u32::MAX]) {
        let short = (17..=20).contains(&number);
        assert_eq!(kind::is_short(number), short);
        let ordinary = if short { number - 16 } else { number };
        assert_eq!(kind::ordinary(number), ordinary);
    }
}

/// The strike at this post, and what it alters there, if it records a passage.
fn struck(kinds: &[u32], before: &[(u32, u32)], post: u32, records: bool) {
    let (mut row, head) = after_on(kinds, before);
    let mut right = row.clone();
    if records {
        right[post as usize].word |= KPG;
        right[post as usize].q += 1;
    }
    let told = event(&mut row, head, 3, post, 5);
    assert_eq!((told.answer, &row), (0, &right), "{before:?}, post {post}");
    assert_eq!((told.head.taken, told.head.last), (head.taken + 1, 5));
    assert!(valid(&row, told.head));
}

/// "Event 3 asks only that KPg be down": nothing is announced, the announcement is under
/// way, it is recorded, it is lost, the post is jammed. An early strike at an ordinary post
/// is lost.
#[test]
fn a_strike_counts_early_at_short_posts_alone() {
    for post in posts() {
        let up = post - 1;
        let early: [&[(u32, u32)]; 5] = [
            &[],
            &[(5, up)],
            &[(5, up), (9, up)],
            &[(11, post)],
            &[(11, post), (5, up), (8, up)],
        ];
        for before in early {
            struck(&KINDS, before, post, true);
            struck(&ORDINARY, before, post, false);
        }
        for kinds in [KINDS, ORDINARY] {
            struck(&kinds, &[(5, up), (8, up)], post, true);
        }
    }
}

/// "When none is recorded since the last release": a second strike is not counted, before
/// the announcement and behind it.
#[test]
fn a_second_strike_is_not_counted() {
    for post in posts() {
        let up = post - 1;
        let recorded: [&[(u32, u32)]; 5] = [
            &[(3, post)],
            &[(3, post), (3, post)],
            &[(3, post), (5, up)],
            &[(3, post), (5, up), (8, up)],
            &[(5, up), (8, up), (3, post)],
        ];
        for before in recorded {
            struck(&KINDS, before, post, false);
        }
        struck(&ORDINARY, &[(5, up), (8, up), (3, post)], post, false);
    }
}

/// What a release taken at this post leaves: e and q have grown, An and KPg are down, and
/// the next strike is counted again.
fn released(before: &[(u32, u32)], number: u32, post: u32) {
    let (mut row, head) = after(before);
    assert_eq!(row[post as usize].word & (AN | KPG), AN | KPG);
    let told = event(&mut row, head, number, post, 0);
    assert_eq!(told.answer, 0, "{number} at {post}");
    let (up, down) = (row[post as usize - 1], row[post as usize]);
    assert_eq!((up.word & W241, down.word & (AN | KPG)), (W241, 0));
    assert_eq!([down.r, down.q, down.e], [1; 3]);
    assert_eq!(down.c, u32::from(number == 7));
    struck(&KINDS, &[before, &[(number, post)]].concat(), post, true);
}

/// "A release at a short post follows a passage since the previous release there, which
/// may be earlier than its announcement."
#[test]
fn a_release_after_an_early_strike() {
    for post in posts() {
        let up = post - 1;
        let mut announced = vec![(3, post), (5, up), (8, up)];
        if post == 1 || post == 2 {
            released(&announced, 7, post);
        }
        if post < 4 {
            announced.push((5, post));
        }
        released(&announced, 6, post);
    }
}

/// A passage waits through a loss, a restoration and a second announcement.
#[test]
fn one_passage_for_the_announcement_that_is_received() {
    let (row, _) = after(&[
        (3, 4),
        (5, 3),
        (9, 3),
        (3, 4),
        (10, 3),
        (5, 3),
        (8, 3),
        (3, 4),
        (6, 4),
        (8, 3),
    ]);
    let (up, down) = (row[3], row[4]);
    assert_eq!([up.a, up.x, up.y, up.v, up.g], [2, 1, 0, 1, 1]);
    assert_eq!([down.r, down.q, down.e, down.c], [1, 1, 1, 0]);
    assert_eq!((up.word, down.word), (L | RL, 0));
}

const ANSWERS: &[Example] = &[
    // 11 also where KPg is up.
    (&[], 6, 1, 11),
    (&[(3, 1)], 6, 1, 11),
    (&[(3, 2)], 6, 2, 11),
    (&[(3, 3)], 6, 3, 11),
    (&[(3, 4)], 6, 4, 11),
    (&[(3, 1)], 7, 1, 11),
    (&[(3, 2)], 7, 2, 11),
    (&[(3, 1), (5, 0)], 6, 1, 11),
    (&[(3, 1), (5, 0), (9, 0)], 7, 1, 11),
    // 12, as at the ordinary kind, behind an announcement that no strike came with.
    (&[(5, 0), (8, 0)], 6, 1, 12),
    (&[(5, 1), (8, 1)], 7, 2, 12),
    (&[(5, 2), (8, 2)], 6, 3, 12),
    (&[(5, 3), (8, 3)], 6, 4, 12),
    // A release takes the passage with it.
    (
        &[(3, 1), (5, 0), (8, 0), (7, 1), (8, 0), (5, 0), (8, 0)],
        6,
        1,
        12,
    ),
    // 13 at the stations and the intermediate post, and not for 7; 10 at the terminus.
    (&[(3, 1), (5, 0), (8, 0)], 6, 1, 13),
    (&[(3, 2), (5, 1), (8, 1)], 6, 2, 13),
    (&[(3, 3), (5, 2), (8, 2)], 6, 3, 13),
    (&[(3, 1), (5, 0), (8, 0)], 7, 1, 0),
    (&[(3, 4), (5, 3), (8, 3), (1, 4)], 6, 4, 10),
    (&[(3, 4), (5, 3), (8, 3), (1, 4), (2, 4)], 6, 4, 0),
    // The devices of the ordinary kinds.
    (&[], 4, 1, 0),
    (&[], 4, 2, 6),
    (&[], 4, 3, 6),
    (&[], 4, 4, 0),
    (&[], 5, 1, 0),
    (&[], 5, 2, 0),
    (&[], 5, 3, 0),
    (&[], 5, 4, 6),
    (&[], 7, 3, 6),
    (&[], 7, 4, 6),
    (&[], 3, 0, 6),
    (&[], 6, 0, 6),
    // The lever: 8 at all but the terminus.
    (&[(5, 1)], 1, 1, 8),
    (&[(5, 2)], 1, 2, 8),
    (&[(5, 3)], 1, 3, 8),
    (&[], 1, 4, 0),
    (&[(1, 4)], 1, 4, 7),
    (&[(1, 1), (4, 1), (2, 1)], 1, 1, 8),
    (&[(1, 2), (2, 2)], 1, 2, 0),
    // The jam: 22 before 11, and 23.
    (&[(3, 1), (11, 1)], 6, 1, 22),
    (&[(3, 1), (11, 1)], 7, 1, 22),
    (&[(3, 4), (11, 4)], 6, 4, 22),
    (&[(11, 4), (3, 4)], 6, 4, 22),
    (&[(11, 3)], 7, 3, 6),
    (&[(11, 1), (3, 1), (12, 1)], 6, 1, 11),
    (&[(3, 2)], 12, 2, 23),
    (&[], 11, 4, 0),
    // The section: a passage that waits holds nothing.
    (&[(3, 1)], 10, 0, 15),
    (&[(3, 1), (5, 0)], 10, 0, 16),
    (&[(3, 1), (5, 0), (9, 0)], 10, 0, 0),
    (&[(3, 1), (5, 0), (8, 0)], 10, 0, 17),
    (&[(3, 1)], 8, 0, 14),
    (&[(3, 1)], 5, 0, 0),
    (&[(3, 1)], 1, 0, 0),
    (&[(3, 4)], 8, 4, 2),
];

#[test]
fn answers() {
    answered_so(&KINDS, ANSWERS);
}

/// "Kinds 0 and 2: L drops" at the signal pedal, and so at 18.
#[test]
fn the_signal_pedal_drops_l_at_18() {
    let (row, _) = after(&[(1, 1), (4, 1), (1, 4), (4, 4)]);
    assert_eq!((row[1].word, row[4].word), (RL | LEVER, LEVER));
    let (row, _) = after(&[(1, 1), (1, 4)]);
    assert_eq!(row[1].word, L | RL | LEVER | SIGNAL);
    assert_eq!(row[4].word, LEVER | SIGNAL);
}

/// An announcement is lost to the jam of a short post as at an ordinary one, and its
/// passage stays; freed, the next one is received and released.
#[test]
fn a_jam_at_a_short_post() {
    for post in posts() {
        let up = post - 1;
        let (mut row, head) = after(&[(3, post), (11, post), (5, up)]);
        let told = event(&mut row, head, 8, up, 0);
        assert_eq!((told.answer, row[up as usize].x), (0, 1));
        let down = row[post as usize];
        assert_eq!(down.word & (AN | KPG | JAM), KPG | JAM);
        assert_eq!((down.r, down.q), (0, 1));
        let rest = [(10, up), (12, post), (5, up), (8, up)];
        let mut head = told.head;
        for (number, place) in rest {
            let told = event(&mut row, head, number, place, 0);
            assert_eq!(told.answer, 0);
            head = told.head;
        }
        assert_eq!(row[post as usize].word & (AN | KPG | JAM), AN | KPG);
    }
}

/// "The rule 'KPg requires An' now holds at ordinary posts only": with q one more than e,
/// since e = q - KPg holds for both forms.
#[test]
fn a_line_with_a_passage_and_no_announcement() {
    for (kinds, short) in [(KINDS, true), (ORDINARY, false)] {
        let histories: [&[(u32, u32)]; 2] = [&[], &[(5, 0), (8, 0), (3, 1), (5, 1), (6, 1)]];
        for before in histories {
            for post in 1..KINDS.len() {
                let (mut row, mut head) = after_on(&kinds, before);
                head.taken += 2;
                row[post].word |= KPG;
                assert!(!valid(&row, head), "q has not grown");
                row[post].q += 1;
                assert_eq!(valid(&row, head), short, "{} at {post}", kinds[post]);
                row[post].q += 1;
                assert!(!valid(&row, head), "q has grown by 2");
            }
        }
    }
    let (mut row, head) = after(&[(3, 1)]);
    row[0].word |= KPG;
    assert!(!valid(&row, head), "KPg stays down at the origin");
}

/// Which kinds stand where.
fn may_stand(at: usize, posts: usize) -> &'static [u32] {
    match at {
        0 => &[0],
        _ if at + 1 == posts => &[1, 17],
        _ => &[2, 3, 4, 18, 19, 20],
    }
}

/// A sheet, all of it right but perhaps its table.
fn sheet_of(kinds: &[u32]) -> Vec<u8> {
    let mut right = vec![3; kinds.len()];
    (right[0], right[kinds.len() - 1]) = (0, 1);
    let mut bytes = sheet(&right, 0, &[[5, 0, 31, 0]]);
    for (at, kind) in kinds.iter().enumerate() {
        bytes[12 + 4 * at..16 + 4 * at].copy_from_slice(&kind.to_le_bytes());
    }
    renew_check(&mut bytes[..512], 0);
    bytes
}

/// Each number in each place of a table: starting, writing, and all that reads a sheet.
#[test]
fn tables() {
    for posts in [2, 3, 5, 32] {
        let mut kinds: Vec<u32> = (0..posts as u32).map(|at| 18 + at % 3).collect();
        (kinds[0], kinds[posts - 1]) = (0, 17);
        for at in 0..posts {
            for number in (0..70).chain([256 + 17, 1 << 31 | 18, u32::MAX]) {
                let mut kinds = kinds.clone();
                kinds[at] = number;
                let right = may_stand(at, posts).contains(&number);
                let told = |refused: u32| if right { 0 } else { refused };
                assert_eq!(kinds_right(&kinds), right, "{number} at {at}");
                let mut row = vec![Post::default(); posts];
                assert_eq!(start(&mut row, &kinds, 0).answer, told(1));
                assert_eq!(write(&kinds, 0, &[], &mut [0; 512]), told(1));
                let sheet = sheet_of(&kinds);
                let found = read(&sheet, &mut [0; 32], &mut [[0; 4]; 1]);
                assert_eq!((found.number, found.block), (told(20), 0));
                assert_eq!(work(&sheet, &mut [0; 1024]).number, told(20));
                assert_eq!(export(&sheet, &mut [0; 1024]).number, told(20));
                assert_eq!(why(&sheet, 1).number, if right { 29 } else { 20 });
            }
        }
    }
}

/// A row by other hands has its kinds tested in the same way.
#[test]
fn rows() {
    for at in 0..KINDS.len() {
        for number in 0..40 {
            // A fresh line but for one kind: the terminus has its relays down, others not.
            let (mut row, head) = fresh(&KINDS, 0);
            row[at].kind = number;
            let right = may_stand(at, KINDS.len()).contains(&number);
            assert_eq!(valid(&row, head), right, "{number} at {at}");
        }
    }
}

/// A fresh line: L and RL up at all posts but the terminus, in either form.
#[test]
fn starting() {
    let (row, head) = fresh(&KINDS, 3);
    let words: Vec<u32> = row.iter().map(|post| post.word).collect();
    assert_eq!(words, [12, 12, 12, 12, 0]);
    let kinds: Vec<u32> = row.iter().map(|post| post.kind).collect();
    assert_eq!(kinds, KINDS);
    assert_eq!((head.taken, head.last), (0, 3));
}

const REGISTER: &str = "\
position,event,post,stamp,answer\r
,,,0,\r
,0,0,,\r
,18,1,,\r
,19,2,,\r
,20,3,,\r
,17,4,,\r
1,3,1,0,0\r
";

#[test]
fn a_register_there_and_back() {
    let right = sheet(&KINDS, 0, &[[3, 1, 0, 0]]);
    let (mut text, mut back) = ([7; 1024], [7; 1025]);
    let told = export(&right, &mut text);
    assert_eq!(text[..told.bytes], *REGISTER.as_bytes());
    assert_eq!(import(&text[..told.bytes], &mut back).number, 0);
    assert_eq!((&back[..1024], back[1024]), (&right[..], 7));
}

/// "All else said of a kind holds for its short form": where no strike comes early, both
/// lines go through the same, event by event.
#[test]
fn all_else_is_as_at_the_ordinary_kind() {
    for middle in 2..=4 {
        let ordinary = fresh(&[0, middle, 1], 0);
        let short = fresh(&[0, middle + 16, 17], 0);
        let mut edge = vec![(ordinary, short)];
        for _ in 0..6 {
            let mut next = Vec::new();
            for (ordinary, short) in &edge {
                for (number, place) in (1..=13).flat_map(|n| (0..4).map(move |p| (n, p))) {
                    let (mut one, mut other) = (ordinary.clone(), short.clone());
                    let early = one.0.get(place as usize).is_some_and(|p| !p.is_up(AN));
                    if number == 3 && early {
                        continue;
                    }
                    let told = event(&mut one.0, one.1, number, place, 0);
                    assert_eq!(told, event(&mut other.0, other.1, number, place, 0));
                    (one.1, other.1) = (told.head, told.head);
                    assert_eq!(in_ordinary_forms(&other.0), one.0);
                    if one.0 != ordinary.0 {
                        next.push((one, other));
                    }
                }
            }
            next.sort_by_key(|(one, _)| format!("{:?}", one.0));
            next.dedup_by(|one, other| one.0 .0 == other.0 .0);
            edge = next;
        }
        assert!(edge.len() > 100);
    }
}

fn in_ordinary_forms(row: &[Post]) -> Vec<Post> {
    let mut row = row.to_vec();
    for post in &mut row {
        post.kind = kind::ordinary(post.kind);
    }
    row
}
