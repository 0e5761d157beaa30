//! Single events of two tracks, and the question of validity, on lines of which other hands
//! altered one or both, under other circuits and under heads near the limit.

use model::circuit::{POLARISED, VIBRATED};
use model::{Head, TrackStep, COUNT_LIMIT};

use crate::alterations::*;
use crate::histories::{lively_event, near_stamp, some_posts};
use crate::random::Random;
use crate::request::Request;
use crate::rows::{odd_row, ODD_LENGTHS};
use crate::solved::solved_of;
use crate::tracks::request::TrackRequest;
use crate::tracks::two::{event, some_neither, tables_of, wild, Two, CIRCUITS};
use crate::variety::Variety;

/// What other hands do to a line of either track, or to both.
const LINE_CHANGES: [(&str, Alteration); 13] = [
    ("nothing altered", |_, _| ()),
    ("relay flipped", flip_relay),
    ("upper bit flipped", flip_upper),
    ("jam flipped", flip_jam),
    ("jam at the origin", jam_origin),
    ("passage not announced", early_passage),
    ("count one more", count_more),
    ("count one less", count_less),
    ("counts moved", move_counts),
    ("huge count", huge_count),
    ("wrong kind", wrong_kind),
    ("records swapped", swap_records),
    ("all any words", all_any_words),
];

/// Which of the two lines.
const WHICH: [(&str, &[usize]); 3] = [("track 1", &[0]), ("track 2", &[1]), ("both", &[0, 1])];

/// Each change with each of those.
pub fn altered_names() -> Vec<String> {
    let changes = LINE_CHANGES.iter();
    changes
        .flat_map(|(name, _)| WHICH.map(|(which, _)| format!("{name}, {which}")))
        .collect()
}

pub fn altered(random: &mut Random, variety: usize) -> Request {
    let (_, change) = LINE_CHANGES[variety / WHICH.len()];
    let (_, tracks) = WHICH[variety % WHICH.len()];
    let mut two = some_lines(random);
    let before = two.clone();
    for &track in tracks {
        let mut line = two.line(track);
        change(random, &mut line);
        two.put(track, line);
    }
    asked(random, before, two)
}

pub const PAIRS: &[Variety] = &[
    ("relays right, counts solved", |random| {
        let circuit = random.pick(&CIRCUITS);
        let two = solved(random, circuit);
        unaltered(random, two)
    }),
    ("polarised, counts solved, no pair of signals", |random| {
        let two = loop {
            let two = solved(random, POLARISED);
            if two.is_valid() {
                break two;
            }
        };
        unaltered(random, two)
    }),
    ("vibrated lines called polarised", |random| {
        let mut two = lines_of(random, VIBRATED);
        two.circuit = POLARISED;
        unaltered(random, two)
    }),
    ("polarised lines called vibrated", |random| {
        let mut two = lines_of(random, POLARISED);
        two.circuit = VIBRATED;
        unaltered(random, two)
    }),
    ("one pair of signals on both tracks", one_pair),
    ("no circuit", |random| {
        let mut two = some_lines(random);
        two.circuit = some_neither(random);
        unaltered(random, two)
    }),
    ("the lines of two sessions", |random| {
        let (mut two, other) = (some_lines(random), some_lines(random));
        two.rows[1].clone_from(&other.rows[1]);
        two.head.taken = two.head.taken.max(other.head.taken);
        unaltered(random, two)
    }),
    ("one line has no records", |random| {
        let mut two = some_lines(random);
        two.rows[random.below(2)].clear();
        unaltered(random, two)
    }),
    ("both of a length that no line has", odd_length),
    ("the tracks exchanged", |random| {
        let mut two = some_lines(random);
        two.rows.reverse();
        unaltered(random, two)
    }),
    ("a track that is neither", |random| {
        let two = some_lines(random);
        let step = wild(random, &two, [20, 20, 20, 100]);
        event_on(two, step)
    }),
    ("up to the limit", |random| {
        let mut two = some_lines(random);
        two.head.taken = COUNT_LIMIT - 1 + random.small(0, 2);
        unaltered(random, two)
    }),
];

/// Two lines that some session left.
fn some_lines(random: &mut Random) -> Two {
    let circuit = random.pick(&CIRCUITS);
    lines_of(random, circuit)
}

fn lines_of(random: &mut Random, circuit: u32) -> Two {
    let posts = some_posts(random);
    let tables = tables_of(random, posts);
    let mut two = Two::from_start(&tables, circuit, random.edge_word());
    for _ in 0..random.below(8 + 16 * posts) {
        let last = two.head.last;
        event(random, &mut two, last, lively_event);
    }
    // Room between the counts and the events taken, so that the counts' own rules decide.
    if random.chance(70) {
        two.head.taken += random.small(0, 400_000);
    }
    two
}

/// Two lines of right relays, whose counts follow from them; signals may be under way on both
/// tracks between the same posts.
fn solved(random: &mut Random, circuit: u32) -> Two {
    let posts = some_posts(random);
    let [first, second] = [0, 1].map(|_| solved_of(random, posts, |_, _| ()));
    let mut head = first.head;
    head.taken = head.taken.max(second.head.taken);
    Two {
        rows: [first.row, second.row],
        circuit,
        head,
    }
}

/// Signals of both tracks between the same two posts, and between no others: by some session
/// with vibrated current, from whose lines all other signals were lost.
fn one_pair(random: &mut Random) -> Request {
    let mut two = lines_of(random, VIBRATED);
    let (posts, stamp) = (two.rows[0].len() as u32, two.head.last);
    let section = random.below(posts as usize - 1) as u32;
    for (track, announced) in [(0, section), (1, posts - 2 - section)] {
        for at in 0..posts - 1 {
            two.take([track, 9, at, stamp]);
        }
        for number in [10, 2, 5] {
            two.take([track, number, announced, stamp]);
        }
    }
    two.circuit = random.pick(&[POLARISED, POLARISED, VIBRATED]);
    unaltered(random, two)
}

/// Two rows of 0, 1, 33 or more records, each of which would be a fresh line.
fn odd_length(random: &mut Random) -> Request {
    let posts = random.pick(&ODD_LENGTHS);
    let two = Two {
        rows: [0, 1].map(|_| odd_row(random, posts)),
        circuit: random.pick(&CIRCUITS),
        head: Head {
            taken: random.small(0, 9),
            last: random.edge_word(),
        },
    };
    if random.chance(30) {
        return Request::Tracks(TrackRequest::Valid(two));
    }
    let (track, place) = (random.small(0, 1), random.below(posts + 1) as u32);
    let step = [track, random.small(1, 12), place, two.head.last];
    event_on(two, step)
}

fn unaltered(random: &mut Random, two: Two) -> Request {
    let before = two.clone();
    asked(random, before, two)
}

/// The request on two lines after an alteration: an event, or the question.
fn asked(random: &mut Random, mut before: Two, two: Two) -> Request {
    if random.chance(25) {
        return Request::Tracks(TrackRequest::Valid(two));
    }
    let empty = before.rows.iter().any(Vec::is_empty);
    let step = match random.below(4) {
        // An event that would have been given before the alteration.
        0..=2 if !empty => {
            let stamp = near_stamp(random, before.head.last);
            event(random, &mut before, stamp, lively_event)
        }
        _ => wild(random, &two, [10, 10, 10, 5]),
    };
    event_on(two, step)
}

fn event_on(two: Two, step: TrackStep) -> Request {
    Request::Tracks(TrackRequest::Event(two, step))
}
