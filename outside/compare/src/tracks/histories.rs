//! Sessions on two tracks: lively ones on each circuit, in which the tracks meet often, wild
//! ones, and round the clock's turn.

use model::circuit::{POLARISED, VIBRATED};
use model::TrackStep;

use crate::histories::{early_event, lively_event, near_stamp, stuck_event, Next, DIFFERENCES};
use crate::random::Random;
use crate::request::Request;
use crate::tracks::request::{Tables, TrackRequest};
use crate::tracks::two::{event, some_tables, tables_of, wild, Two, CIRCUITS};
use crate::variety::Variety;

pub const LIVELY: &[Variety] = &[
    ("polarised, two posts", |random| {
        lively(random, POLARISED, [2, 2], lively_event)
    }),
    ("polarised, three posts", |random| {
        lively(random, POLARISED, [3, 3], lively_event)
    }),
    ("polarised, few posts", |random| {
        lively(random, POLARISED, [4, 6], lively_event)
    }),
    ("polarised, some posts", |random| {
        lively(random, POLARISED, [7, 12], lively_event)
    }),
    ("polarised, many posts", |random| {
        lively(random, POLARISED, [13, 32], lively_event)
    }),
    ("polarised, 32 posts", |random| {
        lively(random, POLARISED, [32, 32], lively_event)
    }),
    ("polarised, stuck buttons", |random| {
        lively(random, POLARISED, [2, 6], stuck_event)
    }),
    ("polarised, early trains", |random| {
        lively(random, POLARISED, [2, 6], early_event)
    }),
    ("polarised, garages inside", |random| {
        inside(random, POLARISED)
    }),
    ("vibrated, two posts", |random| {
        lively(random, VIBRATED, [2, 2], lively_event)
    }),
    ("vibrated, few posts", |random| {
        lively(random, VIBRATED, [3, 6], lively_event)
    }),
    ("vibrated, many posts", |random| {
        lively(random, VIBRATED, [7, 32], lively_event)
    }),
    ("vibrated, garages inside", |random| {
        inside(random, VIBRATED)
    }),
];

pub const WILD: &[Variety] = &[
    ("any numbers", |random| {
        wild_session(random, [100, 10, 10, 5])
    }),
    ("any places", |random| {
        wild_session(random, [10, 100, 10, 5])
    }),
    ("any stamps", |random| {
        wild_session(random, [10, 10, 100, 5])
    }),
    ("any tracks", |random| {
        wild_session(random, [10, 10, 10, 60])
    }),
    ("any of all", |random| {
        wild_session(random, [60, 60, 60, 40])
    }),
];

pub const TURN: &[Variety] = &[
    ("from near 2^32", |random| turn(random, 0)),
    ("from near 2^31", |random| turn(random, 1 << 31)),
];

/// The next event of a session, already played.
type NextOfTwo<'a> = &'a dyn Fn(&mut Random, &mut Two) -> TrackStep;

fn session(
    random: &mut Random,
    (tables, circuit): (Tables, u32),
    stamp: u32,
    most: usize,
    next: NextOfTwo,
) -> Request {
    let mut two = Two::from_start(&tables, circuit, stamp);
    let count = random.between(most / 4, most);
    let steps = (0..count).map(|_| next(random, &mut two)).collect();
    Request::Tracks(TrackRequest::Run {
        tables,
        circuit,
        stamp,
        steps,
    })
}

fn near_event(random: &mut Random, two: &mut Two, next: Next) -> TrackStep {
    let stamp = near_stamp(random, two.head.last);
    event(random, two, stamp, next)
}

fn lively(random: &mut Random, circuit: u32, posts: [usize; 2], next: Next) -> Request {
    let posts = random.between(posts[0], posts[1]);
    let tables = tables_of(random, posts);
    let stamp = random.edge_word();
    session(random, (tables, circuit), stamp, 300, &|random, two| {
        near_event(random, two, next)
    })
}

/// Both tracks have posts with a garage release alone between their ends.
fn inside(random: &mut Random, circuit: u32) -> Request {
    let posts = random.between(3, 6);
    let mut tables = tables_of(random, posts);
    for kinds in &mut tables {
        kinds[1..posts - 1].fill_with(|| random.pick(&[2, 3, 18, 19]));
    }
    let stamp = random.edge_word();
    session(random, (tables, circuit), stamp, 300, &|random, two| {
        near_event(random, two, lively_event)
    })
}

/// Wild events, and often a lively one between them, so that signals are under way.
fn wild_session(random: &mut Random, chances: [usize; 4]) -> Request {
    let tables = some_tables(random);
    let (circuit, stamp) = (random.pick(&CIRCUITS), random.edge_word());
    session(random, (tables, circuit), stamp, 120, &|random, two| {
        if random.chance(40) {
            return near_event(random, two, lively_event);
        }
        let step = wild(random, two, chances);
        two.take(step);
        step
    })
}

/// Stamps whose differences stand around the clock's turn.
fn turn(random: &mut Random, near: u32) -> Request {
    let tables = some_tables(random);
    let circuit = random.pick(&CIRCUITS);
    let stamp = near.wrapping_add(random.small(0, 6)).wrapping_sub(3);
    session(random, (tables, circuit), stamp, 100, &|random, two| {
        let at = two.head.last.wrapping_add(random.pick(&DIFFERENCES));
        event(random, two, at, lively_event)
    })
}
