//! Single events, and the question of validity, on rows that other hands altered
//! and under heads near the limit.

use model::{relay, Head, Post, COUNT_LIMIT};

use crate::alterations::*;
use crate::buttons::at_a_jammed_post;
use crate::histories::{lively_event, near_stamp, some_posts, wild_step, Play};
use crate::random::Random;
use crate::request::{Request, Step};
use crate::solved::solved;
use crate::strikes::about_passage_at;
use crate::tables::{in_some_form, kind_inside, table};
use crate::variety::Variety;

pub const HEADS: &[Variety] = &[
    ("999,998 taken", |random| head(random, COUNT_LIMIT - 2)),
    ("999,999 taken", |random| head(random, COUNT_LIMIT - 1)),
    ("1,000,000 taken", |random| head(random, COUNT_LIMIT)),
    ("1,000,001 taken", |random| head(random, COUNT_LIMIT + 1)),
    ("far more taken", |random| {
        let far = [COUNT_LIMIT + 2, 2_000_000, 1 << 31, u32::MAX - 1, u32::MAX];
        let taken = random.pick(&far);
        head(random, taken)
    }),
];

pub const ALTERED: &[Variety] = &[
    ("nothing altered", |random| altered(random, |_, _| ())),
    ("relay flipped", |random| altered(random, flip_relay)),
    ("upper bit flipped", |random| altered(random, flip_upper)),
    ("jam flipped", |random| altered(random, flip_jam)),
    ("jam at the origin", |random| altered(random, jam_origin)),
    ("passage not announced", |random| {
        altered(random, early_passage)
    }),
    ("count one more", |random| altered(random, count_more)),
    ("count one less", |random| altered(random, count_less)),
    ("counts moved", |random| altered(random, move_counts)),
    ("huge count", |random| altered(random, huge_count)),
    ("wrong kind", |random| altered(random, wrong_kind)),
    ("kind inside", |random| altered(random, other_inside)),
    ("kind in its other form", |random| {
        altered(random, form_changed)
    }),
    ("records swapped", |random| altered(random, swap_records)),
    ("any words", |random| altered(random, any_words)),
    ("all any words", |random| altered(random, all_any_words)),
    ("taken lowered", |random| altered(random, lower_taken)),
    ("odd length", odd_length),
    ("relays right, counts solved", |random| {
        built(random, |_, _| ())
    }),
    ("relay flipped, counts solved", |random| {
        built(random, flip_relay)
    }),
    ("jam at the origin, counts solved", |random| {
        built(random, jam_origin)
    }),
    ("passage not announced, counts solved", |random| {
        built(random, early_relay)
    }),
    ("relays any, counts solved", |random| {
        built(random, any_relays)
    }),
    ("solved, then a count", |random| {
        let play = solved(random, |_, _| ());
        let change = random.pick(&[count_more, count_less, move_counts, garage_over]);
        asked(random, play, change)
    }),
    ("solved, up to the limit", at_the_limit),
    ("several alterations", |random| {
        let play = some_line(random);
        asked(random, play, |random, play| {
            flip_relay(random, play);
            count_more(random, play);
            other_inside(random, play);
        })
    }),
];

/// A line that some history left.
fn some_line(random: &mut Random) -> Play {
    let posts = some_posts(random);
    let kinds = table(random, posts);
    let mut play = Play::from_start(&kinds, random.edge_word());
    for _ in 0..random.below(8 + 8 * posts) {
        let last = play.head.last;
        lively_event(random, &mut play, last);
    }
    // Room between the counts and the events taken, so that the counts' own rules
    // are what decides.
    if random.chance(70) {
        play.head.taken += random.small(0, 400_000);
    }
    play
}

/// The request on a line after an alteration: an event, or the question.
fn asked(random: &mut Random, mut play: Play, change: Alteration) -> Request {
    let mut ahead = play.clone();
    change(random, &mut play);
    if random.chance(25) {
        return Request::Valid {
            row: play.row,
            head: play.head,
        };
    }
    let step = match random.below(5) {
        // An event that the line would have taken before the alteration.
        0 | 1 => {
            let stamp = near_stamp(random, ahead.head.last);
            lively_event(random, &mut ahead, stamp)
        }
        2 => about_some_post(random, &play),
        3 => wild_step(random, &play, [10, 10, 10]),
        _ => wild_step(random, &play, [0, 0, 0]),
    };
    Request::Event {
        row: play.row,
        head: play.head,
        step,
    }
}

/// An event about a post that is jammed, or that has a passage or an announcement recorded,
/// if there is one.
fn about_some_post(random: &mut Random, play: &Play) -> Step {
    let row = &play.row;
    let about_jams = random.chance(50);
    let mask = if about_jams {
        relay::JAM
    } else {
        relay::AN | relay::KPG
    };
    let such: Vec<usize> = (0..row.len()).filter(|at| row[*at].is_up(mask)).collect();
    if such.is_empty() {
        return wild_step(random, play, [0, 0, 0]);
    }
    let post = random.pick(&such);
    let (number, place) = if about_jams {
        at_a_jammed_post(random, post)
    } else {
        about_passage_at(random, row, post)
    };
    [number, place, near_stamp(random, play.head.last)]
}

fn altered(random: &mut Random, change: Alteration) -> Request {
    let play = some_line(random);
    asked(random, play, change)
}

/// The line stays valid up to the limit: a raised head bounds all its counts.
fn head(random: &mut Random, taken: u32) -> Request {
    let mut play = some_line(random);
    play.head.taken = taken;
    asked(random, play, |_, _| ())
}

/// Lengths that no line has.
pub const ODD_LENGTHS: [usize; 9] = [0, 0, 1, 1, 33, 33, 34, 40, 64];

/// So many records, which would be a fresh line if they were not so few or so many.
pub fn odd_row(random: &mut Random, posts: usize) -> Vec<Post> {
    let mut row: Vec<Post> = Vec::new();
    for at in 0..posts {
        let terminus = at + 1 == posts && at > 0;
        let kind = match at {
            0 => 0,
            _ if terminus => in_some_form(random, 1),
            _ => kind_inside(random),
        };
        let word = if terminus { 0 } else { relay::L | relay::RL };
        row.push(Post {
            word,
            kind,
            ..Post::default()
        });
    }
    row
}

fn odd_length(random: &mut Random) -> Request {
    let posts = random.pick(&ODD_LENGTHS);
    let row = odd_row(random, posts);
    let head = Head {
        taken: random.small(0, 9),
        last: random.edge_word(),
    };
    if random.chance(30) {
        return Request::Valid { row, head };
    }
    let step = [
        random.small(1, 12),
        random.below(posts + 1) as u32,
        head.last,
    ];
    Request::Event { row, head, step }
}

fn built(random: &mut Random, change: Alteration) -> Request {
    let play = solved(random, change);
    asked(random, play, |_, _| ())
}

/// Counts close to 1,000,000, and the events taken at them, below or above.
fn at_the_limit(random: &mut Random) -> Request {
    let mut play = solved(random, |_, _| ());
    let rise = COUNT_LIMIT - most_count(&play.row) - random.small(0, 2) + random.small(0, 1);
    let section = random.below(play.row.len() - 1);
    let up = &mut play.row[section];
    for count in [&mut up.a, &mut up.v] {
        *count += rise;
    }
    let down = &mut play.row[section + 1];
    for count in [&mut down.r, &mut down.q, &mut down.e] {
        *count += rise;
    }
    play.head.taken = COUNT_LIMIT - random.small(0, 3);
    asked(random, play, |_, _| ())
}
