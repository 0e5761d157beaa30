//! Histories on a right table: lively, with stuck buttons, with early trains, wild, and
//! round the clock's turn.

use model::{kind, relay, Head, Post};

use crate::buttons::about_a_button;
use crate::random::Random;
use crate::request::{Request, Step};
use crate::strikes::about_a_passage;
use crate::tables::table;
use crate::variety::Variety;

pub const LIVELY: &[Variety] = &[
    ("two posts", |random| lively(random, 2, 2, 200)),
    ("few posts", |random| lively(random, 3, 5, 300)),
    ("some posts", |random| lively(random, 4, 9, 400)),
    ("many posts", |random| lively(random, 10, 32, 300)),
    ("kind 2 inside", |random| inside(random, 2, lively_event)),
    ("kind 3 inside", |random| inside(random, 3, lively_event)),
    ("kind 4 inside", |random| inside(random, 4, lively_event)),
    ("long", long),
    ("stuck buttons, two posts", |random| stuck(random, 2, 2)),
    ("stuck buttons, few posts", |random| stuck(random, 3, 5)),
    ("stuck buttons, more posts", |random| stuck(random, 6, 16)),
    ("early trains, two posts", |random| early(random, 2, 2)),
    ("early trains, few posts", |random| early(random, 3, 5)),
    ("early trains, more posts", |random| early(random, 4, 12)),
    ("early trains, kind 18 inside", |random| {
        inside(random, 18, early_event)
    }),
    ("early trains, kind 19 inside", |random| {
        inside(random, 19, early_event)
    }),
    ("early trains, kind 20 inside", |random| {
        inside(random, 20, early_event)
    }),
];

pub const WILD: &[Variety] = &[
    ("any numbers", |random| wild(random, [100, 10, 10])),
    ("any places", |random| wild(random, [10, 100, 10])),
    ("any stamps", |random| wild(random, [10, 10, 100])),
    ("any of all", |random| wild(random, [80, 80, 80])),
];

pub const TURN: &[Variety] = &[
    ("from near 2^32", |random| turn(random, 0)),
    ("from near 2^31", |random| turn(random, 1 << 31)),
    ("from anywhere", |random| {
        let from = random.word();
        turn(random, from)
    }),
];

/// Differences of stamps on both sides of where "behind" begins.
pub const DIFFERENCES: [u32; 6] = [0, 1, 0x7FFF_FFFF, 0x8000_0000, 0x8000_0001, 0xFFFF_FFFF];

/// How often each event is tried: arrivals and announcements keep a line moving.
const TRIED: [u32; 24] = [
    1, 1, 2, 2, 3, 3, 3, 4, 4, 5, 5, 5, 6, 6, 6, 7, 7, 8, 8, 8, 8, 9, 10, 10,
];

/// The last event, and the last of those that 01 has.
const LAST: u32 = 12;
const LAST_OF_01: u32 = 10;

/// How often in a hundred events a button is thought of, and how often an event about a
/// free one is then made of it: in a lively history, and where buttons stick.
const SELDOM: [usize; 2] = [20, 6];
const OFTEN: [usize; 2] = [40, 15];

/// How often in a hundred events a passage before its announcement is thought of, where
/// trains are early.
const EARLY: usize = 40;

/// A line as the model plays it.
#[derive(Clone)]
pub struct Play {
    pub row: Vec<Post>,
    pub head: Head,
}

impl Play {
    pub fn from_start(kinds: &[u32], stamp: u32) -> Self {
        let mut row = vec![Post::default(); kinds.len()];
        let head = model::start(&mut row, kinds, stamp).head;
        Play { row, head }
    }

    pub fn take(&mut self, [number, place, stamp]: Step) -> u32 {
        let told = model::event(&mut self.row, self.head, number, place, stamp);
        self.head = told.head;
        told.answer
    }

    /// The same on a line that is known to be valid.
    fn take_on_valid(&mut self, [number, place, stamp]: Step) -> u32 {
        let told = model::event_on_valid(&mut self.row, self.head, number, place, stamp);
        self.head = told.head;
        told.answer
    }
}

/// Mostly few posts: what a reply weighs grows with them.
pub fn some_posts(random: &mut Random) -> usize {
    match random.below(20) {
        0..=13 => random.between(2, 5),
        14..=17 => random.between(6, 12),
        _ => random.between(13, 32),
    }
}

/// The next event of a history at this stamp, already played.
pub type Next = fn(&mut Random, &mut Play, u32) -> Step;

fn any_event(random: &mut Random, posts: usize, last: u32) -> (u32, u32) {
    let number = match random.below(8) {
        0 => random.small(0, 31),
        _ => random.small(1, last),
    };
    let place = random.below(posts + 2) as u32;
    (number, place)
}

/// Whether a pedal strike would alter something; all others are refused if not. An early
/// strike of the passage pedal, which would at a short post, is not wanted more often there.
fn alters(post: &Post, number: u32) -> bool {
    match number {
        3 => post.is_up(relay::AN) && !post.is_up(relay::KPG),
        4 => post.is_up(relay::SIGNAL),
        _ => true,
    }
}

/// One event at this stamp, already played: most often one that is taken.
pub fn lively_event(random: &mut Random, play: &mut Play, stamp: u32) -> Step {
    about_or(random, play, stamp, SELDOM, traffic)
}

/// The same where buttons stick.
pub fn stuck_event(random: &mut Random, play: &mut Play, stamp: u32) -> Step {
    about_or(random, play, stamp, OFTEN, traffic)
}

/// An event about a button so often, else another.
fn about_or(
    random: &mut Random,
    play: &mut Play,
    stamp: u32,
    [thought_of, free]: [usize; 2],
    other: Next,
) -> Step {
    let thought_of = random.chance(thought_of);
    let about = thought_of.then(|| about_a_button(random, &play.row, free));
    this_or(random, play, stamp, about.flatten(), other)
}

/// The event of this number and place, now played; another if there is none.
fn this_or(
    random: &mut Random,
    play: &mut Play,
    stamp: u32,
    this: Option<(u32, u32)>,
    other: Next,
) -> Step {
    let Some((number, place)) = this else {
        return other(random, play, stamp);
    };
    let step = [number, place, stamp];
    play.take(step);
    step
}

fn traffic(random: &mut Random, play: &mut Play, stamp: u32) -> Step {
    traffic_up_to(random, play, stamp, LAST)
}

/// The same as before there were jams, for `exercise`, which writes what it always wrote:
/// 11 and 12 come up seldom, and what follows is chosen as if they were refused.
pub fn ordinary_event(random: &mut Random, play: &mut Play, stamp: u32) -> Step {
    let before = play.clone();
    let step = traffic_up_to(random, play, stamp, LAST_OF_01);
    if step[0] > LAST_OF_01 {
        *play = before;
    }
    step
}

/// One event, already played: most often one that is taken, of those of 01; else any
/// number, seldom past this last one.
fn traffic_up_to(random: &mut Random, play: &mut Play, stamp: u32, last: u32) -> Step {
    let posts = play.row.len();
    // A refused event leaves the line as it was, so that it is tested once for all tries.
    let none = random.chance(15) || !model::valid(&play.row, play.head);
    for _ in 0..if none { 0 } else { 14 } {
        let (number, place) = (random.pick(&TRIED), random.below(posts));
        if !alters(&play.row[place], number) && !random.chance(10) {
            continue;
        }
        let step = [number, place as u32, stamp];
        if play.take_on_valid(step) == 0 {
            return step;
        }
    }
    let (number, place) = any_event(random, posts, last);
    let step = [number, place, stamp];
    play.take(step);
    step
}

/// The events that are refused 8, 9 and 13, and these answers.
const REFUSED: [(u32, u32); 3] = [(1, 8), (5, 9), (6, 13)];

/// What a train asks for next where posts block at the signal pedal: the lever, the
/// pedal, the lever again, the announcement.
fn trains_event(post: &Post) -> Option<u32> {
    let [l, rl, lever, signal] =
        [relay::L, relay::RL, relay::LEVER, relay::SIGNAL].map(|mask| post.is_up(mask));
    if !rl || !matches!(kind::ordinary(post.kind), 0 | 2) {
        return None;
    }
    Some(match (lever, signal) {
        (true, true) => 4,
        (true, false) => 2,
        _ if l => 1,
        _ => 5,
    })
}

/// One event at this stamp, already played: often the next of a train, or one that is
/// refused 8, 9 or 13.
pub fn pupils_event(random: &mut Random, play: &mut Play, stamp: u32) -> Step {
    let posts = play.row.len();
    if random.chance(40) {
        let place = random.below(posts);
        if let Some(number) = trains_event(&play.row[place]) {
            let step = [number, place as u32, stamp];
            play.take(step);
            return step;
        }
    }
    if random.chance(25) {
        let (number, answer) = random.pick(&REFUSED);
        let first = random.below(posts);
        let places = (first..posts).chain(0..first);
        let mut steps = places.map(|place| [number, place as u32, stamp]);
        // A refused event leaves the line as it was, so it need not be played.
        if let Some(step) = steps.find(|step| play.clone().take(*step) == answer) {
            return step;
        }
    }
    lively_event(random, play, stamp)
}

/// The same where buttons stick.
pub fn stuck_pupils_event(random: &mut Random, play: &mut Play, stamp: u32) -> Step {
    about_or(random, play, stamp, OFTEN, pupils_event)
}

/// The same where trains are early.
pub fn early_event(random: &mut Random, play: &mut Play, stamp: u32) -> Step {
    let thought_of = random.chance(EARLY);
    let about = thought_of.then(|| about_a_passage(random, &play.row));
    this_or(random, play, stamp, about, pupils_event)
}

/// A stamp not far from the last, now and then behind it.
pub fn near_stamp(random: &mut Random, last: u32) -> u32 {
    match random.below(30) {
        0 => last.wrapping_sub(random.small(1, 5000)),
        1..=6 => last,
        _ => last.wrapping_add(random.small(1, 5000)),
    }
}

fn lively(random: &mut Random, least: usize, most: usize, events: usize) -> Request {
    of_posts(random, [least, most], events, lively_event)
}

fn stuck(random: &mut Random, least: usize, most: usize) -> Request {
    of_posts(random, [least, most], 300, stuck_event)
}

fn early(random: &mut Random, least: usize, most: usize) -> Request {
    of_posts(random, [least, most], 300, early_event)
}

fn of_posts(random: &mut Random, posts: [usize; 2], events: usize, next: Next) -> Request {
    let posts = random.between(posts[0], posts[1]);
    let kinds = table(random, posts);
    history(random, kinds, events, next)
}

fn inside(random: &mut Random, kind: u32, next: Next) -> Request {
    let posts = random.between(3, 6);
    let mut kinds = table(random, posts);
    kinds[1..posts - 1].fill(kind);
    history(random, kinds, 300, next)
}

fn history(random: &mut Random, kinds: Vec<u32>, most: usize, next: Next) -> Request {
    let count = random.between(most / 4, most);
    let stamp = random.edge_word();
    let mut play = Play::from_start(&kinds, stamp);
    let mut steps = Vec::with_capacity(count);
    for _ in 0..count {
        let at = near_stamp(random, play.head.last);
        steps.push(next(random, &mut play, at));
    }
    Request::Run {
        kinds,
        stamp,
        steps,
    }
}

/// Seldom as long as the server allows.
fn long(random: &mut Random) -> Request {
    let most = if random.chance(10) { 4096 } else { 800 };
    lively(random, 2, 4, most)
}

/// Each of number, place and stamp is anything with its chance, else near.
fn wild(random: &mut Random, chances: [usize; 3]) -> Request {
    let posts = some_posts(random);
    let kinds = table(random, posts);
    let stamp = random.edge_word();
    let mut play = Play::from_start(&kinds, stamp);
    let count = random.between(1, 120);
    let mut steps = Vec::with_capacity(count);
    for _ in 0..count {
        let step = wild_step(random, &play, chances);
        play.take(step);
        steps.push(step);
    }
    Request::Run {
        kinds,
        stamp,
        steps,
    }
}

pub fn wild_step(random: &mut Random, play: &Play, chances: [usize; 3]) -> Step {
    let (mut number, mut place) = any_event(random, play.row.len().max(2), LAST);
    let mut stamp = near_stamp(random, play.head.last);
    if random.chance(chances[0]) {
        number = match random.below(4) {
            0 => random.small(0, 31),
            1 => random.pick(&[0, 13, 14, 16, 31, 32, 33, 42, 43, 256 + 1, 256 + 11]),
            2 => random.edge_word(),
            _ => random.small(8, LAST + 1),
        };
    }
    if random.chance(chances[1]) {
        let posts = play.row.len() as u32;
        place = match random.below(4) {
            0 => posts.wrapping_sub(random.small(0, 2)),
            1 => posts + random.small(0, 40),
            2 => random.edge_word(),
            _ => random.pick(&[posts + 256, posts | 0x8000_0000, 1 << 16, 1 << 30]),
        };
    }
    if random.chance(chances[2]) {
        stamp = random.edge_word();
    }
    [number, place, stamp]
}

/// Stamps whose differences stand around the clock's turn.
fn turn(random: &mut Random, near: u32) -> Request {
    let posts = some_posts(random).min(8);
    let kinds = table(random, posts);
    let stamp = near.wrapping_add(random.small(0, 6)).wrapping_sub(3);
    let mut play = Play::from_start(&kinds, stamp);
    let count = random.between(4, 100);
    let mut steps = Vec::with_capacity(count);
    for _ in 0..count {
        let difference = random.pick(&DIFFERENCES);
        let at = play.head.last.wrapping_add(difference);
        steps.push(lively_event(random, &mut play, at));
    }
    Request::Run {
        kinds,
        stamp,
        steps,
    }
}
