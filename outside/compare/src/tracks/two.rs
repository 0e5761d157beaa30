//! Two lines on one circuit as the model plays them, and the events of a session on them.

use model::circuit::{POLARISED, VIBRATED};
use model::{Head, Post, Told, TrackStep};

use crate::histories::{some_posts, wild_step, Next, Play};
use crate::random::Random;
use crate::tables::table;
use crate::tracks::request::{Rows, Tables};

pub const CIRCUITS: [u32; 2] = [POLARISED, VIBRATED];

/// Numbers that are no circuit and no track, next to one or the same in its lower bits.
pub const NEITHER: [u32; 9] = [2, 2, 3, 4, 256, 1 << 16, 1 << 16 | 1, 0x8000_0001, u32::MAX];

/// How often in a hundred events of a lively session one is looked for that the other track's
/// signal refuses.
const MEETS: usize = 25;

#[derive(Clone, Debug)]
pub struct Two {
    pub rows: Rows,
    pub circuit: u32,
    pub head: Head,
}

impl Two {
    pub fn from_start(tables: &Tables, circuit: u32, stamp: u32) -> Self {
        let mut rows = [&tables[0], &tables[1]].map(|kinds| vec![Post::default(); kinds.len()]);
        let [first, second] = &mut rows;
        let tables = [&tables[0][..], &tables[1]];
        let head = model::start_tracks([first, second], tables, circuit, stamp).head;
        Two {
            rows,
            circuit,
            head,
        }
    }

    /// What the model tells of an event, and does to the rows.
    pub fn told(&mut self, step: TrackStep) -> Told {
        let [first, second] = &mut self.rows;
        model::event_tracks([first, second], self.circuit, self.head, step)
    }

    pub fn take(&mut self, step: TrackStep) -> u32 {
        let told = self.told(step);
        self.head = told.head;
        told.answer
    }

    pub fn is_valid(&self) -> bool {
        model::valid_tracks([&self.rows[0], &self.rows[1]], self.circuit, self.head)
    }

    /// One of the two by itself.
    pub fn line(&self, track: usize) -> Play {
        Play {
            row: self.rows[track].clone(),
            head: self.head,
        }
    }

    /// Puts one of the two back, and the head with it.
    pub fn put(&mut self, track: usize, line: Play) {
        self.rows[track] = line.row;
        self.head = line.head;
    }

    /// What a valid pair answers; nothing is taken.
    fn answer(&self, step: TrackStep) -> u32 {
        let mut rows = self.rows.clone();
        let [first, second] = &mut rows;
        model::event_tracks_on_valid([first, second], self.circuit, self.head, step).answer
    }

    /// An event that the other track's signal refuses, if there is one.
    pub fn meets(&self, random: &mut Random, stamp: u32) -> Option<TrackStep> {
        let posts = self.rows[0].len();
        let number = random.pick(&[5, 6, 6, 7, 7]);
        let (track, first) = (random.below(2), random.below(posts));
        let places = (first..posts).chain(0..first);
        let mut steps = places.map(|place| [track as u32, number, place as u32, stamp]);
        steps.find(|step| self.answer(*step) == 25)
    }
}

/// Right tables of so many posts for both tracks.
pub fn tables_of(random: &mut Random, posts: usize) -> Tables {
    [table(random, posts), table(random, posts)]
}

pub fn some_tables(random: &mut Random) -> Tables {
    let posts = some_posts(random);
    tables_of(random, posts)
}

/// One event of a session at this stamp, already played: one that a line by itself would be
/// given next, or one that meets the other track's signal.
pub fn event(random: &mut Random, two: &mut Two, stamp: u32, next: Next) -> TrackStep {
    let looked_for = random.chance(MEETS) && two.is_valid();
    if let Some(step) = looked_for.then(|| two.meets(random, stamp)).flatten() {
        return step;
    }
    let track = random.below(2);
    let [number, place, stamp] = next(random, &mut two.line(track), stamp);
    let step = [track as u32, number, place, stamp];
    two.take(step);
    step
}

/// Each of number, place, stamp and track is anything with its chance, else near; not played.
pub fn wild(random: &mut Random, two: &Two, [others @ .., track]: [usize; 4]) -> TrackStep {
    let here = random.below(2);
    let [number, place, stamp] = wild_step(random, &two.line(here), others);
    let track = match random.chance(track) {
        true => some_neither(random),
        false => here as u32,
    };
    [track, number, place, stamp]
}

/// A number that is no circuit and no track.
pub fn some_neither(random: &mut Random) -> u32 {
    random.pick(&NEITHER)
}
