//! Two lines on one circuit, and sessions on them.

use model::circuit::{POLARISED, VIBRATED};
use model::{event_tracks, start_tracks, valid_tracks, Head, Post, TrackStep};

pub const CIRCUITS: [u32; 2] = [POLARISED, VIBRATED];

/// Track, event and place.
pub type At = (u32, u32, u32);

#[derive(Clone, Debug, PartialEq)]
pub struct Two {
    pub rows: [Vec<Post>; 2],
    pub circuit: u32,
    pub head: Head,
}

impl Two {
    pub fn fresh(tables: [&[u32]; 2], circuit: u32, stamp: u32) -> Two {
        let mut rows = tables.map(|kinds| vec![Post::default(); kinds.len()]);
        let [first, second] = &mut rows;
        let told = start_tracks([first, second], tables, circuit, stamp);
        assert_eq!(told.answer, 0);
        let head = told.head;
        Two {
            rows,
            circuit,
            head,
        }
    }

    pub fn take(&mut self, step: TrackStep) -> u32 {
        let [first, second] = &mut self.rows;
        let told = event_tracks([first, second], self.circuit, self.head, step);
        self.head = told.head;
        told.answer
    }

    /// The same at stamp 0.
    pub fn at(&mut self, (track, number, place): At) -> u32 {
        self.take([track, number, place, 0])
    }

    /// The answer, where what is refused leaves all as it was; nothing is taken.
    pub fn asked(&self, step: At) -> u32 {
        let mut after = self.clone();
        let answer = after.at(step);
        assert!(after.is_valid());
        assert!(answer == 0 || after == *self, "{step:?}");
        answer
    }

    /// After these events at stamp 0, each of them taken.
    pub fn after(mut self, events: &[At]) -> Two {
        for &event in events {
            assert_eq!(self.at(event), 0, "{event:?} of {events:?}");
        }
        self
    }

    pub fn is_valid(&self) -> bool {
        let [first, second] = &self.rows;
        valid_tracks([first, second], self.circuit, self.head)
    }
}

/// A small generator (xorshift), so that a session can be made again.
pub struct Any(pub u64);

impl Any {
    pub fn below(&mut self, n: u32) -> u32 {
        self.0 ^= self.0 << 13;
        self.0 ^= self.0 >> 7;
        self.0 ^= self.0 << 17;
        ((self.0 >> 33) % u64::from(n)) as u32
    }

    pub fn table(&mut self, posts: u32) -> Vec<u32> {
        let short = |any: &mut Any, kind| kind + 16 * any.below(2);
        let mut kinds = vec![0];
        for _ in 2..posts {
            let kind = 2 + self.below(3);
            kinds.push(short(self, kind));
        }
        kinds.push(short(self, 1));
        kinds
    }

    /// Any event of either track, now and then none, arrivals more often.
    pub fn step(&mut self, posts: u32, last: u32) -> TrackStep {
        const NUMBERS: [u32; 30] = [
            1, 2, 2, 3, 3, 3, 3, 4, 5, 5, 5, 5, 6, 6, 6, 6, 7, 7, 8, 8, 8, 8, 8, 9, 10, 11, 12, 12,
            12, 13,
        ];
        let track = self.below(2);
        let number = NUMBERS[self.below(NUMBERS.len() as u32) as usize];
        let place = self.below(posts + 1);
        let stamp = last.wrapping_add(self.below(9)).wrapping_sub(1);
        [track, number, place, stamp]
    }
}
