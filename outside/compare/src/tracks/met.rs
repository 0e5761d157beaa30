//! What the events of two tracks have come upon in a run: who met whom on the circuit, and what
//! was answered.

use model::circuit::{POLARISED, VIBRATED};
use model::relay::{W241, W314};
use model::TrackStep;

use crate::counts::Wanted;

/// An event on two lines that may be used, its answer, and what stood there before it.
pub struct Met {
    pub circuit: u32,
    pub step: TrackStep,
    pub answer: u32,
    /// How many posts each line has.
    pub posts: usize,
    /// The relay words of both, track 1's first.
    pub relays: Vec<u32>,
    /// The stamp is behind the last.
    pub behind: bool,
}

pub const MET: &[Wanted<Met>] = &[
    ("25 for 5 on track 1", |m| m.is(0, 5, 25)),
    ("25 for 5 on track 2", |m| m.is(1, 5, 25)),
    ("25 for 6 on track 1", |m| m.is(0, 6, 25)),
    ("25 for 6 on track 2", |m| m.is(1, 6, 25)),
    ("25 for 7 on track 1", |m| m.is(0, 7, 25)),
    ("25 for 7 on track 2", |m| m.is(1, 7, 25)),
    ("25 for 5, a release under way", |m| m.met(5, W241)),
    ("25 for 5, an announcement under way", |m| m.met(5, W314)),
    ("25 for 6, a release under way", |m| m.met(6, W241)),
    ("25 for 6, an announcement under way", |m| m.met(6, W314)),
    ("25 for 7, a release under way", |m| m.met(7, W241)),
    ("25 for 7, an announcement under way", |m| m.met(7, W314)),
    ("25 in the first section", |m| m.met_in(|s, _| s == 0)),
    ("25 in the last section", |m| {
        m.met_in(|s, posts| s + 2 == posts)
    }),
    ("25 in the middle, an even number of posts", |m| {
        m.met_in(|s, posts| 2 * s + 2 == posts)
    }),
    ("25 before the middle, an odd number", |m| {
        m.met_in(|s, posts| 2 * s + 3 == posts)
    }),
    ("25 behind the middle, an odd number", |m| {
        m.met_in(|s, posts| 2 * s + 1 == posts)
    }),
    ("25 at two posts", |m| m.met_in(|_, posts| posts == 2)),
    ("25 at three posts", |m| m.met_in(|_, posts| posts == 3)),
    ("25 at 32 posts", |m| m.met_in(|_, posts| posts == 32)),
    ("5 taken beside it, vibrated", |m| m.vibrated(5)),
    ("6 taken beside it, vibrated", |m| m.vibrated(6)),
    ("7 taken beside it, vibrated", |m| m.vibrated(7)),
    ("5 taken, a signal between the posts before", |m| {
        m.next_to(5, 1)
    }),
    ("5 taken, a signal between the posts behind", |m| {
        m.next_to(5, -1)
    }),
    ("6 taken, a signal between the posts before", |m| {
        m.next_to(6, 1)
    }),
    ("6 taken, a signal between the posts behind", |m| {
        m.next_to(6, -1)
    }),
    ("7 taken, a signal between the posts before", |m| {
        m.next_to(7, 1)
    }),
    ("7 taken, a signal between the posts behind", |m| {
        m.next_to(7, -1)
    }),
    ("5 taken, a signal in the other's same number", |m| {
        m.same_number(5)
    }),
    ("6 taken, a signal in the other's same number", |m| {
        m.same_number(6)
    }),
    ("7 taken, a signal in the other's same number", |m| {
        m.same_number(7)
    }),
    ("6 for 5, a signal of the other under way", |m| {
        m.anywhere(5, 6)
    }),
    ("6 for 6, a signal of the other under way", |m| {
        m.anywhere(6, 6)
    }),
    ("6 for 7, busy", |m| m.busy_gets(7, 6)),
    ("9 for 5, busy", |m| m.busy_gets(5, 9)),
    ("10 for 5, busy", |m| m.busy_gets(5, 10)),
    ("11 for 6, busy", |m| m.busy_gets(6, 11)),
    ("12 for 6, busy", |m| m.busy_gets(6, 12)),
    ("13 for 6, busy", |m| m.busy_gets(6, 13)),
    ("10 for 6, busy", |m| m.busy_gets(6, 10)),
    ("22 for 6, busy", |m| m.busy_gets(6, 22)),
    ("11 for 7, busy", |m| m.busy_gets(7, 11)),
    ("12 for 7, busy", |m| m.busy_gets(7, 12)),
    ("22 for 7, busy", |m| m.busy_gets(7, 22)),
    ("4 for 5, busy", |m| m.busy_gets(5, 4)),
    ("1 taken, busy", |m| m.busy_gets(1, 0)),
    ("2 taken, busy", |m| m.busy_gets(2, 0)),
    ("3 taken, busy", |m| m.busy_gets(3, 0)),
    ("4 taken, busy", |m| m.busy_gets(4, 0)),
    ("8 taken, a signal of the other under way", |m| {
        m.anywhere(8, 0)
    }),
    ("9 taken, a signal of the other under way", |m| {
        m.anywhere(9, 0)
    }),
    ("10 taken, busy", |m| m.busy_gets(10, 0)),
    ("11 taken, busy", |m| m.busy_gets(11, 0)),
    ("12 taken, busy", |m| m.busy_gets(12, 0)),
    ("14, a signal of the other between the posts", |m| {
        m.busy_gets(8, 14)
    }),
    ("2 for a track that is neither", |m| m.neither(2)),
    ("3 for a track that is neither", |m| m.neither(3)),
    ("2 for one that is neither, stamp behind", |m| {
        m.neither(2) && m.behind
    }),
];

impl Met {
    fn track(&self) -> usize {
        self.step[0] as usize
    }

    fn number(&self) -> u32 {
        self.step[1]
    }

    fn is(&self, track: u32, number: u32, answer: u32) -> bool {
        (self.step[0], self.step[1], self.answer) == (track, number, answer)
    }

    fn neither(&self, answer: u32) -> bool {
        self.step[0] > 1 && self.answer == answer
    }

    /// The section in which the event sends a signal, or where it stands: that of 6 and 7 is
    /// upstream of their post.
    fn section(&self) -> Option<usize> {
        let place = self.step[2] as usize;
        let section = match self.number() {
            6 | 7 => place.checked_sub(1)?,
            _ => place,
        };
        (self.step[0] < 2 && section + 1 < self.posts).then_some(section)
    }

    /// The signals under way in a section of the other track.
    fn others(&self, section: usize) -> u32 {
        let first = (1 - self.track()) * self.posts;
        self.relays[first + section] & (W314 | W241)
    }

    /// The signals of the other track so many sections from the one that faces this event's.
    fn facing(&self, by: isize) -> u32 {
        let section = self.section().map(|s| (self.posts - 2 - s) as isize + by);
        match section {
            Some(s) if (0..self.posts as isize - 1).contains(&s) => self.others(s as usize),
            _ => 0,
        }
    }

    fn met(&self, number: u32, mask: u32) -> bool {
        self.number() == number && self.answer == 25 && self.facing(0) & mask != 0
    }

    fn met_in(&self, is_there: fn(usize, usize) -> bool) -> bool {
        self.answer == 25 && self.section().is_some_and(|s| is_there(s, self.posts))
    }

    fn taken(&self, number: u32, circuit: u32) -> bool {
        (self.number(), self.answer, self.circuit) == (number, 0, circuit)
    }

    fn vibrated(&self, number: u32) -> bool {
        self.taken(number, VIBRATED) && self.facing(0) != 0
    }

    fn next_to(&self, number: u32, by: isize) -> bool {
        self.taken(number, POLARISED) && self.facing(by) != 0
    }

    /// The other track has a signal in the section of this number, which does not face it.
    fn same_number(&self, number: u32) -> bool {
        let has = |section| self.others(section) != 0;
        self.taken(number, POLARISED) && self.section().is_some_and(has)
    }

    fn busy_gets(&self, number: u32, answer: u32) -> bool {
        self.circuit == POLARISED
            && (self.number(), self.answer) == (number, answer)
            && self.facing(0) != 0
    }

    /// The same where the event stands at no section of the other's signal.
    fn anywhere(&self, number: u32, answer: u32) -> bool {
        self.circuit == POLARISED
            && self.step[0] < 2
            && (self.number(), self.answer) == (number, answer)
            && (0..self.posts - 1).any(|section| self.others(section) != 0)
    }
}
