//! 02, item 7: what holds of each track in any session on two.

mod common;

use common::two::{Any, Two};
use model::circuit::POLARISED;
use model::relay::{AN, KPG, L, LEVER, RL, SIGNAL, W241, W314};
use model::*;

const SESSIONS: u64 = 100;
const EVENTS: usize = 3_000;

/// Sessions on both circuits, of 2 to 32 posts; each event is shown with what stood before it,
/// its answer and what stands after it.
fn sessions(mut see: impl FnMut(&Two, TrackStep, u32, &Two)) {
    for seed in 1..=SESSIONS {
        let mut any = Any(seed.wrapping_mul(0x9E37_79B9_7F4A_7C15));
        let posts = match any.below(4) {
            0 => 2 + any.below(31),
            _ => 2 + any.below(4),
        };
        let tables = [any.table(posts), any.table(posts)];
        let mut two = Two::fresh([&tables[0], &tables[1]], seed as u32 % 2, any.below(9));
        for _ in 0..EVENTS {
            let before = two.clone();
            let step = any.step(posts, two.head.last);
            let answer = two.take(step);
            see(&before, step, answer, &two);
        }
    }
}

/// "With polarised current, for one state of a track and one event on it, the other track's
/// state ... can only turn 0 into 25"; with vibrated current not even that. Every event keeps
/// what is valid valid, and a refusal alters nothing.
#[test]
fn the_other_track_only_turns_0_into_25() {
    let mut seen = [[0; 32]; 13];
    sessions(|before, [track, number, place, stamp], answer, after| {
        let (here, other) = (track as usize, 1 - track as usize);
        let mut alone = before.rows[here].clone();
        let told = event(&mut alone, before.head, number, place, stamp);
        assert!(after.is_valid());
        assert_eq!(after.rows[other], before.rows[other]);
        if answer == 25 {
            assert_eq!((told.answer, before.circuit), (0, POLARISED));
            assert!((5..=7).contains(&number));
            assert_eq!(after, before);
        } else {
            assert_eq!(answer, told.answer);
            assert_eq!((after.head, &after.rows[here]), (told.head, &alone));
        }
        seen[number.min(12) as usize][answer as usize] += 1;
    });
    for number in [5, 6, 7] {
        assert!(seen[number][25] > 20, "{number}: {}", seen[number][25]);
    }
}

/// What a history says of one section and the posts at its ends; no count of a record is read.
#[derive(Clone, Default)]
struct Section {
    announced: i32,
    received: i32,
    lost: i32,
    released: i32,
    returned: i32,
    releases_lost: i32,
    restored: i32,
    passages: i32,
    /// What was last sent is a release.
    release_last: bool,
    /// Of the post downstream: received since its last release, a passage since then, jammed.
    since_release: bool,
    passage: bool,
    jammed: bool,
    /// Of the post upstream: 1 passed open, 2 and announced since, 0 neither.
    passed: u32,
}

impl Section {
    /// An 8 or 9 taken "receives or loses what was last sent in its section"; an announcement
    /// that arrives at a jammed post is lost (02, item 2).
    fn ends(&mut self, arrives: bool) {
        match (self.release_last, arrives) {
            (false, true) if !self.jammed => {
                self.received += 1;
                self.since_release = true;
            }
            (false, _) => self.lost += 1,
            (true, true) => {
                self.returned += 1;
                self.freed();
            }
            (true, false) => self.releases_lost += 1,
        }
    }

    fn freed(&mut self) {
        if self.passed == 2 {
            self.passed = 0;
        }
    }

    /// An event of the post upstream, or of the section.
    fn upstream(&mut self, number: u32, post: &Post) {
        match number {
            4 if post.is_up(SIGNAL) && matches!(kind::ordinary(post.kind), 0 | 2) => {
                self.passed = 1;
            }
            5 => {
                self.announced += 1;
                self.release_last = false;
                // 1 becomes 2; with 2 the section is held, and no 5 is taken.
                self.passed *= 2;
            }
            8 => self.ends(true),
            9 => self.ends(false),
            10 => {
                self.restored += 1;
                self.freed();
            }
            _ => {}
        }
    }

    /// An event of the post downstream.
    fn downstream(&mut self, number: u32, post: &Post) {
        match number {
            3 if !self.passage && (self.since_release || kind::is_short(post.kind)) => {
                self.passages += 1;
                self.passage = true;
            }
            6 | 7 => {
                self.released += 1;
                self.release_last = true;
                (self.since_release, self.passage) = (false, false);
            }
            11 => self.jammed = true,
            12 => self.jammed = false,
            _ => {}
        }
    }

    /// Demand 3, of the section between these posts as they stand.
    fn holds(&self, up: &Post, down: &Post) {
        let one_if = i32::from;
        let [w314, w241] = [W314, W241].map(|mask| one_if(up.is_up(mask)));
        assert_eq!(self.announced, self.received + self.lost + w314);
        assert_eq!(self.released, self.returned + self.releases_lost + w241);
        assert_eq!(self.released, self.passages - one_if(down.is_up(KPG)));
        let not_restored = self.lost + self.releases_lost - self.restored;
        let held_by = w314 + w241 + one_if(down.is_up(AN)) + not_restored;
        assert!(not_restored >= 0);
        assert_eq!(held_by, one_if(!up.is_up(RL)));
        if held_by == 1 {
            assert!(!up.is_up(SIGNAL) && !up.is_up(L) && !up.is_up(LEVER));
        }
        assert!(self.passed == 0 || !up.is_up(SIGNAL));
    }
}

/// Demand 3, of each track's sections as they are counted from the events that this gives them:
/// by the track of an event, whose sections it counts for.
fn demand_3(counts_for: fn(u32) -> usize) {
    let mut tracks: [Vec<Section>; 2] = Default::default();
    let mut busiest = [0; 2];
    sessions(|before, [track, number, place, _], answer, after| {
        let posts = before.rows[0].len();
        if before.head.taken == 0 {
            tracks = [0, 1].map(|_| vec![Section::default(); posts - 1]);
        }
        let (sections, at) = (&mut tracks[counts_for(track)], place as usize);
        if answer == 0 {
            let post = &before.rows[track as usize][at];
            if at + 1 < posts {
                sections[at].upstream(number, post);
            }
            // For 8, 9 and 10 the place is a section, which was looked at.
            if at > 0 {
                sections[at - 1].downstream(number, post);
            }
        }
        for (track, row) in after.rows.iter().enumerate() {
            for (section, pair) in tracks[track].iter().zip(row.windows(2)) {
                section.holds(&pair[0], &pair[1]);
                busiest[track] = busiest[track].max(section.released);
            }
        }
    });
    assert!(busiest.iter().all(|&most| most > 5), "{busiest:?}");
}

/// "Demand 3 holds for each track by itself": counted from the events of that track alone.
#[test]
fn demand_3_on_each_track() {
    demand_3(|track| track as usize);
}

/// It does not hold where both tracks' events are counted as one.
#[test]
#[should_panic(expected = "assertion")]
fn demand_3_of_both_mixed() {
    demand_3(|_| 0);
}
