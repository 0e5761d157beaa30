//! What the histories and the altered rows of a run have come upon, about the stuck
//! button (02, item 2).

use model::relay::{AN, JAM, KPG, LEVER, RL, W241, W314};
use model::{kind, valid, Head, Post};

use crate::counts::{bit_of, Wanted};
use crate::request::{Step, POST_WORDS};

/// An event of a history, its answer, and what stood there before it.
pub struct Moment {
    number: u32,
    answer: u32,
    /// The post, for a section its upstream post, and its relays after the event.
    here: Stands,
    after: u32,
    /// The posts next to it; none past the ends.
    upstream: Stands,
    downstream: Stands,
    /// The passage recorded at the post came before its announcement.
    struck_early: bool,
}

/// A post's relays and its kind; none has a kind that is no kind.
struct Stands {
    word: u32,
    kind: u32,
}

impl Stands {
    /// By the records of a reply.
    fn at(records: &[u32], at: Option<usize>) -> Self {
        let word = |field| {
            let at = at.and_then(|at| at.checked_mul(POST_WORDS));
            at.and_then(|at| records.get(at + field)).copied()
        };
        Stands {
            word: word(0).unwrap_or(0),
            kind: word(1).unwrap_or(u32::MAX),
        }
    }

    fn waits_at(&self, kind: u32) -> bool {
        self.kind == kind && self.word & (KPG | AN) == KPG
    }
}

/// A history as it goes on: at which posts the passage recorded, if one is, came before its
/// announcement, each a bit.
#[derive(Default)]
pub struct Goes {
    struck_early: u32,
}

impl Goes {
    /// The next event: what a reply says before it and after it.
    pub fn moment(&mut self, before: &[u32], after: &[u32], step: Step, answer: u32) -> Moment {
        let at = step[1] as usize;
        let bit = bit_of(step[1]);
        let moment = Moment {
            number: step[0],
            answer,
            here: Stands::at(before, Some(at)),
            after: Stands::at(after, Some(at)).word,
            upstream: Stands::at(before, at.checked_sub(1)),
            downstream: Stands::at(before, at.checked_add(1)),
            struck_early: self.struck_early & bit != 0,
        };
        if moment.number == 3 && moment.records() {
            self.struck_early &= !bit;
            self.struck_early |= bit * u32::from(!moment.up(AN));
        }
        moment
    }
}

pub const MOMENTS: &[Wanted<Moment>] = &[
    ("arrival at a jammed post, W314 up", |m| {
        m.is(8, 0) && m.up(W314) && m.jammed_downstream()
    }),
    ("arrival of a release, jammed downstream", |m| {
        m.is(8, 0) && m.up(W241) && m.jammed_downstream()
    }),
    ("arrival, W314 up, only upstream jammed", |m| {
        m.is(8, 0) && m.up(W314) && m.up(JAM) && !m.jammed_downstream()
    }),
    ("loss of an announcement to a jammed post", |m| {
        m.is(9, 0) && m.up(W314) && m.jammed_downstream()
    }),
    ("restoration beside a jammed post", |m| {
        m.is(10, 0) && m.jammed_downstream()
    }),
    ("22 for 6", |m| m.is(6, 22)),
    ("22 for 7", |m| m.is(7, 22)),
    ("22 for 11", |m| m.is(11, 22)),
    ("23 for 12", |m| m.is(12, 23)),
    ("22 for 6, An down", |m| m.is(6, 22) && !m.up(AN)),
    ("22 for 7, An down", |m| m.is(7, 22) && !m.up(AN)),
    ("22 for 6 or 7, An up and KPg down", |m| {
        (m.is(6, 22) || m.is(7, 22)) && m.up(AN) && !m.up(KPG)
    }),
    ("22 for 6, else taken", |m| {
        m.is(6, 22) && m.passage_recorded() && !m.onward_refuses()
    }),
    ("22 for 6, else refused for RL or the lever", |m| {
        m.is(6, 22) && m.passage_recorded() && m.onward_refuses()
    }),
    ("22 for 7, else taken", |m| {
        m.is(7, 22) && m.passage_recorded()
    }),
    ("6 for 7 at a jammed post", |m| m.is(7, 6) && m.up(JAM)),
    ("6 for 11", |m| m.is(11, 6)),
    ("6 for 12", |m| m.is(12, 6)),
    ("jam taken, An up", |m| m.is(11, 0) && m.up(AN)),
    ("jam taken, an announcement under way to it", |m| {
        m.is(11, 0) && m.up_upstream(W314)
    }),
    ("jam taken, its release under way", |m| {
        m.is(11, 0) && m.up_upstream(W241)
    }),
    ("freed, An up", |m| m.is(12, 0) && m.up(AN)),
    ("2 for 11 or 12", |m| m.is(11, 2) || m.is(12, 2)),
    ("3 for 13", |m| m.is(13, 3)),
];

impl Moment {
    pub fn is(&self, number: u32, answer: u32) -> bool {
        self.number == number && self.answer == answer
    }

    /// The kinds of the post and of the one downstream, each a bit.
    pub fn kinds(&self) -> u32 {
        bit_of(self.here.kind) | bit_of(self.downstream.kind)
    }

    pub fn is_at(&self, number: u32, answer: u32, kind: u32) -> bool {
        self.here.kind == kind && self.is(number, answer)
    }

    pub fn up(&self, mask: u32) -> bool {
        self.here.word & mask != 0
    }

    pub fn up_after(&self, mask: u32) -> bool {
        self.after & mask != 0
    }

    pub fn up_upstream(&self, mask: u32) -> bool {
        self.upstream.word & mask != 0
    }

    pub fn jammed_downstream(&self) -> bool {
        self.downstream.word & JAM != 0
    }

    fn passage_recorded(&self) -> bool {
        self.up(AN) && self.up(KPG)
    }

    /// A release would be refused 10 at the terminus, 13 elsewhere.
    fn onward_refuses(&self) -> bool {
        if kind::ordinary(self.here.kind) == 1 {
            self.up(LEVER)
        } else {
            self.up(RL)
        }
    }

    /// The passage pedal of a post of this kind is struck.
    pub fn strikes(&self, kind: u32) -> bool {
        self.is_at(3, 0, kind)
    }

    /// The same with no announcement and no passage recorded.
    pub fn early_strike(&self, kind: u32) -> bool {
        self.strikes(kind) && !self.up(AN | KPG)
    }

    /// KPg rises.
    pub fn records(&self) -> bool {
        !self.up(KPG) && self.up_after(KPG)
    }

    pub fn struck_early(&self) -> bool {
        self.struck_early
    }

    /// The post downstream has this kind and a passage recorded, but no announcement.
    pub fn waits_downstream(&self, kind: u32) -> bool {
        self.downstream.waits_at(kind)
    }

    /// An announcement arrives at such a post.
    pub fn arrives_where_one_waits(&self, kind: u32) -> bool {
        self.is(8, 0) && self.up(W314) && self.waits_downstream(kind)
    }
}

/// A row that other hands altered, and whether it is valid; the event that is named there
/// and its answer, if one is.
pub struct Altered {
    pub row: Vec<Post>,
    pub head: Head,
    pub valid: bool,
    pub told: Option<(Step, u32)>,
}

pub const ALTERED: &[Wanted<Altered>] = &[
    ("bit 8 up at the origin, all else right", |a| {
        a.wrong_only(|post, at| post.word &= if at == 0 { !JAM } else { !0 })
    }),
    ("bit 9 up, all else right", |a| {
        a.wrong_only(|post, _| post.drop(1 << 9))
    }),
    ("a bit above 9 up, all else right", |a| {
        a.wrong_only(|post, _| post.drop(!0 << 10))
    }),
    ("bit 8 up inside, not valid", |a| {
        !a.valid && a.row.iter().any(|post| post.kind != 0 && post.is_up(JAM))
    }),
    ("arrival at a jammed post, W314 up", |a| {
        let lost = |at: usize| a.row[at].is_up(W314) && a.row[at + 1].is_up(JAM);
        a.gets(8, 0).is_some_and(lost)
    }),
    ("22 for 6", |a| a.gets(6, 22).is_some()),
    ("22 for 7", |a| a.gets(7, 22).is_some()),
    ("22 for 11", |a| a.gets(11, 22).is_some()),
    ("23 for 12", |a| a.gets(12, 23).is_some()),
    ("11 taken", |a| a.gets(11, 0).is_some()),
    ("12 taken", |a| a.gets(12, 0).is_some()),
];

impl Altered {
    /// Not valid, and valid when each post is mended so, by its place.
    pub fn wrong_only(&self, mend: impl Fn(&mut Post, usize)) -> bool {
        if self.valid {
            return false;
        }
        let mut mended = self.row.clone();
        for (at, post) in mended.iter_mut().enumerate() {
            mend(post, at);
        }
        mended != self.row && valid(&mended, self.head)
    }

    /// The place of the event named, if it has this number and this answer.
    pub fn gets(&self, number: u32, answer: u32) -> Option<usize> {
        let ([named, place, _], given) = self.told?;
        ((named, given) == (number, answer)).then_some(place as usize)
    }
}
