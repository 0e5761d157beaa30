//! What the histories and the altered rows of a run have come upon, by the kind of post:
//! about short sections (02, item 5), and what holds for both forms of a kind.

use model::relay::{AN, JAM, KPG, L, RL, W241, W314};
use model::{kinds_right, valid, Post};

use crate::counts::{bit_of, AtKinds, WantedAt};
use crate::moments::{Altered, Moment};
use crate::strikes::waits;

const SHORT: &[u32] = &[17, 18, 19, 20];
const ORDINARY: &[u32] = &[1, 2, 3, 4];
const BOTH: &[u32] = &[1, 2, 3, 4, 17, 18, 19, 20];

pub const AT_MOMENTS: AtKinds<Moment> = AtKinds {
    wanted: MOMENTS,
    kinds_of: |m| m.kinds(),
};

pub const AT_ALTERED: AtKinds<Altered> = AtKinds {
    wanted: ALTERED,
    kinds_of: |a| {
        a.row
            .iter()
            .fold(0, |kinds, post| kinds | bit_of(post.kind))
    },
};

const MOMENTS: &[WantedAt<Moment>] = &[
    ("an early strike recorded", SHORT, |m, kind| {
        m.early_strike(kind) && m.records()
    }),
    ("an early strike lost", ORDINARY, |m, kind| {
        m.early_strike(kind) && !m.records()
    }),
    ("an early strike, the section free", BOTH, |m, kind| {
        m.early_strike(kind) && m.up_upstream(RL)
    }),
    (
        "an early strike, an announcement under way",
        BOTH,
        |m, kind| m.early_strike(kind) && m.up_upstream(W314),
    ),
    ("an early strike, a release under way", BOTH, |m, kind| {
        m.early_strike(kind) && m.up_upstream(W241)
    }),
    ("an early strike at a jammed post", BOTH, |m, kind| {
        m.early_strike(kind) && m.up(JAM)
    }),
    ("a strike recorded, An up", BOTH, |m, kind| {
        m.strikes(kind) && m.up(AN) && m.records()
    }),
    ("a second strike, An up", BOTH, |m, kind| {
        m.strikes(kind) && m.up(AN) && m.up(KPG)
    }),
    ("a second strike, An down", SHORT, |m, kind| {
        m.strikes(kind) && !m.up(AN) && m.up(KPG)
    }),
    (
        "an announcement received after its passage",
        SHORT,
        |m, kind| m.arrives_where_one_waits(kind) && !m.jammed_downstream(),
    ),
    ("an announcement lost to a jam, KPg up", SHORT, |m, kind| {
        m.arrives_where_one_waits(kind) && m.jammed_downstream()
    }),
    ("a section restored, KPg up", SHORT, |m, kind| {
        m.is(10, 0) && m.waits_downstream(kind)
    }),
    ("6 taken after an early strike", SHORT, |m, kind| {
        m.is_at(6, 0, kind) && m.struck_early()
    }),
    ("7 taken after an early strike", &[18, 19], |m, kind| {
        m.is_at(7, 0, kind) && m.struck_early()
    }),
    ("13 after an early strike", &[18, 19, 20], |m, kind| {
        m.is_at(6, 13, kind) && m.struck_early()
    }),
    ("10 after an early strike", &[17], |m, kind| {
        m.is_at(6, 10, kind) && m.struck_early()
    }),
    ("11 for 6, KPg up", SHORT, |m, kind| {
        m.is_at(6, 11, kind) && m.up(KPG)
    }),
    ("11 for 7, KPg up", &[18, 19], |m, kind| {
        m.is_at(7, 11, kind) && m.up(KPG)
    }),
    ("22 for 6, KPg up and An down", SHORT, |m, kind| {
        m.is_at(6, 22, kind) && m.up(KPG) && !m.up(AN)
    }),
    ("jam taken, KPg up and An down", SHORT, |m, kind| {
        m.is_at(11, 0, kind) && m.up(KPG) && !m.up(AN)
    }),
    ("8 for 1", &[0, 2, 3, 4, 18, 19, 20], |m, kind| {
        m.is_at(1, 8, kind)
    }),
    ("9 for 5", &[0, 2, 3, 4, 18, 19, 20], |m, kind| {
        m.is_at(5, 9, kind)
    }),
    ("6 for 4", &[3, 4, 19, 20], |m, kind| m.is_at(4, 6, kind)),
    ("6 for 5", &[1, 17], |m, kind| m.is_at(5, 6, kind)),
    ("6 for 7", &[0, 1, 4, 17, 20], |m, kind| m.is_at(7, 6, kind)),
    ("L dropped by the signal pedal", &[0, 2, 18], |m, kind| {
        m.is_at(4, 0, kind) && m.up(L) && !m.up_after(L)
    }),
];

const ALTERED: &[WantedAt<Altered>] = &[
    ("valid, bit 8 up", BOTH, |a, kind| {
        a.valid && a.some_post(kind, |post| post.is_up(JAM))
    }),
    ("valid, KPg up and An down", SHORT, |a, kind| {
        a.valid && a.some_post(kind, waits)
    }),
    ("KPg up and An down, all else right", ORDINARY, |a, kind| {
        a.some_post(kind, waits) && a.wrong_only(|post, _| unrecord(post, kind))
    }),
    ("3 taken, An and KPg down", BOTH, |a, kind| {
        a.gets_at(3, 0, kind, |post| !post.is_up(AN | KPG))
    }),
    ("3 taken, KPg up and An down", SHORT, |a, kind| {
        a.gets_at(3, 0, kind, waits)
    }),
    ("11 for 6, KPg up", SHORT, |a, kind| {
        a.gets_at(6, 11, kind, waits)
    }),
    ("11 for 7, KPg up", &[18, 19], |a, kind| {
        a.gets_at(7, 11, kind, waits)
    }),
    ("12 for 6", BOTH, |a, kind| a.gets_at(6, 12, kind, |_| true)),
    ("13 for 6", &[2, 3, 4, 18, 19, 20], |a, kind| {
        a.gets_at(6, 13, kind, |_| true)
    }),
    ("10 for 6", &[1, 17], |a, kind| {
        a.gets_at(6, 10, kind, |_| true)
    }),
    ("22 for 6, KPg up and An down", SHORT, |a, kind| {
        a.gets_at(6, 22, kind, waits)
    }),
    ("no kind, all else right", &[5, 16, 21], |a, kind| {
        a.some_post(kind, |_| true) && a.right_but_for(kind)
    }),
];

/// Without the passage, where a post of this kind waits for its announcement.
fn unrecord(post: &mut Post, kind: u32) {
    if post.kind == kind && waits(post) {
        post.drop(KPG);
        post.q = post.q.wrapping_sub(1);
    }
}

impl Altered {
    fn some_post(&self, kind: u32, such: fn(&Post) -> bool) -> bool {
        self.row.iter().any(|post| post.kind == kind && such(post))
    }

    /// The event named has this number and this answer, at such a post of this kind.
    fn gets_at(&self, number: u32, answer: u32, kind: u32, such: fn(&Post) -> bool) -> bool {
        let at = self.gets(number, answer);
        at.is_some_and(|at| self.row[at].kind == kind && such(&self.row[at]))
    }

    /// Valid with some kind in the place of this number, which stands in one place.
    fn right_but_for(&self, number: u32) -> bool {
        let with = |kind: u32| {
            let mut mended = self.row.clone();
            for post in mended.iter_mut().filter(|post| post.kind == number) {
                post.kind = kind;
            }
            let kinds: Vec<u32> = mended.iter().map(|post| post.kind).collect();
            kinds_right(&kinds) && valid(&mended, self.head)
        };
        !self.valid && [0, 17, 18, 19, 20].into_iter().any(with)
    }
}
