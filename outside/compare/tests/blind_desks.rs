//! Desks that are blind to one rule of a valid line: each takes the line as if
//! that rule had been mended. So every rule is broken alone by some case, and what is asked
//! of a kind is broken alone in each of its forms. And desks that ask more than the rules.

mod common;

use common::must_differ;
use compare::desk::Desk;
use compare::request::post_words;
use compare::strikes::waits;
use model::kind::{is_short, ordinary};
use model::relay::{AN, JAM, KPG, L, LEVER, RL, SIGNAL, W241, W314};
use model::{Head, Post, Told, COUNT_LIMIT};

/// Mends one rule, and no other.
type Mend = fn(&mut [Post], &mut Head);
type PostMend = fn(&mut Post);

struct Blind<M>(M);

impl<M: Fn(&mut [Post], &mut Head)> Blind<M> {
    /// The line as this desk takes it. A valid one has nothing to mend.
    fn mended(&self, row: &[Post], head: Head) -> (Vec<Post>, Head) {
        let (mut mended, mut mended_head) = (row.to_vec(), head);
        (self.0)(&mut mended, &mut mended_head);
        let same = mended == row && mended_head == head;
        assert!(same || !model::valid(row, head), "a valid line was mended");
        (mended, mended_head)
    }
}

impl<M: Fn(&mut [Post], &mut Head)> Desk for Blind<M> {
    fn valid(&mut self, row: &[Post], head: Head) -> bool {
        let (row, head) = self.mended(row, head);
        model::valid(&row, head)
    }

    fn event(&mut self, row: &mut [Post], head: Head, step: [u32; 3]) -> Told {
        let [number, place, stamp] = step;
        let (mut mended, mended_head) = self.mended(row, head);
        let told = model::event(&mut mended, mended_head, number, place, stamp);
        if told.answer == 0 {
            row.copy_from_slice(&mended);
            return told;
        }
        let answer = told.answer;
        Told { answer, head }
    }
}

fn each_post(row: &mut [Post], mend: impl Fn(&mut Post)) {
    row.iter_mut().for_each(mend);
}

/// Mends each section, given as its upstream and its downstream post.
fn each_section(row: &mut [Post], mend: impl Fn(&mut Post, &mut Post)) {
    for at in 1..row.len() {
        let (front, back) = row.split_at_mut(at);
        mend(&mut front[at - 1], &mut back[0]);
    }
}

fn one_if(post: &Post, mask: u32) -> u32 {
    u32::from(post.is_up(mask))
}

/// Rules on one post by itself: each holds for a kind in both its forms.
const POSTS: &[(&str, PostMend)] = &[
    ("other bits are zero", |p| p.word &= 0x1FF),
    ("bit 9 is zero", |p| p.drop(1 << 9)),
    ("L, RL, W bits down at the terminus", |p| {
        if ordinary(p.kind) == 1 {
            p.drop(L | RL | W314 | W241)
        }
    }),
    ("RL down requires L down", |p| {
        if ordinary(p.kind) != 1 && !p.is_up(RL) {
            p.drop(L)
        }
    }),
    ("RL down requires lever normal", |p| {
        if ordinary(p.kind) != 1 && !p.is_up(RL | L) {
            p.drop(LEVER | SIGNAL)
        }
    }),
    ("kinds 0 and 2: signal as L", |p| {
        if matches!(ordinary(p.kind), 0 | 2) && p.is_up(LEVER) {
            p.drop(SIGNAL);
            p.word |= SIGNAL * one_if(p, L);
        }
    }),
    ("kinds 3 and 4: L as RL", |p| {
        if matches!(ordinary(p.kind), 3 | 4) {
            p.drop(L);
            p.word |= L * one_if(p, RL);
        }
    }),
    ("kinds 3 and 4: signal as lever", |p| {
        if matches!(ordinary(p.kind), 3 | 4) {
            p.drop(SIGNAL);
            p.word |= SIGNAL * one_if(p, LEVER);
        }
    }),
    ("open signal requires reversed lever", |p| {
        if !p.is_up(LEVER) {
            p.drop(SIGNAL)
        }
    }),
    ("the same at the terminus alone", |p| {
        if ordinary(p.kind) == 1 && !p.is_up(LEVER) {
            p.drop(SIGNAL)
        }
    }),
    ("c is at most e", |p| {
        if matches!(ordinary(p.kind), 2 | 3) {
            p.c = p.c.min(p.e)
        }
    }),
    ("c is zero at kind 1", |p| {
        p.c *= u32::from(ordinary(p.kind) != 1)
    }),
    ("c is zero at kind 4", |p| {
        p.c *= u32::from(ordinary(p.kind) != 4)
    }),
    ("the terminus' a, x, y, v, g are zero", |p| {
        if ordinary(p.kind) == 1 {
            (p.a, p.x, p.y, p.v, p.g) = (0, 0, 0, 0, 0)
        }
    }),
];

const RELAYS: &[(&str, Mend)] = &[
    ("the jam is down at the origin", |row, _| {
        each_post(row, |p| {
            if p.kind == 0 {
                p.drop(JAM)
            }
        })
    }),
    ("An and KPg down at the origin", |row, _| {
        each_post(row, |p| {
            if p.kind == 0 {
                p.drop(AN | KPG)
            }
        })
    }),
    ("KPg requires An at ordinary posts", |row, _| {
        each_post(row, |p| {
            if !is_short(p.kind) {
                unrecorded(p)
            }
        })
    }),
    ("An requires RL down", |row, _| {
        each_section(row, |up, down| hold(up, down.is_up(AN)))
    }),
    ("W314 requires RL down", |row, _| {
        each_section(row, |up, _| hold(up, up.is_up(W314)))
    }),
    ("W241 requires RL down", |row, _| {
        each_section(row, |up, _| hold(up, up.is_up(W241)))
    }),
    ("at most one: An and W314", |row, _| {
        each_section(row, |up, down| {
            if down.is_up(AN) && up.is_up(W314) {
                up.drop(W314);
                up.a = up.a.wrapping_sub(1);
                up.g = up.g.wrapping_sub(1);
            }
        })
    }),
    ("at most one: W241 and W314", |row, _| {
        each_section(row, |up, _| {
            if up.is_up(W241) && up.is_up(W314) {
                up.drop(W314);
                up.a = up.a.wrapping_sub(1);
                up.g = up.g.wrapping_sub(1);
            }
        })
    }),
    ("at most one: An and W241", |row, _| {
        each_section(row, |up, down| {
            if down.is_up(AN) && up.is_up(W241) {
                up.drop(W241);
                up.y = up.y.wrapping_add(1);
            }
        })
    }),
];

/// Where a passage is recorded and no announcement, the passage is not.
fn unrecorded(p: &mut Post) {
    if waits(p) {
        p.drop(KPG);
        p.q = p.q.wrapping_sub(1);
    }
}

/// A section that is held has RL down, and L and the lever as that asks.
fn hold(up: &mut Post, held: bool) {
    if held && up.is_up(RL) {
        up.drop(RL | L | LEVER | SIGNAL);
        up.g = up.g.wrapping_sub(1);
    }
}

const COUNTS: &[(&str, Mend)] = &[
    ("h = a - v - g", |row, _| {
        each_section(row, |up, _| {
            let h = 1 - one_if(up, RL);
            up.g = up.a.wrapping_sub(up.v).wrapping_sub(h);
        })
    }),
    ("a = r + x + W314", |row, _| {
        each_section(row, |up, down| {
            let w314 = one_if(up, W314);
            up.x = up.a.wrapping_sub(down.r).wrapping_sub(w314);
        })
    }),
    ("e = v + y + W241", |row, _| {
        each_section(row, |up, down| {
            let w241 = one_if(up, W241);
            up.y = down.e.wrapping_sub(up.v).wrapping_sub(w241);
        })
    }),
    ("r - e = An", |row, _| {
        each_section(row, |up, down| {
            let right = down.e.wrapping_add(one_if(down, AN));
            up.x = up.x.wrapping_add(down.r).wrapping_sub(right);
            down.r = right;
        })
    }),
    ("e = q - KPg", |row, _| {
        each_section(row, |_, down| {
            down.q = down.e.wrapping_add(one_if(down, KPG));
        })
    }),
    ("the origin's r, q, e, c are zero", |row, _| {
        each_post(row, |p| {
            if p.kind == 0 {
                (p.r, p.q, p.e, p.c) = (0, 0, 0, 0)
            }
        })
    }),
    ("taken is at most 1,000,000", |_, head| {
        head.taken = head.taken.min(COUNT_LIMIT)
    }),
    ("no count is greater than taken", |row, head| {
        let counts = |p: &Post| post_words(p)[2..].iter().copied().max();
        let most = row.iter().filter_map(counts).max().unwrap_or(0);
        head.taken = head.taken.max(most.min(COUNT_LIMIT))
    }),
    ("e = q - KPg at short posts", |row, _| {
        each_section(row, |_, down| {
            if is_short(down.kind) {
                down.q = down.e.wrapping_add(one_if(down, KPG));
            }
        })
    }),
    ("a kind inside is 2, 3 or 4", |row, _| {
        let posts = row.len();
        for post in row.iter_mut().take(posts.max(1) - 1).skip(1) {
            if !(2..=4).contains(&ordinary(post.kind)) {
                post.kind = 4;
            }
        }
    }),
    ("16 is no kind of an origin", |row, _| {
        each_place(row, 16, |at, _| (at == 0).then_some(0))
    }),
    ("16 is no kind inside", |row, _| {
        each_place(row, 16, |at, posts| inside(at, posts).then_some(4))
    }),
    ("21 is no kind inside", |row, _| {
        each_place(row, 21, |at, posts| inside(at, posts).then_some(4))
    }),
    ("17 is no kind inside", |row, _| {
        each_place(row, 17, |at, posts| inside(at, posts).then_some(20))
    }),
    ("21 is no kind of a terminus", |row, _| {
        each_place(row, 21, |at, posts| (at + 1 == posts).then_some(17))
    }),
];

/// Where this number stands for a kind, another, by its place and how many there are.
fn each_place(row: &mut [Post], number: u32, kind: fn(usize, usize) -> Option<u32>) {
    let posts = row.len();
    for (at, post) in row.iter_mut().enumerate() {
        if post.kind == number {
            post.kind = kind(at, posts).unwrap_or(number);
        }
    }
}

fn inside(at: usize, posts: usize) -> bool {
    at > 0 && at + 1 < posts
}

#[test]
fn a_desk_blind_to_a_rule_on_relays_is_found() {
    for (name, mend) in RELAYS {
        must_differ(name, Blind(*mend));
    }
}

#[test]
fn a_desk_blind_to_a_rule_on_counts_is_found() {
    for (name, mend) in COUNTS {
        must_differ(name, Blind(*mend));
    }
}

/// Everywhere, and then at the posts of one form alone.
#[test]
fn a_desk_blind_to_a_rule_on_a_post_is_found() {
    for &(name, mend) in POSTS {
        must_differ(
            name,
            Blind(move |row: &mut [Post], _: &mut Head| each_post(row, mend)),
        );
        for short in [false, true] {
            let blind = move |row: &mut [Post], _: &mut Head| {
                each_post(row, |p| {
                    if is_short(p.kind) == short {
                        mend(p)
                    }
                })
            };
            must_differ(&format!("{name}, short: {short}"), Blind(blind));
        }
    }
}

#[test]
fn a_desk_blind_to_the_passage_rule_at_one_kind_is_found() {
    for kind in 1..=4 {
        let blind = move |row: &mut [Post], _: &mut Head| {
            each_post(row, |p| {
                if p.kind == kind {
                    unrecorded(p)
                }
            })
        };
        must_differ(&format!("KPg requires An at kind {kind}"), Blind(blind));
    }
}

/// A line is not valid if this holds of one of its posts.
struct Strict<R>(R);

impl<R: Fn(&Post) -> bool> Desk for Strict<R> {
    fn valid(&mut self, row: &[Post], head: Head) -> bool {
        model::valid(row, head) && !row.iter().any(&self.0)
    }

    fn event(&mut self, row: &mut [Post], head: Head, step: [u32; 3]) -> Told {
        if row.iter().any(&self.0) {
            return Told { answer: 1, head };
        }
        let [number, place, stamp] = step;
        model::event(row, head, number, place, stamp)
    }
}

#[test]
fn a_desk_that_asks_an_announcement_of_a_short_post_is_found() {
    for kind in 17..=20 {
        let asks = move |p: &Post| p.kind == kind && waits(p);
        must_differ(&format!("KPg requires An at kind {kind}"), Strict(asks));
    }
    must_differ("no short post", Strict(|p: &Post| is_short(p.kind)));
    must_differ("a passage at a jammed short post", {
        Strict(|p: &Post| is_short(p.kind) && p.is_up(JAM) && p.is_up(KPG))
    });
}
