//! Lines whose relays are chosen first and whose counts then follow from them, so
//! that one rule on relays can be broken alone.

use model::{kind, relay, Post};

use crate::alterations::{most_count, Alteration};
use crate::histories::{some_posts, Play};
use crate::random::Random;
use crate::tables::table;

/// Relays chosen within the rules, one post and its section downstream at a time.
fn right_relays(random: &mut Random, row: &mut [Post]) {
    use relay::{AN, JAM, KPG, L, LEVER, RL, SIGNAL, W241, W314};
    for at in 0..row.len() {
        let ordinary = kind::ordinary(row[at].kind);
        if ordinary == 1 {
            row[at].word |= random.pick(&[0, LEVER, LEVER | SIGNAL]);
        } else if random.chance(50) {
            let (here, down) = random.pick(&[(0, 0), (0, AN), (0, AN | KPG), (W314, 0), (W241, 0)]);
            row[at].word |= here;
            row[at + 1].word |= down;
        } else if ordinary == 3 || ordinary == 4 {
            row[at].word |= RL | L | random.pick(&[0, LEVER | SIGNAL]);
        } else {
            row[at].word |= RL | random.pick(&[0, L, LEVER, L | LEVER | SIGNAL]);
        }
    }
    // The jam goes with all of them, and so does a passage at a short post; the origin has
    // neither.
    for post in &mut row[1..] {
        post.word |= random.pick(&[0, 0, 0, JAM]);
        if kind::is_short(post.kind) {
            post.word |= random.pick(&[0, 0, 0, KPG]);
        }
    }
}

/// Counts that meet every rule on a section's counts under the relays it has: x,
/// y, v and c are free, the others follow.
fn solve_counts(random: &mut Random, row: &mut [Post], most: u32) {
    let one_if = |is_up: bool| u32::from(is_up);
    for at in 0..row.len() - 1 {
        let (up, down) = (row[at], row[at + 1]);
        let h = one_if(!up.is_up(relay::RL));
        let under_way = [relay::W314, relay::W241].map(|mask| one_if(up.is_up(mask)));
        let [w314, w241] = under_way;
        let recorded = one_if(down.is_up(relay::AN));
        let (mut x, y, v) = (
            random.small(0, 3),
            random.small(0, 3),
            random.small(0, most),
        );
        if x + y + w241 + w314 + recorded < h {
            x += 1;
        }
        let e = v + y + w241;
        row[at + 1].e = e;
        row[at + 1].q = e + one_if(down.is_up(relay::KPG));
        row[at + 1].r = e + recorded;
        if matches!(kind::ordinary(down.kind), 2 | 3) {
            row[at + 1].c = random
                .small(0, e.min(3))
                .max(if random.chance(30) { e } else { 0 });
        }
        row[at].a = e + recorded + x + w314;
        row[at].x = x;
        row[at].y = y;
        row[at].v = v;
        row[at].g = row[at].a - v - h;
    }
}

/// A line of right relays, altered, whose counts then follow from its relays.
pub fn solved(random: &mut Random, change: Alteration) -> Play {
    let posts = some_posts(random);
    solved_of(random, posts, change)
}

/// The same of so many posts.
pub fn solved_of(random: &mut Random, posts: usize, change: Alteration) -> Play {
    let kinds = table(random, posts);
    let mut play = Play::from_start(&kinds, random.edge_word());
    play.row.iter_mut().for_each(|post| post.word = 0);
    right_relays(random, &mut play.row);
    change(random, &mut play);
    let most = random.pick(&[0, 3, 1000]);
    solve_counts(random, &mut play.row, most);
    play.head.taken = most_count(&play.row) + random.small(0, 3);
    play
}
