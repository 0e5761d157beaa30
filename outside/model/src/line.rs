//! 01, What the desk is; One post's relays; A line that may be used. The jam, a relay
//! more, is of 02, item 2, and the short forms of the kinds are of 02, item 5.

use crate::number::{NOT_VALID, TAKEN};

/// 01, the table of kinds, and their short forms.
pub mod kind {
    pub const ORIGIN: u32 = 0;
    pub const TERMINUS: u32 = 1;
    pub const STATION_AT_PEDAL: u32 = 2;
    pub const STATION_AT_ANNOUNCEMENT: u32 = 3;
    pub const INTERMEDIATE: u32 = 4;

    /// 02, item 5: "Kinds 17, 18, 19 and 20 are the short forms of 1, 2, 3 and 4", and "all
    /// else said of a kind holds for its short form": so every rule asks this of a kind. What
    /// is no short form is its own; the origin has none, and 16 is no kind.
    pub fn ordinary(kind: u32) -> u32 {
        match kind {
            17 => TERMINUS,
            18 => STATION_AT_PEDAL,
            19 => STATION_AT_ANNOUNCEMENT,
            20 => INTERMEDIATE,
            _ => kind,
        }
    }

    pub fn is_short(kind: u32) -> bool {
        ordinary(kind) != kind
    }
}

/// 01, the table of relays: each bit's mask in the relay word.
pub mod relay {
    pub const AN: u32 = 1 << 0;
    pub const KPG: u32 = 1 << 1;
    pub const L: u32 = 1 << 2;
    pub const RL: u32 = 1 << 3;
    pub const LEVER: u32 = 1 << 4;
    pub const SIGNAL: u32 = 1 << 5;
    pub const W314: u32 = 1 << 6;
    pub const W241: u32 = 1 << 7;
    /// 02, item 2: "the jam is bit 8 of the relay word".
    pub const JAM: u32 = 1 << 8;
}

use relay::{AN, JAM, KPG, L, LEVER, RL, SIGNAL, W241, W314};

/// 01: the events taken are at most this many.
pub const COUNT_LIMIT: u32 = 1_000_000;

/// One post's record: its relays, its kind and its nine counts.
#[repr(C)]
#[derive(Clone, Copy, Debug, Default, PartialEq, Eq)]
pub struct Post {
    pub word: u32,
    pub kind: u32,
    /// Announcements sent (kept by the upstream post, as x, y, v and g are).
    pub a: u32,
    /// Announcements lost.
    pub x: u32,
    /// Releases lost.
    pub y: u32,
    /// Releases received.
    pub v: u32,
    /// Restorations.
    pub g: u32,
    /// Announcements received (kept by the downstream post, as q, e and c are).
    pub r: u32,
    /// Passages recorded.
    pub q: u32,
    /// Releases sent.
    pub e: u32,
    /// Garage releases among them.
    pub c: u32,
}

impl Post {
    pub fn is_up(&self, mask: u32) -> bool {
        self.word & mask != 0
    }

    pub fn raise(&mut self, mask: u32) {
        self.word |= mask;
    }

    pub fn drop(&mut self, mask: u32) {
        self.word &= !mask;
    }

    fn counts(&self) -> [u32; 9] {
        [
            self.a, self.x, self.y, self.v, self.g, self.r, self.q, self.e, self.c,
        ]
    }
}

/// The session head: events taken so far and the last stamp.
#[repr(C)]
#[derive(Clone, Copy, Debug, Default, PartialEq, Eq)]
pub struct Head {
    pub taken: u32,
    pub last: u32,
}

/// What a start or an event returns.
#[repr(C)]
#[derive(Clone, Copy, Debug, Default, PartialEq, Eq)]
pub struct Told {
    pub answer: u32,
    pub head: Head,
}

/// 01: N is 2 to 32; post 0 has kind 0, the last has kind 1, all others 2, 3 or 4.
pub fn kinds_right(kinds: &[u32]) -> bool {
    let n = kinds.len();
    (2..=32).contains(&n)
        && kinds[0] == kind::ORIGIN
        && kind::ordinary(kinds[n - 1]) == kind::TERMINUS
        && kinds[1..n - 1]
            .iter()
            .all(|&k| (2..=4).contains(&kind::ordinary(k)))
}

/// 01, Fresh line.
pub fn start(row: &mut [Post], kinds: &[u32], stamp: u32) -> Told {
    if !kinds_right(kinds) || row.len() != kinds.len() {
        return Told {
            answer: NOT_VALID,
            head: Head::default(),
        };
    }
    for (post, &kind) in row.iter_mut().zip(kinds) {
        let terminus = kind::ordinary(kind) == kind::TERMINUS;
        let word = if terminus { 0 } else { L | RL };
        *post = Post {
            word,
            kind,
            ..Post::default()
        };
    }
    Told {
        answer: TAKEN,
        head: Head {
            taken: 0,
            last: stamp,
        },
    }
}

/// 01, A line that may be used.
pub fn valid(row: &[Post], head: Head) -> bool {
    row_kinds_right(row)
        && row.iter().all(stays_down)
        && row.iter().all(stays_zero)
        && row
            .windows(2)
            .all(|pair| section_counts(&pair[0], &pair[1]))
        && row.iter().all(post_relays)
        && row
            .windows(2)
            .all(|pair| section_relays(&pair[0], &pair[1]))
        && head.taken <= COUNT_LIMIT
        && row
            .iter()
            .all(|post| post.counts().iter().all(|&count| count <= head.taken))
}

/// "It has 2 to 32 records, its kinds are right."
fn row_kinds_right(row: &[Post]) -> bool {
    if row.len() > 32 {
        return false;
    }
    let mut kinds = [0; 32];
    for (kind, post) in kinds.iter_mut().zip(row) {
        *kind = post.kind;
    }
    kinds_right(&kinds[..row.len()])
}

/// "All other bits are zero. An and KPg stay down at the origin; L, RL and both
/// W bits stay down at the terminus." The jam is "down on a fresh line and at the
/// origin" (02, item 2).
fn stays_down(post: &Post) -> bool {
    let others = !(AN | KPG | L | RL | LEVER | SIGNAL | W314 | W241 | JAM);
    let here = match kind::ordinary(post.kind) {
        kind::ORIGIN => AN | KPG | JAM,
        kind::TERMINUS => L | RL | W314 | W241,
        _ => 0,
    };
    !post.is_up(others) && !post.is_up(here)
}

/// "Counts that a post can't have are zero, c also at kinds 1 and 4." The origin
/// is downstream of nothing, the terminus is upstream of nothing.
fn stays_zero(post: &Post) -> bool {
    let upstream_counts = [post.a, post.x, post.y, post.v, post.g];
    let downstream_counts = [post.r, post.q, post.e, post.c];
    let upstream_zero = upstream_counts.iter().all(|&count| count == 0);
    let downstream_zero = downstream_counts.iter().all(|&count| count == 0);
    match kind::ordinary(post.kind) {
        kind::ORIGIN => downstream_zero,
        kind::TERMINUS => upstream_zero && post.c == 0,
        kind::INTERMEDIATE => post.c == 0,
        _ => true,
    }
}

/// "For each section: h equals a - v - g; a = r + x + W314; e = v + y + W241;
/// r - e equals An of the downstream post; e = q - KPg; c is at most e." These
/// are plain numbers of any 32-bit value, so the sums are made in 64 bits.
fn section_counts(up: &Post, down: &Post) -> bool {
    let one_if = i64::from;
    let [a, x, y, v, g] = [up.a, up.x, up.y, up.v, up.g].map(i64::from);
    let [r, q, e, c] = [down.r, down.q, down.e, down.c].map(i64::from);
    let h = one_if(!up.is_up(RL));
    h == a - v - g
        && a == r + x + one_if(up.is_up(W314))
        && e == v + y + one_if(up.is_up(W241))
        && r - e == one_if(down.is_up(AN))
        && e == q - one_if(down.is_up(KPG))
        && c <= e
}

/// "For each post but the terminus: ..." to "KPg requires An.", which "now holds at ordinary
/// posts only" (02, item 5).
fn post_relays(post: &Post) -> bool {
    let [l, rl, lever, signal] = [L, RL, LEVER, SIGNAL].map(|mask| post.is_up(mask));
    let ordinary = kind::ordinary(post.kind);
    let rl_rule = ordinary == kind::TERMINUS || rl || (!l && !lever);
    let kind_rule = match ordinary {
        kind::ORIGIN | kind::STATION_AT_PEDAL => !lever || signal == l,
        kind::STATION_AT_ANNOUNCEMENT | kind::INTERMEDIATE => l == rl && signal == lever,
        _ => true,
    };
    let signal_rule = !signal || lever;
    let passage_rule = kind::is_short(post.kind) || !post.is_up(KPG) || post.is_up(AN);
    rl_rule && kind_rule && signal_rule && passage_rule
}

/// "At most one of An (downstream), W314, W241 is up in a section, and each
/// requires RL down."
fn section_relays(up: &Post, down: &Post) -> bool {
    let held_by = [down.is_up(AN), up.is_up(W314), up.is_up(W241)];
    let how_many = held_by.iter().filter(|&&is_up| is_up).count();
    how_many <= 1 && (how_many == 0 || !up.is_up(RL))
}
