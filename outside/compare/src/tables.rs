//! Tables of kinds: right ones, in which short posts (02, item 5) stand as often as ordinary
//! ones, and any number put in one place of a right one.

use model::kind;

use crate::random::Random;

/// The kinds, and the numbers at and about the short forms: 16 and 21 are no kinds.
pub const KINDS: [u32; 9] = [0, 1, 2, 3, 4, 17, 18, 19, 20];
pub const ABOUT_SHORT: [u32; 6] = [16, 17, 18, 19, 20, 21];

/// Next to a kind, or the same as one in their lower bits.
const NO_KINDS: [u32; 16] = [
    5,
    6,
    7,
    15,
    16,
    21,
    22,
    31,
    33,
    49,
    50,
    256,
    256 + 17,
    0x8000_0002,
    0x8000_0012,
    u32::MAX,
];

/// What the number of a short form has more than that of its ordinary one.
const MORE: u32 = 16;

/// A kind but the origin's in its ordinary form or its short one, each as often.
pub fn in_some_form(random: &mut Random, ordinary: u32) -> u32 {
    random.pick(&[ordinary, ordinary + MORE])
}

/// The other form of a kind; the origin has none.
pub fn other_form(kind: u32) -> u32 {
    match kind::ordinary(kind) {
        ordinary if ordinary != kind => ordinary,
        1..=4 => kind + MORE,
        _ => kind,
    }
}

/// Some kind for a post between two others.
pub fn kind_inside(random: &mut Random) -> u32 {
    let ordinary = random.small(2, 4);
    in_some_form(random, ordinary)
}

/// A right table of this many ordinary posts.
pub fn ordinary_table(random: &mut Random, posts: usize) -> Vec<u32> {
    let mut kinds: Vec<u32> = (0..posts).map(|_| random.small(2, 4)).collect();
    kinds[0] = 0;
    kinds[posts - 1] = 1;
    kinds
}

/// A right table of this many posts.
pub fn table(random: &mut Random, posts: usize) -> Vec<u32> {
    let mut kinds = ordinary_table(random, posts);
    for kind in &mut kinds[1..] {
        *kind = in_some_form(random, *kind);
    }
    kinds
}

/// A place in a table. Post 31 is the last that a table can have.
#[derive(Clone, Copy, Debug, PartialEq, Eq, PartialOrd, Ord)]
pub enum Place {
    First,
    Inside,
    Last,
    Post31,
}

impl Place {
    pub fn name(self) -> &'static str {
        match self {
            Place::First => "first",
            Place::Inside => "inside",
            Place::Last => "last",
            Place::Post31 => "at post 31",
        }
    }

    /// Some post at this place; inside a table of two there is none, and so the last.
    pub fn some_post(self, random: &mut Random, posts: usize) -> usize {
        match self {
            Place::First => 0,
            Place::Inside if posts > 2 => random.between(1, posts - 2),
            _ => posts - 1,
        }
    }

    pub fn of(post: usize, posts: usize) -> Place {
        match post {
            0 => Place::First,
            _ if post + 1 == posts => Place::Last,
            _ => Place::Inside,
        }
    }
}

/// Any number in the place of a kind, most often one at or about the short forms.
pub fn any_number(random: &mut Random) -> u32 {
    match random.below(8) {
        0 => random.pick(&KINDS),
        1 => random.pick(&NO_KINDS),
        _ => random.pick(&ABOUT_SHORT),
    }
}

/// The same in this place of a table.
pub fn put_number(random: &mut Random, kinds: &mut [u32], place: Place) {
    let at = place.some_post(random, kinds.len());
    kinds[at] = any_number(random);
}
