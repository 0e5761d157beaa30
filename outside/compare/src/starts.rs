//! Starts: right and wrong tables, rows of another length.

use model::Post;

use crate::random::Random;
use crate::request::{post_of, Request, POST_WORDS};
use crate::tables::{any_number, put_number, table, Place, KINDS};
use crate::variety::Variety;

pub const STARTS: &[Variety] = &[
    ("right", |random| {
        let posts = random.between(2, 32);
        let kinds = table(random, posts);
        start(random, kinds, posts)
    }),
    ("right, of length 2 or 32", |random| {
        let posts = random.pick(&[2, 32]);
        let kinds = table(random, posts);
        start(random, kinds, posts)
    }),
    ("right-looking, too short", |random| {
        let kinds = random.pick(&[&[] as &[u32], &[0], &[1], &[17]]).to_vec();
        let posts = kinds.len();
        start(random, kinds, posts)
    }),
    ("right-looking, too long", |random| {
        let posts = random.pick(&[33, 34, 40, 64]);
        let kinds = table(random, posts);
        start(random, kinds, posts)
    }),
    ("right table, another row length", |random| {
        let posts = random.between(2, 32);
        let kinds = table(random, posts);
        let row = random.pick(&[0, 1, 2, posts - 1, posts + 1, 32, 33, 64]);
        start(random, kinds, row)
    }),
    ("kind out of range", |random| {
        let kind = random.pick(&[5, 6, 16, 21, 31, 256, 0x8000_0002, u32::MAX]);
        one_kind(random, kind)
    }),
    ("origin or terminus inside", |random| {
        let kind = random.pick(&[0, 1, 17]);
        one_kind(random, kind)
    }),
    ("any number first", |random| any_at(random, Place::First)),
    ("any number inside", |random| any_at(random, Place::Inside)),
    ("any number last", |random| any_at(random, Place::Last)),
    ("any table", |random| {
        let posts = random.between(0, 64);
        let kinds = (0..posts).map(|_| random.pick(&KINDS)).collect();
        start(random, kinds, posts)
    }),
    ("any numbers", |random| {
        let posts = random.between(0, 64);
        let kinds = (0..posts).map(|_| any_number(random)).collect();
        start(random, kinds, posts)
    }),
];

/// Any number in this place of a right table.
fn any_at(random: &mut Random, place: Place) -> Request {
    let posts = random.between(2, 32);
    let mut kinds = table(random, posts);
    put_number(random, &mut kinds, place);
    start(random, kinds, posts)
}

/// One post has this kind, most often one inside.
fn one_kind(random: &mut Random, kind: u32) -> Request {
    let posts = random.between(3, 32);
    let mut kinds = table(random, posts);
    let at = random.between(1, posts - 1);
    kinds[at] = kind;
    start(random, kinds, posts)
}

fn start(random: &mut Random, kinds: Vec<u32>, row: usize) -> Request {
    let row = lent(random, row);
    let stamp = random.edge_word();
    Request::Start { row, kinds, stamp }
}

/// The row is lent with any words in it, so that what stays can be seen.
pub fn lent(random: &mut Random, records: usize) -> Vec<Post> {
    (0..records)
        .map(|_| {
            let mut words = [0; POST_WORDS];
            words.fill_with(|| random.word());
            post_of(&words)
        })
        .collect()
}
