//! Starts of two tracks: right ones, tables of two lengths, rows of another length, each table
//! wrong, and numbers that are no circuit.

use crate::random::Random;
use crate::request::Request;
use crate::starts::lent;
use crate::tables::{put_number, table, Place};
use crate::tracks::request::{Tables, TrackRequest};
use crate::tracks::two::{some_neither, tables_of, CIRCUITS};
use crate::variety::Variety;

pub const STARTS: &[Variety] = &[
    ("right", |random| {
        let posts = random.between(2, 32);
        of_posts(random, posts)
    }),
    ("right, of length 2 or 32", |random| {
        let posts = random.pick(&[2, 32]);
        of_posts(random, posts)
    }),
    ("too short or too long", |random| {
        let posts = random.pick(&[33, 34, 40]);
        let short: [&[u32]; 4] = [&[], &[0], &[1], &[17]];
        if random.chance(50) {
            return of_posts(random, posts);
        }
        let tables = [random.pick(&short).to_vec(), random.pick(&short).to_vec()];
        right_rows(random, tables)
    }),
    ("tables of two lengths", |random| {
        let tables = two_lengths(random);
        right_rows(random, tables)
    }),
    ("tables of two lengths, rows of one", |random| {
        let tables = two_lengths(random);
        let rows = tables[random.below(2)].len();
        let circuit = random.pick(&CIRCUITS);
        start(random, tables, [rows, rows], circuit)
    }),
    ("track 1's row of another length", |random| {
        another_row(random, 0)
    }),
    ("track 2's row of another length", |random| {
        another_row(random, 1)
    }),
    ("any number in track 1's table", |random| {
        any_number(random, 0)
    }),
    ("any number in track 2's table", |random| {
        any_number(random, 1)
    }),
    ("no circuit", |random| {
        let posts = random.between(2, 32);
        let tables = tables_of(random, posts);
        let circuit = some_neither(random);
        start(random, tables, [posts, posts], circuit)
    }),
];

fn of_posts(random: &mut Random, posts: usize) -> Request {
    let tables = tables_of(random, posts);
    right_rows(random, tables)
}

/// Right tables, of which one has more posts than the other, often by one.
fn two_lengths(random: &mut Random) -> Tables {
    let shorter = random.between(2, 31);
    let longer = random.between(shorter + 1, 32);
    let longer = random.pick(&[shorter + 1, longer]);
    let mut tables = [table(random, shorter), table(random, longer)];
    if random.chance(50) {
        tables.reverse();
    }
    tables
}

fn another_row(random: &mut Random, track: usize) -> Request {
    let posts = random.between(2, 32);
    let tables = tables_of(random, posts);
    let mut rows = [posts, posts];
    rows[track] = random.pick(&[0, 1, posts - 1, posts + 1, 33, 64]);
    let circuit = random.pick(&CIRCUITS);
    start(random, tables, rows, circuit)
}

fn any_number(random: &mut Random, track: usize) -> Request {
    let posts = random.between(2, 32);
    let mut tables = tables_of(random, posts);
    let place = random.pick(&[Place::First, Place::Inside, Place::Last]);
    put_number(random, &mut tables[track], place);
    right_rows(random, tables)
}

fn right_rows(random: &mut Random, tables: Tables) -> Request {
    let rows = [tables[0].len(), tables[1].len()];
    let circuit = random.pick(&CIRCUITS);
    start(random, tables, rows, circuit)
}

fn start(random: &mut Random, tables: Tables, rows: [usize; 2], circuit: u32) -> Request {
    let rows = rows.map(|records| lent(random, records));
    Request::Tracks(TrackRequest::Start {
        rows,
        tables,
        circuit,
        stamp: random.edge_word(),
    })
}
