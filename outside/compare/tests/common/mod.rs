//! A small run against a desk in this process, and desks with other events. Each test
//! uses some of it.
#![allow(dead_code)]

pub mod tracks;

use compare::cases::{sorts, Wanted};
use compare::desk::{Desk, InProcess};
use compare::run::{compare, compare_sorts, Difference};
use compare::tally::Tally;
use model::{Head, Post, Told};

pub const SMALL: Wanted = Wanted {
    events: 20_000,
    rows: 20_000,
    sheets: 4_000,
    questions: 2_000,
    texts: 20_000,
    blocks: 4_000,
};

pub fn small_run(desk: impl Desk) -> Result<Tally, Difference> {
    compare(&sorts(), 1, SMALL, &mut InProcess(desk))
}

pub fn must_differ(name: &str, desk: impl Desk) {
    is_found(name, small_run(desk));
}

fn is_found(name: &str, run: Result<Tally, Difference>) {
    match run {
        Ok(_) => panic!("not found: {name}"),
        Err(difference) => println!("{name}: {}, {}", difference.name, difference.text),
    }
}

/// A small run of these sorts of cases alone.
pub fn compare_only(names: &[&str], desk: impl Desk) -> Result<Tally, Difference> {
    compare_sorts(&sorts(), 1, SMALL, names, &mut InProcess(desk))
}

pub fn must_differ_on(names: &[&str], name: &str, desk: impl Desk) {
    is_found(name, compare_only(names, desk));
}

pub type Played<'a> = (&'a mut [Post], Head, [u32; 3]);

/// A desk whose events are the model's, with a word put in.
pub struct Events(pub fn(Played) -> Told);

impl Desk for Events {
    fn event(&mut self, row: &mut [Post], head: Head, step: [u32; 3]) -> Told {
        (self.0)((row, head, step))
    }
}

pub fn right((row, head, [number, place, stamp]): Played) -> Told {
    model::event(row, head, number, place, stamp)
}

pub fn refused(answer: u32, head: Head) -> Told {
    Told { answer, head }
}

/// The model's event, and then a change to the post that it names and the one downstream,
/// where this holds: by the post and the one downstream before it, and its number.
pub fn changed(
    (row, head, step): Played,
    holds: impl Fn(&Post, &Post, u32) -> bool,
    change: fn(&mut Post, &mut Post),
) -> Told {
    let before = row.to_vec();
    let told = right((&mut *row, head, step));
    let at = step[1] as usize;
    let mut next = Post::default();
    if told.answer == 0 && holds(&before[at], before.get(at + 1).unwrap_or(&next), step[0]) {
        let (front, back) = row.split_at_mut(at + 1);
        change(&mut front[at], back.first_mut().unwrap_or(&mut next));
    }
    told
}

/// The same event, but another answer where this gives one: by the row before it, its
/// number and place, and the right answer. 0 is taken with no effect.
pub fn answered(
    (row, head, step): Played,
    other: impl Fn(&[Post], u32, usize, u32) -> Option<u32>,
) -> Told {
    let mut after = row.to_vec();
    let told = right((&mut after, head, step));
    match other(row, step[0], step[1] as usize, told.answer) {
        Some(0) => Told {
            answer: 0,
            head: Head {
                taken: head.taken + 1,
                last: step[2],
            },
        },
        Some(answer) => refused(answer, head),
        None => {
            row.copy_from_slice(&after);
            told
        }
    }
}

/// The first of these that holds.
pub fn first(list: &[(bool, u32)]) -> Option<u32> {
    list.iter().find(|(holds, _)| *holds).map(|pair| pair.1)
}
