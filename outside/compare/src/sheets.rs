//! Good sheets of lively histories, and the words of their blocks.

use model::{renew_check, Entry, BLOCK_BYTES, EVENTS_PER_BLOCK, MOST_EVENTS, UNANSWERED};

use crate::histories::{lively_event, near_stamp, some_posts, Next, Play};
use crate::random::Random;
use crate::tables::table;

/// A table, a start stamp and events.
#[derive(Clone)]
pub struct Sheet {
    pub kinds: Vec<u32>,
    pub stamp: u32,
    pub events: Vec<Entry>,
}

impl Sheet {
    pub fn length(&self) -> usize {
        BLOCK_BYTES * (1 + self.events.len().div_ceil(EVENTS_PER_BLOCK))
    }

    pub fn bytes(&self) -> Vec<u8> {
        let mut out = vec![0; self.length()];
        let number = model::write(&self.kinds, self.stamp, &self.events, &mut out);
        assert_eq!(number, 0, "the generator's sheets can be written");
        out
    }

    /// The sheet that these bytes are, if they are a good one.
    pub fn of(bytes: &[u8]) -> Option<Sheet> {
        let (mut kinds, mut events) = (vec![0; 32], vec![[0; 4]; MOST_EVENTS]);
        let found = model::read(bytes, &mut kinds, &mut events);
        kinds.truncate(found.posts as usize);
        events.truncate(found.events as usize);
        (found.number == 0).then_some(Sheet {
            kinds,
            stamp: found.stamp,
            events,
        })
    }

    /// The same events with the answers that working gives them.
    pub fn worked(mut self) -> Sheet {
        let mut play = Play::from_start(&self.kinds, self.stamp);
        for [number, place, answer, stamp] in &mut self.events {
            *answer = play.take([*number, *place, *stamp]);
        }
        self
    }
}

/// Mostly few events; often just as many as fill a block.
pub fn some_count(random: &mut Random) -> usize {
    match random.below(100) {
        0..=9 => 0,
        10..=49 => random.between(1, 10),
        50..=74 => random.between(11, 59),
        75..=89 => random.pick(&[59, 60, 60, 61, 62]),
        90..=95 => random.pick(&[119, 120, 120, 121]),
        _ => random.between(62, 200),
    }
}

/// An unanswered sheet of a lively history of at least so many events.
pub fn some(random: &mut Random, least: usize) -> Sheet {
    let posts = some_posts(random);
    let count = some_count(random);
    let count = count + if count < least { least } else { 0 };
    lively_sheet(random, posts, count)
}

pub fn lively_sheet(random: &mut Random, posts: usize, count: usize) -> Sheet {
    sheet_by(random, posts, count, lively_event)
}

/// An unanswered sheet of a history of such events.
pub fn sheet_by(random: &mut Random, posts: usize, count: usize, next: Next) -> Sheet {
    let kinds = table(random, posts);
    sheet_on(random, kinds, count, next)
}

/// The same on this table.
pub fn sheet_on(random: &mut Random, kinds: Vec<u32>, count: usize, next: Next) -> Sheet {
    let stamp = random.edge_word();
    let mut play = Play::from_start(&kinds, stamp);
    let mut events = Vec::with_capacity(count);
    for _ in 0..count {
        let at = near_stamp(random, play.head.last);
        let [number, place, stamp] = next(random, &mut play, at);
        events.push([number, place, UNANSWERED, stamp]);
    }
    Sheet {
        kinds,
        stamp,
        events,
    }
}

pub fn blocks(bytes: &[u8]) -> usize {
    bytes.len() / BLOCK_BYTES
}

pub fn get(bytes: &[u8], block: usize, word: usize) -> u32 {
    let at = block * BLOCK_BYTES + 4 * word;
    u32::from_le_bytes([bytes[at], bytes[at + 1], bytes[at + 2], bytes[at + 3]])
}

pub fn put(bytes: &mut [u8], block: usize, word: usize, value: u32) {
    let at = block * BLOCK_BYTES + 4 * word;
    bytes[at..at + 4].copy_from_slice(&value.to_le_bytes());
}

pub fn renew(bytes: &mut [u8], block: usize) {
    let range = block * BLOCK_BYTES..(block + 1) * BLOCK_BYTES;
    renew_check(&mut bytes[range], block as u32);
}

pub fn renewed(mut bytes: Vec<u8>, block: usize) -> Vec<u8> {
    renew(&mut bytes, block);
    bytes
}
