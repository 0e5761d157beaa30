//! Sheets with event words whose upper bits are not zero (02, item 6), in each place of a
//! block, alone and beside each other fault, for each call that reads a sheet.

use model::{EVENTS_PER_BLOCK, UNANSWERED};

use crate::damage::{break_check, filler};
use crate::histories::some_posts;
use crate::questions::ask;
use crate::random::Random;
use crate::request::Request;
use crate::rooms::{export_of, read_of, work_of};
use crate::sheets::{blocks, get, lively_sheet, put, renew};

/// The calls that read a sheet; a sheet that is read is tested too.
pub const CALLS: [&str; 4] = ["read", "work", "why", "export"];

/// Each call, and each position of a block.
pub fn names() -> Vec<String> {
    let positions = 0..EVENTS_PER_BLOCK;
    let each = |position| CALLS.map(|call| format!("{call}, position {position}"));
    positions.flat_map(each).collect()
}

pub fn bad_field(random: &mut Random, variety: usize) -> Request {
    let call = CALLS[variety % CALLS.len()];
    // To be worked, a sheet is not answered; to be asked about, it is.
    let answered = call == "why" || (call != "work" && random.chance(50));
    let spoiled = spoiled(random, variety / CALLS.len(), answered, one_track);
    let at = spoiled.in_sheet();
    let sheet = spoiled.sealed(random);
    match call {
        "read" => read_of(random, sheet),
        "work" => work_of(random, sheet),
        "export" => export_of(random, sheet),
        _ => {
            let anywhere = random.small(1, 240);
            let position = random.pick(&[0, 1, at as u32, anywhere, u32::MAX]);
            ask(sheet, position)
        }
    }
}

/// A good sheet of so many posts and events, answered or not.
pub type Made = fn(&mut Random, usize, usize, bool) -> Vec<u8>;

fn one_track(random: &mut Random, posts: usize, count: usize, answered: bool) -> Vec<u8> {
    let sheet = lively_sheet(random, posts, count);
    let sheet = if answered { sheet.worked() } else { sheet };
    sheet.bytes()
}

/// Upper bits in this position of some block of such a sheet, and which event of the sheet that
/// is, from 1.
pub fn bad_of(random: &mut Random, position: usize, answered: bool, made: Made) -> (Vec<u8>, u32) {
    let spoiled = spoiled(random, position, answered, made);
    let at = spoiled.in_sheet();
    (spoiled.sealed(random), at as u32)
}

/// A sheet with such a word in any place, answered or not.
pub fn some_bad(random: &mut Random) -> Vec<u8> {
    let (position, answered) = (random.below(EVENTS_PER_BLOCK), random.chance(30));
    bad_at(random, position, answered)
}

/// The same in this position of some block.
pub fn bad_at(random: &mut Random, position: usize, answered: bool) -> Vec<u8> {
    bad_of(random, position, answered, one_track).0
}

/// The same, and this wrong beside it.
pub fn bad_beside(random: &mut Random, position: usize, beside: &Beside) -> Vec<u8> {
    let (_, place, spoil) = beside;
    let mut spoiled = placed(random, *place, position, (false, one_track));
    spoil(random, &mut spoiled);
    spoiled.sealed(random)
}

/// A sheet, the place of the word that was given upper bits first, and the block whose check
/// is to be wrong.
pub struct Spoiled {
    bytes: Vec<u8>,
    block: usize,
    position: usize,
    unchecked: Option<usize>,
    cut: Option<usize>,
}

/// Which block of several has that word.
#[derive(Clone, Copy, PartialEq)]
pub enum Where {
    Any,
    NotFirst,
    NotLast,
    Last,
}

/// What else is wrong: its name, where the word then stands, and what it does to the sheet. No
/// event before that word in its block is given upper bits.
pub type Beside = (&'static str, Where, fn(&mut Random, &mut Spoiled));

pub const BESIDE: &[Beside] = &[
    ("the next event", Where::Any, |random, s| {
        s.put_bits(random, s.block, s.last().min(s.position + 1))
    }),
    ("a later event", Where::Any, |random, s| {
        let later = random.between(s.position, s.last());
        s.put_bits(random, s.block, later)
    }),
    ("every later event", Where::Any, |random, s| {
        for later in s.position..=s.last() {
            s.put_bits(random, s.block, later)
        }
    }),
    ("a word that should be zero", Where::Any, |random, s| {
        s.put_filler(random, s.block)
    }),
    ("an event word past the count", Where::Last, |random, s| {
        let held = s.held(s.block);
        if held < EVENTS_PER_BLOCK {
            let past = random.between(held, EVENTS_PER_BLOCK - 1);
            s.put_bits(random, s.block, past)
        }
    }),
    ("its check", Where::Any, |_, s| s.unchecked = Some(s.block)),
    ("a count of 0", Where::Any, |_, s| s.put_count(s.block, 0)),
    ("a count above 60", Where::Any, |random, s| {
        let count = random.pick(&[61, 62, 63, 64, 127, 1 << 16 | 60, u32::MAX]);
        s.put_count(s.block, count)
    }),
    ("a count below 60", Where::NotLast, |random, s| {
        let count = random.small(1, 59);
        s.put_count(s.block, random.pick(&[59, count]))
    }),
    ("a count that leaves it out", Where::Last, |random, s| {
        let count = random.between(0, s.position);
        s.put_count(s.block, count as u32)
    }),
    ("its check and its count", Where::Any, |random, s| {
        s.unchecked = Some(s.block);
        s.put_count(s.block, random.pick(&[0, 61]))
    }),
    ("its check and its filler", Where::Any, |random, s| {
        s.unchecked = Some(s.block);
        s.put_filler(random, s.block)
    }),
    ("its count and its filler", Where::Any, |random, s| {
        s.put_count(s.block, random.pick(&[0, 61]));
        put(&mut s.bytes, s.block, 126, filler(random))
    }),
    ("check of block 0", Where::Any, |_, s| s.unchecked = Some(0)),
    ("contents of block 0", Where::Any, |random, s| {
        let word = random.pick(&[0, 1, 3, 4, 126]);
        put(&mut s.bytes, 0, word, random.pick(&[33, 1 << 16, 1 << 31]))
    }),
    ("check before it", Where::NotFirst, |random, s| {
        s.unchecked = Some(s.earlier(random))
    }),
    ("count before it", Where::NotFirst, |random, s| {
        let at = s.earlier(random);
        s.put_count(at, random.pick(&[0, 1, 59, 61]))
    }),
    ("filler before it", Where::NotFirst, |random, s| {
        let at = s.earlier(random);
        s.put_filler(random, at)
    }),
    ("upper bits before it", Where::NotFirst, |random, s| {
        let at = s.earlier(random);
        s.put_some_bits(random, at)
    }),
    ("check behind it", Where::NotLast, |random, s| {
        s.unchecked = Some(s.later(random))
    }),
    ("count behind it", Where::NotLast, |random, s| {
        let at = s.later(random);
        s.put_count(at, random.pick(&[0, 61]))
    }),
    ("filler behind it", Where::NotLast, |random, s| {
        let at = s.later(random);
        s.put_filler(random, at)
    }),
    ("upper bits behind it", Where::NotLast, |random, s| {
        let at = s.later(random);
        s.put_some_bits(random, at)
    }),
    ("answered before it", Where::NotFirst, |random, s| {
        let at = s.earlier(random);
        s.put_answer(random, at)
    }),
    ("answered in its block", Where::Any, |random, s| {
        s.put_answer(random, s.block)
    }),
    ("answered behind it", Where::NotLast, |random, s| {
        let at = s.later(random);
        s.put_answer(random, at)
    }),
    ("the length", Where::Any, |random, s| {
        let length = s.bytes.len();
        let whole = random.pick(&[1, 4, 511, length - 1, length + 1, length + 4]);
        s.cut = Some(whole)
    }),
];

/// Upper bits in this position of some block, and often something else wrong, or two things.
fn spoiled(random: &mut Random, position: usize, answered: bool, made: Made) -> Spoiled {
    let made = (answered, made);
    if random.chance(25) {
        return placed(random, Where::Any, position, made);
    }
    let (_, place, spoil) = random.pick(BESIDE);
    let mut spoiled = placed(random, place, position, made);
    spoil(random, &mut spoiled);
    let (_, other, spoil) = random.pick(BESIDE);
    if random.chance(30) && (other == place || other == Where::Any) {
        spoil(random, &mut spoiled);
    }
    spoiled
}

/// A sheet that is good but for upper bits in this position of such a block.
fn placed(
    random: &mut Random,
    place: Where,
    position: usize,
    (answered, made): (bool, Made),
) -> Spoiled {
    let alone = matches!(place, Where::Any | Where::Last);
    let later = if alone && random.chance(30) {
        1
    } else {
        random.between(2, 4)
    };
    let block = match place {
        Where::Any => random.between(1, later),
        Where::NotFirst => random.between(2, later),
        Where::NotLast => random.between(1, later - 1),
        Where::Last => later,
    };
    let least = if block == later { position + 1 } else { 1 };
    let held = random.between(least, EVENTS_PER_BLOCK);
    let last = random.pick(&[least, held, EVENTS_PER_BLOCK]);
    let posts = some_posts(random);
    let count = (later - 1) * EVENTS_PER_BLOCK + last;
    let mut spoiled = Spoiled {
        bytes: made(random, posts, count, answered),
        block,
        position,
        unchecked: None,
        cut: None,
    };
    spoiled.put_bits(random, block, position);
    spoiled
}

impl Spoiled {
    /// Every check is renewed, so that what is wrong is reached, but the one that is to be wrong.
    fn sealed(mut self, random: &mut Random) -> Vec<u8> {
        for at in 0..blocks(&self.bytes) {
            renew(&mut self.bytes, at);
        }
        if let Some(at) = self.unchecked {
            break_check(random, &mut self.bytes, at);
        }
        if let Some(length) = self.cut {
            self.bytes.resize(length, 0);
        }
        self.bytes
    }

    /// Which event of the sheet, from 1, was given upper bits first.
    fn in_sheet(&self) -> usize {
        (self.block - 1) * EVENTS_PER_BLOCK + self.position + 1
    }

    /// How many events a block holds; one where its count is 0, and 60 where it is more.
    fn held(&self, block: usize) -> usize {
        (get(&self.bytes, block, 0) as usize).clamp(1, EVENTS_PER_BLOCK)
    }

    /// The last position of its block, its own or one behind it.
    fn last(&self) -> usize {
        self.position.max(self.held(self.block) - 1)
    }

    fn earlier(&self, random: &mut Random) -> usize {
        random.between(1, self.block - 1)
    }

    fn later(&self, random: &mut Random) -> usize {
        random.between(self.block + 1, blocks(&self.bytes) - 1)
    }

    fn put_bits(&mut self, random: &mut Random, block: usize, position: usize) {
        let word = get(&self.bytes, block, 1 + 2 * position);
        put(
            &mut self.bytes,
            block,
            1 + 2 * position,
            word | some_bits(random),
        );
    }

    fn put_some_bits(&mut self, random: &mut Random, block: usize) {
        let position = random.below(self.held(block));
        self.put_bits(random, block, position);
    }

    fn put_count(&mut self, block: usize, count: u32) {
        put(&mut self.bytes, block, 0, count);
    }

    fn put_filler(&mut self, random: &mut Random, block: usize) {
        let first = 1 + 2 * self.held(block);
        let anywhere = random.between(first, 126);
        let at = random.pick(&[first, 126, anywhere]);
        put(&mut self.bytes, block, at, filler(random));
    }

    fn put_answer(&mut self, random: &mut Random, block: usize) {
        let at = 1 + 2 * random.below(self.held(block));
        let unanswered = get(&self.bytes, block, at) & !(UNANSWERED << 11);
        let answer = random.small(0, 30);
        put(&mut self.bytes, block, at, unanswered | answer << 11);
    }
}

/// Most often one of the bits 16 to 31.
fn some_bits(random: &mut Random) -> u32 {
    let one = 1 << random.between(16, 31);
    match random.below(10) {
        0..=6 => one,
        7 => 0xFFFF_0000,
        _ => one | random.word() & 0xFFFF_0000,
    }
}
