//! A sheet with upper bits in an event word (02, item 6) that a call was given: what 24 named in
//! it, what else is wrong with it, and what of that is wanted in a run.

use model::{check, renew_check, Verdict, BLOCK_BYTES, EVENTS_PER_BLOCK, UNANSWERED};

use crate::counts::Wanted;
use crate::request::Request;
use crate::sheets::{blocks, get, put};

/// Wanted of each call.
pub const OF_ALL: &[Wanted<Bad>] = &[
    ("24, nothing else wrong", |b| b.is_24() && b.is_alone()),
    ("24, the next event too", |b| {
        b.is_24() && b.has_bits(b.block, b.position + 1)
    }),
    ("24, a later event too, not the next", |b| {
        b.is_24() && (b.position + 2..b.held(b.block)).any(|at| b.has_bits(b.block, at))
    }),
    ("24, a word that should be zero is not", |b| {
        b.is_24() && b.has_filler(b.block)
    }),
    ("24, upper bits past the count too", |b| {
        b.is_24() && b.has_bits_past(b.block)
    }),
    ("24, all sixteen bits", |b| b.is_24() && b.bits() == 0xFFFF),
    ("24 in the only block", |b| {
        b.is_24() && b.block == 1 && b.last() == 1
    }),
    ("24 in the first of several", |b| {
        b.is_24() && b.block == 1 && b.last() > 1
    }),
    ("24 in a middle one", |b| {
        b.is_24() && 1 < b.block && b.block < b.last()
    }),
    ("24 in the last of several", |b| {
        b.is_24() && b.block > 1 && b.block == b.last()
    }),
    ("24, a later check wrong", |b| {
        b.is_24() && b.later().any(|at| !b.checks(at))
    }),
    ("24, a later count wrong", |b| {
        b.is_24() && b.later().any(|at| b.checks(at) && !b.counts(at))
    }),
    ("24, upper bits in a later block", |b| {
        b.is_24() && b.later().any(|at| b.is_bad(at))
    }),
    ("24, a later word that should be zero", |b| {
        b.is_24() && b.later().any(|at| b.counts(at) && b.has_filler(at))
    }),
    ("18", |b| b.number == 18),
    ("19 of its own block", |b| {
        b.number == 19 && b.is_bad(b.block)
    }),
    ("19 of its own block, the count wrong", |b| {
        b.number == 19 && b.is_bad(b.block) && !b.counts(b.block)
    }),
    ("19 of its own block, a word not zero", |b| {
        b.number == 19 && b.is_bad(b.block) && b.counts(b.block) && b.has_filler(b.block)
    }),
    ("19 of block 0", |b| b.number == 19 && b.block == 0),
    ("20 of block 0", |b| b.number == 20 && b.block == 0),
    ("19 of a block before", |b| b.number == 19 && b.is_before()),
    ("20 of a block before, the count", |b| {
        b.number == 20 && b.is_before() && !b.counts(b.block)
    }),
    ("20 of a block before, a word not zero", |b| {
        b.number == 20 && b.is_before() && b.counts(b.block)
    }),
    ("20 by a count of 0", |b| b.by_count(|m, _| m == 0)),
    ("20 by a count above 60", |b| b.by_count(|m, _| m > 60)),
    ("20 by a count below 60, not the last block", |b| {
        b.by_count(|m, is_last| (1..60).contains(&m) && !is_last)
    }),
    ("20 by the count, word 126 not zero", |b| {
        b.by_count(|_, _| true) && get(&b.sheet, b.block, 126) != 0
    }),
    ("20, upper bits past the count alone", |b| {
        b.number == 20 && b.block > 0 && b.counts(b.block) && b.has_bits_past(b.block)
    }),
];

pub const OF_READING: &[Wanted<Bad>] = &[
    ("24, room for the kinds too short", |b| {
        b.is_24() && matches!(b.request, Request::Read { kinds_room, .. } if kinds_room < b.posts())
    }),
    ("24, no room for events", |b| {
        b.is_24() && matches!(b.request, Request::Read { events_room: 0, .. })
    }),
];

pub const OF_WORKING: &[Wanted<Bad>] = &[
    ("24, output one short", |b| {
        b.is_24() && b.out_len() + 1 == b.sheet.len()
    }),
    ("24, no output", |b| b.is_24() && b.out_len() == 0),
    ("24, an event of an earlier block answered", |b| {
        b.is_24() && (1..b.block).any(|at| b.is_answered(at))
    }),
    ("24, an event of its block answered", |b| {
        b.is_24() && b.is_answered(b.block)
    }),
    ("24, an event of a later block answered", |b| {
        b.is_24() && b.later().any(|at| b.is_answered(at))
    }),
];

pub const OF_QUESTIONS: &[Wanted<Bad>] = &[
    ("24, position 0", |b| b.is_24() && b.asked() == 0),
    ("24, the position of the event itself", |b| {
        let at = EVENTS_PER_BLOCK * b.block.saturating_sub(1) + b.position;
        b.is_24() && b.asked() as usize == at + 1
    }),
    ("24, position 2^32 - 1", |b| {
        b.is_24() && b.asked() == u32::MAX
    }),
];

pub const OF_EXPORTS: &[Wanted<Bad>] = &[("24, no output", |b| b.is_24() && b.out_len() == 0)];

/// The bits 16 to 31.
pub const BITS: usize = 16;

/// A sheet with upper bits in an event word, the call on it, and the model's reply.
pub struct Bad {
    request: Request,
    sheet: Vec<u8>,
    number: u32,
    block: usize,
    pub position: usize,
}

impl Bad {
    /// Which call it is, and what it is given; nothing where no event word has such bits, or it
    /// is a call that reads no sheet.
    pub fn new(request: &Request, reply: &[u32]) -> Option<(usize, Self)> {
        let (call, sheet) = request.sheet_read()?;
        let bad = Bad {
            request: request.clone(),
            sheet: sheet.clone(),
            number: reply[0],
            block: reply[1] as usize,
            position: reply[2] as usize,
        };
        let any = (1..blocks(sheet)).any(|at| bad.is_bad(at));
        any.then_some((call, bad))
    }

    pub fn is_24(&self) -> bool {
        self.number == 24
    }

    fn last(&self) -> usize {
        blocks(&self.sheet) - 1
    }

    fn later(&self) -> std::ops::Range<usize> {
        self.block + 1..blocks(&self.sheet)
    }

    fn posts(&self) -> usize {
        get(&self.sheet, 0, 1) as usize
    }

    /// The upper bits of the word at a position, counted or not.
    fn bits_at(&self, block: usize, position: usize) -> u32 {
        get(&self.sheet, block, 1 + 2 * position) >> BITS
    }

    /// Those of the word that is named.
    pub fn bits(&self) -> u32 {
        self.bits_at(self.block, self.position)
    }

    /// An event of the block has such bits.
    fn has_bits(&self, block: usize, position: usize) -> bool {
        position < self.held(block) && self.bits_at(block, position) != 0
    }

    fn is_bad(&self, block: usize) -> bool {
        block > 0 && (0..EVENTS_PER_BLOCK).any(|at| self.bits_at(block, at) != 0)
    }

    fn has_bits_past(&self, block: usize) -> bool {
        (self.held(block)..EVENTS_PER_BLOCK).any(|at| self.bits_at(block, at) != 0)
    }

    fn count(&self, block: usize) -> u32 {
        get(&self.sheet, block, 0)
    }

    /// How many events the block says it holds, as far as there is room.
    fn held(&self, block: usize) -> usize {
        (self.count(block) as usize).min(EVENTS_PER_BLOCK)
    }

    fn checks(&self, block: usize) -> bool {
        check(
            &self.sheet[block * BLOCK_BYTES..][..BLOCK_BYTES],
            block as u32,
        )
    }

    /// The count of a later block is right.
    fn counts(&self, block: usize) -> bool {
        let is_last = block == self.last();
        matches!((self.count(block), is_last), (1..=60, true) | (60, false))
    }

    fn has_filler(&self, block: usize) -> bool {
        (1 + 2 * self.held(block)..127).any(|at| get(&self.sheet, block, at) != 0)
    }

    fn is_answered(&self, block: usize) -> bool {
        let answer = |at| get(&self.sheet, block, 1 + 2 * at) >> 11 & UNANSWERED;
        (0..self.held(block)).any(|at| answer(at) != UNANSWERED)
    }

    /// A later block than the one named has the upper bits, and the one named has none.
    fn is_before(&self) -> bool {
        self.block > 0 && !self.is_bad(self.block) && self.later().any(|at| self.is_bad(at))
    }

    /// 20 by such a count, by its block being the last or not, with upper bits in the block.
    fn by_count(&self, such: fn(u32, bool) -> bool) -> bool {
        let refused = self.number == 20 && self.is_bad(self.block) && !self.counts(self.block);
        refused && such(self.count(self.block), self.block == self.last())
    }

    /// The sheet is good without the bits that are named.
    fn is_alone(&self) -> bool {
        let (mut sheet, word) = (self.sheet.clone(), 1 + 2 * self.position);
        let lower = get(&sheet, self.block, word) & 0xFFFF;
        put(&mut sheet, self.block, word, lower);
        let range = self.block * BLOCK_BYTES..(self.block + 1) * BLOCK_BYTES;
        renew_check(&mut sheet[range], self.block as u32);
        model::test(&sheet) == Verdict::default()
    }

    fn out_len(&self) -> usize {
        match self.request {
            Request::Work { out_len, .. } | Request::Export { out_len, .. } => out_len,
            _ => usize::MAX,
        }
    }

    fn asked(&self) -> u32 {
        match self.request {
            Request::Why { position, .. } => position,
            _ => 0,
        }
    }
}
