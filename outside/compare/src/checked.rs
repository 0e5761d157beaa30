//! What the single blocks of a run have come upon.

use model::{BLOCK_BYTES, CHECK};

use crate::checks::{plain_sum, CANCELLED, GOOD, LARGEST};
use crate::counts::Wanted;

pub const CHECKED: &[Wanted<Checked>] = &[
    ("true", |c| c.checks),
    ("true, of a good sheet", |c| c.checks && c.made == GOOD),
    ("true, two damages that cancel", |c| {
        c.checks && c.made == CANCELLED
    }),
    ("true, number 0", |c| c.checks && c.number == 0),
    ("true, number 63", |c| c.checks && c.number == 63),
    ("true, number 64", |c| c.checks && c.number == 64),
    ("true, a number above 64", |c| c.checks && c.number > 64),
    ("true, the largest number", |c| {
        c.checks && c.number == LARGEST
    }),
    ("true, never carried round", |c| c.checks && c.rounds() == 0),
    ("true, carried round", |c| c.checks && c.rounds() > 0),
    ("true, carried round 100 times and more", |c| {
        c.checks && c.rounds() >= 100
    }),
    ("false by the sum", |c| c.by_sum()),
    ("false by the sum, number 64 and more", |c| {
        c.by_sum() && c.number >= 64
    }),
    ("false by the sum, one more or one less", |c| {
        c.by_sum() && matches!(c.off(), 1 | u32::MAX)
    }),
    ("false by the sum, less than 64 off", |c| {
        c.by_sum() && (c.off() < 64 || c.off().wrapping_neg() < 64)
    }),
    ("false by the sum, upper half off", |c| {
        c.by_sum() && c.off() & 0xFFFF == 0
    }),
    ("false by too large a number", |c| c.by_number()),
    ("false, too large a number, carried round to it", |c| {
        c.by_number() && c.off() == 0
    }),
    ("the same, one past the largest number", |c| {
        c.by_number() && c.off() == 0 && c.number == LARGEST + 1
    }),
    ("the same, number 2^32 - 1", |c| {
        c.by_number() && c.off() == 0 && c.number == u32::MAX
    }),
    ("false by the length", |c| c.by_length()),
    ("false by the length, no bytes", |c| {
        c.by_length() && c.length == 0
    }),
    ("false by the length, shorter, adding up", |c| {
        c.by_length() && c.length < BLOCK_BYTES && c.adds_up()
    }),
    ("false by the length, longer, adding up", |c| {
        c.by_length() && c.length > BLOCK_BYTES && c.adds_up()
    }),
    ("false by the length, its first 512 bytes check", |c| {
        c.by_length() && c.first_checks
    }),
    ("the same, whole blocks", |c| {
        c.by_length() && c.length.is_multiple_of(BLOCK_BYTES) && c.first_checks
    }),
    ("false by the length, its last 512 bytes check", |c| {
        c.by_length() && c.last_checks
    }),
];

/// A single block, the model's reply, and what the block is.
pub struct Checked {
    made: String,
    length: usize,
    number: u32,
    sum: u64,
    /// The 512 bytes in front, or at the end, are a block with the check of this number.
    first_checks: bool,
    last_checks: bool,
    checks: bool,
}

impl Checked {
    pub fn new(variety: &str, block: &[u8], number: u32, reply: &[u32]) -> Self {
        let part = |bytes: Option<&[u8]>| bytes.is_some_and(|bytes| model::check(bytes, number));
        Checked {
            made: variety.to_string(),
            length: block.len(),
            number,
            sum: plain_sum(block),
            first_checks: part(block.first_chunk::<BLOCK_BYTES>().map(|part| &part[..])),
            last_checks: part(block.last_chunk::<BLOCK_BYTES>().map(|part| &part[..])),
            checks: reply[0] == 1,
        }
    }

    /// How often the sum is carried round.
    fn rounds(&self) -> u64 {
        self.sum >> 32
    }

    /// By how much the sum is more than it should be, both carried round.
    fn off(&self) -> u32 {
        (self.sum as u32).wrapping_sub(CHECK.wrapping_add(self.number))
    }

    fn adds_up(&self) -> bool {
        self.number <= LARGEST && self.off() == 0
    }

    fn by_length(&self) -> bool {
        !self.checks && self.length != BLOCK_BYTES
    }

    fn by_number(&self) -> bool {
        !self.checks && self.length == BLOCK_BYTES && self.number > LARGEST
    }

    fn by_sum(&self) -> bool {
        !self.checks && self.length == BLOCK_BYTES && self.number <= LARGEST
    }
}
