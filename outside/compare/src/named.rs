//! What each call has come upon in a run where a sheet has upper bits in an event word (02,
//! item 6): each position and each bit, and what else was wrong.

use std::fmt::Write;

use model::EVENTS_PER_BLOCK;

use crate::bad_fields::{Bad, BITS, OF_ALL, OF_EXPORTS, OF_QUESTIONS, OF_READING, OF_WORKING};
use crate::counts::{Counts, Wanted};
use crate::request::Request;

/// The calls that read a sheet, and what is wanted of each beside what is wanted of all.
pub const WANTED: [(&str, &[Wanted<Bad>]); 4] = [
    ("upper bits, read", OF_READING),
    ("upper bits, work", OF_WORKING),
    ("upper bits, why", OF_QUESTIONS),
    ("upper bits, export", OF_EXPORTS),
];

/// What one call has come upon: also how often 24 named each position, and how often a word
/// with one of the bits alone.
struct OfCall {
    name: &'static str,
    of_all: Counts<Bad>,
    own: Counts<Bad>,
    positions: [u64; EVENTS_PER_BLOCK],
    bits: [u64; BITS],
}

impl OfCall {
    fn new((name, own): (&'static str, &'static [Wanted<Bad>])) -> Self {
        OfCall {
            name,
            of_all: Counts::new(name, OF_ALL),
            own: Counts::new(name, own),
            positions: [0; EVENTS_PER_BLOCK],
            bits: [0; BITS],
        }
    }

    fn add(&mut self, bad: &Bad) {
        self.of_all.add(bad);
        self.own.add(bad);
        if bad.is_24() {
            self.positions[bad.position] += 1;
            if bad.bits().is_power_of_two() {
                self.bits[bad.bits().trailing_zeros() as usize] += 1;
            }
        }
    }

    fn missing(&self) -> Vec<String> {
        let mut lines = self.of_all.rare(u64::MAX);
        lines.extend(self.own.rare(u64::MAX));
        let positions = self.positions.iter().enumerate();
        for (position, _) in positions.filter(|(_, count)| **count == 0) {
            lines.push(format!("{}: 24 never named position {position}", self.name));
        }
        for (bit, _) in self.bits.iter().enumerate().filter(|(_, n)| **n == 0) {
            let bit = bit + BITS;
            lines.push(format!("{}: 24 never for bit {bit} alone", self.name));
        }
        lines
    }

    fn text(&self) -> String {
        let mut text = self.of_all.text() + &self.own.text();
        let named: [(&str, &[u64]); 2] = [
            ("24 at position 0 to 59", &self.positions),
            ("24 by bit 16 to 31 alone", &self.bits),
        ];
        for (name, counts) in named {
            // Writing to a String cannot fail.
            let _ = write!(text, "  {name}:");
            for count in counts {
                let _ = write!(text, " {count}");
            }
            text.push('\n');
        }
        text
    }
}

/// What each call has come upon.
pub struct Named([OfCall; WANTED.len()]);

impl Default for Named {
    fn default() -> Self {
        Named(WANTED.map(OfCall::new))
    }
}

impl Named {
    pub fn add(&mut self, request: &Request, reply: &[u32]) {
        if let Some((call, bad)) = Bad::new(request, reply) {
            self.0[call].add(&bad);
        }
    }

    /// What never came up, one line for each.
    pub fn missing(&self) -> Vec<String> {
        self.0.iter().flat_map(OfCall::missing).collect()
    }

    /// The whole as a text.
    pub fn text(&self) -> String {
        self.0.iter().map(OfCall::text).collect()
    }
}
