//! How often each thing of a list that is wanted came up in a run.

use std::fmt::Write;

/// What is wanted, and whether this has it.
pub type Wanted<T> = (&'static str, fn(&T) -> bool);

/// What is wanted at each of some kinds of posts, and whether this has it at a kind.
pub type WantedAt<T> = (&'static str, &'static [u32], fn(&T, u32) -> bool);

/// A list of those, and the kinds that this has to do with, each a bit: it is asked about no
/// other.
pub struct AtKinds<T: 'static> {
    pub wanted: &'static [WantedAt<T>],
    pub kinds_of: fn(&T) -> u32,
}

impl<T> AtKinds<T> {
    /// How many are wanted in all.
    pub fn lines(&self) -> usize {
        self.wanted.iter().map(|(_, kinds, _)| kinds.len()).sum()
    }
}

/// So many kinds are counted, from 0.
const KINDS: u32 = 32;

pub struct Counts<T: 'static> {
    of: &'static str,
    wanted: &'static [Wanted<T>],
    counts: Vec<u64>,
    at_kinds: AtKinds<T>,
    counts_at: Vec<[u64; KINDS as usize]>,
    all: u64,
}

/// The bit of a kind, or of a post; one past 31 has none.
pub fn bit_of(kind: u32) -> u32 {
    1u32.checked_shl(kind).unwrap_or(0)
}

impl<T> Counts<T> {
    /// Of what, in words, and what is wanted of it.
    pub fn new(of: &'static str, wanted: &'static [Wanted<T>]) -> Self {
        let none = AtKinds {
            wanted: &[],
            kinds_of: |_| 0,
        };
        Counts::with_kinds(of, wanted, none)
    }

    /// The same, and what is wanted at some kinds.
    pub fn with_kinds(
        of: &'static str,
        wanted: &'static [Wanted<T>],
        at_kinds: AtKinds<T>,
    ) -> Self {
        Counts {
            of,
            wanted,
            counts: vec![0; wanted.len()],
            counts_at: vec![[0; KINDS as usize]; at_kinds.wanted.len()],
            at_kinds,
            all: 0,
        }
    }

    pub fn add(&mut self, one: &T) {
        self.all += 1;
        for (count, (_, has)) in self.counts.iter_mut().zip(self.wanted) {
            *count += u64::from(has(one));
        }
        let kinds = (self.at_kinds.kinds_of)(one);
        for kind in (0..KINDS).filter(|kind| kinds & bit_of(*kind) != 0) {
            let wanted = self.at_kinds.wanted.iter();
            for (counts, (_, _, has)) in self.counts_at.iter_mut().zip(wanted) {
                counts[kind as usize] += u64::from(has(one, kind));
            }
        }
    }

    /// Each thing wanted at some kinds, by its name: the kinds and the counts.
    fn at_kinds(&self) -> impl Iterator<Item = (&'static str, Vec<(u32, u64)>)> + '_ {
        let wanted = self.at_kinds.wanted.iter();
        self.counts_at.iter().zip(wanted).map(|(counts, at)| {
            let (name, kinds, _) = *at;
            let count = |kind: &u32| (*kind, counts[*kind as usize]);
            (name, kinds.iter().map(count).collect())
        })
    }

    /// What came up less than once in so many, or never, one line for each.
    pub fn rare(&self, in_so_many: u64) -> Vec<String> {
        let least = (self.all / in_so_many).max(1);
        let counts = self.counts.iter().zip(self.wanted);
        let mut named: Vec<(u64, String)> = counts
            .map(|(count, (name, _))| (*count, name.to_string()))
            .collect();
        for (name, counts) in self.at_kinds() {
            let at_kind = |(kind, count)| (count, format!("{name}, kind {kind}"));
            named.extend(counts.into_iter().map(at_kind));
        }
        named
            .into_iter()
            .filter(|(count, _)| *count < least)
            .map(|(count, name)| {
                let of = self.of;
                format!("{of}, {name}: {count}, and at least {least} are wanted")
            })
            .collect()
    }

    /// The whole as a text.
    pub fn text(&self) -> String {
        let mut text = format!("{} {}, among them:\n", self.all, self.of);
        for (count, (name, _)) in self.counts.iter().zip(self.wanted) {
            // Writing to a String cannot fail.
            let _ = writeln!(text, "  {name:46} {count:8}");
        }
        for (name, counts) in self.at_kinds() {
            let _ = write!(text, "  {name:46}");
            for (kind, count) in counts {
                let _ = write!(text, " {kind:2}: {count}");
            }
            text.push('\n');
        }
        text
    }
}
