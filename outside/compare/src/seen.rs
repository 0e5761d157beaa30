//! What the questions of a run have come upon.

use std::cmp::Ordering;

use model::{kind, Entry};

use crate::counts::Wanted;
use crate::questions::{OF_JAMS, TOLD};
use crate::sheets::Sheet;

/// Each of `SEEN` is wanted at least once in so many questions; so it is with texts and
/// with single blocks.
pub const RARELY: u64 = 100;

pub const SEEN: &[Wanted<Question>] = &[
    ("8 since an event", |q| q.since(8) && q.named > 0),
    ("8 since a strike, announced since", |q| {
        q.since(8) && q.is_named(4) && q.announced_since()
    }),
    ("8 since an announcement", |q| q.since(8) && q.is_named(5)),
    ("9 since an event", |q| q.since(9) && q.named > 0),
    ("13 since an event", |q| q.since(13) && q.named > 0),
    ("13 since an arrival", |q| q.since(13) && q.is_named(8)),
    ("13 since a restoration", |q| q.since(13) && q.is_named(10)),
    ("13 since the start", |q| q.since(13) && q.named == 0),
    ("8 at a short post", |q| q.since(8) && q.of_a_short_post()),
    ("9 at a short post", |q| q.since(9) && q.of_a_short_post()),
    ("13 at a short post", |q| q.since(13) && q.of_a_short_post()),
    ("13 at a short post, struck early", |q| {
        q.since(13) && q.of_a_short_post() && q.struck_early()
    }),
    ("29, an answer before it altered", |q| {
        q.altered(Ordering::Less)
    }),
    ("29, its own answer altered", |q| q.altered(Ordering::Equal)),
    ("29, an answer behind it altered", |q| {
        q.altered(Ordering::Greater)
    }),
    ("29, not answered", |q| {
        q.number == 29 && !q.events().is_empty() && q.events().iter().all(|event| event[2] == 31)
    }),
    ("29, position 0", |q| q.all_right() && q.position == 0),
    ("29, one past the end", |q| {
        q.all_right() && q.position as usize == q.events().len() + 1
    }),
    ("29, position 2^32 - 1", |q| {
        q.all_right() && q.position == u32::MAX
    }),
    ("29, an event taken", |q| {
        q.all_right() && q.chosen().is_some_and(|event| event[2] == 0)
    }),
    ("29, another refusal", |q| {
        q.all_right() && q.chosen().is_some_and(|event| event[2] != 0)
    }),
    ("29, refused 22 or 23", |q| {
        q.all_right() && q.chosen().is_some_and(|event| OF_JAMS.contains(&event[2]))
    }),
    ("8, 9 or 13, jammed since the event named", |q| {
        q.number == 0 && q.had(q.named, |event| event[0] == 11 && event[2] == 0)
    }),
    ("8, 9 or 13, refused 22 before", |q| {
        q.number == 0 && q.had(0, |event| event[2] == 22)
    }),
    ("18", |q| q.number == 18),
    ("19", |q| q.number == 19),
    ("20", |q| q.number == 20),
    ("24", |q| q.number == 24),
];

/// A question and the model's reply.
pub struct Question {
    sheet: Option<Sheet>,
    /// The places (from 0) of the events that working answers otherwise.
    wrong: Vec<usize>,
    position: u32,
    number: u32,
    named: u32,
}

impl Question {
    pub fn new(sheet: &[u8], position: u32, reply: &[u32]) -> Self {
        let sheet = Sheet::of(sheet);
        let differ = |sheet: &Sheet| {
            let right = sheet.clone().worked().events;
            let pairs = sheet.events.iter().zip(&right).enumerate();
            pairs
                .filter(|(_, (is, right))| is != right)
                .map(|(at, _)| at)
                .collect()
        };
        Question {
            wrong: sheet.as_ref().map_or(Vec::new(), differ),
            sheet,
            position,
            number: reply[0],
            named: reply[2],
        }
    }

    fn events(&self) -> &[Entry] {
        self.sheet.as_ref().map_or(&[], |sheet| &sheet.events)
    }

    fn at(&self, position: u32) -> Option<&Entry> {
        self.events().get((position as usize).checked_sub(1)?)
    }

    fn chosen(&self) -> Option<&Entry> {
        self.at(self.position)
    }

    fn since(&self, answer: u32) -> bool {
        self.number == 0 && self.chosen().is_some_and(|event| event[2] == answer)
    }

    fn is_named(&self, number: u32) -> bool {
        self.at(self.named).is_some_and(|event| event[0] == number)
    }

    /// The chosen event's post had such an event before it, after this position.
    fn had(&self, after: u32, such: fn(&Entry) -> bool) -> bool {
        let mut between = self.events()[after as usize..self.position as usize].iter();
        let post = self.chosen().map(|event| event[1]);
        between.any(|event| such(event) && Some(event[1]) == post)
    }

    fn announced_since(&self) -> bool {
        self.had(self.named, |event| event[0] == 5 && event[2] == 0)
    }

    fn of_a_short_post(&self) -> bool {
        let kinds = self.sheet.as_ref().map(|sheet| &sheet.kinds[..]);
        let post = self.chosen().map_or(0, |event| event[1]);
        kinds
            .and_then(|kinds| kinds.get(post as usize))
            .is_some_and(|&of| kind::is_short(of))
    }

    /// The last strike at the chosen event's post, since its last release, came before what
    /// arrived there last.
    fn struck_early(&self) -> bool {
        let post = self.chosen().map_or(0, |event| event[1]);
        let about = |event: &&Entry| match event[0] {
            _ if event[2] != 0 => false,
            3 | 6 | 7 => event[1] == post,
            8 => event[1] + 1 == post,
            _ => false,
        };
        let before = &self.events()[..(self.position as usize).saturating_sub(1)];
        let numbers = before.iter().rev().filter(about).map(|event| event[0]);
        let mut numbers = numbers.skip_while(|number| *number == 3);
        (numbers.next(), numbers.next()) == (Some(8), Some(3))
    }

    /// 29, and nothing is wrong but one answer, which stands so to the chosen event.
    fn altered(&self, where_to: Ordering) -> bool {
        let told = self.chosen().is_some_and(|event| TOLD.contains(&event[2]));
        match self.wrong[..] {
            [at] => told && (at + 1).cmp(&(self.position as usize)) == where_to,
            _ => false,
        }
    }

    /// 29, and every answer is right.
    fn all_right(&self) -> bool {
        self.number == 29 && self.wrong.is_empty()
    }
}
