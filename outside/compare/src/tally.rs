//! What a run has seen, and whether that is all that was wanted.

use std::fmt::Write;

use model::kind;

use crate::cases::{Case, Sort, ALTERED_ROWS, FIELDS};
use crate::checked::{Checked, CHECKED};
use crate::counts::Counts;
use crate::moments::{Altered, Goes, Moment, ALTERED, MOMENTS};
use crate::named::Named;
use crate::registers::{Export, Import, EXPORTS, IMPORTS, LONG, LONG_FROM};
use crate::request::{Request, POST_WORDS};
use crate::seen::{Question, RARELY, SEEN};
use crate::shorts::{AT_ALTERED, AT_MOMENTS};
use crate::stood::Stood;
use crate::tables::KINDS;

/// The numbers that a call can return: 0 to 24, 28 and 29.
const ANSWERS: [usize; 27] = [
    0, 1, 2, 3, 4, 5, 6, 7, 8, 9, 10, 11, 12, 13, 14, 15, 16, 17, 18, 19, 20, 21, 22, 23, 24, 28,
    29,
];

/// The events which can be taken at each kind, in both its forms (for 8, 9 and 10: the kind
/// of the section's upstream post).
const CAN_BE_TAKEN: [(usize, &[u32]); 12] = [
    (1, &[0, 1, 2, 3, 4]),
    (2, &[0, 1, 2, 3, 4]),
    (3, &[1, 2, 3, 4]),
    (4, &[0, 1, 2]),
    (5, &[0, 2, 3, 4]),
    (6, &[1, 2, 3, 4]),
    (7, &[2, 3]),
    (8, &[0, 2, 3, 4]),
    (9, &[0, 2, 3, 4]),
    (10, &[0, 2, 3, 4]),
    (11, &[1, 2, 3, 4]),
    (12, &[1, 2, 3, 4]),
];

/// The events taken, by their number and the kind, of which 20 is the last.
type Taken = [[u64; 21]; 13];

pub struct Tally {
    pub cases: Vec<Vec<u64>>,
    pub events: Vec<u64>,
    pub answers: [u64; 32],
    pub altered_valid: u64,
    pub taken: Taken,
    pub moments: Counts<Moment>,
    pub altered: Counts<Altered>,
    pub stood: Stood,
    pub named: Named,
    pub questions: Counts<Question>,
    pub imports: Counts<Import>,
    pub long: Counts<Import>,
    pub exports: Counts<Export>,
    pub blocks: Counts<Checked>,
}

impl Tally {
    pub fn new(sorts: &[Sort]) -> Self {
        Tally {
            cases: sorts.iter().map(|s| vec![0; s.varieties.len()]).collect(),
            events: vec![0; sorts.len()],
            answers: [0; 32],
            altered_valid: 0,
            taken: [[0; 21]; 13],
            moments: Counts::with_kinds("events in histories", MOMENTS, AT_MOMENTS),
            altered: Counts::with_kinds("altered rows", ALTERED, AT_ALTERED),
            stood: Stood::default(),
            named: Named::default(),
            questions: Counts::new("questions of since when", SEEN),
            imports: Counts::new("texts", IMPORTS),
            long: Counts::new("long texts", LONG),
            exports: Counts::new("exports", EXPORTS),
            blocks: Counts::new("single blocks", CHECKED),
        }
    }

    pub fn add(&mut self, sorts: &[Sort], case: &Case) {
        self.cases[case.sort][case.variety] += 1;
        let first = case.expected[0];
        match &case.request {
            Request::Run { kinds, steps, .. } => {
                self.events[case.sort] += steps.len() as u64;
                self.add_history(kinds, steps, &case.expected);
            }
            Request::Valid { .. } | Request::Check { .. } => {}
            _ => self.answers[first as usize] += 1,
        }
        self.stood.add(&case.request);
        self.named.add(&case.request, &case.expected);
        let sort = &sorts[case.sort];
        match sort.name {
            ALTERED_ROWS => self.add_altered(&case.request, first),
            // What is wanted of questions and exports is a share of those that are not all bad.
            FIELDS => {}
            _ => self.add_seen(case, &sort.varieties[case.variety]),
        }
    }

    /// What is counted of a question, an import, an export and a single block.
    fn add_seen(&mut self, case: &Case, variety: &str) {
        let expected = &case.expected;
        match &case.request {
            Request::Why { sheet, position } => {
                let question = Question::new(sheet, *position, expected);
                self.questions.add(&question);
            }
            Request::Import { text, out_len, .. } => {
                let import = Import::new(text, *out_len, expected);
                match import.events() < LONG_FROM {
                    true => self.imports.add(&import),
                    false => self.long.add(&import),
                }
            }
            Request::Export { sheet, out_len, .. } => {
                self.exports.add(&Export::new(sheet, *out_len, expected));
            }
            Request::Check { block, number } => {
                let checked = Checked::new(variety, block, *number, expected);
                self.blocks.add(&checked);
            }
            _ => {}
        }
    }

    fn add_history(&mut self, kinds: &[u32], steps: &[[u32; 3]], expected: &[u32]) {
        let size = 3 + kinds.len() * POST_WORDS;
        self.answers[expected[0] as usize] += 1;
        let told: Vec<&[u32]> = expected.chunks(size).collect();
        let mut goes = Goes::default();
        for (&step, pair) in steps.iter().zip(told.windows(2)) {
            let (before, after, answer) = (&pair[0][3..], &pair[1][3..], pair[1][0]);
            self.answers[answer as usize] += 1;
            if answer == 0 {
                let kind = kinds[step[1] as usize];
                self.taken[step[0] as usize][kind as usize] += 1;
            }
            self.moments.add(&goes.moment(before, after, step, answer));
        }
    }

    fn add_altered(&mut self, request: &Request, first: u32) {
        let (row, head, valid, told) = match request {
            Request::Valid { row, head } => (row, *head, first == 1, None),
            Request::Event { row, head, step } => (row, *head, first != 1, Some((*step, first))),
            _ => return,
        };
        self.altered_valid += u64::from(valid);
        self.altered.add(&Altered {
            row: row.clone(),
            head,
            valid,
            told,
        });
    }

    /// What was wanted and never seen, or too rarely, one line for each.
    pub fn missing(&self, sorts: &[Sort]) -> Vec<String> {
        let mut lines = Vec::new();
        for answer in ANSWERS {
            if self.answers[answer] == 0 {
                lines.push(format!("answer {answer} was never seen"));
            }
        }
        for (sort, counts) in sorts.iter().zip(&self.cases) {
            for (variety, count) in sort.varieties.iter().zip(counts) {
                if *count == 0 {
                    lines.push(format!("{}: \"{variety}\" never ran", sort.name));
                }
            }
        }
        for (event, kinds) in CAN_BE_TAKEN {
            let can = |taken_at: &u32| kinds.contains(&kind::ordinary(*taken_at));
            for kind in KINDS.into_iter().filter(can) {
                if self.taken[event][kind as usize] == 0 {
                    lines.push(format!("event {event} was never taken at kind {kind}"));
                }
            }
        }
        lines.extend(self.stood.missing());
        lines.extend(self.named.missing());
        lines.extend(self.moments.rare(u64::MAX));
        lines.extend(self.altered.rare(u64::MAX));
        lines.extend(self.questions.rare(RARELY));
        lines.extend(self.imports.rare(RARELY));
        lines.extend(self.long.rare(RARELY));
        lines.extend(self.exports.rare(RARELY));
        lines.extend(self.blocks.rare(RARELY));
        lines
    }

    /// The whole as a text.
    pub fn text(&self, sorts: &[Sort]) -> String {
        let mut text = String::new();
        // Writing to a String cannot fail.
        for (at, sort) in sorts.iter().enumerate() {
            let cases: u64 = self.cases[at].iter().sum();
            let _ = write!(text, "{:18} {cases:8} cases", sort.name);
            if self.events[at] > 0 {
                let _ = write!(text, ", {} events", self.events[at]);
            }
            if sort.name == ALTERED_ROWS && cases > 0 {
                let percent = 100.0 * self.altered_valid as f64 / cases as f64;
                let _ = write!(text, ", {percent:.1}% still valid");
            }
            text.push('\n');
        }
        text.push_str("answers seen:\n");
        for answer in ANSWERS {
            let _ = writeln!(text, "  {answer:2} {:9}", self.answers[answer]);
        }
        for counts in [
            self.taken_text(),
            self.stood.text(),
            self.named.text(),
            self.moments.text(),
            self.altered.text(),
            self.questions.text(),
            self.imports.text(),
            self.long.text(),
            self.exports.text(),
            self.blocks.text(),
        ] {
            text.push_str(&counts);
        }
        text
    }

    fn taken_text(&self) -> String {
        let mut text = "events taken in histories, by kind 0 to 4 and 17 to 20:\n".to_string();
        for (event, counts) in self.taken.iter().enumerate().skip(1) {
            // Writing to a String cannot fail.
            let _ = write!(text, "  {event:2}");
            for kind in KINDS {
                let _ = write!(text, " {:8}", counts[kind as usize]);
            }
            text.push('\n');
        }
        text
    }
}
