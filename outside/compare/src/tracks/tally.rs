//! What a run of two tracks has seen, and whether that is all that was wanted.

use std::fmt::Write;

use model::TrackStep;

use crate::cases::{Case, Sort};
use crate::counts::{Counts, Wanted};
use crate::request::{Request, POST_WORDS};
use crate::tracks::asked::{Asked, OF_ALL, OF_QUESTIONS, OF_READING, OF_WORKING, WRITTEN};
use crate::tracks::met::{Met, MET};
use crate::tracks::of_one::{self, Given, GIVEN};
use crate::tracks::request::{Tables, TrackRequest};
use crate::tracks::two::Two;
use crate::tracks::used::{Started, Used, STARTED, USED};

/// The numbers that an event can get.
const ANSWERS: [usize; 21] = [
    0, 1, 2, 3, 4, 5, 6, 7, 8, 9, 10, 11, 12, 13, 14, 15, 16, 17, 22, 23, 25,
];

/// The numbers that a call on a sheet can return.
const OF_SHEETS: [usize; 8] = [0, 1, 18, 19, 20, 21, 24, 29];

/// The calls that are given a sheet, and what is wanted of each: of the first three also what is
/// wanted of all that read one.
pub const CALLS: [(&str, &[Wanted<Asked>]); 4] = [
    ("sheets read", OF_READING),
    ("sheets worked", OF_WORKING),
    ("sheets asked about", OF_QUESTIONS),
    ("sheets written", WRITTEN),
];

pub struct TrackTally {
    pub cases: Vec<Vec<u64>>,
    /// Of sessions.
    pub events: u64,
    /// Of all events, by their answers.
    pub answers: [u64; 32],
    /// Events taken, by their number and track.
    pub taken: [[u64; 2]; 13],
    /// Events on lines that may be used, by how many posts those have.
    pub posts: [u64; 33],
    pub met: Counts<Met>,
    pub used: Counts<Used>,
    pub started: Counts<Started>,
    /// Of the calls on sheets, by what they return.
    pub returned: [u64; 32],
    pub all: Vec<Counts<Asked>>,
    pub own: Vec<Counts<Asked>>,
    /// Of the calls of one track.
    pub of_one: Vec<Counts<Given>>,
}

impl TrackTally {
    pub fn new(sorts: &[Sort]) -> Self {
        TrackTally {
            cases: sorts.iter().map(|s| vec![0; s.varieties.len()]).collect(),
            events: 0,
            answers: [0; 32],
            taken: [[0; 2]; 13],
            posts: [0; 33],
            met: Counts::new("events of two tracks", MET),
            used: Counts::new("altered pairs of lines", USED),
            started: Counts::new("starts of two tracks", STARTED),
            returned: [0; 32],
            all: CALLS[..3]
                .iter()
                .map(|(name, _)| Counts::new(name, OF_ALL))
                .collect(),
            own: CALLS
                .iter()
                .map(|(name, own)| Counts::new(name, own))
                .collect(),
            of_one: of_one::CALLS
                .iter()
                .map(|(_, name)| Counts::new(name, GIVEN))
                .collect(),
        }
    }

    pub fn add(&mut self, _: &[Sort], case: &Case) {
        self.cases[case.sort][case.variety] += 1;
        match &case.request {
            Request::Tracks(request) => self.add_request(request, &case.expected),
            request => {
                if let Some((call, given)) = of_one::of(request, &case.expected) {
                    self.of_one[call].add(&given);
                }
            }
        }
    }

    fn add_request(&mut self, request: &TrackRequest, reply: &[u32]) {
        match request {
            TrackRequest::Run {
                tables,
                circuit,
                steps,
                ..
            } => self.add_session(tables, *circuit, steps, reply),
            TrackRequest::Start {
                rows,
                tables,
                circuit,
                ..
            } => self.started.add(&Started {
                lengths: [rows[0].len(), rows[1].len()],
                tables: tables.clone(),
                circuit: *circuit,
                answer: reply[0],
            }),
            TrackRequest::Valid(two) => self.used.add(&Used {
                two: two.clone(),
                valid: reply[0] == 1,
                answer: None,
            }),
            TrackRequest::Event(two, step) => self.add_altered(two, *step, reply[0]),
            TrackRequest::Read { .. } => self.add_sheet(0, request, reply),
            TrackRequest::Work { .. } => self.add_sheet(1, request, reply),
            TrackRequest::Why { .. } => self.add_sheet(2, request, reply),
            TrackRequest::Write { .. } => self.add_sheet(3, request, reply),
        }
    }

    /// A call on a sheet, by its place in the list of them.
    fn add_sheet(&mut self, call: usize, request: &TrackRequest, reply: &[u32]) {
        self.returned[reply[0] as usize] += 1;
        let asked = Asked {
            request: request.clone(),
            reply: reply.to_vec(),
        };
        if let Some(all) = self.all.get_mut(call) {
            all.add(&asked);
        }
        self.own[call].add(&asked);
    }

    fn add_session(&mut self, tables: &Tables, circuit: u32, steps: &[TrackStep], reply: &[u32]) {
        let posts = tables[0].len();
        self.events += steps.len() as u64;
        let told: Vec<&[u32]> = reply.chunks(3 + 2 * posts * POST_WORDS).collect();
        for (&step, pair) in steps.iter().zip(told.windows(2)) {
            let relays = pair[0][3..].iter().step_by(POST_WORDS);
            self.add_event(Met {
                circuit,
                step,
                answer: pair[1][0],
                posts,
                relays: relays.copied().collect(),
                behind: is_behind(step, pair[0][2]),
            });
        }
    }

    fn add_event(&mut self, met: Met) {
        let [track, number, ..] = met.step;
        self.answers[met.answer as usize] += 1;
        if met.answer == 0 {
            self.taken[number as usize][track as usize] += 1;
        }
        if met.answer != 1 {
            self.posts[met.posts] += 1;
            self.met.add(&met);
        }
    }

    /// An event on lines that other hands altered.
    fn add_altered(&mut self, two: &Two, step: TrackStep, answer: u32) {
        self.add_event(Met {
            circuit: two.circuit,
            step,
            answer,
            posts: two.rows[0].len(),
            relays: two.rows.iter().flatten().map(|post| post.word).collect(),
            behind: is_behind(step, two.head.last),
        });
        self.used.add(&Used {
            two: two.clone(),
            valid: answer != 1,
            answer: Some(answer),
        });
    }

    /// What was wanted and never seen, one line for each.
    pub fn missing(&self, sorts: &[Sort]) -> Vec<String> {
        let mut lines = self.missing_events();
        for (sort, counts) in sorts.iter().zip(&self.cases) {
            let unseen = sort.varieties.iter().zip(counts).filter(|(_, n)| **n == 0);
            lines.extend(
                unseen.map(|(variety, _)| format!("{}: \"{variety}\" never ran", sort.name)),
            );
        }
        lines.extend(self.met.rare(u64::MAX));
        lines.extend(self.used.rare(u64::MAX));
        lines.extend(self.started.rare(u64::MAX));
        for number in OF_SHEETS.into_iter().filter(|at| self.returned[*at] == 0) {
            lines.push(format!(
                "no call on a sheet of either form returned {number}"
            ));
        }
        let sheets = self.all.iter().chain(&self.own);
        lines.extend(sheets.flat_map(|counts| counts.rare(u64::MAX)));
        lines.extend(self.of_one.iter().flat_map(|counts| counts.rare(u64::MAX)));
        lines
    }

    /// Answers, taken events and numbers of posts.
    fn missing_events(&self) -> Vec<String> {
        let mut lines = Vec::new();
        for answer in ANSWERS.into_iter().filter(|at| self.answers[*at] == 0) {
            lines.push(format!(
                "events of two tracks, answer {answer} was never seen"
            ));
        }
        for (number, taken) in self.taken.iter().enumerate().skip(1) {
            for (track, _) in taken.iter().enumerate().filter(|(_, count)| **count == 0) {
                lines.push(format!(
                    "event {number} was never taken on track {}",
                    track + 1
                ));
            }
        }
        for posts in (2..=32).filter(|posts| self.posts[*posts] == 0) {
            lines.push(format!("no event of two tracks at {posts} posts"));
        }
        lines
    }

    /// The whole as a text.
    pub fn text(&self, sorts: &[Sort]) -> String {
        let mut text = format!("{} events in sessions\n", self.events);
        // Writing to a String cannot fail.
        for (sort, counts) in sorts.iter().zip(&self.cases) {
            let cases: u64 = counts.iter().sum();
            let _ = writeln!(text, "{:18} {cases:8} cases", sort.name);
        }
        text.push_str("answers to events:\n");
        for answer in ANSWERS {
            let _ = writeln!(text, "  {answer:2} {:9}", self.answers[answer]);
        }
        text.push_str("returned by calls on sheets:\n");
        for number in OF_SHEETS {
            let _ = writeln!(text, "  {number:2} {:9}", self.returned[number]);
        }
        text += &(self.met.text() + &self.used.text() + &self.started.text());
        text.extend(self.all.iter().chain(&self.own).map(Counts::text));
        text.extend(self.of_one.iter().map(Counts::text));
        text
    }
}

fn is_behind(step: TrackStep, last: u32) -> bool {
    (step[3].wrapping_sub(last) as i32) < 0
}
