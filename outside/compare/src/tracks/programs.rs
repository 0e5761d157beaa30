//! Runs of the working program on sheets of either form: the listing, `work`, `why` and `export`.

use std::io;

use model::program::{asked, wrote_tracks, Wrote};
use model::{both, Entry, MOST_EVENTS, TWO_TRACKS};

use crate::counts::{Counts, Wanted};
use crate::program::{asked_of, some_given, Asked};
use crate::ran::{compared, Given, Ran};
use crate::random::Random;
use crate::request::Request;
use crate::tracks::request::TrackRequest;
use crate::tracks::sheets::TrackSheet;
use crate::tracks::{damage, questions};

/// The sorts of random runs in the program's plan have the numbers from 100 on.
const SORT: u64 = 107;

/// What such a run is named by, with a colon and its index.
pub const NAME: &str = "desk-tracks";

/// By turns each word; for each, by turns each kind of sheet or of question.
pub fn random_run(random: &mut Random, index: u64) -> Asked {
    let words: [&[&str]; 3] = [&[], &["work"], &["export"]];
    let (turn, word) = ((index / 4) as usize, (index % 4) as usize);
    match words.get(word) {
        Some(words) => {
            let kind = turn % damage::count();
            asked_of(&damage::names()[kind], words, damage::of_kind(random, kind))
        }
        None => {
            let names = questions::names();
            let variety = turn % names.len();
            match questions::question(random, variety) {
                Request::Tracks(TrackRequest::Why { sheet, position }) => {
                    asked_of(&names[variety], &["why", &position.to_string()], sheet)
                }
                _ => unreachable!("a question is a request of why"),
            }
        }
    }
}

/// A fixed run, and what the program writes.
pub struct Fixed {
    pub asked: Asked,
    pub wrote: Wrote,
}

/// Our example on both circuits, and sheets as long as one can be: listed, worked, asked about
/// and exported.
pub fn fixed_runs() -> Vec<Fixed> {
    let mut runs = Vec::new();
    for (circuit, text) in [(0, both::POLARISED), (1, both::VIBRATED)] {
        let given = example(circuit, both::unanswered(both::POLARISED));
        let right = example(circuit, both::answered(text));
        let mut add = |words: &[&str], input: &[u8], wrote| {
            let asked = asked_of("our example", words, input.to_vec());
            runs.push(Fixed { asked, wrote });
        };
        let (printed, said) = (right.clone(), String::new());
        add(&[], &given, Wrote::printing(text));
        add(&["work"], &given, Wrote { printed, said });
        add(&["work"], &right, Wrote::saying("refused 20 1\n"));
        add(&["export"], &given, Wrote::saying("refused 20 0\n"));
        add(&["export"], &right, Wrote::saying("refused 20 0\n"));
        add(&["why", "2"], &right, Wrote::printing("refused 29 0\n"));
        for (position, line) in both::SINCE.iter().filter(|_| circuit == 0) {
            let words = ["why", &position.to_string()];
            add(&words, &right, Wrote::printing(line));
        }
    }
    runs.extend(long_runs());
    runs
}

/// 3,780 events at 32 posts on both tracks, whose lines are as long as any: each button freed
/// that is not stuck. Then an announcement, and the last event is refused for it.
fn long_sheet() -> TrackSheet {
    let mut kinds = vec![20; 32];
    (kinds[0], kinds[31]) = (0, 17);
    let mut sheet = TrackSheet {
        form: TWO_TRACKS,
        table: [&kinds[..], &kinds, &[0]].concat(),
        stamp: 0,
        events: vec![[12, 31, 31, u32::MAX >> 1]; MOST_EVENTS],
        tracks: (0..MOST_EVENTS as u32).map(|at| at % 2).collect(),
    };
    sheet.events[MOST_EVENTS - 3][..2].copy_from_slice(&[5, 30]);
    sheet.events[MOST_EVENTS - 1][..2].copy_from_slice(&[1, 30]);
    sheet
}

fn long_listing() -> String {
    let mut lines: String = (1..=3777)
        .map(|at| format!("{at} 12 31 23 {}\n", (at - 1) % 2))
        .collect();
    lines += "3778 5 30 0 1\n3779 12 31 23 0\n3780 1 30 8 1\n";
    for (track, section) in (0..62).map(|line| (line / 31, line % 31)) {
        let sent = u32::from((track, section) == (1, 30));
        lines += &format!("S {section} {sent} 0 0 0 0 0 0 0 {sent} {track}\n");
    }
    lines
}

fn long_runs() -> [Fixed; 4] {
    let sheet = long_sheet();
    let (given, right) = (sheet.bytes(), sheet.worked().bytes());
    let (printed, said) = (right.clone(), String::new());
    let run = |words: &[&str], input: &[u8], wrote| Fixed {
        asked: asked_of("3,780 events of two tracks", words, input.to_vec()),
        wrote,
    };
    [
        run(&[], &given, Wrote::printing(&long_listing())),
        run(&["work"], &given, Wrote { printed, said }),
        run(&["why", "3780"], &right, Wrote::printing("3778 5 30 0 1\n")),
        run(&["export"], &right, Wrote::saying("refused 20 0\n")),
    ]
}

/// The sheet of our example with these events.
fn example(circuit: u32, (events, tracks): (Vec<Entry>, Vec<u32>)) -> Vec<u8> {
    let sheet = TrackSheet {
        form: TWO_TRACKS,
        table: both::table(circuit),
        stamp: 0,
        events,
        tracks,
    };
    sheet.bytes()
}

/// A run and what it wrote.
pub struct Run {
    asked: Asked,
    wrote: Wrote,
}

pub const RUNS: &[Wanted<Run>] = &[
    ("listed, two tracks", |r| r.lists(2)),
    ("listed, one track", |r| r.lists(1)),
    ("listed, 25 among the answers, track 1", |r| {
        r.has_line(" 25 0\n")
    }),
    ("listed, 25 among the answers, track 2", |r| {
        r.has_line(" 25 1\n")
    }),
    ("listed, two tracks, no events", |r| {
        r.lists(2) && r.printed().starts_with('S')
    }),
    ("listed, two tracks of 32 posts", |r| {
        r.has_line("\nS 30 ") && r.lists(2)
    }),
    ("worked, two tracks", |r| r.works(2)),
    ("worked, one track", |r| r.works(1)),
    ("exported, one track", |r| {
        r.word() == "export" && !r.wrote.printed.is_empty()
    }),
    ("not exported, two tracks, good", |r| {
        r.word() == "export" && r.wrote.said == "refused 20 0\n" && r.form() == Some(2)
    }),
    ("not exported, two tracks, 19 for a later block", |r| {
        r.export_says(19)
    }),
    ("not exported, two tracks, 20 for a later block", |r| {
        r.export_says(20)
    }),
    ("not exported, two tracks, 24", |r| r.export_says(24)),
    ("why, an event of track 1", |r| r.tells(" 0 0\n")),
    ("why, an event of track 2", |r| r.tells(" 0 1\n")),
    ("why, 0 in a sheet of two tracks", |r| {
        r.word() == "why" && r.form() == Some(2) && r.printed() == "0\n"
    }),
    ("why, refused 29", |r| {
        r.word() == "why" && r.printed() == "refused 29 0\n"
    }),
    ("listed, refused 18", |r| r.list_says("refused 18 ")),
    ("listed, refused 19", |r| r.list_says("refused 19 ")),
    ("listed, refused 20", |r| r.list_says("refused 20 ")),
    ("listed, refused 24", |r| r.list_says("refused 24 ")),
];

impl Run {
    fn word(&self) -> &str {
        self.asked.words.first().map_or("", String::as_str)
    }

    fn printed(&self) -> &str {
        std::str::from_utf8(&self.wrote.printed).unwrap_or("")
    }

    /// How many tracks a good sheet has.
    fn form(&self) -> Option<u32> {
        TrackSheet::of(&self.asked.input).map(|sheet| sheet.form)
    }

    fn list_says(&self, front: &str) -> bool {
        self.word().is_empty() && self.printed().starts_with(front)
    }

    fn lists(&self, form: u32) -> bool {
        self.word().is_empty() && !self.printed().starts_with('r') && self.form() == Some(form)
    }

    fn has_line(&self, part: &str) -> bool {
        self.word().is_empty() && self.printed().contains(part)
    }

    fn works(&self, form: u32) -> bool {
        self.word() == "work" && !self.wrote.printed.is_empty() && self.form() == Some(form)
    }

    /// A sheet of two tracks that is refused for a block behind block 0.
    fn export_says(&self, number: u32) -> bool {
        let two = self.asked.input.starts_with(&[2, 0, 0, 0]);
        let said: Vec<&str> = self.wrote.said.trim_end().split(' ').collect();
        let later = matches!(said[..], ["refused", given, block, ..]
            if given == number.to_string() && block != "0");
        self.word() == "export" && two && later
    }

    fn tells(&self, end: &str) -> bool {
        self.word() == "why" && self.form() == Some(2) && self.printed().ends_with(end)
    }
}

/// The working program as something to ask: its words, its input and how that is given.
pub type Program<'a> = &'a mut dyn FnMut(&[&str], &[u8], Given) -> io::Result<Ran>;

/// Compares the program with the model on the fixed runs: how many there are, or the first
/// difference.
pub fn compare_fixed(program: Program) -> Result<usize, String> {
    let runs = fixed_runs();
    let count = runs.len();
    for Fixed { asked, wrote } in runs {
        check(asked, wrote, Given::AtOnce, program)?;
    }
    Ok(count)
}

/// The same on so many random ones: what came up, or the first difference.
pub fn compare_random(seed: u64, count: u64, program: Program) -> Result<Counts<Run>, String> {
    let mut seen = Counts::new("runs on sheets of either form", RUNS);
    for index in 0..count {
        seen.add(&compare_one(seed, index, program)?);
    }
    Ok(seen)
}

/// The same on one of them.
pub fn compare_one(seed: u64, index: u64, program: Program) -> Result<Run, String> {
    let mut random = Random::of_case(seed, SORT, index);
    let run = random_run(&mut random, index);
    let given = some_given(&mut random, run.input.len());
    let words: Vec<&str> = run.words.iter().map(String::as_str).collect();
    let right = wrote_tracks(asked(&words).ok_or("a wrong word")?, &run.input);
    let named = |text| format!("{NAME}:{index} (seed {seed}), {text}");
    check(run, right, given, program).map_err(named)
}

fn check(asked: Asked, right: Wrote, given: Given, program: Program) -> Result<Run, String> {
    let words: Vec<&str> = asked.words.iter().map(String::as_str).collect();
    let (name, bytes) = (&asked.name, asked.input.len());
    let named = |text| format!("\"{name}\", words {words:?}, {bytes} bytes: {text}");
    compared(program(&words, &asked.input, given), &right).map_err(named)?;
    // What it wrote is what is right.
    let wrote = right;
    Ok(Run { asked, wrote })
}
