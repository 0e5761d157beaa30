//! The working program's fixed cases, always run: sheets to list.

use model::program::{asked, wrote_tracks, Wrote};
use model::{paper, short, stuck, Entry, Listed, MOST_EVENTS, UNANSWERED};

use crate::histories::{near_stamp, stuck_pupils_event, Play};
use crate::random::Random;
use crate::sheets::{lively_sheet, put, renewed, Sheet};
use crate::tables::other_form;

/// An input for the program, the words that it has beside, and what it must write.
pub struct Fixed {
    pub name: &'static str,
    pub words: &'static [&'static str],
    pub input: Vec<u8>,
    pub wrote: Wrote,
}

/// The sort number of the sheets that are built for fixed cases.
pub const BUILT: u64 = 101;

/// A sheet of kinds 0, 1 from stamp 0; event k is stamped 1000k.
pub fn short_sheet(events: &[(u32, u32)]) -> Sheet {
    let entry = |(k, &(number, post)): (u32, &(u32, u32))| [number, post, UNANSWERED, 1000 * k];
    from_0(&[0, 1], (1..).zip(events).map(entry).collect())
}

pub fn papers_sheet() -> Sheet {
    told_as(&paper::EXAMPLE)
}

/// The sheet in which 11 and 12 are taken and 22 and 23 given.
pub fn stuck_sheet() -> Sheet {
    told_as(&stuck::EXAMPLE)
}

/// The sheet in which trains come before their announcements, at short posts and another.
pub fn early_sheet() -> Sheet {
    told_as(&short::EXAMPLE)
}

/// The sheet of an example, as it is handed in.
fn told_as(example: &Listed) -> Sheet {
    from_0(example.kinds, example.unanswered())
}

/// A sheet that starts at stamp 0.
pub fn from_0(kinds: &[u32], events: Vec<Entry>) -> Sheet {
    Sheet {
        kinds: kinds.to_vec(),
        stamp: 0,
        events,
    }
}

/// A sheet that is listed so.
fn listed(name: &'static str, sheet: Vec<u8>, text: &str) -> Fixed {
    Fixed {
        name,
        words: &[],
        input: sheet,
        wrote: Wrote::printing(text),
    }
}

fn refused(name: &'static str, sheet: Vec<u8>, number: u32, block: u32) -> Fixed {
    listed(name, sheet, &format!("refused {number} {block}\n"))
}

/// A case by the model; the words are right ones.
pub fn computed(name: &'static str, words: &'static [&'static str], input: Vec<u8>) -> Fixed {
    let asked = asked(words).expect("right words");
    Fixed {
        name,
        words,
        wrote: wrote_tracks(asked, &input),
        input,
    }
}

/// 32 posts, kinds 2, 3 and 4 inside by turns, each now in one form and now in the other,
/// and a short terminus.
fn kinds_of_everything() -> Vec<u32> {
    let mut kinds: Vec<u32> = (0..32).map(|at| 2 + at % 3).collect();
    kinds[0] = 0;
    kinds[31] = 1;
    for kind in kinds[1..].iter_mut().step_by(2) {
        *kind = other_form(*kind);
    }
    kinds
}

/// A history on those in which every event is taken and each answer that a sheet can get is
/// given.
pub fn sheet_of_everything() -> Sheet {
    let kinds = kinds_of_everything();
    let stamp = u32::MAX - 100_000;
    let mut play = Play::from_start(&kinds, stamp);
    let mut random = Random::of_case(0, BUILT, 0);
    let mut events: Vec<Entry> = Vec::new();
    let mut answers = [false; 24];
    let mut taken = [false; 13];
    while events.len() < 1500 {
        let mut before = play.clone();
        let at = near_stamp(&mut random, play.head.last);
        let [number, place, stamp] = stuck_pupils_event(&mut random, &mut play, at);
        let answer = before.take([number, place, stamp]);
        answers[answer as usize] = true;
        if answer == 0 {
            taken[number as usize] = true;
        }
        events.push([number, place, UNANSWERED, stamp]);
    }
    for answer in [0, 2, 3, 4].into_iter().chain(6..=17).chain([22, 23]) {
        assert!(answers[answer], "the built sheet lacks answer {answer}");
    }
    assert!(
        taken[1..].iter().all(|&is| is),
        "the built sheet lacks an event"
    );
    Sheet {
        kinds,
        stamp,
        events,
    }
}

/// The cases that are always run. What is refused is typed in, not computed.
pub fn fixed_cases() -> Vec<Fixed> {
    let header = short_sheet(&[]).bytes();
    let mut cases = vec![
        listed(
            "the paper's fifteen events",
            papers_sheet().bytes(),
            paper::LISTING,
        ),
        listed(
            "a button sticks and is freed",
            stuck_sheet().bytes(),
            stuck::EXAMPLE.text,
        ),
        listed("early trains", early_sheet().bytes(), short::EXAMPLE.text),
        listed("a header alone", header, "S 0 0 0 0 0 0 0 0 0 0\n"),
        refused("empty input", vec![], 18, 0),
        refused("511 bytes", vec![0; 511], 18, 0),
        refused("513 bytes", vec![0; 513], 18, 0),
        refused("512 bytes of zeros", vec![0; 512], 19, 0),
        refused("33,280 bytes", vec![0; 33_280], 18, 0),
        refused("3,000,000 bytes", vec![1; 3_000_000], 18, 0),
    ];
    cases.extend(fixed_damaged());
    cases.extend(TABLES.map(wrong_table));
    cases.extend(fixed_answered());
    cases.extend(fixed_large());
    cases
}

fn fixed_damaged() -> Vec<Fixed> {
    let changed = |block, word, value| {
        let mut sheet = short_sheet(&[(1, 0); 200]).bytes();
        put(&mut sheet, block, word, value);
        sheet
    };
    let worked = papers_sheet().worked().bytes();
    let wrong_table = renewed(changed(0, 0, 2), 0);
    let wrong_later = renewed(changed(3, 0, 59), 3);
    vec![
        refused("wrong contents in block 0", wrong_table, 20, 0),
        refused("wrong contents in block 3", wrong_later, 20, 3),
        refused("wrong check in block 2", changed(2, 126, 1), 19, 2),
        refused("wrong check in block 4", changed(4, 0, 19), 19, 4),
        refused("already worked", worked, 20, 1),
    ]
}

/// Tables that are wrong by one kind.
const TABLES: [(&str, [u32; 3]); 7] = [
    ("a short origin", [16, 4, 1]),
    ("a short terminus first", [17, 4, 1]),
    ("16 inside", [0, 16, 1]),
    ("a short terminus inside", [0, 17, 17]),
    ("21 inside", [0, 21, 17]),
    ("a short station last", [0, 4, 18]),
    ("21 last", [0, 20, 21]),
];

fn wrong_table((name, kinds): (&'static str, [u32; 3])) -> Fixed {
    let mut sheet = from_0(&[0, 4, 1], vec![]).bytes();
    for (at, kind) in kinds.into_iter().enumerate() {
        put(&mut sheet, 0, 3 + at, kind);
    }
    refused(name, renewed(sheet, 0), 20, 0)
}

/// Sheets with events answered already: how many events there are, which of them are
/// answered, and the block that is named. Events 0 to 59 stand in block 1.
const ANSWERED: &[(&str, usize, &[usize], u32)] = &[
    ("answered: the first event", 200, &[0], 1),
    ("answered: several of block 1", 200, &[0, 1, 30, 59], 1),
    ("answered: the last of block 1", 200, &[59], 1),
    ("answered: the first of block 2", 200, &[60], 2),
    ("answered: one of block 2", 200, &[90], 2),
    ("answered: the last of block 2", 200, &[119], 2),
    ("answered: the first of block 3", 200, &[120], 3),
    ("answered: the last of block 3", 200, &[179], 3),
    ("answered: the first of the last block", 200, &[180], 4),
    ("answered: the last event", 200, &[199], 4),
    ("answered: blocks 2 and 4", 200, &[119, 181], 2),
    ("answered: the last of block 62", 3_780, &[3_719], 62),
    ("answered: the first of block 63", 3_780, &[3_720], 63),
    ("answered: the last of a full sheet", 3_780, &[3_779], 63),
];

fn fixed_answered() -> Vec<Fixed> {
    let case = |&(name, count, answered, block): &(&'static str, usize, &[usize], u32)| {
        let mut sheet = short_sheet(&vec![(1, 0); count]);
        for &at in answered {
            sheet.events[at][2] = 0;
        }
        refused(name, sheet.bytes(), 20, block)
    };
    ANSWERED.iter().map(case).collect()
}

fn fixed_large() -> Vec<Fixed> {
    let mut random = Random::of_case(0, BUILT, 1);
    let everything = sheet_of_everything().bytes();
    let full = lively_sheet(&mut random, 32, MOST_EVENTS).bytes();
    vec![
        computed("every event and answer at 32 posts", &[], everything),
        computed("3,780 events at 32 posts", &[], full),
    ]
}
