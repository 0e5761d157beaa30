//! Libraries that are the model with one fault put in: each must be found by a
//! small run, and the model as it stands must pass it.

mod common;

use common::{must_differ, refused, right, small_run, Events};
use compare::bad_fields::{BITS, OF_ALL};
use compare::cases::{sorts, Wanted, WHOLE};
use compare::checked::CHECKED;
use compare::desk::{Desk, InProcess, Model};
use compare::moments::{ALTERED, MOMENTS};
use compare::named::WANTED;
use compare::registers::{EXPORTS, IMPORTS, LONG};
use compare::run::compare;
use compare::seen::SEEN;
use compare::sheets::{blocks, get, put, renew};
use compare::shorts::{AT_ALTERED, AT_MOMENTS};
use model::{relay, Entry, Found, Head, Post, Told, Worked, EVENTS_PER_BLOCK};

#[test]
fn the_model_passes_and_all_is_seen() {
    let tally = small_run(Model).unwrap_or_else(|d| panic!("{}: {}", d.name, d.text));
    assert_eq!(tally.missing(&sorts()), Vec::<String>::new());
}

#[test]
fn what_does_not_come_up_is_missed() {
    let wanted = Wanted {
        events: 0,
        rows: 0,
        sheets: 0,
        questions: 0,
        texts: 0,
        blocks: 0,
    };
    let run = compare(&sorts(), 1, wanted, &mut InProcess(Model));
    let missing = run.map_or(Vec::new(), |tally| tally.missing(&sorts()));
    let lines = |front: &str| {
        missing
            .iter()
            .filter(|line| line.starts_with(front))
            .count()
    };
    assert_eq!(lines("questions of since when, "), SEEN.len());
    assert_eq!(lines("texts, "), IMPORTS.len());
    assert_eq!(lines("long texts, "), LONG.len());
    assert_eq!(lines("exports, "), EXPORTS.len());
    assert_eq!(lines("single blocks, "), CHECKED.len());
    let moments = MOMENTS.len() + AT_MOMENTS.lines();
    assert_eq!(lines("events in histories, "), moments);
    assert_eq!(lines("altered rows, "), ALTERED.len() + AT_ALTERED.lines());
    assert_eq!(lines("tables, "), 132);
    let fields = |own: usize| OF_ALL.len() + own + EVENTS_PER_BLOCK + BITS;
    let fields: usize = WANTED.iter().map(|(_, own)| fields(own.len())).sum();
    assert_eq!(lines("upper bits, "), fields);
    assert_eq!(lines("answer "), 27);
    assert_eq!(lines("event "), 87);
}

/// The gate's whole run in this process: cargo test --release -- --ignored.
#[test]
#[ignore = "long; it measures what the comparison alone costs"]
fn the_model_passes_a_whole_run() {
    let began = std::time::Instant::now();
    let run = compare(&sorts(), 317_944, WHOLE, &mut InProcess(Model));
    let tally = run.unwrap_or_else(|d| panic!("{}: {}", d.name, d.text));
    println!("{}{:?}", tally.text(&sorts()), began.elapsed());
    assert_eq!(tally.missing(&sorts()), Vec::<String>::new());
}

#[test]
fn counts_v_when_the_release_is_sent() {
    let desk = Events(|(row, head, step)| {
        let told = right((row, head, step));
        if told.answer == 0 && (step[0] == 6 || step[0] == 7) {
            row[step[1] as usize - 1].v += 1;
        }
        told
    });
    must_differ("v counted when sent", desk);
}

#[test]
fn moves_the_last_stamp_on_a_refusal() {
    let desk = Events(|(row, head, step)| {
        let mut told = right((row, head, step));
        told.head.last = step[2];
        told
    });
    must_differ("last stamp moved", desk);
}

#[test]
fn records_an_early_pedal_strike() {
    let desk = Events(|(row, head, step)| {
        let told = right((row, head, step));
        if told.answer == 0 && step[0] == 3 {
            let post = &mut row[step[1] as usize];
            if !post.is_up(relay::KPG) {
                post.raise(relay::KPG);
                post.q += 1;
            }
        }
        told
    });
    must_differ("early strike recorded", desk);
}

#[test]
fn compares_stamps_as_plain_numbers() {
    let desk = Events(|(row, head, step)| {
        // One ahead of the stamp is what makes the model find it behind.
        let ahead = u32::from(step[2] < head.last);
        let last = step[2].wrapping_add(ahead);
        let told = right((row, Head { last, ..head }, step));
        match told.answer {
            0 => told,
            answer => refused(answer, head),
        }
    });
    must_differ("stamps as plain numbers", desk);
}

#[test]
fn garage_release_asks_the_onward_block() {
    let desk = Events(|(row, head, step)| {
        let mut tried = row.to_vec();
        let told = right((&mut tried, head, step));
        if told.answer == 0 && step[0] == 7 && row[step[1] as usize].is_up(relay::RL) {
            return refused(13, head);
        }
        row.copy_from_slice(&tried);
        told
    });
    must_differ("garage release asks", desk);
}

#[test]
fn answers_2_before_3() {
    let desk = Events(|(row, head, step)| match right((row, head, step)) {
        told if told.answer == 3 && step[1] as usize >= row.len() => refused(2, head),
        told => told,
    });
    must_differ("2 before 3", desk);
}

#[test]
fn answers_4_before_5() {
    let desk = Events(|(row, head, step)| match right((row, head, step)) {
        told if told.answer == 5 && (step[2].wrapping_sub(head.last) as i32) < 0 => {
            refused(4, head)
        }
        told => told,
    });
    must_differ("4 before 5", desk);
}

#[test]
fn is_full_one_event_early() {
    let desk = Events(|(row, head, step)| {
        let taken = head.taken + u32::from(head.taken == 999_999);
        match right((row, Head { taken, ..head }, step)) {
            told if told.answer == 0 => told,
            told => refused(told.answer, head),
        }
    });
    must_differ("full one early", desk);
}

#[test]
fn counts_a_lost_announcement_as_received() {
    let desk = Events(|(row, head, step)| {
        let lost = row.iter().map(|post| post.x).collect::<Vec<_>>();
        let told = right((row, head, step));
        for (at, x) in lost.into_iter().enumerate() {
            if row[at].x != x {
                row[at].x = x;
                row[at + 1].r += 1;
            }
        }
        told
    });
    must_differ("lost counted as received", desk);
}

/// The model under another check: every block sums to 317944.
struct CheckWithoutBlock;

/// Each block's check word moved by its number, up or down.
fn moved(sheet: &[u8], down: bool) -> Vec<u8> {
    let mut sheet = sheet.to_vec();
    for at in 0..blocks(&sheet) {
        let by = at as u32;
        let by = if down { by.wrapping_neg() } else { by };
        let check = get(&sheet, at, 127).wrapping_add(by);
        put(&mut sheet, at, 127, check);
    }
    sheet
}

impl Desk for CheckWithoutBlock {
    fn read(&mut self, sheet: &[u8], kinds: &mut [u32], events: &mut [Entry]) -> Found {
        model::read(&moved(sheet, false), kinds, events)
    }

    fn work(&mut self, sheet: &[u8], out: &mut [u8]) -> Worked {
        let worked = model::work(&moved(sheet, false), out);
        if worked.number == 0 {
            let length = sheet.len();
            let written = moved(&out[..length], true);
            out[..length].copy_from_slice(&written);
        }
        worked
    }
}

#[test]
fn checks_without_the_block_number() {
    must_differ("check without the block", CheckWithoutBlock);
}

/// Touches the output on a refusal: of writing, or of working.
struct TouchesOutput {
    writing: bool,
}

impl Desk for TouchesOutput {
    fn write(&mut self, kinds: &[u32], stamp: u32, events: &[Entry], out: &mut [u8]) -> u32 {
        let number = model::write(kinds, stamp, events, out);
        if self.writing && number != 0 && !out.is_empty() {
            out[0] ^= 1;
        }
        number
    }

    fn work(&mut self, sheet: &[u8], out: &mut [u8]) -> Worked {
        let worked = model::work(sheet, out);
        if !self.writing && worked.number != 0 && !out.is_empty() {
            out[0] ^= 1;
        }
        worked
    }
}

#[test]
fn touches_the_output_on_a_refusal() {
    must_differ("write touches", TouchesOutput { writing: true });
    must_differ("work touches", TouchesOutput { writing: false });
}

/// Sets the byte after the sheet to zero: of writing, or of working.
struct WritesPast {
    writing: bool,
}

impl Desk for WritesPast {
    fn write(&mut self, kinds: &[u32], stamp: u32, events: &[Entry], out: &mut [u8]) -> u32 {
        let number = model::write(kinds, stamp, events, out);
        let length = 512 * (1 + events.len().div_ceil(60));
        if self.writing && number == 0 && out.len() > length {
            out[length] = 0;
        }
        number
    }

    fn work(&mut self, sheet: &[u8], out: &mut [u8]) -> Worked {
        let worked = model::work(sheet, out);
        if !self.writing && worked.number == 0 && out.len() > sheet.len() {
            out[sheet.len()] = 0;
        }
        worked
    }
}

#[test]
fn writes_past_the_sheet() {
    must_differ("write past", WritesPast { writing: true });
    must_differ("work past", WritesPast { writing: false });
}

/// Of a block wrong in both, the contents are named and not the check.
struct ContentsFirst;

impl Desk for ContentsFirst {
    fn read(&mut self, sheet: &[u8], kinds: &mut [u32], events: &mut [Entry]) -> Found {
        let found = model::read(sheet, kinds, events);
        if found.number != 19 {
            return found;
        }
        let mut repaired = sheet.to_vec();
        renew(&mut repaired, found.block as usize);
        let again = model::read(&repaired, &mut kinds.to_vec(), &mut events.to_vec());
        if matches!(again.number, 20 | 24) && again.block == found.block {
            return again;
        }
        found
    }
}

#[test]
fn tests_contents_before_the_check() {
    must_differ("contents before the check", ContentsFirst);
}

/// Fills the rooms although one of them is too short.
struct FillsOnRefusal;

impl Desk for FillsOnRefusal {
    fn read(&mut self, sheet: &[u8], kinds: &mut [u32], events: &mut [Entry]) -> Found {
        let found = model::read(sheet, kinds, events);
        if found.number == 21 && !kinds.is_empty() {
            kinds[0] = 0;
        }
        found
    }
}

#[test]
fn fills_the_rooms_on_a_refusal() {
    must_differ("rooms filled", FillsOnRefusal);
}

/// Tests the number of events to write before their fields.
struct EighteenFirst;

impl Desk for EighteenFirst {
    fn write(&mut self, kinds: &[u32], stamp: u32, events: &[Entry], out: &mut [u8]) -> u32 {
        match model::write(kinds, stamp, events, out) {
            20 if events.len() > 3_780 => 18,
            number => number,
        }
    }
}

#[test]
fn writing_tests_18_before_20() {
    must_differ("18 before 20", EighteenFirst);
}

/// A refused start returns the stamp, or clears the row.
struct StartsWrongly {
    clears: bool,
}

impl Desk for StartsWrongly {
    fn start(&mut self, row: &mut [Post], kinds: &[u32], stamp: u32) -> Told {
        let mut told = model::start(row, kinds, stamp);
        if told.answer != 0 && self.clears {
            row.fill(Post::default());
        } else if told.answer != 0 {
            told.head.last = stamp;
        }
        told
    }
}

#[test]
fn starts_wrongly() {
    must_differ("refused start clears", StartsWrongly { clears: true });
    must_differ("refused start's head", StartsWrongly { clears: false });
}

/// Names the block of an answered event as if a block held 64 of them.
struct BlocksOf64;

impl Desk for BlocksOf64 {
    fn work(&mut self, sheet: &[u8], out: &mut [u8]) -> Worked {
        let mut worked = model::work(sheet, out);
        let mut events = vec![[0; 4]; model::MOST_EVENTS];
        let found = model::read(sheet, &mut [0; 32], &mut events);
        if worked.number == 20 && found.number == 0 {
            let answered = events.iter().position(|event| event[2] != 31);
            worked.block = answered.map_or(0, |at| 1 + at as u32 / 64);
        }
        worked
    }
}

#[test]
fn reckons_an_answered_block_by_64() {
    must_differ("an answered event's block by 64", BlocksOf64);
}
