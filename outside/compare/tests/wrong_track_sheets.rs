//! Desks that are the model with one fault about sheets of two tracks put in (02, item 7), each
//! in one call at a time: every one must be found by a small run.

mod common;

use common::tracks::{is_found, run_of_sheets};
use compare::desk::{Desk, Model};
use compare::sheets::{blocks, get, put, renew};
use compare::tracks::request::Rooms;
use compare::tracks::sheets::TrackSheet;
use model::number::CONTENTS;
use model::{
    check, Entry, Exported, Found, FoundTracks, Since, Verdict, Worked, WorkedTracks, BLOCK_BYTES,
};

/// The calls that read a sheet of either form.
const CALLS: [&str; 4] = ["test", "read", "work", "why"];

/// The sheet as one of those calls takes it for: each block whose check was right is changed, and
/// its check renewed; the number of the block is given.
type Takes = fn(&mut [u8], usize);

fn taken(sheet: &[u8], takes: Takes) -> Vec<u8> {
    let mut seen = sheet.to_vec();
    for at in 0..blocks(sheet) {
        let block = &sheet[at * BLOCK_BYTES..][..BLOCK_BYTES];
        if check(block, at as u32) {
            takes(&mut seen, at);
            renew(&mut seen, at);
        }
    }
    seen
}

/// How a call sees a sheet: its blocks changed, or a good sheet of two tracks altered.
#[derive(Clone, Copy)]
enum Sees {
    Blocks(Takes),
    Sheet(Alters),
}

/// A desk that takes a sheet for another in one call.
struct Blind {
    call: &'static str,
    sees: Sees,
}

impl Blind {
    fn seen(&self, call: &str, sheet: &[u8]) -> Vec<u8> {
        match self.sees {
            _ if call != self.call => sheet.to_vec(),
            Sees::Blocks(takes) => taken(sheet, takes),
            Sees::Sheet(alters) => altered(sheet, alters),
        }
    }
}

impl Desk for Blind {
    fn test_tracks(&mut self, sheet: &[u8]) -> Verdict {
        model::test_tracks(&self.seen("test", sheet))
    }

    fn read_tracks(&mut self, sheet: &[u8], rooms: Rooms) -> FoundTracks {
        Model.read_tracks(&self.seen("read", sheet), rooms)
    }

    fn work_tracks(&mut self, sheet: &[u8], out: &mut [u8]) -> WorkedTracks {
        let worked = model::work_tracks(&self.seen("work", sheet), out);
        // All but the answers is written as it was.
        if worked.number == 0 {
            for block in 0..blocks(sheet) {
                restore(sheet, out, block);
            }
        }
        worked
    }

    fn why_tracks(&mut self, sheet: &[u8], position: u32) -> Since {
        model::why_tracks(&self.seen("why", sheet), position)
    }
}

fn is_two(bytes: &[u8]) -> bool {
    get(bytes, 0, 0) == 2
}

/// The word of block 0 that is the circuit.
fn circuit(bytes: &[u8]) -> usize {
    (3 + 2 * get(bytes, 0, 1) as usize).min(125)
}

/// A word of block 0 in a sheet of two tracks, where it is this, taken for that.
fn word(bytes: &mut [u8], block: usize, at: usize, change: impl Fn(u32) -> u32) {
    if block == 0 && is_two(bytes) {
        let value = change(get(bytes, 0, at));
        put(bytes, 0, at, value);
    }
}

/// The event words of a block, in a sheet of so many tracks.
fn event_words(bytes: &mut [u8], block: usize, form: u32, change: impl Fn(u32) -> u32) {
    if block == 0 || get(bytes, 0, 0) != form {
        return;
    }
    for at in 0..(get(bytes, block, 0) as usize).min(60) {
        let value = change(get(bytes, block, 1 + 2 * at));
        put(bytes, block, 1 + 2 * at, value);
    }
}

const TAKEN_FOR: &[(&str, Takes)] = &[
    ("bit 17 let in", |bytes, block| {
        event_words(bytes, block, 2, |word| word & !(1 << 17))
    }),
    ("all upper bits but 16 let in", |bytes, block| {
        event_words(bytes, block, 2, |word| word & 0x1_FFFF)
    }),
    ("bit 31 let in", |bytes, block| {
        event_words(bytes, block, 2, |word| word & !(1 << 31))
    }),
    ("bit 16 refused", |bytes, block| {
        event_words(bytes, block, 2, |word| word | (word & 1 << 16) << 1)
    }),
    ("bit 16 let in in a sheet of one", |bytes, block| {
        event_words(bytes, block, 1, |word| word & !(1 << 16))
    }),
    ("circuit 2 taken", |bytes, block| {
        let at = circuit(bytes);
        word(
            bytes,
            block,
            at,
            |circuit| if circuit == 2 { 1 } else { circuit },
        )
    }),
    ("any circuit but 0 is vibrated", |bytes, block| {
        let at = circuit(bytes);
        word(bytes, block, at, |circuit| circuit.min(1))
    }),
    ("the lower half of a circuit", |bytes, block| {
        let at = circuit(bytes);
        word(bytes, block, at, |circuit| circuit & 0xFFFF)
    }),
    ("the word behind the circuit let in", |bytes, block| {
        let at = circuit(bytes) + 1;
        word(bytes, block, at, |_| 0)
    }),
    ("word 126 let in", |bytes, block| {
        word(bytes, block, 126, |_| 0)
    }),
    ("track 1's first kind let in", |bytes, block| {
        word(bytes, block, 3, |_| 0)
    }),
    ("track 2's first kind let in", |bytes, block| {
        let at = 3 + get(bytes, 0, 1).min(32) as usize;
        word(bytes, block, at, |_| 0)
    }),
    ("track 2's last kind let in", |bytes, block| {
        let at = circuit(bytes) - 1;
        let right = |kind| if kind == 17 { 17 } else { 1 };
        word(bytes, block, at, right)
    }),
    ("track 2's kinds inside let in", |bytes, block| {
        let posts = get(bytes, 0, 1).min(32) as usize;
        for at in 3 + posts + 1..(3 + 2 * posts).saturating_sub(1) {
            let right = |kind| {
                if matches!(kind, 2..=4 | 18..=20) {
                    kind
                } else {
                    2
                }
            };
            word(bytes, block, at, right)
        }
    }),
    ("word 0 of 3 taken for a 2", |bytes, block| {
        if block == 0 && get(bytes, 0, 0) == 3 {
            put(bytes, 0, 0, 2);
        }
    }),
    ("a table of two tracks under a 1", |bytes, block| {
        let at = (3 + get(bytes, 0, 1) as usize).min(125);
        let second = get(bytes, 0, at + 1) != 0;
        if block == 0 && get(bytes, 0, 0) == 1 && second {
            put(bytes, 0, 0, 2);
        }
    }),
    ("two tracks refused", |bytes, block| {
        word(bytes, block, 0, |_| 9)
    }),
];

/// Each fault in each of these calls is found.
fn blind_in(name: &str, calls: &[&'static str], sees: Sees) {
    for &call in calls {
        is_found(
            &format!("{name}, {call}"),
            run_of_sheets(Blind { call, sees }),
        );
    }
}

#[test]
fn sheets_taken_for_others() {
    for &(name, takes) in TAKEN_FOR {
        blind_in(name, &CALLS, Sees::Blocks(takes));
    }
}

#[test]
fn seen_as_they_are_they_pass() {
    for call in CALLS {
        for sees in [Sees::Blocks(|_, _| ()), Sees::Sheet(|_| ())] {
            assert!(run_of_sheets(Blind { call, sees }).is_ok());
        }
    }
}

/// What a sheet that is good is taken for; nothing more is wrong.
type Alters = fn(&mut TrackSheet);

fn altered(sheet: &[u8], alters: Alters) -> Vec<u8> {
    let Some(mut found) = TrackSheet::of(sheet).filter(|found| found.form == 2) else {
        return sheet.to_vec();
    };
    alters(&mut found);
    found.bytes()
}

const ALTERED: &[(&str, Alters)] = &[
    ("every event on track 1", |sheet| sheet.tracks.fill(0)),
    ("every event on track 2", |sheet| sheet.tracks.fill(1)),
    ("the tracks exchanged", |sheet| {
        sheet.tracks.iter_mut().for_each(|track| *track ^= 1)
    }),
    ("track 1's table for both", |sheet| {
        let posts = sheet.posts();
        sheet.table.copy_within(..posts, posts)
    }),
    ("the tables exchanged", |sheet| {
        let posts = sheet.posts();
        sheet.table[..2 * posts].rotate_left(posts)
    }),
    ("polarised always", |sheet| set_circuit(sheet, 0)),
    ("vibrated always", |sheet| set_circuit(sheet, 1)),
];

fn set_circuit(sheet: &mut TrackSheet, circuit: u32) {
    let at = sheet.table.len() - 1;
    sheet.table[at] = circuit;
}

/// Everything of a block but its answers, as the sheet has it.
fn restore(sheet: &[u8], out: &mut [u8], block: usize) {
    const ANSWER: u32 = 31 << 11;
    for at in 0..127 {
        let right = get(sheet, block, at);
        let is_event = block > 0 && at % 2 == 1 && at <= 2 * get(sheet, block, 0) as usize;
        let word = match is_event {
            true => right & !ANSWER | get(out, block, at) & ANSWER,
            false => right,
        };
        put(out, block, at, word);
    }
    renew(out, block);
}

#[test]
fn good_sheets_taken_for_others() {
    for &(name, alters) in ALTERED {
        blind_in(name, &CALLS[1..], Sees::Sheet(alters));
    }
}

/// A desk with its own reading.
struct Reads(fn(&[u8], Rooms) -> FoundTracks);

impl Desk for Reads {
    fn read_tracks(&mut self, sheet: &[u8], rooms: Rooms) -> FoundTracks {
        (self.0)(sheet, rooms)
    }
}

fn read(sheet: &[u8], rooms: &mut Rooms) -> FoundTracks {
    model::read_tracks(sheet, rooms.table, rooms.events, rooms.tracks)
}

/// A fault of reading: its name and the reading with it.
type Reading = (&'static str, fn(&[u8], Rooms) -> FoundTracks);

const READINGS: &[Reading] = &[
    (
        "tracks left as they were in a sheet of one",
        |sheet, mut rooms| {
            let before = rooms.tracks.to_vec();
            let found = read(sheet, &mut rooms);
            if found.tracks == 1 {
                rooms.tracks.copy_from_slice(&before);
            }
            found
        },
    ),
    ("tracks past the events", |sheet, mut rooms| {
        let found = read(sheet, &mut rooms);
        if found.number == 0 {
            rooms.tracks[found.events as usize..].fill(0);
        }
        found
    }),
    ("the circuit not given", |sheet, mut rooms| {
        let circuit = TrackSheet::of(sheet).map_or(0, |found| 2 * found.posts());
        let before = rooms.table.get(circuit).copied();
        let found = read(sheet, &mut rooms);
        if let (0, 2, Some(word)) = (found.number, found.tracks, before) {
            rooms.table[circuit] = word;
        }
        found
    }),
    ("posts of both tracks", |sheet, mut rooms| {
        let mut found = read(sheet, &mut rooms);
        found.posts *= found.tracks;
        found
    }),
    ("one track always", |sheet, mut rooms| {
        let mut found = read(sheet, &mut rooms);
        found.tracks = found.tracks.min(1);
        found
    }),
    ("no room wanted for the tracks", |sheet, mut rooms| {
        let mut wide = vec![0; 3780];
        let short = rooms.tracks.len();
        let found = model::read_tracks(sheet, rooms.table, rooms.events, &mut wide);
        match found.number == 0 && short < found.events as usize {
            true => found,
            false => read(sheet, &mut rooms),
        }
    }),
    ("a table room for the kinds alone", |sheet, mut rooms| {
        let mut wide = vec![0; 65];
        let found = model::read_tracks(sheet, &mut wide, rooms.events, rooms.tracks);
        let kinds = 2 * found.posts as usize;
        match found.tracks == 2 && rooms.table.len() == kinds {
            true => found,
            false => read(sheet, &mut rooms),
        }
    }),
];

#[test]
fn wrong_readings() {
    for &(name, reading) in READINGS {
        is_found(name, run_of_sheets(Reads(reading)));
    }
}

/// A desk with its own writing.
struct Writes(fn(TrackSheet, &mut [u8]) -> u32);

impl Desk for Writes {
    fn write_tracks(&mut self, sheet: &TrackSheet, out: &mut [u8]) -> u32 {
        (self.0)(sheet.clone(), out)
    }
}

/// A fault of writing: its name and the writing with it.
type Writing = (&'static str, fn(TrackSheet, &mut [u8]) -> u32);

const WRITINGS: &[Writing] = &[
    (
        "an event without a track is of track 1",
        |mut sheet, out| {
            let events = sheet.events.len().max(sheet.tracks.len());
            sheet.tracks.resize(events, 0);
            sheet.write(out)
        },
    ),
    ("a track without an event let in", |mut sheet, out| {
        sheet.tracks.truncate(sheet.events.len());
        sheet.write(out)
    }),
    ("the lowest bit of a track", |mut sheet, out| {
        sheet.tracks.iter_mut().for_each(|track| *track &= 1);
        sheet.write(out)
    }),
    ("track 2 let in in a sheet of one", |mut sheet, out| {
        let one = sheet.form == 1;
        let tracks = sheet.tracks.iter_mut().filter(|track| one && **track == 1);
        tracks.for_each(|track| *track = 0);
        sheet.write(out)
    }),
    ("tracks not written", |mut sheet, out| {
        let right = sheet.write(&mut out.to_vec());
        if right == 0 {
            sheet.tracks.fill(0);
        }
        sheet.write(out)
    }),
    ("circuit 2 taken", |mut sheet, out| {
        if let (2, Some(circuit)) = (sheet.form, sheet.table.last_mut()) {
            *circuit = if *circuit == 2 { 1 } else { *circuit };
        }
        sheet.write(out)
    }),
    ("the form by its lower half", |mut sheet, out| {
        sheet.form &= 0xFFFF;
        sheet.write(out)
    }),
    ("any form but 1 is of two tracks", |mut sheet, out| {
        sheet.form = sheet.form.clamp(1, 2);
        sheet.write(out)
    }),
    ("one word more in the table let in", |mut sheet, out| {
        let words = sheet.table.len();
        if sheet.form == 2 && words % 2 == 0 && words > 0 {
            sheet.table.truncate(words - 1);
        }
        sheet.write(out)
    }),
    ("20 before 1", |mut sheet, out| {
        let right = sheet.write(out);
        sheet.table = vec![0, 1, 0, 1, 0];
        sheet.form = 2;
        match right == 1 && sheet.write(&mut []) == CONTENTS {
            true => CONTENTS,
            false => right,
        }
    }),
    ("18 before 20", |sheet, out| {
        let right = sheet.write(out);
        match right == CONTENTS && sheet.events.len() > 3780 {
            true => 18,
            false => right,
        }
    }),
    ("21 before 20", |sheet, out| {
        let right = sheet.write(out);
        let short = out.len() < sheet.length();
        match right == CONTENTS && short {
            true => 21,
            false => right,
        }
    }),
];

#[test]
fn wrong_writings() {
    for &(name, writing) in WRITINGS {
        is_found(name, run_of_sheets(Writes(writing)));
    }
}

/// A desk with its own working, and its own word on since when.
struct Works(fn(&[u8], &mut [u8]) -> WorkedTracks);

impl Desk for Works {
    fn work_tracks(&mut self, sheet: &[u8], out: &mut [u8]) -> WorkedTracks {
        (self.0)(sheet, out)
    }
}

/// A fault of working: its name and the working with it.
type Working = (&'static str, fn(&[u8], &mut [u8]) -> WorkedTracks);

const WORKINGS: &[Working] = &[
    ("the lines exchanged", |sheet, out| {
        let mut worked = model::work_tracks(sheet, out);
        if worked.tracks == 2 {
            std::mem::swap(&mut worked.first, &mut worked.second);
        }
        worked
    }),
    ("track 2's line not given", |sheet, out| {
        let mut worked = model::work_tracks(sheet, out);
        worked.second.clear();
        worked
    }),
    ("a second line of a sheet of one", |sheet, out| {
        let mut worked = model::work_tracks(sheet, out);
        if worked.tracks == 1 {
            worked.second = worked.first.clone();
        }
        worked
    }),
    ("one track always", |sheet, out| {
        let mut worked = model::work_tracks(sheet, out);
        worked.tracks = worked.tracks.min(1);
        worked
    }),
    ("25 written as 24", |sheet, out| {
        let worked = model::work_tracks(sheet, out);
        if worked.tracks == 2 {
            for block in 1..blocks(sheet) {
                event_words(out, block, 2, |word| match word >> 11 & 31 {
                    25 => word & !(31 << 11) | 24 << 11,
                    _ => word,
                });
                renew(out, block);
            }
        }
        worked
    }),
    (
        "answered events of two tracks worked again",
        |sheet, out| {
            let unanswered = altered(sheet, |found| {
                found.events.iter_mut().for_each(|event| event[2] = 31)
            });
            model::work_tracks(&unanswered, out)
        },
    ),
];

#[test]
fn wrong_workings() {
    for &(name, working) in WORKINGS {
        is_found(name, run_of_sheets(Works(working)));
    }
}

/// A desk with its own word on since when, by the model's.
struct Explains(fn(&[u8], u32, Since) -> Since);

impl Desk for Explains {
    fn why_tracks(&mut self, sheet: &[u8], position: u32) -> Since {
        (self.0)(sheet, position, model::why_tracks(sheet, position))
    }
}

/// A fault of since when: its name and what it says in the place of the right word.
type Explained = (&'static str, fn(&[u8], u32, Since) -> Since);

/// The last event before this position that has the same number and place as the one named, was
/// taken and is of a track of which this holds, by the chosen event's.
fn last_like(sheet: &[u8], position: u32, since: Since, track: fn(u32, u32) -> bool) -> Since {
    let found = TrackSheet::of(sheet).filter(|_| since.number == 0 && since.position > 0);
    let Some(sheet) = found else {
        return since;
    };
    let (named, at) = (since.position as usize - 1, position as usize - 1);
    let [number, place, ..] = sheet.events[named];
    let like = |k: &usize| {
        sheet.events[*k][..3] == [number, place, 0] && track(sheet.tracks[at], sheet.tracks[*k])
    };
    let position = (0..at)
        .rev()
        .find(like)
        .map_or(since.position, |k| k as u32 + 1);
    Since { position, ..since }
}

const EXPLAINED: &[Explained] = &[
    (
        "the last such event of either track",
        |sheet, position, since| last_like(sheet, position, since, |_, _| true),
    ),
    (
        "the last such event of the other track",
        |sheet, position, since| last_like(sheet, position, since, |chosen, track| chosen != track),
    ),
    (
        "an event answered 25 is told of",
        |sheet, position, since| {
            let is_25 = |found: TrackSheet| {
                let event = found.events.get((position as usize).wrapping_sub(1));
                event.is_some_and(|event| event[2] == 25)
            };
            match since.number == 29 && TrackSheet::of(sheet).is_some_and(is_25) {
                true => Since::default(),
                false => since,
            }
        },
    ),
    (
        "the position among the track's own events",
        |sheet, _, since| {
            let found = TrackSheet::of(sheet).filter(|_| since.number == 0 && since.position > 0);
            let position = found.map_or(since.position, |found| {
                let before = &found.tracks[..since.position as usize];
                let own = before[before.len() - 1];
                before.iter().filter(|track| **track == own).count() as u32
            });
            Since { position, ..since }
        },
    ),
    ("answers not compared", |sheet, position, since| {
        let worked = TrackSheet::of(sheet).filter(|found| found.form == 2 && since.number == 29);
        worked.map_or(since, |found| {
            model::why_tracks(&found.worked().bytes(), position)
        })
    }),
];

#[test]
fn wrong_questions() {
    for &(name, explained) in EXPLAINED {
        is_found(name, run_of_sheets(Explains(explained)));
    }
}

/// A desk of which one call of one track takes sheets of both forms.
struct TakesBoth(&'static str);

impl Desk for TakesBoth {
    fn test(&mut self, sheet: &[u8]) -> Verdict {
        match self.0 {
            "test" => model::test_tracks(sheet),
            _ => model::test(sheet),
        }
    }

    fn read(&mut self, sheet: &[u8], kinds: &mut [u32], events: &mut [Entry]) -> Found {
        let mut tracks = vec![0; events.len()];
        match self.0 {
            "read" => model::read_tracks(sheet, kinds, events, &mut tracks).into(),
            _ => model::read(sheet, kinds, events),
        }
    }

    fn work(&mut self, sheet: &[u8], out: &mut [u8]) -> Worked {
        match self.0 {
            "work" => model::work_tracks(sheet, out).into(),
            _ => model::work(sheet, out),
        }
    }

    fn why(&mut self, sheet: &[u8], position: u32) -> Since {
        match self.0 {
            "why" => model::why_tracks(sheet, position),
            _ => model::why(sheet, position),
        }
    }

    fn export(&mut self, sheet: &[u8], out: &mut [u8]) -> Exported {
        match self.0 {
            "export" => model::export_tracks(sheet, out),
            _ => model::export(sheet, out),
        }
    }
}

#[test]
fn two_tracks_taken_by_a_call_of_one() {
    assert!(run_of_sheets(TakesBoth("none")).is_ok());
    for call in ["test", "read", "work", "why", "export"] {
        is_found(call, run_of_sheets(TakesBoth(call)));
    }
}

#[test]
fn the_model_passes() {
    assert!(run_of_sheets(Model).is_ok());
}
