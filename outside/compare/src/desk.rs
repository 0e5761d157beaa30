//! A library that answers requests, and the desk's calls behind it.

use model::{
    Entry, Exported, Found, FoundTracks, Head, Imported, Post, Since, Told, TrackStep, Verdict,
    Worked, WorkedTracks,
};

use crate::request::{padded, post_words, row_words, Reply, Request};
use crate::tracks;
use crate::tracks::request::{Rooms, Rows, Tables};
use crate::tracks::sheets::TrackSheet;
use crate::tracks::two::Two;

/// Whatever answers requests in order: a child process, or a desk in this one.
pub trait Library {
    fn answer(&mut self, requests: &[Request]) -> Vec<Reply>;
}

/// The desk's calls. They are the model's unless a wrong desk puts another in.
pub trait Desk {
    fn start(&mut self, row: &mut [Post], kinds: &[u32], stamp: u32) -> Told {
        model::start(row, kinds, stamp)
    }

    fn valid(&mut self, row: &[Post], head: Head) -> bool {
        model::valid(row, head)
    }

    fn event(&mut self, row: &mut [Post], head: Head, step: [u32; 3]) -> Told {
        let [number, place, stamp] = step;
        model::event(row, head, number, place, stamp)
    }

    fn test(&mut self, sheet: &[u8]) -> Verdict {
        model::test(sheet)
    }

    fn read(&mut self, sheet: &[u8], kinds: &mut [u32], events: &mut [Entry]) -> Found {
        model::read(sheet, kinds, events)
    }

    fn write(&mut self, kinds: &[u32], stamp: u32, events: &[Entry], out: &mut [u8]) -> u32 {
        model::write(kinds, stamp, events, out)
    }

    fn work(&mut self, sheet: &[u8], out: &mut [u8]) -> Worked {
        model::work(sheet, out)
    }

    fn why(&mut self, sheet: &[u8], position: u32) -> Since {
        model::why(sheet, position)
    }

    fn export(&mut self, sheet: &[u8], out: &mut [u8]) -> Exported {
        model::export(sheet, out)
    }

    fn import(&mut self, text: &[u8], out: &mut [u8]) -> Imported {
        model::import(text, out)
    }

    /// The block may be written to here, so that a wrong desk can do that too.
    fn check(&mut self, block: &mut [u8], number: u32) -> bool {
        model::check(block, number)
    }

    fn start_tracks(&mut self, rows: &mut Rows, tables: &Tables, at: [u32; 2]) -> Told {
        let ([first, second], [circuit, stamp]) = (rows, at);
        let tables = [&tables[0][..], &tables[1]];
        model::start_tracks([first, second], tables, circuit, stamp)
    }

    fn valid_tracks(&mut self, two: &Two) -> bool {
        two.is_valid()
    }

    /// Both rows are lent; the head after it is what is told.
    fn event_tracks(&mut self, two: &mut Two, step: TrackStep) -> Told {
        two.told(step)
    }

    fn test_tracks(&mut self, sheet: &[u8]) -> Verdict {
        model::test_tracks(sheet)
    }

    fn read_tracks(&mut self, sheet: &[u8], rooms: Rooms) -> FoundTracks {
        model::read_tracks(sheet, rooms.table, rooms.events, rooms.tracks)
    }

    fn write_tracks(&mut self, sheet: &TrackSheet, out: &mut [u8]) -> u32 {
        sheet.write(out)
    }

    fn work_tracks(&mut self, sheet: &[u8], out: &mut [u8]) -> WorkedTracks {
        model::work_tracks(sheet, out)
    }

    fn why_tracks(&mut self, sheet: &[u8], position: u32) -> Since {
        model::why_tracks(sheet, position)
    }
}

/// The model as it stands.
pub struct Model;

impl Desk for Model {}

/// A desk in this process as a library.
pub struct InProcess<D>(pub D);

impl<D: Desk> Library for InProcess<D> {
    fn answer(&mut self, requests: &[Request]) -> Vec<Reply> {
        requests
            .iter()
            .map(|request| reply(&mut self.0, request))
            .collect()
    }
}

/// The reply that this desk gives, whole.
pub fn reply(desk: &mut dyn Desk, request: &Request) -> Reply {
    match request {
        Request::Start { row, kinds, stamp } => {
            let mut row = row.clone();
            let told = desk.start(&mut row, kinds, *stamp);
            told_words(told, &row)
        }
        Request::Valid { row, head } => {
            let mut words = vec![u32::from(desk.valid(row, *head))];
            words.extend(row_words(row));
            words
        }
        Request::Event { row, head, step } => {
            let mut row = row.clone();
            let told = desk.event(&mut row, *head, *step);
            told_words(told, &row)
        }
        Request::Run {
            kinds,
            stamp,
            steps,
        } => run(desk, kinds, *stamp, steps),
        Request::Tracks(request) => tracks::reply::reply(desk, request),
        _ => sheet_reply(desk, request),
    }
}

/// The same for reading, working and asking since when.
fn sheet_reply(desk: &mut dyn Desk, request: &Request) -> Reply {
    match request {
        Request::Read {
            sheet,
            kinds_room,
            events_room,
            fill,
        } => {
            let mut kinds = vec![*fill; *kinds_room];
            let mut events = vec![[*fill; 4]; *events_room];
            let found = desk.read(sheet, &mut kinds, &mut events);
            found_words(found, desk.test(sheet), &kinds, &events)
        }
        Request::Work {
            sheet,
            out_len,
            fill,
        } => {
            let mut out = vec![*fill; *out_len];
            let worked = desk.work(sheet, &mut out);
            worked_words(&worked, &out)
        }
        Request::Why { sheet, position } => since_words(desk.why(sheet, *position)),
        _ => write_reply(desk, request),
    }
}

/// The same for writing, and for one block by itself.
fn write_reply(desk: &mut dyn Desk, request: &Request) -> Reply {
    match request {
        Request::Write {
            kinds,
            stamp,
            events,
            out_len,
            fill,
        } => {
            let mut out = vec![*fill; *out_len];
            let number = desk.write(kinds, *stamp, events, &mut out);
            [vec![number], padded(&out)].concat()
        }
        Request::Check { block, number } => {
            let mut block = block.clone();
            let checks = desk.check(&mut block, *number);
            [vec![u32::from(checks)], padded(&block)].concat()
        }
        _ => register_reply(desk, request),
    }
}

/// The same for the calls on registers.
fn register_reply(desk: &mut dyn Desk, request: &Request) -> Reply {
    match request {
        Request::Export {
            sheet,
            out_len,
            fill,
        } => {
            let mut out = vec![*fill; *out_len];
            let exported = desk.export(sheet, &mut out);
            let front = [exported.number, exported.block, exported.position];
            [&front, &two_words(exported.bytes as u64)[..], &padded(&out)].concat()
        }
        Request::Import {
            text,
            out_len,
            fill,
        } => {
            let mut out = vec![*fill; *out_len];
            let imported = desk.import(text, &mut out);
            let (record, bytes) = (imported.record, imported.bytes as u64);
            let front = [two_words(record), two_words(bytes)].concat();
            [&[imported.number], &front[..], &padded(&out)].concat()
        }
        _ => Vec::new(),
    }
}

/// A number of 64 bits, its lower word first.
fn two_words(number: u64) -> [u32; 2] {
    [number as u32, (number >> 32) as u32]
}

/// What reading returns, then what the test of the same sheet does, and the rooms.
fn found_words(found: Found, test: Verdict, kinds: &[u32], events: &[Entry]) -> Reply {
    let mut words = vec![found.number, found.block, found.position];
    words.extend([found.posts, found.stamp, found.events]);
    words.extend([test.number, test.block, test.position]);
    words.extend(kinds);
    words.extend(events.concat());
    words
}

fn worked_words(worked: &Worked, out: &[u8]) -> Reply {
    let Head { taken, last } = worked.head;
    let records = worked.row.len() as u32;
    let mut words = vec![worked.number, worked.block, worked.position];
    words.extend([records, taken, last]);
    words.extend(row_words(&worked.row));
    words.extend(padded(out));
    words
}

fn since_words(since: Since) -> Reply {
    vec![since.number, since.block, since.position]
}

fn told_words(told: Told, row: &[Post]) -> Reply {
    let mut words = Vec::with_capacity(3 + row.len() * 11);
    push_told(&mut words, told, row);
    words
}

fn push_told(words: &mut Vec<u32>, told: Told, row: &[Post]) {
    words.extend([told.answer, told.head.taken, told.head.last]);
    for post in row {
        words.extend(post_words(post));
    }
}

/// A history from a start: what is told and the whole row, after each event.
fn run(desk: &mut dyn Desk, kinds: &[u32], stamp: u32, steps: &[[u32; 3]]) -> Reply {
    let mut row = vec![Post::default(); kinds.len()];
    let mut told = desk.start(&mut row, kinds, stamp);
    let mut words = Vec::with_capacity((1 + steps.len()) * (3 + row.len() * 11));
    push_told(&mut words, told, &row);
    for &step in steps {
        told = desk.event(&mut row, told.head, step);
        push_told(&mut words, told, &row);
    }
    words
}
