//! What a desk replies to the requests of two tracks.

use model::{FoundTracks, Head, Post, Since, Told, TrackStep, Verdict, WorkedTracks};

use crate::desk::Desk;
use crate::request::{padded, Reply};
use crate::tracks::request::{both_rows, size, Rooms, Rows, Tables, TrackRequest};
use crate::tracks::two::Two;

/// The reply that this desk gives, whole.
pub fn reply(desk: &mut dyn Desk, request: &TrackRequest) -> Reply {
    match request {
        TrackRequest::Start {
            rows,
            tables,
            circuit,
            stamp,
        } => {
            let mut rows = rows.clone();
            let told = desk.start_tracks(&mut rows, tables, [*circuit, *stamp]);
            told_words(told, &rows)
        }
        TrackRequest::Valid(two) => {
            let valid = desk.valid_tracks(two);
            [vec![u32::from(valid)], both_rows(&two.rows)].concat()
        }
        TrackRequest::Event(two, step) => {
            let mut two = two.clone();
            let told = desk.event_tracks(&mut two, *step);
            told_words(told, &two.rows)
        }
        TrackRequest::Run {
            tables,
            circuit,
            stamp,
            steps,
        } => run(desk, tables, [*circuit, *stamp], steps),
        _ => sheet_reply(desk, request),
    }
}

/// A history from a start: what is told and both rows, after each event.
fn run(desk: &mut dyn Desk, tables: &Tables, at: [u32; 2], steps: &[TrackStep]) -> Reply {
    let mut rows = [&tables[0], &tables[1]].map(|kinds| vec![Post::default(); kinds.len()]);
    let told = desk.start_tracks(&mut rows, tables, at);
    let mut words = told_words(told, &rows);
    let mut two = Two {
        rows,
        circuit: at[0],
        head: told.head,
    };
    for &step in steps {
        let told = desk.event_tracks(&mut two, step);
        two.head = told.head;
        words.extend(told_words(told, &two.rows));
    }
    words
}

/// The same for the calls on sheets.
fn sheet_reply(desk: &mut dyn Desk, request: &TrackRequest) -> Reply {
    match request {
        TrackRequest::Read { sheet, rooms, fill } => read(desk, sheet, *rooms, *fill),
        TrackRequest::Write {
            sheet,
            out_len,
            fill,
        } => {
            let mut out = vec![*fill; *out_len];
            let number = desk.write_tracks(sheet, &mut out);
            [vec![number], padded(&out)].concat()
        }
        TrackRequest::Work {
            sheet,
            out_len,
            fill,
        } => {
            let mut out = vec![*fill; *out_len];
            let worked = desk.work_tracks(sheet, &mut out);
            [worked_words(worked), padded(&out)].concat()
        }
        TrackRequest::Why { sheet, position } => {
            let Since {
                number,
                block,
                position,
            } = desk.why_tracks(sheet, *position);
            vec![number, block, position]
        }
        _ => Vec::new(),
    }
}

/// What reading returns, then what the test of the same sheet does, and the rooms.
fn read(desk: &mut dyn Desk, sheet: &[u8], rooms: [usize; 3], fill: u32) -> Reply {
    let mut table = vec![fill; rooms[0]];
    let mut events = vec![[fill; 4]; rooms[1]];
    let mut tracks = vec![fill; rooms[2]];
    let rooms = Rooms {
        table: &mut table,
        events: &mut events,
        tracks: &mut tracks,
    };
    let found = desk.read_tracks(sheet, rooms);
    let front = found_words(found, desk.test_tracks(sheet));
    [front, table, events.concat(), tracks].concat()
}

fn told_words(told: Told, rows: &Rows) -> Reply {
    let front = vec![told.answer, told.head.taken, told.head.last];
    [front, both_rows(rows)].concat()
}

fn found_words(found: FoundTracks, test: Verdict) -> Reply {
    let mut words = vec![found.number, found.block, found.position, found.tracks];
    words.extend([found.posts, found.stamp, found.events]);
    words.extend([test.number, test.block, test.position]);
    words
}

fn worked_words(worked: WorkedTracks) -> Reply {
    let Head { taken, last } = worked.head;
    let mut words = vec![worked.number, worked.block, worked.position, worked.tracks];
    words.extend([size(worked.first.len()), size(worked.second.len())]);
    words.extend([taken, last]);
    words.extend(both_rows(&[worked.first, worked.second]));
    words
}
