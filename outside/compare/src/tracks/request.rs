//! The requests of two tracks, and their words on the wire. They go on from the codes of the
//! requests of one.

use model::{Entry, Post, TrackStep};

use crate::request::{joined, padded, row_words, POST_WORDS};
use crate::tracks::sheets::TrackSheet;
use crate::tracks::two::Two;

/// Track 1's and track 2's.
pub type Rows = [Vec<Post>; 2];
pub type Tables = [Vec<u32>; 2];

#[derive(Clone, Debug)]
pub enum TrackRequest {
    Start {
        rows: Rows,
        tables: Tables,
        circuit: u32,
        stamp: u32,
    },
    Valid(Two),
    Event(Two, TrackStep),
    Run {
        tables: Tables,
        circuit: u32,
        stamp: u32,
        steps: Vec<TrackStep>,
    },
    Read {
        sheet: Vec<u8>,
        /// For the table, the events and the tracks.
        rooms: [usize; 3],
        fill: u32,
    },
    Write {
        sheet: TrackSheet,
        out_len: usize,
        fill: u8,
    },
    Work {
        sheet: Vec<u8>,
        out_len: usize,
        fill: u8,
    },
    Why {
        sheet: Vec<u8>,
        position: u32,
    },
}

/// The rooms of a reading.
pub struct Rooms<'a> {
    pub table: &'a mut [u32],
    pub events: &'a mut [Entry],
    pub tracks: &'a mut [u32],
}

/// How many words of a reading's reply stand before the rooms.
pub const FOUND_FRONT: usize = 10;

/// How many words of a working's reply stand before the records, and which two of them say how
/// many records there are.
pub const WORKED_FRONT: usize = 8;
pub const RECORDS_AT: [usize; 2] = [4, 5];

pub fn size(count: usize) -> u32 {
    count as u32
}

pub fn both_rows(rows: &Rows) -> Vec<u32> {
    rows.iter().flat_map(|row| row_words(row)).collect()
}

fn records(rows: &Rows) -> usize {
    rows[0].len() + rows[1].len()
}

impl TrackRequest {
    /// The request as the server reads it.
    pub fn words(&self) -> Vec<u32> {
        match self {
            TrackRequest::Start {
                rows,
                tables,
                circuit,
                stamp,
            } => {
                let lengths = [&rows[0].len(), &rows[1].len()].map(|n| size(*n));
                let kinds = [&tables[0], &tables[1]].map(|table| size(table.len()));
                let front = [&[12], &lengths[..], &kinds, &[*circuit, *stamp]].concat();
                joined(&front, &[&both_rows(rows), &tables.concat()])
            }
            TrackRequest::Valid(two) => lines_words(13, two, &[]),
            TrackRequest::Event(two, step) => lines_words(14, two, step),
            TrackRequest::Run {
                tables,
                circuit,
                stamp,
                steps,
            } => {
                let kinds = [&tables[0], &tables[1]].map(|table| size(table.len()));
                let rest = [*circuit, *stamp, size(steps.len())];
                joined(&[15], &[&kinds, &rest, &tables.concat(), &steps.concat()])
            }
            _ => self.sheet_words(),
        }
    }

    /// The same for the calls on sheets.
    fn sheet_words(&self) -> Vec<u32> {
        match self {
            TrackRequest::Read { sheet, rooms, fill } => {
                let front = [16, size(sheet.len())];
                joined(&front, &[&rooms.map(size), &[*fill], &padded(sheet)])
            }
            TrackRequest::Write {
                sheet,
                out_len,
                fill,
            } => {
                let (events, tracks) = (&sheet.events, &sheet.tracks);
                let counts = [size(events.len()), size(tracks.len()), size(*out_len)];
                let front = [17, sheet.form, size(sheet.table.len()), sheet.stamp];
                let lists: [&[u32]; 3] = [&sheet.table, &events.concat(), tracks];
                joined(&front, &[&counts, &[u32::from(*fill)], &lists.concat()])
            }
            TrackRequest::Work {
                sheet,
                out_len,
                fill,
            } => {
                let front = [18, size(sheet.len()), size(*out_len), u32::from(*fill)];
                joined(&front, &[&padded(sheet)])
            }
            TrackRequest::Why { sheet, position } => {
                joined(&[19, size(sheet.len()), *position], &[&padded(sheet)])
            }
            _ => Vec::new(),
        }
    }

    /// How many words of a reply tell how long it is in all.
    pub fn reply_front(&self) -> usize {
        match self {
            TrackRequest::Work { .. } => WORKED_FRONT,
            _ => 1,
        }
    }

    /// How many records a reply's front says that follow, where it says so.
    pub fn said_records(&self, front: &[u32]) -> u32 {
        match self {
            TrackRequest::Work { .. } => {
                let [first, second] = RECORDS_AT.map(|at| front[at]);
                first.saturating_add(second)
            }
            _ => 0,
        }
    }

    /// How long the reply is in all.
    pub fn reply_len(&self, front: &[u32]) -> usize {
        match self {
            TrackRequest::Start { rows, .. } => 3 + records(rows) * POST_WORDS,
            TrackRequest::Event(two, _) => 3 + records(&two.rows) * POST_WORDS,
            TrackRequest::Valid(two) => 1 + records(&two.rows) * POST_WORDS,
            TrackRequest::Run { tables, steps, .. } => (1 + steps.len()) * turn_words(tables),
            TrackRequest::Read {
                rooms: [table, events, tracks],
                ..
            } => FOUND_FRONT + table + 4 * events + tracks,
            TrackRequest::Write { out_len, .. } => 1 + out_len.div_ceil(4),
            TrackRequest::Work { out_len, .. } => {
                let records = self.said_records(front) as usize * POST_WORDS;
                WORKED_FRONT + records + out_len.div_ceil(4)
            }
            TrackRequest::Why { .. } => 3,
        }
    }

    /// About how many words it has beside its reply.
    pub fn own_words(&self) -> usize {
        match self {
            TrackRequest::Read { sheet, .. }
            | TrackRequest::Work { sheet, .. }
            | TrackRequest::Why { sheet, .. } => sheet.len() / 4,
            TrackRequest::Write { sheet, .. } => 4 * sheet.events.len(),
            _ => 0,
        }
    }
}

fn lines_words(code: u32, two: &Two, step: &[u32]) -> Vec<u32> {
    let Two {
        rows,
        circuit,
        head,
    } = two;
    let front = [code, size(rows[0].len()), size(rows[1].len()), *circuit];
    joined(&front, &[&[head.taken, head.last], step, &both_rows(rows)])
}

/// What is told after the start and after each event of a history.
pub fn turn_words(tables: &Tables) -> usize {
    3 + (tables[0].len() + tables[1].len()) * POST_WORDS
}
