//! The requests to a library, their words on the wire, and the shape of replies.

use model::{Entry, Head, Post};

use crate::tracks::request::TrackRequest;

/// A reply's words, whole: answer, head, every record, every byte of a room.
pub type Reply = Vec<u32>;

/// An event of a history: number, place, stamp.
pub type Step = [u32; 3];

pub const POST_WORDS: usize = 11;

/// The word of a working's reply that says how many records follow its front.
pub const RECORDS_AT: usize = 3;

#[derive(Clone, Debug)]
pub enum Request {
    Start {
        row: Vec<Post>,
        kinds: Vec<u32>,
        stamp: u32,
    },
    Valid {
        row: Vec<Post>,
        head: Head,
    },
    Event {
        row: Vec<Post>,
        head: Head,
        step: Step,
    },
    Read {
        sheet: Vec<u8>,
        kinds_room: usize,
        events_room: usize,
        fill: u32,
    },
    Write {
        kinds: Vec<u32>,
        stamp: u32,
        events: Vec<Entry>,
        out_len: usize,
        fill: u8,
    },
    Work {
        sheet: Vec<u8>,
        out_len: usize,
        fill: u8,
    },
    Run {
        kinds: Vec<u32>,
        stamp: u32,
        steps: Vec<Step>,
    },
    Why {
        sheet: Vec<u8>,
        position: u32,
    },
    Export {
        sheet: Vec<u8>,
        out_len: usize,
        fill: u8,
    },
    Import {
        text: Vec<u8>,
        out_len: usize,
        fill: u8,
    },
    Check {
        block: Vec<u8>,
        number: u32,
    },
    /// A call of two tracks.
    Tracks(TrackRequest),
}

impl Request {
    /// The sheet of a call that reads one on one track, and which of those calls it is: reading,
    /// working, since when, export.
    pub fn sheet_read(&self) -> Option<(usize, &Vec<u8>)> {
        match self {
            Request::Read { sheet, .. } => Some((0, sheet)),
            Request::Work { sheet, .. } => Some((1, sheet)),
            Request::Why { sheet, .. } => Some((2, sheet)),
            Request::Export { sheet, .. } => Some((3, sheet)),
            _ => None,
        }
    }

    /// The request as the server reads it.
    pub fn words(&self) -> Vec<u32> {
        let size = |n: usize| n as u32;
        match self {
            Request::Start { row, kinds, stamp } => {
                let front = [1, size(row.len()), size(kinds.len()), *stamp];
                joined(&front, &[&row_words(row), kinds])
            }
            Request::Valid { row, head } => {
                let front = [2, size(row.len()), head.taken, head.last];
                joined(&front, &[&row_words(row)])
            }
            Request::Event { row, head, step } => {
                let front = [3, size(row.len()), head.taken, head.last];
                joined(&front, &[step, &row_words(row)])
            }
            Request::Run {
                kinds,
                stamp,
                steps,
            } => {
                let front = [7, size(kinds.len()), *stamp, size(steps.len())];
                joined(&front, &[kinds, &steps.concat()])
            }
            Request::Tracks(request) => request.words(),
            _ => self.sheet_words(),
        }
    }

    /// The same for the calls on sheets.
    fn sheet_words(&self) -> Vec<u32> {
        let size = |n: usize| n as u32;
        match self {
            Request::Read {
                sheet,
                kinds_room,
                events_room,
                fill,
            } => {
                let rooms = [size(*kinds_room), size(*events_room), *fill];
                joined(&[4, size(sheet.len())], &[&rooms, &padded(sheet)])
            }
            Request::Write {
                kinds,
                stamp,
                events,
                out_len,
                fill,
            } => {
                let front = [5, size(kinds.len()), *stamp, size(events.len())];
                let out = [size(*out_len), u32::from(*fill)];
                joined(&front, &[&out, kinds, &events.concat()])
            }
            Request::Why { sheet, position } => {
                joined(&[8, size(sheet.len()), *position], &[&padded(sheet)])
            }
            Request::Check { block, number } => {
                joined(&[11, size(block.len()), *number], &[&padded(block)])
            }
            _ => self.made_words(),
        }
    }

    /// The same for the calls that make bytes of bytes.
    fn made_words(&self) -> Vec<u32> {
        let (call, bytes, out_len, fill) = match self {
            Request::Work {
                sheet,
                out_len,
                fill,
            } => (6, sheet, *out_len, *fill),
            Request::Export {
                sheet,
                out_len,
                fill,
            } => (9, sheet, *out_len, *fill),
            Request::Import {
                text,
                out_len,
                fill,
            } => (10, text, *out_len, *fill),
            _ => return Vec::new(),
        };
        let front = [call, bytes.len() as u32, out_len as u32, u32::from(fill)];
        joined(&front, &[&padded(bytes)])
    }

    /// How many words of a reply tell how long it is in all.
    pub fn reply_front(&self) -> usize {
        match self {
            Request::Work { .. } => 6,
            Request::Tracks(request) => request.reply_front(),
            _ => 1,
        }
    }

    /// How many records a reply's front says that follow, where it says so.
    pub fn said_records(&self, front: &[u32]) -> u32 {
        match self {
            Request::Work { .. } => front[RECORDS_AT],
            Request::Tracks(request) => request.said_records(front),
            _ => 0,
        }
    }

    /// How long the reply is in all. Only a working's depends on what it says.
    pub fn reply_len(&self, front: &[u32]) -> usize {
        match self {
            Request::Start { row, .. } | Request::Event { row, .. } => 3 + row.len() * POST_WORDS,
            Request::Valid { row, .. } => 1 + row.len() * POST_WORDS,
            Request::Read {
                kinds_room,
                events_room,
                ..
            } => 9 + kinds_room + events_room * 4,
            Request::Write { out_len, .. } => 1 + out_len.div_ceil(4),
            Request::Work { out_len, .. } => {
                6 + front[RECORDS_AT] as usize * POST_WORDS + out_len.div_ceil(4)
            }
            Request::Run { kinds, steps, .. } => (1 + steps.len()) * (3 + kinds.len() * POST_WORDS),
            Request::Why { .. } => 3,
            Request::Export { out_len, .. } | Request::Import { out_len, .. } => {
                5 + out_len.div_ceil(4)
            }
            Request::Check { block, .. } => 1 + block.len().div_ceil(4),
            Request::Tracks(request) => request.reply_len(front),
        }
    }
}

pub fn joined(front: &[u32], parts: &[&[u32]]) -> Vec<u32> {
    let mut words = front.to_vec();
    for part in parts {
        words.extend_from_slice(part);
    }
    words
}

pub fn post_words(p: &Post) -> [u32; POST_WORDS] {
    [p.word, p.kind, p.a, p.x, p.y, p.v, p.g, p.r, p.q, p.e, p.c]
}

pub fn post_of(words: &[u32; POST_WORDS]) -> Post {
    let [word, kind, a, x, y, v, g, r, q, e, c] = *words;
    Post {
        word,
        kind,
        a,
        x,
        y,
        v,
        g,
        r,
        q,
        e,
        c,
    }
}

pub fn row_words(row: &[Post]) -> Vec<u32> {
    row.iter().flat_map(post_words).collect()
}

/// Bytes as words, with zero bytes at the end.
pub fn padded(bytes: &[u8]) -> Vec<u32> {
    let word = |four: &[u8]| {
        let mut whole = [0; 4];
        whole[..four.len()].copy_from_slice(four);
        u32::from_le_bytes(whole)
    };
    bytes.chunks(4).map(word).collect()
}
