//! 02, item 7: both tracks on one circuit. Two lines of the same posts with one session head;
//! all that is said of one line holds for each of them by itself.

use crate::events::{event_beside, under_way};
use crate::line::{kinds_right, start, valid, Head, Post, Told};
use crate::number::NOT_VALID;

/// "The circuit kind is fixed at the start."
pub mod circuit {
    /// "Only one signal can be under way between two neighbouring posts, whichever track it
    /// serves."
    pub const POLARISED: u32 = 0;
    /// "Both may be."
    pub const VIBRATED: u32 = 1;
}

use circuit::{POLARISED, VIBRATED};

/// An event of one of two tracks: its track (0 for track 1), number, place and stamp.
pub type TrackStep = [u32; 4];

/// "The second numbered the other way": the section of the other track that lies between the
/// same two posts.
pub(crate) fn facing(posts: usize, section: usize) -> usize {
    posts - 2 - section
}

/// Two tables and a circuit that starting does not refuse.
pub(crate) fn tables_right([kinds, others]: [&[u32]; 2], circuit: u32) -> bool {
    kinds_right(kinds)
        && kinds_right(others)
        && kinds.len() == others.len()
        && circuit_right(circuit)
}

fn circuit_right(circuit: u32) -> bool {
    circuit == POLARISED || circuit == VIBRATED
}

/// Two fresh lines, of track 1 and of track 2. Refused: both rows as lent, a head of zeros.
pub fn start_tracks(rows: [&mut [Post]; 2], tables: [&[u32]; 2], circuit: u32, stamp: u32) -> Told {
    let [first, second] = rows;
    let lent = first.len() == tables[0].len() && second.len() == tables[1].len();
    if !lent || !tables_right(tables, circuit) {
        return Told {
            answer: NOT_VALID,
            head: Head::default(),
        };
    }
    start(first, tables[0], stamp);
    start(second, tables[1], stamp)
}

/// Two lines that may be used: each by itself, with the common head, on one circuit.
pub fn valid_tracks(rows: [&[Post]; 2], circuit: u32, head: Head) -> bool {
    let [first, second] = rows;
    circuit_right(circuit)
        && first.len() == second.len()
        && valid(first, head)
        && valid(second, head)
        && (circuit == VIBRATED || never_both(first, second))
}

/// No pair of neighbouring posts has a signal under way on both tracks.
fn never_both(first: &[Post], second: &[Post]) -> bool {
    let posts = first.len();
    (0..posts - 1)
        .all(|section| !under_way(&first[section]) || !under_way(&second[facing(posts, section)]))
}

/// One event of one track. Refused: both rows and the head as they were.
pub fn event_tracks(rows: [&mut [Post]; 2], circuit: u32, head: Head, step: TrackStep) -> Told {
    let [first, second] = rows;
    if !valid_tracks([first, second], circuit, head) {
        return Told {
            answer: NOT_VALID,
            head,
        };
    }
    event_tracks_on_valid([first, second], circuit, head, step)
}

/// The same on two lines that are valid.
pub fn event_tracks_on_valid(
    [first, second]: [&mut [Post]; 2],
    circuit: u32,
    head: Head,
    [track, number, place, stamp]: TrackStep,
) -> Told {
    let (row, other): (&mut [Post], &[Post]) = match track {
        0 => (first, second),
        1 => (second, first),
        // A track that is neither "names no post: 2", as a line without posts would.
        _ => (&mut [], &[]),
    };
    let shared = (circuit == POLARISED).then_some(other);
    event_beside(row, shared, head, [number, place, stamp])
}
