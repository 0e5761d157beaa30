//! 01, The event sheet, its last sentence: working a sheet; of 02, item 7, one of two tracks.

use crate::events::event;
use crate::line::{start, Head, Post, Told};
use crate::number::{CONTENTS, TAKEN, TOO_SHORT};
use crate::sheet::{
    contents, write_tracks, Contents, Entry, Forms, Table, Verdict, EVENTS_PER_BLOCK, UNANSWERED,
};
use crate::tracks::{event_tracks, start_tracks};

/// What a working returns, beside the output. A refusal: its number, block and position,
/// an empty row and a head of zeros.
#[derive(Clone, Debug, Default, PartialEq, Eq)]
pub struct Worked {
    pub number: u32,
    pub block: u32,
    pub position: u32,
    pub row: Vec<Post>,
    pub head: Head,
}

/// The same of a working that takes both forms: also how many tracks there are. Of a one-track
/// sheet the second line has no posts.
#[derive(Clone, Debug, Default, PartialEq, Eq)]
pub struct WorkedTracks {
    pub number: u32,
    pub block: u32,
    pub position: u32,
    pub tracks: u32,
    pub first: Vec<Post>,
    pub second: Vec<Post>,
    pub head: Head,
}

impl From<Verdict> for WorkedTracks {
    fn from(refused: Verdict) -> Self {
        WorkedTracks {
            number: refused.number,
            block: refused.block,
            position: refused.position,
            ..WorkedTracks::default()
        }
    }
}

impl From<WorkedTracks> for Worked {
    fn from(worked: WorkedTracks) -> Self {
        Worked {
            number: worked.number,
            block: worked.block,
            position: worked.position,
            row: worked.first,
            head: worked.head,
        }
    }
}

impl From<Verdict> for Worked {
    fn from(refused: Verdict) -> Self {
        WorkedTracks::from(refused).into()
    }
}

/// "Working a sheet reads it whole first, refuses 20 at the first block with an
/// answer other than 31, needs an output at least as long as the sheet (else 21),
/// then writes the same sheet with answers filled and checks renewed, and changes
/// nothing else."
pub fn work(sheet: &[u8], out: &mut [u8]) -> Worked {
    work_of(Forms::OneTrack, sheet, out).into()
}

/// The same of both forms.
pub fn work_tracks(sheet: &[u8], out: &mut [u8]) -> WorkedTracks {
    work_of(Forms::Both, sheet, out)
}

pub(crate) fn work_of(forms: Forms, sheet: &[u8], out: &mut [u8]) -> WorkedTracks {
    let mut found = match contents(forms, sheet) {
        Ok(found) => found,
        Err(refused) => return refused.into(),
    };
    if let Some(at) = found.events.iter().position(|e| e[2] != UNANSWERED) {
        // Block 0 is the table; every later block but the last holds 60 events.
        return Verdict::of(CONTENTS, (1 + at / EVENTS_PER_BLOCK) as u32).into();
    }
    if out.len() < sheet.len() {
        return Verdict::of(TOO_SHORT, 0).into();
    }
    let (lines, head) = take_events(&mut found, |_| ());
    let Contents {
        form,
        table,
        stamp,
        events,
        tracks,
    } = &found;
    let number = write_tracks(*form, table, *stamp, events, tracks, out);
    assert_eq!(number, TAKEN, "a sheet that was read can be written");
    let [first, second] = lines.rows;
    WorkedTracks {
        tracks: *form,
        first,
        second,
        head,
        ..WorkedTracks::default()
    }
}

/// The lines of a sheet: the one, and no posts beside it, or the two on their circuit.
pub(crate) struct Lines {
    pub rows: [Vec<Post>; 2],
    circuit: Option<u32>,
}

impl Lines {
    fn fresh(table: &Table, stamp: u32) -> (Self, Head) {
        let row = |kinds: &[u32]| vec![Post::default(); kinds.len()];
        match table {
            Table::One(kinds) => {
                let mut first = row(kinds);
                let head = start(&mut first, kinds, stamp).head;
                let (rows, circuit) = ([first, Vec::new()], None);
                (Lines { rows, circuit }, head)
            }
            Table::Two(tables, circuit) => {
                let [mut first, mut second] = tables.map(row);
                let head = start_tracks([&mut first, &mut second], *tables, *circuit, stamp).head;
                let (rows, circuit) = ([first, second], Some(*circuit));
                (Lines { rows, circuit }, head)
            }
        }
    }

    fn event(&mut self, head: Head, [number, place, _, stamp]: Entry, track: u32) -> Told {
        let [first, second] = &mut self.rows;
        match self.circuit {
            None => event(first, head, number, place, stamp),
            Some(circuit) => {
                let step = [track, number, place, stamp];
                event_tracks([first, second], circuit, head, step)
            }
        }
    }
}

/// Takes the events one after the other from the fresh lines, and fills in their
/// answers. The fresh lines are shown to `see`, and the lines after each event.
pub(crate) fn take_events(found: &mut Contents, mut see: impl FnMut(&Lines)) -> (Lines, Head) {
    let table = Table::of(found.form, &found.table).expect("a sheet that was read has a table");
    let (mut lines, mut head) = Lines::fresh(&table, found.stamp);
    see(&lines);
    for (entry, track) in found.events.iter_mut().zip(&found.tracks) {
        let told = lines.event(head, *entry, *track);
        entry[2] = told.answer;
        head = told.head;
        see(&lines);
    }
    (lines, head)
}
