//! 02, item 1: tell the pupil why; of 02, item 7, on the track of the event that is asked about.

use crate::line::relay::{L, RL};
use crate::number::{LEVER_LOCKED, NOTHING_TO_TELL, RL_DOWN, RL_UP_ONWARD, TAKEN};
use crate::sheet::{contents, Forms, Verdict};
use crate::working::take_events;

/// What a question returns: 0, 0 and the position of the event that is named, in the sheet,
/// from 1. A refusal: its number, its block and its position in that block, from 0.
#[derive(Clone, Copy, Debug, Default, PartialEq, Eq)]
pub struct Since {
    pub number: u32,
    pub block: u32,
    pub position: u32,
}

impl From<Verdict> for Since {
    fn from(refused: Verdict) -> Self {
        Since {
            number: refused.number,
            block: refused.block,
            position: refused.position,
        }
    }
}

/// "For a worked sheet and a refused event in it with one of those answers, we want
/// the position of the event that put the relay in that state." "Refusals: 29, after
/// those of reading, when the sheet's answers aren't the ones that working its events
/// gives, or the chosen event has another answer or doesn't exist."
pub fn why(sheet: &[u8], position: u32) -> Since {
    why_of(Forms::OneTrack, sheet, position)
}

/// The same of both forms.
pub fn why_tracks(sheet: &[u8], position: u32) -> Since {
    why_of(Forms::Both, sheet, position)
}

pub(crate) fn why_of(forms: Forms, sheet: &[u8], position: u32) -> Since {
    let found = match contents(forms, sheet) {
        Ok(found) => found,
        Err(refused) => return refused.into(),
    };
    let nothing = Since::from(Verdict::of(NOTHING_TO_TELL, 0));
    let chosen = (position as usize).checked_sub(1);
    let Some(at) = chosen.filter(|at| *at < found.events.len()) else {
        return nothing;
    };
    let [_, post, answer, _] = found.events[at];
    let mut worked = found.clone();
    let mut lines: Vec<Vec<u32>> = Vec::new();
    take_events(&mut worked, |now| {
        // Only an event of the same track alters a relay of this line.
        let row = &now.rows[found.tracks[at] as usize];
        lines.push(row.iter().map(|post| post.word).collect());
    });
    match state_told(answer) {
        Some((relay, up)) if worked.events == found.events => Since {
            number: TAKEN,
            block: 0,
            position: last_change(&lines[..position as usize], post as usize, relay, up),
        },
        _ => nothing,
    }
}

/// The relay that an answer tells of, and whether that relay is up: L is down for 8,
/// RL is down for 9, RL is up for 13.
fn state_told(answer: u32) -> Option<(u32, bool)> {
    match answer {
        LEVER_LOCKED => Some((L, false)),
        RL_DOWN => Some((RL, false)),
        RL_UP_ONWARD => Some((RL, true)),
        _ => None,
    }
}

/// The last event before which the relay was in the other state and after which it is
/// in this one: "the one that last dropped L for 8 or RL for 9, or raised RL for 13".
/// Line k has the relay words after k events. "RL up from the start gives position 0."
fn last_change(lines: &[Vec<u32>], post: usize, relay: u32, up: bool) -> u32 {
    let is_so = |line: &[u32]| (line[post] & relay != 0) == up;
    lines
        .windows(2)
        .rposition(|pair| !is_so(&pair[0]) && is_so(&pair[1]))
        .map_or(0, |at| at as u32 + 1)
}
