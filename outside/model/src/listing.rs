//! 01, The program and one listing; of 02, item 6, the position in it; of 02, item 7, the track.

use crate::line::{relay, Post};
use crate::number::{TAKEN, UPPER_BITS};
use crate::sheet::{contents, Contents, Forms, TWO_TRACKS};
use crate::working::work_of;

/// What the working program prints for these bytes on standard input.
pub fn listing(sheet: &[u8]) -> String {
    listing_of(Forms::OneTrack, sheet)
}

/// The same of both forms.
pub fn listing_tracks(sheet: &[u8]) -> String {
    listing_of(Forms::Both, sheet)
}

pub(crate) fn listing_of(forms: Forms, sheet: &[u8]) -> String {
    let mut out = vec![0; sheet.len()];
    let worked = work_of(forms, sheet, &mut out);
    if worked.number != TAKEN {
        return refused_sheet(worked.number, worked.block, worked.position);
    }
    let found = contents(forms, &out).expect("a sheet that was worked can be read");
    let mut text: String = (0..found.events.len())
        .map(|at| event_line(&found, at))
        .collect();
    // "S lines of track 1 first" (02, item 7).
    for (track, row) in (0..).zip([&worked.first, &worked.second]) {
        for (section, pair) in row.windows(2).enumerate() {
            text.push_str(&section_line(section, &pair[0], &pair[1]));
            text.push_str(&line_end(found.form, track));
        }
    }
    text
}

/// "Its listing lines get that bit as a last field": those of a two-track sheet (02, item 7).
fn line_end(form: u32, track: u32) -> String {
    match form {
        TWO_TRACKS => format!(" {track}\n"),
        _ => "\n".to_string(),
    }
}

/// "A refused sheet prints only "refused", its number and the block"; behind those "the event's
/// position in the block, from 0 (printed last)" (02, item 6), which only 24 has.
pub(crate) fn refused_sheet(number: u32, block: u32, position: u32) -> String {
    match number {
        UPPER_BITS => format!("refused {number} {block} {position}\n"),
        _ => refused_line(number, block.into()),
    }
}

/// A refusal that names a block, or of a register a record in the block's place.
pub(crate) fn refused_line(number: u32, named: u64) -> String {
    format!("refused {number} {named}\n")
}

/// "Position from 1, event, post, answer", of the event at this place from 0.
pub(crate) fn event_line(found: &Contents, at: usize) -> String {
    let [number, post, answer, _] = found.events[at];
    let end = line_end(found.form, found.tracks[at]);
    format!("{} {number} {post} {answer}{end}", at + 1)
}

/// "S, section, a, r, x, q, e, y, v, g, h."
fn section_line(section: usize, up: &Post, down: &Post) -> String {
    let h = u32::from(!up.is_up(relay::RL));
    format!(
        "S {section} {} {} {} {} {} {} {} {} {h}",
        up.a, down.r, up.x, down.q, down.e, up.y, up.v, up.g
    )
}
