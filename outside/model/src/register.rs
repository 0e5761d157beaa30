//! 02, item 3: the register in comma-separated text; of item 5, that short forms may stand
//! in its table; of item 7, that a sheet of two tracks has no register.

use crate::comma::{records, Field};
use crate::decimal::decimal;
use crate::line::kind;
use crate::number::{CANNOT_STAND, CONTENTS, TAKEN, TOO_SHORT};
use crate::sheet::{
    contents, in_its_field, sheet_length, write, Contents, Forms, Verdict, ONE_TRACK,
};

/// What an export returns. A refusal: its number, block and position, and 0 bytes.
#[derive(Clone, Copy, Debug, Default, PartialEq, Eq)]
pub struct Exported {
    pub number: u32,
    pub block: u32,
    pub position: u32,
    pub bytes: usize,
}

impl From<Verdict> for Exported {
    fn from(refused: Verdict) -> Self {
        Exported {
            number: refused.number,
            block: refused.block,
            position: refused.position,
            bytes: 0,
        }
    }
}

/// What an import returns. A refusal: its number, the record that 28 names (else 0), and
/// 0 bytes.
#[derive(Clone, Copy, Debug, Default, PartialEq, Eq)]
pub struct Imported {
    pub number: u32,
    pub record: u64,
    pub bytes: usize,
}

/// No register is longer: 32 posts, all but the origin short ones, and 3,780 events, every
/// number at its longest.
pub const MOST_TEXT: usize = 97_532;

const HEADER: [&str; 5] = ["position", "event", "post", "stamp", "answer"];

/// At post 31 only a terminus can stand, since a line has at most 32 posts.
const LAST_POST: usize = 31;

/// "Refusals: export as for reading, then 21."
pub fn export(sheet: &[u8], out: &mut [u8]) -> Exported {
    export_of(Forms::OneTrack, sheet, out)
}

/// The same where reading takes both forms: "item 3's export refuses it (20, block 0)" (02, item
/// 7), after the refusals of reading, and so where a one-track sheet would be exported.
pub fn export_tracks(sheet: &[u8], out: &mut [u8]) -> Exported {
    export_of(Forms::Both, sheet, out)
}

pub(crate) fn export_of(forms: Forms, sheet: &[u8], out: &mut [u8]) -> Exported {
    let found = match contents(forms, sheet) {
        Ok(found) => found,
        Err(refused) => return refused.into(),
    };
    if found.form != ONE_TRACK {
        return Verdict::of(CONTENTS, 0).into();
    }
    let text = text_of(&found);
    if out.len() < text.len() {
        return Verdict::of(TOO_SHORT, 0).into();
    }
    out[..text.len()].copy_from_slice(text.as_bytes());
    Exported {
        bytes: text.len(),
        ..Exported::default()
    }
}

/// "A header row (position,event,post,stamp,answer), one record with the start stamp in
/// its field, one per kind (kind in the event field, post in its own), then one per event.
/// Every record has five fields, unused ones empty, and line ends as that document has
/// them; numbers have no leading zeros."
fn text_of(found: &Contents) -> String {
    let mut text = HEADER.join(",") + "\r\n";
    text += &format!(",,,{},\r\n", found.stamp);
    for (post, kind) in found.table.iter().enumerate() {
        text += &format!(",{kind},{post},,\r\n");
    }
    for (position, [event, post, answer, stamp]) in (1..).zip(&found.events) {
        text += &format!("{position},{event},{post},{stamp},{answer}\r\n");
    }
    text
}

/// "Import 28 with the number (the header is 1) of the first record that can't stand there
/// in a right text of any length, or of the first one missing, then 18 for more than 3,780
/// events, then 21."
pub fn import(text: &[u8], out: &mut [u8]) -> Imported {
    let refusal = |number, record| Imported {
        number,
        record,
        bytes: 0,
    };
    let found = match contents_of(text) {
        Ok(found) => found,
        Err(record) => return refusal(CANNOT_STAND, record),
    };
    // A table and events that stand in a register can be written but for 18 and 21, which
    // writing tests in that order.
    match write(&found.table, found.stamp, &found.events, out) {
        TAKEN => Imported {
            number: TAKEN,
            record: 0,
            bytes: sheet_length(found.events.len()),
        },
        number => refusal(number, 0),
    }
}

/// What the records say, or the number of the first that can't stand or is missing.
fn contents_of(text: &[u8]) -> Result<Contents, u64> {
    let mut found = Contents::empty();
    let records = records(text);
    for (number, record) in (1..).zip(&records) {
        let fields = record.as_deref().and_then(five);
        if fields
            .and_then(|five| stand(number, five, &mut found))
            .is_none()
        {
            return Err(number);
        }
    }
    if !is_ended(&found.table) {
        return Err(records.len() as u64 + 1);
    }
    Ok(found)
}

/// "A 1 ends the table", in either form.
fn is_ended(kinds: &[u32]) -> bool {
    kinds
        .last()
        .is_some_and(|&last| kind::ordinary(last) == kind::TERMINUS)
}

/// "Every record has five fields." What is no text at all is no right field either.
fn five(fields: &[Field]) -> Option<[&str; 5]> {
    let texts: Option<Vec<&str>> = fields.iter().map(|f| std::str::from_utf8(f).ok()).collect();
    texts?.try_into().ok()
}

/// What the record of this number says, put to what those before it said; nothing if it
/// can't stand behind them.
fn stand(number: u64, fields: [&str; 5], found: &mut Contents) -> Option<()> {
    match number {
        1 => (fields == HEADER).then_some(()),
        2 => {
            found.stamp = start(fields)?;
            Some(())
        }
        _ if !is_ended(&found.table) => {
            let kind = post(fields, found.table.len())?;
            found.table.push(kind);
            Some(())
        }
        _ => {
            let position = (found.events.len() + 1).to_string();
            let [event, post, stamp, answer] = event(fields, &position)?;
            found.events.push([event, post, answer, stamp]);
            Some(())
        }
    }
}

/// `,,,START,`
fn start(fields: [&str; 5]) -> Option<u32> {
    match fields {
        ["", "", "", stamp, ""] => decimal(stamp),
        _ => None,
    }
}

/// `,KIND,POST,,`: "posts in order from 0; kind 0 first; 2, 3 or 4 between; a 1 ends the
/// table, and at post 31 only a 1 can stand"; each but the 0 in either form.
fn post(fields: [&str; 5], next: usize) -> Option<u32> {
    let ["", kind, post, "", ""] = fields else {
        return None;
    };
    let kind = decimal(kind)?;
    let ordinary = kind::ordinary(kind);
    let may = match next {
        0 => ordinary == kind::ORIGIN,
        LAST_POST => ordinary == kind::TERMINUS,
        _ => (1..=4).contains(&ordinary),
    };
    (may && post == next.to_string()).then_some(kind)
}

/// `POSITION,EVENT,POST,STAMP,ANSWER`: "positions 1, 2, 3 and on; event below 32, post
/// below 64, answer below 32, stamp below 2^32".
fn event([position, event, post, stamp, answer]: [&str; 5], next: &str) -> Option<[u32; 4]> {
    let [event, post] = [decimal(event)?, decimal(post)?];
    let [stamp, answer] = [decimal(stamp)?, decimal(answer)?];
    let may = in_its_field(&[event, post, answer, stamp]);
    (may && position == next).then_some([event, post, stamp, answer])
}
