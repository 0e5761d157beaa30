//! 01, The program and one listing, and the words that 02, items 1 and 3 give the program. Each
//! of them that reads a sheet prints its refusal as the listing does. Which forms of a sheet it
//! reads (02, item 7) is one word to all of them.

use std::io::{self, Read, Write};

use crate::decimal::decimal;
use crate::listing::{event_line, listing_of, refused_line, refused_sheet};
use crate::number::TAKEN;
use crate::register::{export_of, import, Exported, Imported, MOST_TEXT};
use crate::sheet::{contents, Forms, BLOCK_BYTES, MOST_BLOCKS};
use crate::why::why_of;
use crate::working::{work_of, WorkedTracks};

/// What the program says on standard error, each time alone.
pub const USAGE: &str = "usage: desk [work | why POSITION | export | import] <INPUT\n";
pub const UNREAD: &str = "the input could not be read\n";
pub const UNWRITTEN: &str = "the output could not be written\n";

/// What the program is asked for.
#[derive(Clone, Copy, Debug, PartialEq, Eq)]
pub enum Asked {
    Listing,
    Worked,
    Why(u32),
    Exported,
    Imported,
}

/// What the program writes, on standard output and on standard error.
#[derive(Clone, Debug, Default, PartialEq, Eq)]
pub struct Wrote {
    pub printed: Vec<u8>,
    pub said: String,
}

impl Wrote {
    pub fn printing(text: &str) -> Wrote {
        Wrote {
            printed: text.as_bytes().to_vec(),
            said: String::new(),
        }
    }

    pub fn saying(text: &str) -> Wrote {
        Wrote {
            printed: Vec::new(),
            said: text.to_string(),
        }
    }
}

/// What these words ask for; nothing if they are wrong.
pub fn asked(words: &[&str]) -> Option<Asked> {
    match words {
        [] => Some(Asked::Listing),
        ["work"] => Some(Asked::Worked),
        ["why", position] => decimal(position).map(Asked::Why),
        ["export"] => Some(Asked::Exported),
        ["import"] => Some(Asked::Imported),
        _ => None,
    }
}

/// What the program writes when it is asked for this and the input was read.
pub fn wrote_tracks(asked: Asked, input: &[u8]) -> Wrote {
    wrote_of(Forms::Both, asked, input)
}

/// The same of a program that takes sheets of one track alone, as it was before 02, item 7.
pub fn wrote(asked: Asked, input: &[u8]) -> Wrote {
    wrote_of(Forms::OneTrack, asked, input)
}

fn wrote_of(forms: Forms, asked: Asked, input: &[u8]) -> Wrote {
    match asked {
        Asked::Listing => Wrote::printing(&listing_of(forms, input)),
        Asked::Worked => made(input.len(), |out| match work_of(forms, input, out) {
            WorkedTracks { number: TAKEN, .. } => Ok(input.len()),
            told => Err(refused_sheet(told.number, told.block, told.position)),
        }),
        Asked::Why(position) => Wrote::printing(&why_text(forms, input, position)),
        Asked::Exported => made(MOST_TEXT, |out| match export_of(forms, input, out) {
            Exported {
                number: TAKEN,
                bytes,
                ..
            } => Ok(bytes),
            told => Err(refused_sheet(told.number, told.block, told.position)),
        }),
        Asked::Imported => made(MOST_BLOCKS * BLOCK_BYTES, |out| match import(input, out) {
            Imported {
                number: TAKEN,
                bytes,
                ..
            } => Ok(bytes),
            told => Err(refused_line(told.number, told.record)),
        }),
    }
}

/// The bytes that a call makes in a room of this size; it gives how many they are, or the line
/// of its refusal, which is said on standard error, since standard output is the sheet or the
/// text.
fn made(room: usize, call: impl Fn(&mut [u8]) -> Result<usize, String>) -> Wrote {
    let mut printed = vec![0; room];
    match call(&mut printed) {
        Err(refused) => Wrote::saying(&refused),
        Ok(bytes) => {
            printed.truncate(bytes);
            Wrote {
                printed,
                said: String::new(),
            }
        }
    }
}

/// The listing's line of the event that is named; 0 alone where none is.
fn why_text(forms: Forms, sheet: &[u8], position: u32) -> String {
    let since = why_of(forms, sheet, position);
    if since.number != TAKEN {
        return refused_sheet(since.number, since.block, since.position);
    }
    match contents(forms, sheet) {
        Ok(found) if since.position > 0 => event_line(&found, since.position as usize - 1),
        _ => "0\n".to_string(),
    }
}

/// The program itself, with these words.
pub fn desk(words: &[&str]) -> io::Result<()> {
    let Some(asked) = asked(words) else {
        return io::stderr().write_all(USAGE.as_bytes());
    };
    let mut sheet = Vec::new();
    if io::stdin().lock().read_to_end(&mut sheet).is_err() {
        return io::stderr().write_all(UNREAD.as_bytes());
    }
    let Wrote { printed, said } = wrote_tracks(asked, &sheet);
    io::stderr().write_all(said.as_bytes())?;
    let mut out = io::stdout().lock();
    if out.write_all(&printed).and_then(|()| out.flush()).is_err() {
        return io::stderr().write_all(UNWRITTEN.as_bytes());
    }
    Ok(())
}
