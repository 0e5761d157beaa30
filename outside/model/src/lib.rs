//! An outside model of the block desk, written from 01-scope.md and, for what came
//! after it, from 02-change-requests.md alone; for item 3 also from RFC 4180.
//!
//! It says what the papers say, in their order, in the plainest way. "01, X" in a
//! comment names the part X of the first, "02, item K" an item of the second.

pub mod both;
mod comma;
mod decimal;
mod events;
mod line;
mod listed;
mod listing;
pub mod paper;
pub mod program;
mod register;
mod sheet;
pub mod short;
pub mod stuck;
mod tracks;
mod why;
mod working;

pub use events::{event, event_on_valid};
pub use line::{kind, kinds_right, relay, start, valid, Head, Post, Told, COUNT_LIMIT};
pub use listed::Listed;
pub use listing::{listing, listing_tracks};
pub use register::{export, export_tracks, import, Exported, Imported, MOST_TEXT};
pub use sheet::{
    check, read, read_tracks, renew_check, sheet_length, test, test_tracks, unpack, write,
    write_tracks, Entry, Found, FoundTracks, Verdict, BLOCK_BYTES, CHECK, EVENTS_PER_BLOCK,
    MOST_BLOCKS, MOST_EVENTS, ONE_TRACK, TWO_TRACKS, UNANSWERED,
};
pub use tracks::{
    circuit, event_tracks, event_tracks_on_valid, start_tracks, valid_tracks, TrackStep,
};
pub use why::{why, why_tracks, Since};
pub use working::{work, work_tracks, Worked, WorkedTracks};

/// 01, Numbers returned; 29 by 02, item 1; 22 and 23 by 02, item 2; 28 by 02, item 3; 24 by
/// 02, item 6; 25 by 02, item 7.
pub mod number {
    pub const TAKEN: u32 = 0;
    pub const NOT_VALID: u32 = 1;
    pub const NO_SUCH_PLACE: u32 = 2;
    pub const NO_SUCH_EVENT: u32 = 3;
    pub const BEHIND: u32 = 4;
    pub const FULL: u32 = 5;
    pub const NO_DEVICE: u32 = 6;
    pub const LEVER_THERE: u32 = 7;
    pub const LEVER_LOCKED: u32 = 8;
    pub const RL_DOWN: u32 = 9;
    pub const LEVER_REVERSED: u32 = 10;
    pub const NO_ANNOUNCEMENT: u32 = 11;
    pub const NO_PASSAGE: u32 = 12;
    pub const RL_UP_ONWARD: u32 = 13;
    pub const NOTHING_UNDER_WAY: u32 = 14;
    pub const SECTION_FREE: u32 = 15;
    pub const UNDER_WAY: u32 = 16;
    pub const RECORDED: u32 = 17;
    pub const LENGTH: u32 = 18;
    pub const CHECK_WRONG: u32 = 19;
    pub const CONTENTS: u32 = 20;
    pub const TOO_SHORT: u32 = 21;
    pub const JAMMED: u32 = 22;
    pub const NOT_JAMMED: u32 = 23;
    pub const UPPER_BITS: u32 = 24;
    pub const BUSY: u32 = 25;
    pub const CANNOT_STAND: u32 = 28;
    pub const NOTHING_TO_TELL: u32 = 29;
}
