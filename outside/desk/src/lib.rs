//! The calls of `include/desk.h` over slices: what C must promise of its pointers holds of every slice, so none of
//! these functions asks anything of its caller. What each promises stands in the header. Those here are of one track.

pub mod tracks;

/// The relays, as bits of the word of a post. `JAM` is up while the release button of the post is stuck; it is always
/// down at the origin, which has no such button.
pub mod relay {
    pub const AN: u32 = 1;
    pub const KPG: u32 = 2;
    pub const L: u32 = 4;
    pub const RL: u32 = 8;
    pub const LEVER: u32 = 16;
    pub const SIGNAL: u32 = 32;
    pub const W314: u32 = 64;
    pub const W241: u32 = 128;
    pub const JAM: u32 = 256;
}

/// The record of a post, laid out as `struct desk_post`. Its kind is 0 to 4, or 17 to 20: the short forms of 1 to 4,
/// whose passage pedal asks no announcement.
#[repr(C)]
#[derive(Clone, Copy, Debug, Default, PartialEq, Eq)]
pub struct Post {
    pub word: u32,
    pub kind: u32,
    pub a: u32,
    pub x: u32,
    pub y: u32,
    pub v: u32,
    pub g: u32,
    pub r: u32,
    pub q: u32,
    pub e: u32,
    pub c: u32,
}

/// The session head.
#[repr(C)]
#[derive(Clone, Copy, Debug, Default, PartialEq, Eq)]
pub struct Head {
    pub taken: u32,
    pub last: u32,
}

/// An answer (of a start 0 or 1; of an event 0 to 17, 22 or 23, and on two tracks also 25) and the head after it.
#[repr(C)]
#[derive(Clone, Copy, Debug, Default, PartialEq, Eq)]
pub struct Told {
    pub answer: u32,
    pub head: Head,
}

/// A sheet's refusal (18, 19, 20 or 24), the block that it names, and for 24 the position in that block, from 0, of the
/// first event word whose bits 16 to 31 are not zero (17 to 31 in a sheet of two tracks); 0 for any other number, and
/// zeros where nothing is refused. What the calls below return of a sheet has the same three.
#[repr(C)]
#[derive(Clone, Copy, Debug, Default, PartialEq, Eq)]
pub struct Verdict {
    pub number: u32,
    pub block: u32,
    pub position: u32,
}

/// What reading returns.
#[repr(C)]
#[derive(Clone, Copy, Debug, Default, PartialEq, Eq)]
pub struct Found {
    pub number: u32,
    pub block: u32,
    pub position: u32,
    pub posts: u32,
    pub stamp: u32,
    pub events: u32,
}

/// A line of at most 32 records.
#[repr(C)]
#[derive(Clone, Copy, Debug, PartialEq, Eq)]
pub struct Row {
    posts: [Post; 32],
    n: usize,
}

impl Row {
    pub fn posts(&self) -> &[Post] {
        &self.posts[..self.n]
    }
}

/// What working a sheet returns.
#[repr(C)]
#[derive(Clone, Copy, Debug, PartialEq, Eq)]
pub struct Worked {
    pub number: u32,
    pub block: u32,
    pub position: u32,
    pub row: Row,
    pub head: Head,
}

/// What a question of since when returns: 0, 0 and the position of the event that is named, in the sheet, from 1; or a
/// refusal, its block and its position in that block, as `Verdict` has them.
#[repr(C)]
#[derive(Clone, Copy, Debug, Default, PartialEq, Eq)]
pub struct Since {
    pub number: u32,
    pub block: u32,
    pub position: u32,
}

/// What an export returns.
#[repr(C)]
#[derive(Clone, Copy, Debug, Default, PartialEq, Eq)]
pub struct Exported {
    pub number: u32,
    pub block: u32,
    pub position: u32,
    pub bytes: usize,
}

/// What an import returns.
#[repr(C)]
#[derive(Clone, Copy, Debug, Default, PartialEq, Eq)]
pub struct Imported {
    pub number: u32,
    pub record: u64,
    pub bytes: usize,
}

/// A room that the register of any sheet fits into, and one that any sheet fits into.
pub const TEXT: usize = 98_650;
pub const SHEET: usize = 32_768;

/// An event of a sheet: number, post (8, 9, 10: section), answer, stamp.
pub type Entry = [u32; 4];

mod c {
    use super::*;

    #[cfg_attr(target_arch = "x86_64", link(name = "lent", kind = "static"))]
    extern "C" {
        pub fn desk_valid(row: *const Post, n: usize, head: Head) -> bool;
        pub fn desk_start(
            row: *mut Post,
            n: usize,
            kinds: *const u32,
            k: usize,
            stamp: u32,
        ) -> Told;
        pub fn desk_event(
            row: *mut Post,
            n: usize,
            head: Head,
            number: u32,
            place: u32,
            stamp: u32,
        ) -> Told;
    }

    #[cfg_attr(target_arch = "x86_64", link(name = "panel", kind = "static"))]
    extern "C" {
        pub fn desk_check(block: *const u8, n: usize, number: u32) -> bool;
        pub fn desk_test(sheet: *const u8, n: usize) -> Verdict;
        pub fn desk_read(
            sheet: *const u8,
            n: usize,
            kinds: *mut u32,
            k: usize,
            events: *mut Entry,
            m: usize,
        ) -> Found;
        pub fn desk_write(
            kinds: *const u32,
            k: usize,
            stamp: u32,
            events: *const Entry,
            m: usize,
            out: *mut u8,
            n: usize,
        ) -> u32;
        pub fn desk_work(sheet: *const u8, n: usize, out: *mut u8, room: usize) -> Worked;
        pub fn desk_why(sheet: *const u8, n: usize, position: u32) -> Since;
        pub fn desk_export(sheet: *const u8, n: usize, out: *mut u8, room: usize) -> Exported;
        pub fn desk_import(text: *const u8, n: usize, out: *mut u8, room: usize) -> Imported;
    }
}

// Each call below passes the pointer and the count of one slice: valid, aligned, never null, and what may be written
// is borrowed by nothing else. That is all that the header asks of a caller.

/// Whether the row may be used as a line with this head.
pub fn valid(row: &[Post], head: Head) -> bool {
    // SAFETY: see above.
    unsafe { c::desk_valid(row.as_ptr(), row.len(), head) }
}

/// A fresh line from a table of kinds.
pub fn start(row: &mut [Post], kinds: &[u32], stamp: u32) -> Told {
    // SAFETY: see above.
    unsafe {
        c::desk_start(
            row.as_mut_ptr(),
            row.len(),
            kinds.as_ptr(),
            kinds.len(),
            stamp,
        )
    }
}

/// One event (they are 1 to 12) at a post, or for 8, 9 and 10 at a section; 11: the release button jams, 12: it is freed.
pub fn event(row: &mut [Post], head: Head, number: u32, place: u32, stamp: u32) -> Told {
    // SAFETY: see above.
    unsafe { c::desk_event(row.as_mut_ptr(), row.len(), head, number, place, stamp) }
}

/// Whether one block by itself checks: 512 bytes whose words add up, carried round, to 317944 plus its number.
pub fn check(block: &[u8], number: u32) -> bool {
    // SAFETY: see above.
    unsafe { c::desk_check(block.as_ptr(), block.len(), number) }
}

/// Tests a sheet.
pub fn test(sheet: &[u8]) -> Verdict {
    // SAFETY: see above.
    unsafe { c::desk_test(sheet.as_ptr(), sheet.len()) }
}

/// Reads a sheet to the front of two rooms.
pub fn read(sheet: &[u8], kinds: &mut [u32], events: &mut [Entry]) -> Found {
    // SAFETY: see above.
    unsafe {
        c::desk_read(
            sheet.as_ptr(),
            sheet.len(),
            kinds.as_mut_ptr(),
            kinds.len(),
            events.as_mut_ptr(),
            events.len(),
        )
    }
}

/// Writes a sheet to the front of `out`.
pub fn write(kinds: &[u32], stamp: u32, events: &[Entry], out: &mut [u8]) -> u32 {
    // SAFETY: see above.
    unsafe {
        c::desk_write(
            kinds.as_ptr(),
            kinds.len(),
            stamp,
            events.as_ptr(),
            events.len(),
            out.as_mut_ptr(),
            out.len(),
        )
    }
}

/// Works a sheet to the front of `out`.
pub fn work(sheet: &[u8], out: &mut [u8]) -> Worked {
    // SAFETY: see above.
    unsafe { c::desk_work(sheet.as_ptr(), sheet.len(), out.as_mut_ptr(), out.len()) }
}

/// Since when the event at this position of a worked sheet is refused 8, 9 or 13.
pub fn why(sheet: &[u8], position: u32) -> Since {
    // SAFETY: see above.
    unsafe { c::desk_why(sheet.as_ptr(), sheet.len(), position) }
}

/// Exports a sheet as its register, comma-separated text, to the front of `out`.
pub fn export(sheet: &[u8], out: &mut [u8]) -> Exported {
    // SAFETY: see above.
    unsafe { c::desk_export(sheet.as_ptr(), sheet.len(), out.as_mut_ptr(), out.len()) }
}

/// Imports a register as its sheet to the front of `out`.
pub fn import(text: &[u8], out: &mut [u8]) -> Imported {
    // SAFETY: see above.
    unsafe { c::desk_import(text.as_ptr(), text.len(), out.as_mut_ptr(), out.len()) }
}
