//! The calls of two tracks on one circuit, and those that take sheets of both forms.

use crate::{Entry, Head, Post, Row, Since, Told, Verdict};

/// The circuits: one signal between two neighbouring posts, or one of each track.
pub const POLARISED: u32 = 0;
pub const VIBRATED: u32 = 1;

/// What reading a sheet of either form returns: also how many tracks it has.
#[repr(C)]
#[derive(Clone, Copy, Debug, Default, PartialEq, Eq)]
pub struct Found {
    pub number: u32,
    pub block: u32,
    pub position: u32,
    pub tracks: u32,
    pub posts: u32,
    pub stamp: u32,
    pub events: u32,
}

/// What working one returns: the lines of track 1 and of track 2, which has no records in a sheet of one.
#[repr(C)]
#[derive(Clone, Copy, Debug, PartialEq, Eq)]
pub struct Worked {
    pub number: u32,
    pub block: u32,
    pub position: u32,
    pub tracks: u32,
    pub first: Row,
    pub second: Row,
    pub head: Head,
}

mod c {
    use super::*;

    #[cfg_attr(target_arch = "x86_64", link(name = "lent_rows", kind = "static"))]
    extern "C" {
        pub fn desk_valid_tracks(
            first: *const Post,
            n: usize,
            second: *const Post,
            m: usize,
            circuit: u32,
            head: Head,
        ) -> bool;
        pub fn desk_start_tracks(
            first: *mut Post,
            n: usize,
            second: *mut Post,
            m: usize,
            first_kinds: *const u32,
            k: usize,
            second_kinds: *const u32,
            j: usize,
            circuit: u32,
            stamp: u32,
        ) -> Told;
        pub fn desk_event_tracks(
            first: *mut Post,
            n: usize,
            second: *mut Post,
            m: usize,
            circuit: u32,
            head: Head,
            track: u32,
            number: u32,
            place: u32,
            stamp: u32,
        ) -> Told;
    }

    #[cfg_attr(target_arch = "x86_64", link(name = "panel", kind = "static"))]
    extern "C" {
        pub fn desk_test_tracks(sheet: *const u8, n: usize) -> Verdict;
        pub fn desk_read_tracks(
            sheet: *const u8,
            n: usize,
            table: *mut u32,
            k: usize,
            events: *mut Entry,
            m: usize,
            tracks: *mut u32,
            t: usize,
        ) -> Found;
        pub fn desk_write_tracks(
            form: u32,
            table: *const u32,
            k: usize,
            stamp: u32,
            events: *const Entry,
            m: usize,
            tracks: *const u32,
            t: usize,
            out: *mut u8,
            n: usize,
        ) -> u32;
        pub fn desk_work_tracks(sheet: *const u8, n: usize, out: *mut u8, room: usize) -> Worked;
        pub fn desk_why_tracks(sheet: *const u8, n: usize, position: u32) -> Since;
    }
}

// As in the calls of one track, each pointer and count are those of one slice, and what may be written is borrowed by
// nothing else.

/// Whether the rows of track 1 and of track 2 may be used as lines on this circuit with this head.
pub fn valid([first, second]: [&[Post]; 2], circuit: u32, head: Head) -> bool {
    // SAFETY: see above.
    unsafe {
        c::desk_valid_tracks(
            first.as_ptr(),
            first.len(),
            second.as_ptr(),
            second.len(),
            circuit,
            head,
        )
    }
}

/// Two fresh lines from two tables of kinds.
pub fn start(rows: [&mut [Post]; 2], tables: [&[u32]; 2], circuit: u32, stamp: u32) -> Told {
    let ([first, second], [kinds, others]) = (rows, tables);
    // SAFETY: see above.
    unsafe {
        c::desk_start_tracks(
            first.as_mut_ptr(),
            first.len(),
            second.as_mut_ptr(),
            second.len(),
            kinds.as_ptr(),
            kinds.len(),
            others.as_ptr(),
            others.len(),
            circuit,
            stamp,
        )
    }
}

/// One event of one track (0 for track 1): its track, number, place and stamp.
pub fn event(rows: [&mut [Post]; 2], circuit: u32, head: Head, step: [u32; 4]) -> Told {
    let ([first, second], [track, number, place, stamp]) = (rows, step);
    // SAFETY: see above.
    unsafe {
        c::desk_event_tracks(
            first.as_mut_ptr(),
            first.len(),
            second.as_mut_ptr(),
            second.len(),
            circuit,
            head,
            track,
            number,
            place,
            stamp,
        )
    }
}

/// Tests a sheet of either form.
pub fn test(sheet: &[u8]) -> Verdict {
    // SAFETY: see above.
    unsafe { c::desk_test_tracks(sheet.as_ptr(), sheet.len()) }
}

/// Reads a sheet of either form to the front of three rooms: its table, its events and their tracks.
pub fn read(sheet: &[u8], table: &mut [u32], events: &mut [Entry], tracks: &mut [u32]) -> Found {
    // SAFETY: see above.
    unsafe {
        c::desk_read_tracks(
            sheet.as_ptr(),
            sheet.len(),
            table.as_mut_ptr(),
            table.len(),
            events.as_mut_ptr(),
            events.len(),
            tracks.as_mut_ptr(),
            tracks.len(),
        )
    }
}

/// Writes a sheet of this form, 1 or 2, to the front of `out`.
pub fn write(
    form: u32,
    table: &[u32],
    stamp: u32,
    events: &[Entry],
    tracks: &[u32],
    out: &mut [u8],
) -> u32 {
    // SAFETY: see above.
    unsafe {
        c::desk_write_tracks(
            form,
            table.as_ptr(),
            table.len(),
            stamp,
            events.as_ptr(),
            events.len(),
            tracks.as_ptr(),
            tracks.len(),
            out.as_mut_ptr(),
            out.len(),
        )
    }
}

/// Works a sheet of either form to the front of `out`.
pub fn work(sheet: &[u8], out: &mut [u8]) -> Worked {
    // SAFETY: see above.
    unsafe { c::desk_work_tracks(sheet.as_ptr(), sheet.len(), out.as_mut_ptr(), out.len()) }
}

/// Since when the event at this position of a worked sheet of either form is refused 8, 9 or 13.
pub fn why(sheet: &[u8], position: u32) -> Since {
    // SAFETY: see above.
    unsafe { c::desk_why_tracks(sheet.as_ptr(), sheet.len(), position) }
}
