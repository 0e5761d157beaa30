//! Plain Rust beside the ledger, for figures: the model's event with all its tests, the same event on a line that is
//! not tested, both on two tracks, the sum of a block, the listing, since when, and a register exported and imported.
//! The C program `figures` calls these and the ledger in one run.
pub mod register;

use model::{Head, Post, Told};
use std::slice;

/// An event of the model as C calls it.
macro_rules! event_call {
    ($name:ident, $event:path) => {
        /// # Safety
        /// `row` leads to `n` records that nothing else uses.
        #[no_mangle]
        pub unsafe extern "C" fn $name(
            row: *mut Post,
            n: usize,
            head: Head,
            number: u32,
            place: u32,
            stamp: u32,
        ) -> Told {
            let row = slice::from_raw_parts_mut(row, n);
            $event(row, head, number, place, stamp)
        }
    };
}

event_call!(tested_event, model::event);
event_call!(simple_event, model::event_on_valid);

/// The same of two tracks.
macro_rules! event_tracks_call {
    ($name:ident, $event:path) => {
        /// # Safety
        /// `first` leads to `n` records and `second` to `m` that nothing else uses.
        #[no_mangle]
        // The arguments are those of the ledger's call.
        #[allow(clippy::too_many_arguments)]
        pub unsafe extern "C" fn $name(
            first: *mut Post,
            n: usize,
            second: *mut Post,
            m: usize,
            circuit: u32,
            head: Head,
            track: u32,
            number: u32,
            place: u32,
            stamp: u32,
        ) -> Told {
            let first = slice::from_raw_parts_mut(first, n);
            let second = slice::from_raw_parts_mut(second, m);
            let step = [track, number, place, stamp];
            $event([first, second], circuit, head, step)
        }
    };
}

event_tracks_call!(tested_event_tracks, model::event_tracks);
event_tracks_call!(simple_event_tracks, model::event_tracks_on_valid);

/// The sum of the words of a block, round 2^32.
///
/// # Safety
/// `block` leads to 512 bytes.
#[no_mangle]
pub unsafe extern "C" fn plain_sum(block: *const u8) -> u32 {
    slice::from_raw_parts(block, 512)
        .chunks_exact(4)
        .fold(0, |sum, w| {
            sum.wrapping_add(u32::from_le_bytes([w[0], w[1], w[2], w[3]]))
        })
}

/// The listing of a sheet, worked with all tests; how long it is.
///
/// # Safety
/// `sheet` leads to `n` bytes and `page` to `room`.
#[no_mangle]
pub unsafe extern "C" fn plain_listing(
    sheet: *const u8,
    n: usize,
    page: *mut u8,
    room: usize,
) -> usize {
    let text = model::listing(slice::from_raw_parts(sheet, n));
    slice::from_raw_parts_mut(page, room)[..text.len()].copy_from_slice(text.as_bytes());
    text.len()
}

/// The event that is named for this position of a worked sheet.
///
/// # Safety
/// `sheet` leads to `n` bytes.
#[no_mangle]
pub unsafe extern "C" fn plain_why(sheet: *const u8, n: usize, position: u32) -> u32 {
    model::why(slice::from_raw_parts(sheet, n), position).position
}

/// The register of a sheet; how long it is, 0 if it is refused.
///
/// # Safety
/// `sheet` leads to `n` bytes and `out` to `room`.
#[no_mangle]
pub unsafe extern "C" fn plain_export(
    sheet: *const u8,
    n: usize,
    out: *mut u8,
    room: usize,
) -> usize {
    let out = slice::from_raw_parts_mut(out, room);
    register::export(slice::from_raw_parts(sheet, n), out).bytes
}

/// The sheet of a register; how long it is, 0 if it is refused.
///
/// # Safety
/// `text` leads to `n` bytes and `out` to `room`.
#[no_mangle]
pub unsafe extern "C" fn plain_import(
    text: *const u8,
    n: usize,
    out: *mut u8,
    room: usize,
) -> usize {
    let out = slice::from_raw_parts_mut(out, room);
    register::import(slice::from_raw_parts(text, n), out).bytes
}
