//! 01, The event sheet: layout, reading, writing; of 02, item 6, which field is bad; of 02,
//! item 7, the form of a sheet of two tracks.

use crate::line::kinds_right;
use crate::number::*;
use crate::tracks::tables_right;

pub const BLOCK_BYTES: usize = 512;
pub const MOST_BLOCKS: usize = 64;
pub const EVENTS_PER_BLOCK: usize = 60;
/// 63 blocks of 60 events follow the block 0.
pub const MOST_EVENTS: usize = 3_780;
/// The sum of block 0's words; a later block's is its number more.
pub const CHECK: u32 = 317_944;
/// "Answer 31 means not yet answered."
pub const UNANSWERED: u32 = 31;

const WORDS: usize = 128;
const CHECK_WORD: usize = 127;

/// Word 0 of block 0: 1, or "a two-track sheet has 2 in word 0" (02, item 7).
pub const ONE_TRACK: u32 = 1;
pub const TWO_TRACKS: u32 = 2;

/// Which forms a call takes. The calls of one track take that form alone, and then a sheet of
/// two departs from the layout in block 0.
#[derive(Clone, Copy, PartialEq, Eq)]
pub(crate) enum Forms {
    OneTrack,
    Both,
}

impl Forms {
    fn take(self, form: u32) -> bool {
        form == ONE_TRACK || (self == Forms::Both && form == TWO_TRACKS)
    }
}

/// An event of a sheet: event number, post, answer, stamp.
pub type Entry = [u32; 4];

type Block = [u32; WORDS];

/// A sheet's refusal: its number, the block that it names and, where it is 24, "the event's
/// position in the block, from 0" (02, item 6); 0 for any other number. Zeros where nothing is
/// refused.
#[derive(Clone, Copy, Debug, Default, PartialEq, Eq)]
pub struct Verdict {
    pub number: u32,
    pub block: u32,
    pub position: u32,
}

impl Verdict {
    /// A refusal without a position.
    pub(crate) fn of(number: u32, block: u32) -> Self {
        Verdict {
            number,
            block,
            position: 0,
        }
    }
}

/// What a reading returns. A refusal: its number, block and position, and zeros.
#[derive(Clone, Copy, Debug, Default, PartialEq, Eq)]
pub struct Found {
    pub number: u32,
    pub block: u32,
    pub position: u32,
    pub posts: u32,
    pub stamp: u32,
    pub events: u32,
}

/// The same of a reading that takes both forms: also how many tracks there are.
#[derive(Clone, Copy, Debug, Default, PartialEq, Eq)]
pub struct FoundTracks {
    pub number: u32,
    pub block: u32,
    pub position: u32,
    pub tracks: u32,
    pub posts: u32,
    pub stamp: u32,
    pub events: u32,
}

/// What a table in a sheet says: the kinds of one line, or of two and the kind of their circuit.
pub(crate) enum Table<'a> {
    One(&'a [u32]),
    Two([&'a [u32]; 2], u32),
}

impl Table<'_> {
    /// "Track 2's kinds after track 1's, then the circuit kind." Nothing for a form that is
    /// neither, and for words that are not two tables of one length and a circuit.
    pub(crate) fn of(form: u32, words: &[u32]) -> Option<Table<'_>> {
        match form {
            ONE_TRACK => Some(Table::One(words)),
            TWO_TRACKS => {
                let (circuit, kinds) = words.split_last()?;
                let (first, second) = kinds.split_at(kinds.len() / 2);
                (first.len() == second.len()).then_some(Table::Two([first, second], *circuit))
            }
            _ => None,
        }
    }

    /// Starting does not refuse it.
    fn is_right(&self) -> bool {
        match self {
            Table::One(kinds) => kinds_right(kinds),
            Table::Two(tables, circuit) => tables_right(*tables, *circuit),
        }
    }
}

/// N, of a table of N words or of 2N + 1.
fn posts_in(form: u32, words: &[u32]) -> usize {
    match form {
        TWO_TRACKS => words.len() / 2,
        _ => words.len(),
    }
}

fn table_right(form: u32, words: &[u32]) -> bool {
    Table::of(form, words).is_some_and(|table| table.is_right())
}

/// A good sheet's form, table, start stamp and events with their answers and their tracks.
#[derive(Clone)]
pub(crate) struct Contents {
    pub form: u32,
    /// As it stands in block 0: N kinds, or 2N and the circuit.
    pub table: Vec<u32>,
    pub stamp: u32,
    pub events: Vec<Entry>,
    /// One for each event; 0 in a sheet of one track.
    pub tracks: Vec<u32>,
}

impl Contents {
    pub(crate) fn empty() -> Self {
        Contents {
            form: ONE_TRACK,
            table: Vec::new(),
            stamp: 0,
            events: Vec::new(),
            tracks: Vec::new(),
        }
    }
}

impl From<Verdict> for FoundTracks {
    fn from(refused: Verdict) -> Self {
        FoundTracks {
            number: refused.number,
            block: refused.block,
            position: refused.position,
            ..FoundTracks::default()
        }
    }
}

impl From<Verdict> for Found {
    fn from(refused: Verdict) -> Self {
        FoundTracks::from(refused).into()
    }
}

impl From<FoundTracks> for Found {
    fn from(found: FoundTracks) -> Self {
        Found {
            number: found.number,
            block: found.block,
            position: found.position,
            posts: found.posts,
            stamp: found.stamp,
            events: found.events,
        }
    }
}

/// What reading says of a sheet, whatever the rooms are.
pub fn test(sheet: &[u8]) -> Verdict {
    test_of(Forms::OneTrack, sheet)
}

/// The same of both forms.
pub fn test_tracks(sheet: &[u8]) -> Verdict {
    test_of(Forms::Both, sheet)
}

fn test_of(forms: Forms, sheet: &[u8]) -> Verdict {
    contents(forms, sheet).err().unwrap_or_default()
}

/// Good: the fronts of both rooms are filled, the rest stays. Refused: both stay.
pub fn read(sheet: &[u8], kinds: &mut [u32], events: &mut [Entry]) -> Found {
    // As long as the events' room, so that it is never what is too short.
    let mut tracks = vec![0; events.len()];
    read_of(Forms::OneTrack, sheet, kinds, events, &mut tracks).into()
}

/// The same of both forms, and of the three rooms: the table as it stands in block 0, the
/// events, and a track for each event.
pub fn read_tracks(
    sheet: &[u8],
    table: &mut [u32],
    events: &mut [Entry],
    tracks: &mut [u32],
) -> FoundTracks {
    read_of(Forms::Both, sheet, table, events, tracks)
}

fn read_of(
    forms: Forms,
    sheet: &[u8],
    table: &mut [u32],
    events: &mut [Entry],
    tracks: &mut [u32],
) -> FoundTracks {
    let contents = match contents(forms, sheet) {
        Ok(contents) => contents,
        Err(refused) => return refused.into(),
    };
    let (words, count) = (contents.table.len(), contents.events.len());
    // "room too short for them gives 21, last"
    if table.len() < words || events.len() < count || tracks.len() < count {
        return Verdict::of(TOO_SHORT, 0).into();
    }
    table[..words].copy_from_slice(&contents.table);
    events[..count].copy_from_slice(&contents.events);
    tracks[..count].copy_from_slice(&contents.tracks);
    FoundTracks {
        tracks: contents.form,
        posts: posts_in(contents.form, &contents.table) as u32,
        stamp: contents.stamp,
        events: count as u32,
        ..FoundTracks::default()
    }
}

/// "Reading tests the length (18), then each block in turn, check before contents,
/// and stops at once at the first bad block, naming it."
pub(crate) fn contents(forms: Forms, sheet: &[u8]) -> Result<Contents, Verdict> {
    let blocks = sheet.len() / BLOCK_BYTES;
    if !sheet.len().is_multiple_of(BLOCK_BYTES) || !(1..=MOST_BLOCKS).contains(&blocks) {
        return Err(Verdict::of(LENGTH, 0));
    }
    let mut found = Contents::empty();
    for (at, bytes) in (0..).zip(sheet.chunks(BLOCK_BYTES)) {
        if !check(bytes, at) {
            return Err(Verdict::of(CHECK_WRONG, at));
        }
        let block = words(bytes);
        let is_last = at as usize == blocks - 1;
        let wrong = match at {
            0 => read_table(forms, &block, &mut found),
            _ => read_events(&block, is_last, &mut found),
        };
        wrong.map_err(|wrong| Verdict { block: at, ..wrong })?;
    }
    Ok(found)
}

/// "The sum of its 128 words, carried round at 2^32, is 317944 plus the block's number":
/// the check of one block, by its bytes and its number alone (02, item 4). What is not
/// 512 bytes is no block. Only the sum is carried round, so that no block has the check
/// of a number from 2^32 - 317944 on.
pub fn check(block: &[u8], number: u32) -> bool {
    block.len() == BLOCK_BYTES && CHECK.checked_add(number) == Some(sum(&words(block)))
}

/// Block 0: "word 0 is 1, word 1 is N, word 2 the start stamp, words 3 onward the N
/// kinds; the rest up to word 126 are zero", and N and the kinds are such as
/// starting would not refuse; in a two-track sheet the table is of 2N + 1 words. Refused when it
/// departs from this, the block not yet named.
fn read_table(forms: Forms, block: &Block, found: &mut Contents) -> Result<(), Verdict> {
    required(forms.take(block[0]) && (2..=32).contains(&block[1]))?;
    let posts = block[1] as usize;
    let end = 3 + match block[0] {
        TWO_TRACKS => 2 * posts + 1,
        _ => posts,
    };
    found.form = block[0];
    found.stamp = block[2];
    found.table = block[3..end].to_vec();
    required(table_right(found.form, &found.table) && all_zero(&block[end..CHECK_WORD]))
}

/// A later block: "word 0 is the number m of events, 1 to 60; event j (from 0) has
/// its word at 1+2j and its stamp at 2+2j; the rest up to word 126 are zero. All
/// but the last of these hold 60." Refused when it departs from this, the block not yet named:
/// "24 for those bits, after 20 for the count m and before 20 for words that should be zero"
/// (02, item 6).
fn read_events(block: &Block, is_last: bool, found: &mut Contents) -> Result<(), Verdict> {
    let most = EVENTS_PER_BLOCK as u32;
    let m = block[0];
    required((1..=most).contains(&m) && (is_last || m == most))?;
    for j in 0..m as usize {
        let Some([number, post, answer, track]) = unpack_of(found.form, block[1 + 2 * j]) else {
            return Err(Verdict {
                number: UPPER_BITS,
                block: 0,
                position: j as u32,
            });
        };
        found.events.push([number, post, answer, block[2 + 2 * j]]);
        found.tracks.push(track);
    }
    required(all_zero(&block[1 + 2 * m as usize..CHECK_WORD]))
}

/// 20 unless this holds.
fn required(holds: bool) -> Result<(), Verdict> {
    match holds {
        true => Ok(()),
        false => Err(Verdict::of(CONTENTS, 0)),
    }
}

/// "The event number in bits 0 to 4, post in bits 5 to 10, answer in bits 11 to 15; bits 16 to
/// 31 are zero." No fields when its upper sixteen bits are not zero: "unpacking an event word
/// should say" so (02, item 6).
pub fn unpack(word: u32) -> Option<[u32; 3]> {
    unpack_of(ONE_TRACK, word).map(|[number, post, answer, _]| [number, post, answer])
}

/// The same in a sheet of either form, and the track: "bit 16 of an event word is the track (0
/// for track 1) and 24 there speaks of bits 17 to 31" (02, item 7). So the upper bits are a
/// number below how many tracks there are.
fn unpack_of(form: u32, word: u32) -> Option<[u32; 4]> {
    let track = word >> 16;
    (track < form).then_some([word & 31, (word >> 5) & 63, (word >> 11) & 31, track])
}

fn pack([number, post, answer, _]: Entry, track: u32) -> u32 {
    number | post << 5 | answer << 11 | track << 16
}

pub(crate) fn in_its_field(entry: &Entry) -> bool {
    entry[0] < 32 && entry[1] < 64 && entry[2] < 32
}

fn all_zero(words: &[u32]) -> bool {
    words.iter().all(|&word| word == 0)
}

/// "Writing tests 1, 20, 18, 21 in that order, and a refused write returns the
/// number alone; bytes past the sheet stay as they were."
pub fn write(kinds: &[u32], stamp: u32, events: &[Entry], out: &mut [u8]) -> u32 {
    write_tracks(ONE_TRACK, kinds, stamp, events, &vec![0; events.len()], out)
}

/// The same of a sheet of either form: 1 also for a form that is neither, and for tables or a
/// circuit that starting would refuse; 20 also for a track that the form does not have, and for
/// an event without a track or a track without an event.
pub fn write_tracks(
    form: u32,
    table: &[u32],
    stamp: u32,
    events: &[Entry],
    tracks: &[u32],
    out: &mut [u8],
) -> u32 {
    if !table_right(form, table) {
        return NOT_VALID;
    }
    let tracks_right = tracks.len() == events.len() && tracks.iter().all(|&track| track < form);
    if !tracks_right || !events.iter().all(in_its_field) {
        return CONTENTS;
    }
    if events.len() > MOST_EVENTS {
        return LENGTH;
    }
    if out.len() < sheet_length(events.len()) {
        return TOO_SHORT;
    }
    let mut blocks = vec![table_block(form, table, stamp)];
    let each = events
        .chunks(EVENTS_PER_BLOCK)
        .zip(tracks.chunks(EVENTS_PER_BLOCK));
    blocks.extend(each.map(|(events, tracks)| events_block(events, tracks)));
    for (at, block) in blocks.iter_mut().enumerate() {
        set_check(block, at as u32);
        put_words(block, &mut out[at * BLOCK_BYTES..][..BLOCK_BYTES]);
    }
    TAKEN
}

/// Block 0, and a block for each 60 events or part of 60.
pub fn sheet_length(events: usize) -> usize {
    BLOCK_BYTES * (1 + events.div_ceil(EVENTS_PER_BLOCK))
}

fn table_block(form: u32, table: &[u32], stamp: u32) -> Block {
    let mut block = [0; WORDS];
    block[0] = form;
    block[1] = posts_in(form, table) as u32;
    block[2] = stamp;
    block[3..3 + table.len()].copy_from_slice(table);
    block
}

fn events_block(events: &[Entry], tracks: &[u32]) -> Block {
    let mut block = [0; WORDS];
    block[0] = events.len() as u32;
    for (j, (event, track)) in events.iter().zip(tracks).enumerate() {
        block[1 + 2 * j] = pack(*event, *track);
        block[2 + 2 * j] = event[3];
    }
    block
}

/// "The sum of its 128 words, carried round at 2^32."
fn sum(block: &[u32]) -> u32 {
    block
        .iter()
        .fold(0, |total: u32, &word| total.wrapping_add(word))
}

/// "... is 317944 plus the block's number; word 127 is set so."
fn set_check(block: &mut Block, number: u32) {
    let others = sum(&block[..CHECK_WORD]);
    block[CHECK_WORD] = CHECK.wrapping_add(number).wrapping_sub(others);
}

/// Sets the check word of one block given as its bytes, whatever it contains.
pub fn renew_check(bytes: &mut [u8], number: u32) {
    let mut block = words(bytes);
    set_check(&mut block, number);
    put_words(&block, bytes);
}

/// "A block is 128 little-endian 32-bit words."
fn words(bytes: &[u8]) -> Block {
    let mut block = [0; WORDS];
    for (word, four) in block.iter_mut().zip(bytes.chunks_exact(4)) {
        *word = u32::from_le_bytes([four[0], four[1], four[2], four[3]]);
    }
    block
}

fn put_words(block: &Block, bytes: &mut [u8]) {
    for (word, four) in block.iter().zip(bytes.chunks_exact_mut(4)) {
        four.copy_from_slice(&word.to_le_bytes());
    }
}
