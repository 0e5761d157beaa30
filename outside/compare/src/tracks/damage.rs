//! The kinds of sheets for the calls that take both forms: of two tracks good, answered and
//! damaged, each new word of block 0 and each new bit of an event word, and of one track.

use model::{EVENTS_PER_BLOCK, TWO_TRACKS};

use crate::damage::{
    any_words, bit_flipped, blocks_swapped, check_and_contents, check_without_block, cut,
    fewer_blocks, filler, later_filler, lengthened_by_bytes, middle_short, moved_between_words,
    no_events, several_bad, too_many_events, word_0, word_1, wrong_check, Damage, KINDS,
};
use crate::histories::{early_event, some_posts, stuck_event};
use crate::random::Random;
use crate::sheets::{blocks, get, put, renew, renewed};
use crate::tables::{any_number, table, Place};
use crate::tracks::sheets::{lively, some, two_tracks, TrackSheet};
use crate::tracks::two::some_neither;
use crate::upper_bits::bad_of;

/// A kind of sheet: its name and its maker.
type Kind = (&'static str, fn(&mut Random) -> Vec<u8>);

/// Sheets of two tracks, and some of one.
const MADE: &[Kind] = &[
    ("good, unanswered", |random| some(random, 0).bytes()),
    ("good, any fields", any_fields),
    ("good, stuck buttons", |random| {
        let posts = some_posts(random);
        lively(random, posts, 100, stuck_event).bytes()
    }),
    ("good, early trains", |random| {
        let posts = some_posts(random);
        lively(random, posts, 100, early_event).bytes()
    }),
    ("good, of 2 or of 32 posts", |random| {
        let (posts, count) = (random.pick(&[2, 32]), random.between(0, 130));
        two_tracks(random, posts, count, false)
    }),
    ("worked", |random| some(random, 0).worked().bytes()),
    ("one event answered", one_answered),
    ("any answers", |random| {
        let mut sheet = some(random, 0);
        let answers = sheet.events.iter_mut().map(|event| &mut event[2]);
        answers.for_each(|answer| *answer = random.small(0, 31));
        sheet.bytes()
    }),
    ("of one track, good", |random| {
        crate::sheets::some(random, 0).bytes()
    }),
    ("of one track, of any kind", |random| {
        random.pick(KINDS).1(random)
    }),
    ("of one track, bit 16 of an event", |random| {
        let mut bytes = crate::sheets::some(random, 1).bytes();
        put_bit(random, &mut bytes, 16);
        bytes
    }),
    ("upper bits, and what else is wrong", |random| {
        let (position, answered) = (random.below(EVENTS_PER_BLOCK), random.chance(30));
        bad_of(random, position, answered, two_tracks).0
    }),
    ("a table of one track under a 2", |random| {
        let mut bytes = crate::sheets::some(random, 0).bytes();
        put(&mut bytes, 0, 0, TWO_TRACKS);
        renewed(bytes, 0)
    }),
    ("tables too long", too_long),
    ("tables of two lengths", two_lengths),
];

/// What is done to the bytes of a good sheet of two tracks, which has at least so many events.
const DAMAGES: &[(&str, usize, Damage)] = &[
    ("fewer blocks", 61, fewer_blocks),
    ("cut", 0, cut),
    ("lengthened by some bytes", 0, lengthened_by_bytes),
    ("one bit flipped", 0, bit_flipped),
    ("moved between words", 0, moved_between_words),
    ("two blocks swapped", 61, blocks_swapped),
    ("m of 0", 1, no_events),
    ("m of 61 and more", 1, too_many_events),
    ("m below 60 in the middle", 61, middle_short),
    ("filler of a later block", 1, later_filler),
    ("any words, right check", 0, any_words),
    ("wrong check", 0, wrong_check),
    ("check without the block", 1, check_without_block),
    ("check and contents wrong", 0, check_and_contents),
    ("several bad blocks", 61, several_bad),
    ("word 0 of the table", 0, word_0),
    ("word 0 is 1", 0, |_, bytes| set(bytes, 0, 1)),
    ("N wrong", 0, word_1),
    ("track 1's first kind", 0, |random, bytes| {
        kind(random, bytes, 0, Place::First)
    }),
    ("track 1's kind inside", 0, |random, bytes| {
        kind(random, bytes, 0, Place::Inside)
    }),
    ("track 1's last kind", 0, |random, bytes| {
        kind(random, bytes, 0, Place::Last)
    }),
    ("track 2's first kind", 0, |random, bytes| {
        kind(random, bytes, 1, Place::First)
    }),
    ("track 2's kind inside", 0, |random, bytes| {
        kind(random, bytes, 1, Place::Inside)
    }),
    ("track 2's last kind", 0, |random, bytes| {
        kind(random, bytes, 1, Place::Last)
    }),
    ("no circuit", 0, |random, bytes| {
        let circuit = circuit_at(bytes);
        set(bytes, circuit, some_neither(random));
    }),
    ("the other circuit", 0, |_, bytes| {
        let circuit = circuit_at(bytes);
        let other = 1 - get(bytes, 0, circuit);
        set(bytes, circuit, other);
    }),
    ("filler behind the circuit", 0, |random, bytes| {
        let first = circuit_at(bytes) + 1;
        let anywhere = random.between(first, 126);
        let at = random.pick(&[first, 126, anywhere]);
        set(bytes, at, filler(random));
    }),
    ("the other track of an event", 1, |random, bytes| {
        put_bit(random, bytes, 16)
    }),
    ("bit 17 of an event", 1, |random, bytes| {
        put_bit(random, bytes, 17)
    }),
    ("a bit above 17 of an event", 1, |random, bytes| {
        let bit = random.between(18, 31);
        put_bit(random, bytes, bit);
    }),
];

pub fn names() -> Vec<String> {
    let made = MADE.iter().map(|kind| kind.0);
    let damages = DAMAGES.iter().map(|damage| damage.0);
    made.chain(damages).map(str::to_string).collect()
}

/// How many kinds there are.
pub fn count() -> usize {
    MADE.len() + DAMAGES.len()
}

pub fn of_kind(random: &mut Random, variety: usize) -> Vec<u8> {
    match variety.checked_sub(MADE.len()) {
        None => MADE[variety].1(random),
        Some(at) => {
            let (_, least, damage) = DAMAGES[at];
            let mut bytes = some(random, least).bytes();
            damage(random, &mut bytes);
            bytes
        }
    }
}

/// A word of block 0, under a right check.
fn set(bytes: &mut [u8], at: usize, value: u32) {
    put(bytes, 0, at, value);
    renew(bytes, 0);
}

/// The word of block 0 that is the circuit.
fn circuit_at(bytes: &[u8]) -> usize {
    3 + 2 * get(bytes, 0, 1) as usize
}

/// Any number for a kind of a track; inside a table of two, the last.
fn kind(random: &mut Random, bytes: &mut [u8], track: usize, place: Place) {
    let posts = get(bytes, 0, 1) as usize;
    let at = 3 + track * posts + place.some_post(random, posts);
    set(bytes, at, any_number(random));
}

/// A bit of some event's word is turned.
fn put_bit(random: &mut Random, bytes: &mut [u8], bit: usize) {
    let block = random.between(1, blocks(bytes) - 1);
    let word = 1 + 2 * random.below(get(bytes, block, 0) as usize);
    let turned = get(bytes, block, word) ^ 1 << bit;
    put(bytes, block, word, turned);
    renew(bytes, block);
}

/// "Event numbers, posts, stamps and answers of any value that fits its field may stand in a
/// sheet", and either track.
fn any_fields(random: &mut Random) -> Vec<u8> {
    let mut sheet = some(random, 0);
    for ([number, post, _, stamp], track) in sheet.events.iter_mut().zip(&mut sheet.tracks) {
        if random.chance(40) {
            *number = random.small(0, 31);
            *post = random.small(0, 63);
            *stamp = random.edge_word();
            *track = random.small(0, 1);
        }
    }
    sheet.bytes()
}

fn one_answered(random: &mut Random) -> Vec<u8> {
    let mut sheet = some(random, 1);
    let at = random.below(sheet.events.len());
    sheet.events[at][2] = random.small(0, 30);
    sheet.bytes()
}

/// Tables of two tracks that would be right if they were not so long; 61 posts still fit.
fn too_long(random: &mut Random) -> Vec<u8> {
    let posts = random.pick(&[33, 34, 61]);
    let words = [table(random, posts), table(random, posts), vec![1]].concat();
    with_table(random, posts, &words)
}

/// Track 2's table has one post less or more than track 1's, and N is that of either.
fn two_lengths(random: &mut Random) -> Vec<u8> {
    let posts = random.between(3, 31);
    let other = random.pick(&[posts - 1, posts + 1]);
    let words = [table(random, posts), table(random, other), vec![1]].concat();
    let said = random.pick(&[posts, other]);
    with_table(random, said, &words)
}

/// These words for the table of some sheet of two tracks, and this N.
fn with_table(random: &mut Random, posts: usize, words: &[u32]) -> Vec<u8> {
    let mut bytes = some(random, 0).bytes();
    for at in 3..127 {
        put(&mut bytes, 0, at, words.get(at - 3).copied().unwrap_or(0));
    }
    set(&mut bytes, 1, posts as u32);
    bytes
}

/// How many words the table of a good sheet has, and how many events it holds; of another, none.
pub fn sizes(bytes: &[u8]) -> [usize; 2] {
    TrackSheet::of(bytes).map_or([0, 0], |sheet| [sheet.table.len(), sheet.events.len()])
}
