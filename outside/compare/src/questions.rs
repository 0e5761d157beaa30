//! Questions of since when: worked sheets and events refused 8, 9 or 13 in them; other
//! positions, answers altered, sheets damaged.

use model::{BLOCK_BYTES, MOST_BLOCKS};

use crate::damage::{break_check, break_contents, break_field, with_number, KINDS};
use crate::histories::{early_event, pupils_event, some_posts, stuck_pupils_event, Next};
use crate::random::Random;
use crate::request::Request;
use crate::sheets::{blocks, renew, sheet_by, some, Sheet};
use crate::tables::Place;
use crate::variety::Variety;

/// The answers that may be asked about.
pub const TOLD: [u32; 3] = [8, 9, 13];

/// The answers that a jam gives.
pub const OF_JAMS: [u32; 2] = [22, 23];

pub const QUESTIONS: &[Variety] = &[
    ("8, few posts", |random| told(random, 8, few)),
    ("9, few posts", |random| told(random, 9, few)),
    ("13, few posts", |random| told(random, 13, few)),
    ("8, short history", |random| told(random, 8, short)),
    ("9, short history", |random| told(random, 9, short)),
    ("13, short history", |random| told(random, 13, short)),
    ("8, many posts", |random| told(random, 8, many)),
    ("9, many posts", |random| told(random, 9, many)),
    ("13, many posts", |random| told(random, 13, many)),
    ("8, long history", |random| told(random, 8, long)),
    ("13, long history", |random| told(random, 13, long)),
    ("8, stuck buttons", |random| told(random, 8, stuck)),
    ("9, stuck buttons", |random| told(random, 9, stuck)),
    ("13, stuck buttons", |random| told(random, 13, stuck)),
    ("8, early trains", |random| told(random, 8, early)),
    ("13, early trains", |random| told(random, 13, early)),
    ("22 or 23, stuck buttons", |random| {
        let (sheet, at) = chosen(random, &OF_JAMS, stuck);
        ask(sheet.bytes(), at as u32 + 1)
    }),
    ("any event", |random| {
        let sheet = few(random);
        let position = random.between(1, sheet.events.len());
        ask(sheet.bytes(), position as u32)
    }),
    ("another answer", another_answer),
    ("position 0", |random| past(random, |_, _, _| 0)),
    ("one past the end", |random| {
        past(random, |_, _, count| count + 1)
    }),
    ("position 2^32 - 1", |random| {
        past(random, |_, _, _| u32::MAX)
    }),
    ("a position that looks like another", |random| {
        past(random, looks_like)
    }),
    ("not answered", |random| {
        let (mut sheet, chosen) = chosen(random, &TOLD, few);
        sheet.events.iter_mut().for_each(|event| event[2] = 31);
        ask(sheet.bytes(), chosen as u32 + 1)
    }),
    ("an answer altered before it", |random| {
        altered(random, |random, chosen, _| Some(random.below(chosen)))
    }),
    ("its own answer altered", own_altered),
    ("another answer altered to 8, 9 or 13", made_up),
    ("an answer altered behind it", |random| {
        altered(random, behind)
    }),
    ("the last answer altered", |random| {
        altered(random, |_, chosen, last| (chosen < last).then_some(last))
    }),
    ("length wrong", |random| damaged(random, length_wrong)),
    ("a check wrong", |random| {
        damaged(random, |random, bytes| {
            let at = random.below(blocks(bytes));
            break_check(random, bytes, at);
        })
    }),
    ("contents wrong", |random| {
        damaged(random, |random, bytes| {
            let at = random.below(blocks(bytes));
            break_contents(random, bytes, at);
            renew(bytes, at);
        })
    }),
    ("upper bits of an event", |random| {
        damaged(random, |random, bytes| {
            let at = random.below(blocks(bytes));
            break_field(random, bytes, at);
        })
    }),
    ("any number for the first kind", |random| {
        kind_altered(random, Place::First)
    }),
    ("any number for a kind inside", |random| {
        kind_altered(random, Place::Inside)
    }),
    ("any number for the last kind", |random| {
        kind_altered(random, Place::Last)
    }),
    ("any kind of sheet", |random| {
        let sheet = random.pick(KINDS).1(random);
        let position = random.small(0, 70);
        let position = random.pick(&[0, 1, 2, position, u32::MAX]);
        ask(sheet, position)
    }),
];

pub fn ask(sheet: Vec<u8>, position: u32) -> Request {
    Request::Why { sheet, position }
}

/// A worked sheet of a history.
type Maker = fn(&mut Random) -> Sheet;

fn worked(random: &mut Random, posts: usize, most: usize) -> Sheet {
    let count = random.between(most / 6, most);
    sheet_by(random, posts, count, pupils_event).worked()
}

fn short(random: &mut Random) -> Sheet {
    let posts = some_posts(random).min(8);
    worked(random, posts, 24)
}

fn few(random: &mut Random) -> Sheet {
    let posts = random.between(2, 5);
    worked(random, posts, 100)
}

/// So few that one is inside.
fn several(random: &mut Random) -> Sheet {
    let posts = random.between(3, 5);
    worked(random, posts, 60)
}

/// So that each relay has dropped and risen again.
fn long(random: &mut Random) -> Sheet {
    let posts = random.between(3, 4);
    worked(random, posts, 300)
}

fn stuck(random: &mut Random) -> Sheet {
    worked_by(random, stuck_pupils_event)
}

fn early(random: &mut Random) -> Sheet {
    worked_by(random, early_event)
}

fn worked_by(random: &mut Random, next: Next) -> Sheet {
    let (posts, count) = (random.between(2, 5), random.between(20, 120));
    sheet_by(random, posts, count, next).worked()
}

fn many(random: &mut Random) -> Sheet {
    let posts = random.between(6, 32);
    worked(random, posts, 180)
}

/// A sheet, and in it the place (from 0) of some event with one of these answers.
pub fn chosen(random: &mut Random, answers: &[u32], make: Maker) -> (Sheet, usize) {
    loop {
        let sheet = make(random);
        let answered = sheet.events.iter().map(|event| event[2]).enumerate();
        let places: Vec<usize> = answered
            .filter(|(_, answer)| answers.contains(answer))
            .map(|(at, _)| at)
            .collect();
        if !places.is_empty() {
            return (sheet, random.pick(&places));
        }
    }
}

fn told(random: &mut Random, answer: u32, make: Maker) -> Request {
    let (sheet, at) = chosen(random, &[answer], make);
    ask(sheet.bytes(), at as u32 + 1)
}

fn another_answer(random: &mut Random) -> Request {
    let all = (0..=17).chain(OF_JAMS);
    let others: Vec<u32> = all.filter(|answer| !TOLD.contains(answer)).collect();
    // Most events are taken, so that a refusal is wanted as often.
    let wanted = random.pick(&[&others[..], &others[1..]]);
    let (sheet, at) = chosen(random, wanted, few);
    ask(sheet.bytes(), at as u32 + 1)
}

/// A position that names no event: by a position that names one and their number.
fn past(random: &mut Random, position: fn(&mut Random, u32, u32) -> u32) -> Request {
    if random.chance(5) {
        let sheet = some(random, 0);
        let count = sheet.events.len() as u32;
        let position = position(random, 1, count);
        return ask(sheet.worked().bytes(), position);
    }
    let (sheet, at) = chosen(random, &TOLD, few);
    let count = sheet.events.len() as u32;
    ask(sheet.bytes(), position(random, at as u32 + 1, count))
}

/// Past the end, and the same as one that is right in its lower bits or from another end.
fn looks_like(random: &mut Random, right: u32, count: u32) -> u32 {
    let bit = random.small(8, 31);
    random.pick(&[
        right | 1 << bit,
        right.wrapping_sub(count).wrapping_sub(1),
        right.wrapping_neg(),
        count + 2,
        count.next_multiple_of(60) + 1,
        3781,
    ])
}

fn another(random: &mut Random, right: u32) -> u32 {
    loop {
        let any = random.small(0, 31);
        let other = random.pick(&[0, 8, 9, 13, 31, any]);
        if other != right {
            return other;
        }
    }
}

/// Which answer to alter, by the place of the chosen event and of the last one.
type Which = fn(&mut Random, usize, usize) -> Option<usize>;

fn altered(random: &mut Random, which: Which) -> Request {
    let (sheet, chosen) = altered_sheet(random, which);
    ask(sheet.bytes(), chosen as u32 + 1)
}

fn altered_sheet(random: &mut Random, which: Which) -> (Sheet, usize) {
    loop {
        let (mut sheet, chosen) = chosen(random, &TOLD, few);
        if let Some(at) = which(random, chosen, sheet.events.len() - 1) {
            sheet.events[at][2] = another(random, sheet.events[at][2]);
            return (sheet, chosen);
        }
    }
}

fn behind(random: &mut Random, chosen: usize, last: usize) -> Option<usize> {
    if chosen == last {
        return None;
    }
    let anywhere = random.between(chosen + 1, last);
    Some(random.pick(&[chosen + 1, anywhere]))
}

/// Most often altered to another answer that may be asked about.
fn own_altered(random: &mut Random) -> Request {
    let (mut sheet, at) = chosen(random, &TOLD, few);
    let answer = &mut sheet.events[at][2];
    let others: Vec<u32> = TOLD.into_iter().filter(|told| told != answer).collect();
    *answer = match random.below(4) {
        0 => another(random, *answer),
        _ => random.pick(&others),
    };
    ask(sheet.bytes(), at as u32 + 1)
}

/// Some event was not refused 8, 9 or 13, and the sheet says that it was: its post may be
/// none of the line.
fn made_up(random: &mut Random) -> Request {
    let (mut sheet, at) = chosen(random, &[0, 2, 3, 6, 7, 14, 22, 23], few);
    sheet.events[at][2] = random.pick(&TOLD);
    ask(sheet.bytes(), at as u32 + 1)
}

/// Any number in this place of the table: where it may stand there, the answers may be right
/// or not.
fn kind_altered(random: &mut Random, place: Place) -> Request {
    let (sheet, at) = chosen(random, &TOLD, several);
    let bytes = with_number(random, sheet.bytes(), place);
    ask(bytes, at as u32 + 1)
}

/// A worked sheet, with an answer altered or not, and then damaged.
fn damaged(random: &mut Random, damage: fn(&mut Random, &mut Vec<u8>)) -> Request {
    let (sheet, chosen) = if random.chance(30) {
        altered_sheet(random, |random, _, last| Some(random.between(0, last)))
    } else {
        chosen(random, &TOLD, few)
    };
    let mut bytes = sheet.bytes();
    damage(random, &mut bytes);
    let right = chosen as u32 + 1;
    let position = random.pick(&[right, right, right, 0, u32::MAX]);
    ask(bytes, position)
}

fn length_wrong(random: &mut Random, bytes: &mut Vec<u8>) {
    let length = bytes.len();
    let past_all = BLOCK_BYTES * (MOST_BLOCKS + 1);
    let lengths = [0, 511, length - 1, length - 4, length + 1, length + 4];
    let length = random.pick(&lengths);
    bytes.resize(if random.chance(5) { past_all } else { length }, 0);
}
