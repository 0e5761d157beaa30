//! Desks that answer since when as the model does, with one fault put in: each must be
//! found by a small run.

mod common;

use common::must_differ;
use compare::desk::Desk;
use compare::histories::Play;
use compare::sheets::Sheet;
use model::relay::L;
use model::{Post, Since};

/// A desk whose questions are answered by this.
struct Asked(fn(&[u8], u32) -> Since);

impl Desk for Asked {
    fn why(&mut self, sheet: &[u8], position: u32) -> Since {
        (self.0)(sheet, position)
    }
}

/// The model's answer, and another event named where the model gives 0: by the sheet,
/// the position asked about and the position that the model names.
fn renamed(sheet: &[u8], position: u32, name: fn(&Sheet, u32, u32) -> u32) -> Since {
    let since = model::why(sheet, position);
    match Sheet::of(sheet) {
        Some(sheet) if since.number == 0 => Since {
            position: name(&sheet, position, since.position),
            ..since
        },
        _ => since,
    }
}

/// The last event before this position that changed its post so, 0 if none did.
fn last_change(sheet: &Sheet, position: u32, changed: fn(&Post, &Post) -> bool) -> u32 {
    let mut play = Play::from_start(&sheet.kinds, sheet.stamp);
    let post = sheet.events[position as usize - 1][1] as usize;
    let mut last = 0;
    for (k, &[number, place, _, stamp]) in (1..position).zip(&sheet.events) {
        let before = play.row[post];
        play.take([number, place, stamp]);
        if changed(&before, &play.row[post]) {
            last = k;
        }
    }
    last
}

#[test]
fn names_the_last_event_that_touched_the_post() {
    let desk = Asked(|sheet, position| {
        renamed(sheet, position, |sheet, position, _| {
            last_change(sheet, position, |before, after| before != after)
        })
    });
    must_differ("the last event that touched the post", desk);
}

/// An announcement drops L for this desk also where a strike had dropped it.
#[test]
fn names_the_announcement_and_not_the_strike() {
    let desk = Asked(|sheet, position| {
        renamed(sheet, position, |sheet, position, named| {
            let announced = last_change(sheet, position, |before, after| before.a != after.a);
            match sheet.events[position as usize - 1][2] {
                8 => named.max(announced),
                _ => named,
            }
        })
    });
    must_differ("the announcement that found L down", desk);
}

/// A strike drops L for this desk also where it was down, or the lever normal.
#[test]
fn names_a_strike_that_dropped_nothing() {
    let desk = Asked(|sheet, position| {
        renamed(sheet, position, |sheet, position, named| {
            let [_, post, answer, _] = sheet.events[position as usize - 1];
            let struck = (1..position).zip(&sheet.events);
            let last = struck.filter(|(_, event)| answer == 8 && event[..3] == [4, post, 0]);
            last.map(|(k, _)| k).max().unwrap_or(0).max(named)
        })
    });
    must_differ("a strike that dropped nothing", desk);
}

#[test]
fn counts_positions_from_0() {
    let given =
        Asked(|sheet, position| renamed(sheet, position, |_, _, named| named.saturating_sub(1)));
    must_differ("gives positions from 0", given);
    let taken = Asked(|sheet, position| model::why(sheet, position.wrapping_add(1)));
    must_differ("takes positions from 0", taken);
}

#[test]
fn looks_at_l_for_9() {
    let desk = Asked(|sheet, position| {
        renamed(sheet, position, |sheet, position, named| {
            match sheet.events[position as usize - 1][2] {
                9 => last_change(sheet, position, |before, after| {
                    before.is_up(L) && !after.is_up(L)
                }),
                _ => named,
            }
        })
    });
    must_differ("L for 9", desk);
}

#[test]
fn gives_1_for_a_13_since_the_start() {
    let desk = Asked(|sheet, position| renamed(sheet, position, |_, _, named| named.max(1)));
    must_differ("1 for since the start", desk);
}

/// The sheet with right answers at the places (from 0) that this desk does not compare,
/// by the chosen one.
fn not_compared(sheet: &[u8], position: u32, skips: fn(usize, usize) -> bool) -> Since {
    let (Some(mut given), Some(chosen)) = (Sheet::of(sheet), position.checked_sub(1)) else {
        return model::why(sheet, position);
    };
    let right = given.clone().worked();
    for (at, event) in given.events.iter_mut().enumerate() {
        if skips(at, chosen as usize) {
            *event = right.events[at];
        }
    }
    model::why(&given.bytes(), position)
}

#[test]
fn does_not_compare_all_answers() {
    let desk = Asked(|sheet, at| not_compared(sheet, at, |at, chosen| at > chosen));
    must_differ("answers behind the chosen event", desk);
    let desk = Asked(|sheet, at| not_compared(sheet, at, |at, chosen| at < chosen));
    must_differ("answers before the chosen event", desk);
    let desk = Asked(|sheet, at| not_compared(sheet, at, |at, chosen| at == chosen));
    must_differ("the chosen answer", desk);
    let desk = Asked(|sheet, position| match Sheet::of(sheet) {
        Some(given) if given.events.iter().all(|event| event[2] == 31) => {
            model::why(&given.worked().bytes(), position)
        }
        _ => model::why(sheet, position),
    });
    must_differ("a sheet not answered", desk);
}

#[test]
fn refuses_otherwise() {
    let desk = Asked(|sheet, position| match model::why(sheet, position) {
        since if since.number > 17 && position == 0 => Since {
            number: 29,
            ..Since::default()
        },
        since => since,
    });
    must_differ("29 before those of reading", desk);
    let desk = Asked(|sheet, position| match model::why(sheet, position) {
        since if since.number == 29 => Since { position, ..since },
        since => since,
    });
    must_differ("a refusal keeps the position", desk);
    let desk = Asked(|sheet, position| match model::why(sheet, position) {
        since if since.number == 29 && position > 0 => Since { block: 1, ..since },
        since => since,
    });
    must_differ("29 with a block", desk);
    let desk = Asked(|sheet, position| model::why(sheet, position & 0xFFFF));
    must_differ("a position of 16 bits", desk);
}
