//! 01, Events, and the order of refusals under Numbers returned; 02, item 2, the stuck
//! release button; 02, item 5, short sections, whose refusals are "as those of the ordinary
//! kind"; and of 02, item 7, when the shared circuit is busy.

use crate::line::relay::{AN, JAM, KPG, L, LEVER, RL, SIGNAL, W241, W314};
use crate::line::{kind, valid, Head, Post, Told, COUNT_LIMIT};
use crate::number::*;
use crate::tracks::facing;

/// The events by their numbers: ten of 01, and two of 02, item 2.
const REVERSE: u32 = 1;
const TO_NORMAL: u32 = 2;
const PASSAGE_PEDAL: u32 = 3;
const SIGNAL_PEDAL: u32 = 4;
const ANNOUNCE: u32 = 5;
const RELEASE: u32 = 6;
const GARAGE_RELEASE: u32 = 7;
const ARRIVAL: u32 = 8;
const LOSS: u32 = 9;
const RESTORATION: u32 = 10;
const BUTTON_JAMS: u32 = 11;
const BUTTON_FREED: u32 = 12;

/// One event. Refused: row and head as they were. Taken: 1 more event taken, and
/// the last stamp set.
pub fn event(row: &mut [Post], head: Head, number: u32, place: u32, stamp: u32) -> Told {
    if !valid(row, head) {
        return Told {
            answer: NOT_VALID,
            head,
        };
    }
    event_on_valid(row, head, number, place, stamp)
}

/// One event on a line that is valid.
pub fn event_on_valid(row: &mut [Post], head: Head, number: u32, place: u32, stamp: u32) -> Told {
    event_beside(row, None, head, [number, place, stamp])
}

/// The same beside the other track's line, where only one signal can be under way between two
/// neighbouring posts. "Refusals: 25 when the shared circuit is busy, for events 5, 6 and 7,
/// after their own lists" (02, item 7).
pub(crate) fn event_beside(
    row: &mut [Post],
    shared: Option<&[Post]>,
    head: Head,
    [number, place, stamp]: [u32; 3],
) -> Told {
    let refused = |answer| Told { answer, head };
    let answer = refusal(row, head, number, place, stamp);
    if answer != TAKEN {
        return refused(answer);
    }
    if shared.is_some_and(|other| is_busy(other, number, place as usize)) {
        return refused(BUSY);
    }
    change(row, number, place as usize);
    let head = Head {
        taken: head.taken + 1,
        last: stamp,
    };
    Told { answer, head }
}

/// The other track's signal is under way between the two posts between which this event sends
/// one: an announcement to the next post, a release to the one before.
fn is_busy(other: &[Post], number: u32, post: usize) -> bool {
    let sends_in = match number {
        ANNOUNCE => Some(post),
        RELEASE | GARAGE_RELEASE => Some(post - 1),
        _ => None,
    };
    sends_in.is_some_and(|section| under_way(&other[facing(other.len(), section)]))
}

/// "Order for an event: 1, 3, 2, 5, 4, 6, then the event's own list." From 3 on; 22 and
/// 23 are given "both right after 6".
fn refusal(row: &[Post], head: Head, number: u32, place: u32, stamp: u32) -> u32 {
    if !(REVERSE..=BUTTON_FREED).contains(&number) {
        return NO_SUCH_EVENT;
    }
    if !place_exists(row.len(), number, place) {
        return NO_SUCH_PLACE;
    }
    if head.taken == COUNT_LIMIT {
        return FULL;
    }
    if behind(stamp, head.last) {
        return BEHIND;
    }
    let place = place as usize;
    if lacks_device(number, kind::ordinary(row[place].kind)) {
        return NO_DEVICE;
    }
    match jam_refusal(&row[place], number) {
        TAKEN => own_refusal(row, number, place),
        refused => refused,
    }
}

/// For 8, 9 and 10 the place is a section, 0 to N-2; else a post, 0 to N-1. Where there are no
/// posts there are no sections.
fn place_exists(posts: usize, number: u32, place: u32) -> bool {
    let is_section = (ARRIVAL..=RESTORATION).contains(&number);
    (place as usize) < posts.saturating_sub(usize::from(is_section))
}

/// "A stamp is behind when its difference from the last, taken round 2^32 and
/// read as a signed number, is below zero."
fn behind(stamp: u32, last: u32) -> bool {
    (stamp.wrapping_sub(last) as i32) < 0
}

/// "6 is given for 3 at kind 0; 4 at kinds 3 and 4; 5 at kind 1; 6 at kind 0; 7 at
/// kinds 0, 1 and 4." 11 and 12 "get 6 at the origin" (02, item 2).
fn lacks_device(number: u32, post_kind: u32) -> bool {
    match number {
        PASSAGE_PEDAL => post_kind == kind::ORIGIN,
        SIGNAL_PEDAL => {
            post_kind == kind::STATION_AT_ANNOUNCEMENT || post_kind == kind::INTERMEDIATE
        }
        ANNOUNCE => post_kind == kind::TERMINUS,
        RELEASE | BUTTON_JAMS | BUTTON_FREED => post_kind == kind::ORIGIN,
        GARAGE_RELEASE => {
            post_kind == kind::ORIGIN
                || post_kind == kind::TERMINUS
                || post_kind == kind::INTERMEDIATE
        }
        _ => false,
    }
}

/// 02, item 2: "22 for events 6, 7 and 11 at a jammed post, 23 for 12 at a free one";
/// 0 when it is neither.
fn jam_refusal(post: &Post, number: u32) -> u32 {
    let jammed = post.is_up(JAM);
    match number {
        RELEASE | GARAGE_RELEASE | BUTTON_JAMS => first([(jammed, JAMMED)]),
        BUTTON_FREED => first([(!jammed, NOT_JAMMED)]),
        _ => TAKEN,
    }
}

/// The event's own list of refusals; 0 when it is taken.
fn own_refusal(row: &[Post], number: u32, place: usize) -> u32 {
    let post = &row[place];
    match number {
        REVERSE => reverse_refusal(post),
        TO_NORMAL => first([(!post.is_up(LEVER), LEVER_THERE)]),
        ANNOUNCE => first([
            (!post.is_up(RL), RL_DOWN),
            (post.is_up(LEVER), LEVER_REVERSED),
        ]),
        RELEASE => release_refusal(post),
        GARAGE_RELEASE => garage_refusal(post),
        ARRIVAL | LOSS => first([(!under_way(post), NOTHING_UNDER_WAY)]),
        RESTORATION => first([
            (post.is_up(RL), SECTION_FREE),
            (under_way(post), UNDER_WAY),
            (row[place + 1].is_up(AN), RECORDED),
        ]),
        _ => TAKEN,
    }
}

/// The number of the first refusal that holds, 0 if none does.
fn first<const K: usize>(list: [(bool, u32); K]) -> u32 {
    list.iter()
        .find(|(holds, _)| *holds)
        .map_or(TAKEN, |&(_, number)| number)
}

fn is_terminus(post: &Post) -> bool {
    kind::ordinary(post.kind) == kind::TERMINUS
}

/// 1: "Refused 7 if already reversed, then 8 if L is down (8 not at the terminus)."
fn reverse_refusal(post: &Post) -> u32 {
    first([
        (post.is_up(LEVER), LEVER_THERE),
        (!is_terminus(post) && !post.is_up(L), LEVER_LOCKED),
    ])
}

/// 6: "refused 11 if An is down, then 12 if KPg is down, then 13 if RL is up
/// (kinds 2, 3, 4) or 10 if the lever is reversed (kind 1)."
fn release_refusal(post: &Post) -> u32 {
    let terminus = is_terminus(post);
    first([
        (!post.is_up(AN), NO_ANNOUNCEMENT),
        (!post.is_up(KPG), NO_PASSAGE),
        (!terminus && post.is_up(RL), RL_UP_ONWARD),
        (terminus && post.is_up(LEVER), LEVER_REVERSED),
    ])
}

/// 7: "refused 11, then 12, as above and on nothing else."
fn garage_refusal(post: &Post) -> u32 {
    first([
        (!post.is_up(AN), NO_ANNOUNCEMENT),
        (!post.is_up(KPG), NO_PASSAGE),
    ])
}

/// A signal is under way in the section downstream of this post.
pub(crate) fn under_way(post: &Post) -> bool {
    post.is_up(W314) || post.is_up(W241)
}

/// What an event taken alters: at most its post and one neighbour.
fn change(row: &mut [Post], number: u32, place: usize) {
    match number {
        REVERSE => row[place].raise(LEVER | SIGNAL),
        TO_NORMAL => row[place].drop(LEVER | SIGNAL),
        PASSAGE_PEDAL => strike_passage(&mut row[place]),
        SIGNAL_PEDAL => strike_signal(&mut row[place]),
        ANNOUNCE => announce(&mut row[place]),
        RELEASE => release(row, place),
        GARAGE_RELEASE => {
            release(row, place);
            row[place].c += 1;
        }
        ARRIVAL => arrive(row, place),
        LOSS => lose(&mut row[place]),
        RESTORATION => {
            row[place].raise(L | RL);
            row[place].g += 1;
        }
        BUTTON_JAMS => row[place].raise(JAM),
        BUTTON_FREED => row[place].drop(JAM),
        _ => {}
    }
}

/// 3: "if An is up and KPg down, KPg rises and q grows by 1. Otherwise taken with
/// no effect." But at a short post (02, item 5) "event 3 asks only that KPg be down, so
/// that a strike taken records a passage when none is recorded since the last release".
fn strike_passage(post: &mut Post) {
    let may_be_early = kind::is_short(post.kind);
    if (post.is_up(AN) || may_be_early) && !post.is_up(KPG) {
        post.raise(KPG);
        post.q += 1;
    }
}

/// 4: "if the lever is reversed, the signal closes, and at kinds 0 and 2 L drops.
/// With a normal lever, taken with no effect."
fn strike_signal(post: &mut Post) {
    if post.is_up(LEVER) {
        post.drop(SIGNAL);
        if let kind::ORIGIN | kind::STATION_AT_PEDAL = kind::ordinary(post.kind) {
            post.drop(L);
        }
    }
}

/// 5: "RL and L drop, W314 rises, a grows by 1."
fn announce(post: &mut Post) {
    post.drop(RL | L);
    post.raise(W314);
    post.a += 1;
}

/// 6: "An and KPg drop, W241 of the section upstream rises, e grows by 1."
fn release(row: &mut [Post], place: usize) {
    row[place].drop(AN | KPG);
    row[place].e += 1;
    row[place - 1].raise(W241);
}

/// 8: "W314: it drops, An downstream rises, r grows by 1. W241: it drops, L and RL
/// rise, v grows by 1." But (02, item 2) "an announcement arriving at a jammed post
/// clears from the circuit and is counted in x; An stays down": so it is lost.
fn arrive(row: &mut [Post], section: usize) {
    if row[section].is_up(W314) && row[section + 1].is_up(JAM) {
        lose(&mut row[section]);
    } else if row[section].is_up(W314) {
        row[section].drop(W314);
        row[section + 1].raise(AN);
        row[section + 1].r += 1;
    } else {
        row[section].drop(W241);
        row[section].raise(L | RL);
        row[section].v += 1;
    }
}

/// 9: "The signal under way drops; x or y grows by 1."
fn lose(post: &mut Post) {
    if post.is_up(W314) {
        post.drop(W314);
        post.x += 1;
    } else {
        post.drop(W241);
        post.y += 1;
    }
}
