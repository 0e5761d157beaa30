//! Libraries that are the model with one fault about short sections put in (02, item 5):
//! each must be found by a small run.

mod common;

use common::{answered, changed, first, must_differ, must_differ_on, right, Played};
use compare::desk::Desk;
use compare::misprints::inside;
use compare::sheets::{get, put, renew, Sheet};
use compare::strikes::waits;
use compare::tables::Place;
use compare::texts::CRLF;
use model::kind::{is_short, ordinary};
use model::relay::{AN, JAM, KPG, L, LEVER, RL, W241, W314};
use model::{Entry, Exported, Found, Head, Imported, Post, Since, Told, Worked, BLOCK_BYTES};

const SHORT: &[u32] = &[17, 18, 19, 20];
const ORDINARY: &[u32] = &[1, 2, 3, 4];
const BOTH: &[u32] = &[1, 2, 3, 4, 17, 18, 19, 20];

/// A fault at posts of one kind: its name, the kinds, and the events with it.
type Fault = (&'static str, &'static [u32], fn(Played, u32) -> Told);

struct AtKind(u32, fn(Played, u32) -> Told);

impl Desk for AtKind {
    fn event(&mut self, row: &mut [Post], head: Head, step: [u32; 3]) -> Told {
        (self.1)((row, head, step), self.0)
    }
}

/// The sorts of cases that have single events.
const OF_EVENTS: &[&str] = &["lively-histories", "wild-histories", "altered-rows"];

fn are_found(faults: &[Fault]) {
    for (name, kinds, fault) in faults {
        for kind in *kinds {
            let desk = AtKind(*kind, *fault);
            must_differ_on(OF_EVENTS, &format!("{name}, kind {kind}"), desk);
        }
    }
}

/// The passage pedal of a post of this kind is struck, with no announcement and no passage
/// recorded.
fn early(kind: u32) -> impl Fn(&Post, &Post, u32) -> bool {
    move |post, _, number| number == 3 && post.kind == kind && !post.is_up(AN | KPG)
}

/// The same with a passage recorded.
fn again(kind: u32) -> impl Fn(&Post, &Post, u32) -> bool {
    move |post, _, number| number == 3 && post.kind == kind && post.is_up(KPG)
}

/// An event of this number at a section whose downstream post has this kind and a passage
/// that waits for its announcement.
fn toward(number: u32, kind: u32) -> impl Fn(&Post, &Post, u32) -> bool {
    move |_, down, named| named == number && down.kind == kind && waits(down)
}

/// An event of this number at a post of this kind.
fn at(number: u32, kind: u32) -> impl Fn(&Post, &Post, u32) -> bool {
    move |post, _, named| named == number && post.kind == kind
}

/// Another answer for an event of this number at a post of this kind, by the post and the
/// right answer.
fn instead(played: Played, [number, kind]: [u32; 2], other: fn(&Post, u32) -> Option<u32>) -> Told {
    answered(played, |row, named, at, answer| {
        let post = row.get(at).filter(|post| post.kind == kind)?;
        if named != number || matches!(answer, 1..=5) {
            return None;
        }
        other(post, answer)
    })
}

/// The strike is lost after all.
fn lost(post: &mut Post) {
    post.drop(KPG);
    post.q -= 1;
}

const STRIKES: &[Fault] = &[
    ("an early strike lost", SHORT, |played, kind| {
        changed(played, early(kind), |post, _| lost(post))
    }),
    ("an early strike recorded", ORDINARY, |played, kind| {
        changed(played, early(kind), |post, _| {
            post.raise(KPG);
            post.q += 1;
        })
    }),
    ("a second strike counted", BOTH, |played, kind| {
        changed(played, again(kind), |post, _| post.q += 1)
    }),
    ("a second early strike counted", SHORT, |played, kind| {
        let again = again(kind);
        let holds =
            move |post: &Post, down: &Post, number| again(post, down, number) && !post.is_up(AN);
        changed(played, holds, |post, _| post.q += 1)
    }),
    (
        "a second strike takes the passage away",
        SHORT,
        |played, kind| changed(played, again(kind), |post, _| lost(post)),
    ),
    ("an early strike not counted", SHORT, |played, kind| {
        changed(played, early(kind), |post, _| post.q -= 1)
    }),
    (
        "an early strike counted and no more",
        SHORT,
        |played, kind| changed(played, early(kind), |post, _| post.drop(KPG)),
    ),
    ("an early strike raises An", SHORT, |played, kind| {
        changed(played, early(kind), |post, _| post.raise(AN))
    }),
    (
        "an early strike counted as an announcement",
        SHORT,
        |played, kind| changed(played, early(kind), |post, _| post.r += 1),
    ),
    (
        "an early strike lost at a jammed post",
        SHORT,
        |played, kind| {
            let early = early(kind);
            let holds = move |post: &Post, down: &Post, number| {
                early(post, down, number) && post.is_up(JAM)
            };
            changed(played, holds, |post, _| lost(post))
        },
    ),
    (
        "a strike lost where nothing is under way",
        SHORT,
        |played, kind| under_way_or_lost(played, kind, RL),
    ),
    (
        "a strike lost while a release is under way",
        SHORT,
        |played, kind| under_way_or_lost(played, kind, W241),
    ),
    ("an early strike refused 11", SHORT, |played, kind| {
        instead(played, [3, kind], |post, _| {
            (!post.is_up(AN | KPG)).then_some(11)
        })
    }),
    ("no passage pedal", SHORT, |played, kind| {
        instead(played, [3, kind], |_, _| Some(6))
    }),
];

/// An early strike is lost where this relay is up upstream.
fn under_way_or_lost((row, head, step): Played, kind: u32, mask: u32) -> Told {
    let upstream = (step[1] as usize).checked_sub(1).and_then(|at| row.get(at));
    if upstream.is_some_and(|post| post.is_up(mask)) {
        changed((row, head, step), early(kind), |post, _| lost(post))
    } else {
        right((row, head, step))
    }
}

const PASSAGES: &[Fault] = &[
    (
        "an announcement takes the passage",
        SHORT,
        |played, kind| changed(played, toward(8, kind), |_, down| lost(down)),
    ),
    ("a restoration takes the passage", SHORT, |played, kind| {
        changed(played, toward(10, kind), |_, down| lost(down))
    }),
    ("a loss takes the passage", SHORT, |played, kind| {
        changed(played, toward(9, kind), |_, down| lost(down))
    }),
    ("a jam takes the passage", SHORT, |played, kind| {
        let jams = |post: &Post, _: &Post, number| number == 11 && post.kind == kind && waits(post);
        changed(played, jams, |post, _| lost(post))
    }),
    ("lost to a jam, KPg dropped", SHORT, |played, kind| {
        let toward = toward(8, kind);
        let holds = move |up: &Post, down: &Post, number| {
            toward(up, down, number) && up.is_up(W314) && down.is_up(JAM)
        };
        changed(played, holds, |_, down| down.drop(KPG))
    }),
    (
        "received at a jammed post with a passage",
        SHORT,
        |played, kind| {
            let toward = toward(8, kind);
            let holds = move |up: &Post, down: &Post, number| {
                toward(up, down, number) && up.is_up(W314) && down.is_up(JAM)
            };
            changed(played, holds, |up, down| {
                up.x -= 1;
                down.r += 1;
                down.raise(AN);
            })
        },
    ),
    ("a release leaves the passage", SHORT, |played, kind| {
        changed(played, at(6, kind), |post, _| post.raise(KPG))
    }),
    (
        "a garage release leaves the passage",
        &[18, 19],
        |played, kind| changed(played, at(7, kind), |post, _| post.raise(KPG)),
    ),
    (
        "a garage release not counted in c",
        &[18, 19],
        |played, kind| changed(played, at(7, kind), |post, _| post.c -= 1),
    ),
    (
        "L not dropped by the signal pedal",
        &[18],
        |played, kind| {
            let holds = |post: &Post, _: &Post, number| {
                number == 4 && post.kind == kind && post.is_up(LEVER) && post.is_up(L)
            };
            changed(played, holds, |post, _| post.raise(L))
        },
    ),
    ("an announcement leaves L", &[18, 19, 20], |played, kind| {
        changed(played, at(5, kind), |post, _| post.raise(L))
    }),
];

const ANSWERS: &[Fault] = &[
    ("released with no announcement", SHORT, |played, kind| {
        released_early(played, 6, kind)
    }),
    (
        "garage release with no announcement",
        &[18, 19],
        |played, kind| released_early(played, 7, kind),
    ),
    ("12 where KPg is up and An down", SHORT, |played, kind| {
        instead(played, [6, kind], |post, answer| {
            (answer == 11 && waits(post)).then_some(12)
        })
    }),
    ("12 before 11", SHORT, |played, kind| {
        instead(played, [6, kind], |post, answer| {
            (answer == 11 && !post.is_up(KPG)).then_some(12)
        })
    }),
    ("22 after 11", SHORT, |played, kind| {
        instead(played, [6, kind], |post, answer| {
            (answer == 22 && !post.is_up(AN)).then_some(11)
        })
    }),
    ("13 not asked", &[18, 19, 20], |played, kind| {
        instead(played, [6, kind], |_, answer| (answer == 13).then_some(0))
    }),
    ("13 asked of a garage release", &[18, 19], |played, kind| {
        instead(played, [7, kind], |post, answer| {
            (answer == 0 && post.is_up(RL)).then_some(13)
        })
    }),
    ("10 for 13", &[18, 19, 20], |played, kind| {
        instead(played, [6, kind], |post, answer| {
            (answer == 13 && post.is_up(LEVER)).then_some(10)
        })
    }),
    ("10 not asked", &[17], |played, kind| {
        instead(played, [6, kind], |_, answer| (answer == 10).then_some(0))
    }),
    ("a garage release", &[17, 20], |played, kind| {
        instead(played, [7, kind], |post, _| {
            Some(first(&[(!post.is_up(AN), 11), (!post.is_up(KPG), 12)]).unwrap_or(0))
        })
    }),
    ("no garage release", &[18, 19], |played, kind| {
        instead(played, [7, kind], |_, _| Some(6))
    }),
    ("a terminus that announces", &[17], |played, kind| {
        instead(played, [5, kind], |_, _| Some(0))
    }),
    ("a terminus that asks its RL", &[17], |played, kind| {
        instead(played, [5, kind], |_, _| Some(9))
    }),
    ("no announcement", &[18, 19, 20], |played, kind| {
        instead(played, [5, kind], |_, _| Some(6))
    }),
    ("a terminus with 8", &[17], |played, kind| {
        instead(played, [1, kind], |_, answer| (answer == 0).then_some(8))
    }),
    ("no 8", &[18, 19, 20], |played, kind| {
        instead(played, [1, kind], |_, answer| (answer == 8).then_some(0))
    }),
    ("a signal pedal", &[19, 20], |played, kind| {
        instead(played, [4, kind], |_, _| Some(0))
    }),
    ("no signal pedal", &[17, 18], |played, kind| {
        instead(played, [4, kind], |_, _| Some(6))
    }),
    ("no release", SHORT, |played, kind| {
        instead(played, [6, kind], |_, _| Some(6))
    }),
    ("no button that jams", SHORT, |played, kind| {
        instead(played, [11, kind], |_, _| Some(6))
    }),
    (
        "a passage that waits refuses a restoration",
        SHORT,
        |played, kind| {
            answered(played, |row, number, at, answer| {
                let holds = answer == 0 && number == 10;
                (holds && row[at + 1].kind == kind && waits(&row[at + 1])).then_some(17)
            })
        },
    ),
];

/// A release with a passage and no announcement, as if both were recorded.
fn released_early((row, head, step): Played, number: u32, kind: u32) -> Told {
    let at = step[1] as usize;
    let told = right((&mut *row, head, step));
    if (step[0], told.answer) != (number, 11) || row[at].kind != kind || !waits(&row[at]) {
        return told;
    }
    row[at].drop(KPG);
    row[at].e += 1;
    row[at].c += u32::from(number == 7);
    row[at - 1].raise(W241);
    let taken = head.taken + 1;
    Told {
        answer: 0,
        head: Head {
            taken,
            last: step[2],
        },
    }
}

#[test]
fn a_wrong_strike_is_found() {
    are_found(STRIKES);
}

#[test]
fn a_passage_that_does_not_stay_is_found() {
    are_found(PASSAGES);
}

#[test]
fn a_wrong_answer_is_found() {
    are_found(ANSWERS);
}

/// A fresh line in which a short terminus has these relays up.
struct Fresh(u32);

impl Desk for Fresh {
    fn start(&mut self, row: &mut [Post], kinds: &[u32], stamp: u32) -> Told {
        let told = model::start(row, kinds, stamp);
        if let (0, Some(last)) = (told.answer, row.last_mut()) {
            last.word |= self.0 * u32::from(is_short(last.kind));
        }
        told
    }
}

#[test]
fn a_wrong_fresh_terminus_is_found() {
    for relays in [L | RL, L, RL, KPG] {
        must_differ("a short terminus fresh with relays up", Fresh(relays));
    }
}

/// In tables given to one call, this number in this place is taken for another. What is
/// taken for 5 is refused.
#[derive(Clone, Copy)]
struct Tables {
    call: &'static str,
    place: Place,
    number: u32,
    taken_for: u32,
}

/// The calls, and the sorts of cases in which each has a table.
const CALLS: &[(&str, &[&str])] = &[
    ("start", &["starts"]),
    ("read", &["reading"]),
    ("write", &["writing"]),
    ("work", &["working"]),
    ("why", &["questions"]),
    ("export", &["exporting"]),
    ("import", &["right-texts", "spoiled-texts"]),
];

const TAKEN_FOR: &[(&str, Place, u32, u32)] = &[
    ("a short origin let in", Place::First, 16, 0),
    ("17 let in first", Place::First, 17, 0),
    ("16 let in inside", Place::Inside, 16, 4),
    ("21 let in inside", Place::Inside, 21, 4),
    ("17 let in inside", Place::Inside, 17, 20),
    ("16 let in last", Place::Last, 16, 1),
    ("18 let in last", Place::Last, 18, 17),
    ("20 let in last", Place::Last, 20, 17),
    ("21 let in last", Place::Last, 21, 17),
    ("17 refused last", Place::Last, 17, 5),
    ("18 refused inside", Place::Inside, 18, 5),
    ("19 refused inside", Place::Inside, 19, 5),
    ("20 refused inside", Place::Inside, 20, 5),
];

impl Tables {
    fn kind(&self, kind: u32, at: usize, posts: usize) -> u32 {
        let there = match self.place {
            Place::Post31 => at == 31,
            place => Place::of(at, posts) == place,
        };
        if there && kind == self.number {
            self.taken_for
        } else {
            kind
        }
    }

    fn kinds(&self, call: &str, kinds: &[u32]) -> Vec<u32> {
        if call != self.call {
            return kinds.to_vec();
        }
        let kind = |(at, kind): (usize, &u32)| self.kind(*kind, at, kinds.len());
        kinds.iter().enumerate().map(kind).collect()
    }

    /// The sheet with such a table, if its block 0 may be one.
    fn sheet(&self, call: &str, sheet: &[u8]) -> Vec<u8> {
        let mut sheet = sheet.to_vec();
        let posts = match sheet.first_chunk::<BLOCK_BYTES>() {
            Some(block) if model::check(block, 0) => get(block, 0, 1) as usize,
            _ => return sheet,
        };
        if call == self.call && (2..=32).contains(&posts) {
            for at in 0..posts {
                let kind = self.kind(get(&sheet, 0, 3 + at), at, posts);
                put(&mut sheet, 0, 3 + at, kind);
            }
            renew(&mut sheet, 0);
        }
        sheet
    }

    /// The text with such a table: the records that have a kind and a post alone.
    fn text(&self, text: &[u8]) -> Vec<u8> {
        let Ok(text) = String::from_utf8(text.to_vec()) else {
            return text.to_vec();
        };
        let mut rows: Vec<String> = text.split(CRLF).map(str::to_string).collect();
        let kinds: Vec<u32> = rows.iter().skip(2).map_while(|row| kind_in(row)).collect();
        for (at, kind) in kinds.iter().enumerate() {
            let taken_for = self.kind(*kind, at, kinds.len());
            if taken_for != *kind {
                rows[2 + at] = format!(",{taken_for},{at},,");
            }
        }
        rows.join(CRLF).into_bytes()
    }
}

fn kind_in(row: &str) -> Option<u32> {
    match row.split(',').map(inside).collect::<Vec<_>>()[..] {
        ["", kind, _, "", ""] => kind.parse().ok(),
        _ => None,
    }
}

impl Desk for Tables {
    fn start(&mut self, row: &mut [Post], kinds: &[u32], stamp: u32) -> Told {
        model::start(row, &self.kinds("start", kinds), stamp)
    }

    fn write(&mut self, kinds: &[u32], stamp: u32, events: &[Entry], out: &mut [u8]) -> u32 {
        model::write(&self.kinds("write", kinds), stamp, events, out)
    }

    fn read(&mut self, sheet: &[u8], kinds: &mut [u32], events: &mut [Entry]) -> Found {
        model::read(&self.sheet("read", sheet), kinds, events)
    }

    fn work(&mut self, sheet: &[u8], out: &mut [u8]) -> Worked {
        model::work(&self.sheet("work", sheet), out)
    }

    fn why(&mut self, sheet: &[u8], position: u32) -> Since {
        model::why(&self.sheet("why", sheet), position)
    }

    fn export(&mut self, sheet: &[u8], out: &mut [u8]) -> Exported {
        model::export(&self.sheet("export", sheet), out)
    }

    fn import(&mut self, text: &[u8], out: &mut [u8]) -> Imported {
        if self.call != "import" {
            return model::import(text, out);
        }
        model::import(&self.text(text), out)
    }
}

#[test]
fn a_wrong_table_is_found() {
    for &(call, sorts) in CALLS {
        for &(name, place, number, taken_for) in TAKEN_FOR {
            let desk = Tables {
                call,
                place,
                number,
                taken_for,
            };
            must_differ_on(sorts, &format!("{call}: {name}"), desk);
        }
    }
}

#[test]
fn a_wrong_end_at_post_31_is_found() {
    for (number, taken_for) in [(17, 5), (16, 1), (18, 17), (19, 17), (20, 17), (21, 17)] {
        let desk = Tables {
            call: "import",
            place: Place::Post31,
            number,
            taken_for,
        };
        let name = format!("import: {number} at post 31 taken for {taken_for}");
        must_differ_on(&["right-texts", "spoiled-texts"], &name, desk);
    }
}

/// One call does not know of short forms: it takes each post for an ordinary one.
struct Unknown(&'static str);

fn all_ordinary(kinds: &[u32]) -> Vec<u32> {
    kinds.iter().map(|kind| ordinary(*kind)).collect()
}

/// The sheet with ordinary posts alone, if it is a good one.
fn ordinary_sheet(sheet: &[u8]) -> Option<Sheet> {
    let mut sheet = Sheet::of(sheet)?;
    sheet.kinds = all_ordinary(&sheet.kinds);
    Some(sheet)
}

impl Unknown {
    fn sheet(&self, call: &str, sheet: &[u8]) -> Vec<u8> {
        match ordinary_sheet(sheet) {
            Some(other) if call == self.0 => other.bytes(),
            _ => sheet.to_vec(),
        }
    }
}

impl Desk for Unknown {
    fn start(&mut self, row: &mut [Post], kinds: &[u32], stamp: u32) -> Told {
        if self.0 != "start" {
            return model::start(row, kinds, stamp);
        }
        model::start(row, &all_ordinary(kinds), stamp)
    }

    fn read(&mut self, sheet: &[u8], kinds: &mut [u32], events: &mut [Entry]) -> Found {
        model::read(&self.sheet("read", sheet), kinds, events)
    }

    /// Only the answers are those of ordinary posts.
    fn work(&mut self, sheet: &[u8], out: &mut [u8]) -> Worked {
        let worked = model::work(sheet, out);
        let (Some(other), 0, "work") = (ordinary_sheet(sheet), worked.number, self.0) else {
            return worked;
        };
        let mut right = Sheet::of(sheet).expect("it was worked");
        right.events = other.worked().events;
        out[..sheet.len()].copy_from_slice(&right.bytes());
        worked
    }

    fn why(&mut self, sheet: &[u8], position: u32) -> Since {
        model::why(&self.sheet("why", sheet), position)
    }

    fn export(&mut self, sheet: &[u8], out: &mut [u8]) -> Exported {
        model::export(&self.sheet("export", sheet), out)
    }

    fn import(&mut self, text: &[u8], out: &mut [u8]) -> Imported {
        let told = model::import(text, out);
        if self.0 == "import" && told.number == 0 {
            let sheet = self.sheet("import", &out[..told.bytes]);
            out[..told.bytes].copy_from_slice(&sheet);
        }
        told
    }
}

#[test]
fn a_call_that_knows_no_short_forms_is_found() {
    for &(call, sorts) in CALLS.iter().filter(|call| call.0 != "write") {
        must_differ_on(
            sorts,
            &format!("{call} knows no short forms"),
            Unknown(call),
        );
    }
}

/// A register whose kinds have one digit: its room is asked as if they had.
struct OneDigit;

impl Desk for OneDigit {
    fn export(&mut self, sheet: &[u8], out: &mut [u8]) -> Exported {
        let told = model::export(sheet, out);
        let kinds = Sheet::of(sheet).map_or(Vec::new(), |sheet| sheet.kinds);
        let second_digits = kinds.iter().filter(|kind| **kind > 9).count();
        let mut room = vec![0; 4 * sheet.len()];
        let whole = model::export(sheet, &mut room);
        if told.number != 21 || out.len() + second_digits < whole.bytes {
            return told;
        }
        let bytes = out.len();
        out.copy_from_slice(&room[..bytes]);
        Exported { bytes, ..whole }
    }
}

#[test]
fn a_room_for_kinds_of_one_digit_is_found() {
    must_differ_on(&["exporting"], "kinds of one digit", OneDigit);
}
