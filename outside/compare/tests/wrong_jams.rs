//! Libraries that are the model with one fault about the stuck button put in (02, item
//! 2): each must be found by a small run.

mod common;

use common::{answered, changed, first, must_differ, refused, right, Events, Played};
use compare::desk::Desk;
use compare::sheets::Sheet;
use model::relay::{AN, JAM, KPG, L, LEVER, RL, W241, W314};
use model::{Head, Post, Since, Told, Worked};

/// A fault: its name and the events with it.
type Fault = (&'static str, fn(Played) -> Told);

/// The same change, after every event of this number that is taken.
fn changed_by(number: u32, played: Played, change: fn(&mut Post, &mut Post)) -> Told {
    if played.2[0] == number {
        changed(played, |_, _, _| true, change)
    } else {
        right(played)
    }
}

/// An announcement arrives at a jammed post.
fn lost(up: &Post, down: &Post, number: u32) -> bool {
    number == 8 && up.is_up(W314) && down.is_up(JAM)
}

/// The event as if its post were not jammed, where it is answered 22 and this holds.
fn not_refused((row, head, step): Played, holds: fn(&Post, u32) -> bool) -> Told {
    let told = right((&mut *row, head, step));
    let at = step[1] as usize;
    if told.answer != 22 || !holds(&row[at], step[0]) {
        return told;
    }
    row[at].drop(JAM);
    let told = right((&mut *row, head, step));
    row[at].raise(JAM);
    told
}

const ARRIVALS: &[Fault] = &[
    ("counted in r", |played| {
        changed(played, lost, |up, down| {
            up.x -= 1;
            down.r += 1;
        })
    }),
    ("counted in r too", |played| {
        changed(played, lost, |_, down| down.r += 1)
    }),
    ("An raised all the same", |played| {
        changed(played, lost, |_, down| down.raise(AN))
    }),
    ("received as if the post were free", |played| {
        changed(played, lost, |up, down| {
            up.x -= 1;
            down.r += 1;
            down.raise(AN);
        })
    }),
    ("x not grown", |played| {
        changed(played, lost, |up, _| up.x -= 1)
    }),
    ("counted in y", |played| {
        changed(played, lost, |up, _| {
            up.x -= 1;
            up.y += 1;
        })
    }),
    ("left under way", |played| {
        changed(played, lost, |up, _| {
            up.x -= 1;
            up.raise(W314);
        })
    }),
    ("the section shown free", |played| {
        changed(played, lost, |up, _| up.raise(L | RL))
    }),
    ("the button freed by it", |played| {
        changed(played, lost, |_, down| down.drop(JAM))
    }),
    ("the arrival refused 22", |played| {
        answered(played, |row, number, at, answer| {
            (answer == 0 && number == 8 && lost(&row[at], &row[at + 1], 8)).then_some(22)
        })
    }),
    ("the arrival refused 14", |played| {
        answered(played, |row, number, at, answer| {
            (answer == 0 && number == 8 && lost(&row[at], &row[at + 1], 8)).then_some(14)
        })
    }),
    ("a release that arrives is lost too", |played| {
        let arrives =
            |up: &Post, down: &Post, number| number == 8 && up.is_up(W241) && down.is_up(JAM);
        changed(played, arrives, |up, _| {
            up.v -= 1;
            up.y += 1;
            up.drop(L | RL);
        })
    }),
    (
        "a release is lost to the jam of the post it reaches",
        |played| {
            let arrives =
                |up: &Post, _: &Post, number| number == 8 && up.is_up(W241) && up.is_up(JAM);
            changed(played, arrives, |up, _| {
                up.v -= 1;
                up.y += 1;
                up.drop(L | RL);
            })
        },
    ),
    ("lost to the jam of the post that announced", |played| {
        let received = |up: &Post, down: &Post, number| {
            number == 8 && up.is_up(W314) && up.is_up(JAM) && !down.is_up(JAM)
        };
        changed(played, received, |up, down| {
            up.x += 1;
            down.r -= 1;
            down.drop(AN);
        })
    }),
];

const ANSWERS: &[Fault] = &[
    ("22 after 11", |played| {
        answered(played, |row, number, at, answer| {
            (answer == 22 && number != 11 && !row[at].is_up(AN)).then_some(11)
        })
    }),
    ("22 after 12", |played| {
        answered(played, |row, number, at, answer| {
            let waits = row.get(at).is_some_and(|p| p.is_up(AN) && !p.is_up(KPG));
            (answer == 22 && number != 11 && waits).then_some(12)
        })
    }),
    ("22 after 13 and 10", |played| {
        answered(played, |row, number, at, answer| {
            let post = row.get(at).filter(|p| p.is_up(KPG))?;
            let asks = answer == 22 && number == 6;
            first(&[
                (asks && post.kind == 1 && post.is_up(LEVER), 10),
                (asks && post.kind != 1 && post.is_up(RL), 13),
            ])
        })
    }),
    ("22 before 6", |played| {
        answered(played, |row, number, at, answer| {
            (answer == 6 && number == 7 && row[at].is_up(JAM)).then_some(22)
        })
    }),
    ("23 before 6", |played| {
        answered(played, |_, number, _, answer| {
            (answer == 6 && number == 12).then_some(23)
        })
    }),
    ("22 before 4", |played| {
        answered(played, |row, number, at, answer| {
            (answer == 4 && number == 11 && row[at].is_up(JAM)).then_some(22)
        })
    }),
    ("12 at a free post taken", |played| {
        answered(played, |_, _, _, answer| (answer == 23).then_some(0))
    }),
    ("11 at a jammed post taken", |played| {
        answered(played, |_, number, _, answer| {
            (answer == 22 && number == 11).then_some(0)
        })
    }),
    ("11 names a section", |played| {
        answered(played, |row, number, at, answer| {
            (answer != 1 && number == 11 && at + 1 == row.len()).then_some(2)
        })
    }),
    ("12 names a section", |played| {
        answered(played, |row, number, at, answer| {
            (answer != 1 && number == 12 && at + 1 == row.len()).then_some(2)
        })
    }),
    ("10 names a post", |played| {
        answered(played, |row, number, at, answer| {
            (answer == 2 && number == 10 && at + 1 == row.len()).then_some(15)
        })
    }),
    ("11 and 12 still get 3", |played| {
        answered(played, |_, number, _, answer| {
            (answer != 1 && (number == 11 || number == 12)).then_some(3)
        })
    }),
    ("13 is an event", |played| {
        answered(played, |_, number, _, answer| {
            (answer == 3 && number == 13).then_some(0)
        })
    }),
    ("the terminus cannot jam", |played| {
        answered(played, |row, number, at, answer| {
            (answer == 0 && number == 11 && row[at].kind == 1).then_some(6)
        })
    }),
    ("the origin can jam", |played| {
        answered(played, |_, number, _, answer| {
            (answer == 6 && number == 11).then_some(0)
        })
    }),
    ("6 at a jammed post is not refused", |played| {
        not_refused(played, |_, number| number == 6)
    }),
    ("7 at a jammed post is not refused", |played| {
        not_refused(played, |_, number| number == 7)
    }),
    ("recorded before the jam, so released", |played| {
        not_refused(played, |post, number| number != 11 && post.is_up(AN))
    }),
];

const CHANGES: &[Fault] = &[
    ("a jam drops An", |played| {
        changed_by(11, played, |post, _| post.drop(AN | KPG))
    }),
    ("a jam drops KPg", |played| {
        changed_by(11, played, |post, _| post.drop(KPG))
    }),
    ("a jam raises another bit", |played| {
        changed_by(11, played, |post, _| post.word ^= JAM | JAM << 1)
    }),
    ("freeing drops An", |played| {
        changed_by(12, played, |post, _| post.drop(AN | KPG))
    }),
    ("a restoration frees", |played| {
        changed_by(10, played, |_, down| down.drop(JAM))
    }),
    (
        "the head stays when a button jams",
        |(row, head, step)| match right((row, head, step)) {
            told if told.answer == 0 && step[0] == 11 => refused(0, head),
            told => told,
        },
    ),
];

#[test]
fn a_wrong_arrival_is_found() {
    for (name, fault) in ARRIVALS {
        must_differ(name, Events(*fault));
    }
}

#[test]
fn a_wrong_answer_is_found() {
    for (name, fault) in ANSWERS {
        must_differ(name, Events(*fault));
    }
}

#[test]
fn a_wrong_change_is_found() {
    for (name, fault) in CHANGES {
        must_differ(name, Events(*fault));
    }
}

/// A line with a jammed post is not valid for it.
struct NoJams;

impl Desk for NoJams {
    fn valid(&mut self, row: &[Post], head: Head) -> bool {
        model::valid(row, head) && !row.iter().any(|post| post.is_up(JAM))
    }
}

#[test]
fn a_jammed_line_may_be_used() {
    must_differ("a jammed line is not valid", NoJams);
}

/// Right in its events, but a sheet is worked, or asked about, as before there were jams:
/// events 11 and 12 are refused 3.
struct SheetsWithoutJams {
    works: bool,
}

/// The sheet with these events given another number, one that does not exist.
fn renumbered(sheet: &[u8]) -> Option<Sheet> {
    let mut sheet = Sheet::of(sheet)?;
    for event in sheet.events.iter_mut().filter(|event| is_of_jams(event)) {
        event[0] += 16;
    }
    Some(sheet)
}

fn is_of_jams(event: &[u32; 4]) -> bool {
    event[0] == 11 || event[0] == 12
}

impl Desk for SheetsWithoutJams {
    fn work(&mut self, sheet: &[u8], out: &mut [u8]) -> Worked {
        let worked = model::work(sheet, out);
        let (Some(other), 0, true) = (renumbered(sheet), worked.number, self.works) else {
            return worked;
        };
        let worked = model::work(&other.bytes(), out);
        let mut right = Sheet::of(sheet).expect("it was worked");
        for (event, answered) in right.events.iter_mut().zip(other.worked().events) {
            event[2] = answered[2];
        }
        out[..sheet.len()].copy_from_slice(&right.bytes());
        worked
    }

    fn why(&mut self, sheet: &[u8], position: u32) -> Since {
        match renumbered(sheet) {
            Some(other) if !self.works => model::why(&other.bytes(), position),
            _ => model::why(sheet, position),
        }
    }
}

#[test]
fn sheets_without_jams_are_found() {
    must_differ("worked without jams", SheetsWithoutJams { works: true });
    must_differ("asked without jams", SheetsWithoutJams { works: false });
}
