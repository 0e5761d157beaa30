//! Libraries that are the model with one fault about the upper bits of event words put in (02,
//! item 6), each in one call at a time: every one must be found by a small run. And what the
//! makers of such sheets say of them.

mod common;

use common::{compare_only, must_differ_on};
use compare::cases::FIELDS;
use compare::desk::Desk;
use compare::random::Random;
use compare::sheets::{blocks, get, put, renew};
use compare::upper_bits::{bad_beside, BESIDE};
use model::{check, test, Entry, Exported, Found, Since, Verdict, Worked};
use model::{BLOCK_BYTES, EVENTS_PER_BLOCK, MOST_EVENTS};

/// The calls that say what is wrong with a sheet.
const CALLS: [&str; 5] = ["test", "read", "work", "why", "export"];

/// The sheet that a call takes one for.
type Taken = Box<dyn Fn(&[u8]) -> Vec<u8>>;

enum Fault {
    /// Another verdict in the place of the right one, by the sheet.
    Says(fn(&[u8], Verdict) -> Verdict),
    /// The sheet taken for another.
    Takes(Taken),
}

/// A desk with a fault in one call.
struct Wrong {
    call: &'static str,
    fault: Fault,
}

impl Wrong {
    /// What that call returns, by what it would return of a sheet.
    fn told<T: From<Verdict>>(
        &self,
        call: &str,
        sheet: &[u8],
        right: impl FnOnce(&[u8]) -> T,
    ) -> T {
        match &self.fault {
            _ if call != self.call => right(sheet),
            Fault::Takes(takes) => right(&takes(sheet)),
            Fault::Says(says) => match says(sheet, test(sheet)) {
                said if said == test(sheet) => right(sheet),
                said => said.into(),
            },
        }
    }
}

impl Desk for Wrong {
    fn test(&mut self, sheet: &[u8]) -> Verdict {
        self.told("test", sheet, test)
    }

    fn read(&mut self, sheet: &[u8], kinds: &mut [u32], events: &mut [Entry]) -> Found {
        self.told("read", sheet, |sheet| model::read(sheet, kinds, events))
    }

    fn work(&mut self, sheet: &[u8], out: &mut [u8]) -> Worked {
        self.told("work", sheet, |sheet| model::work(sheet, out))
    }

    fn why(&mut self, sheet: &[u8], position: u32) -> Since {
        self.told("why", sheet, |sheet| model::why(sheet, position))
    }

    fn export(&mut self, sheet: &[u8], out: &mut [u8]) -> Exported {
        self.told("export", sheet, |sheet| model::export(sheet, out))
    }
}

fn refused(number: u32, block: usize, position: usize) -> Verdict {
    Verdict {
        number,
        block: block as u32,
        position: position as u32,
    }
}

fn has_bits(sheet: &[u8], block: usize, position: usize) -> bool {
    get(sheet, block, 1 + 2 * position) >> 16 != 0
}

/// The positions in a block, counted or not, that have upper bits.
fn bad_in(sheet: &[u8], block: usize) -> Vec<usize> {
    let positions = 0..EVENTS_PER_BLOCK * usize::from(block > 0);
    positions.filter(|at| has_bits(sheet, block, *at)).collect()
}

fn held(sheet: &[u8], block: usize) -> usize {
    (get(sheet, block, 0) as usize).min(EVENTS_PER_BLOCK)
}

/// Those of them that are counted.
fn bad_events(sheet: &[u8], block: usize) -> Vec<usize> {
    let mut bad = bad_in(sheet, block);
    bad.retain(|at| *at < held(sheet, block));
    bad
}

fn checks(sheet: &[u8], block: usize) -> bool {
    check(&sheet[block * BLOCK_BYTES..][..BLOCK_BYTES], block as u32)
}

/// The right verdict, but where it has this number another, by the sheet and the block and the
/// position that it names, if there is another.
fn instead(
    sheet: &[u8],
    right: Verdict,
    number: u32,
    other: fn(&[u8], usize, usize) -> Option<Verdict>,
) -> Verdict {
    let [block, position] = [right.block as usize, right.position as usize];
    match right.number == number {
        true => other(sheet, block, position).unwrap_or(right),
        false => right,
    }
}

type SaysFault = (&'static str, fn(&[u8], Verdict) -> Verdict);

/// 24 given where it should not be, and not given where it should.
const ORDER: &[SaysFault] = &[
    ("20 for words that should be zero first", |sheet, right| {
        instead(sheet, right, 24, |sheet, block, _| {
            let mut rest = 1 + 2 * held(sheet, block)..127;
            let filler = rest.any(|at| get(sheet, block, at) != 0);
            filler.then_some(refused(20, block, 0))
        })
    }),
    ("20 as before", |sheet, right| {
        instead(sheet, right, 24, |_, block, _| Some(refused(20, block, 0)))
    }),
    ("20 and the position", |sheet, right| {
        instead(sheet, right, 24, |_, block, at| {
            Some(refused(20, block, at))
        })
    }),
    ("24 before the count", |sheet, right| {
        instead(sheet, right, 20, |sheet, block, _| {
            let first = bad_in(sheet, block).first().copied();
            first.map(|at| refused(24, block, at))
        })
    }),
    ("24 before a count of more than 60", |sheet, right| {
        instead(sheet, right, 20, |sheet, block, _| {
            let first = bad_events(sheet, block).first().copied();
            let first = first.filter(|_| get(sheet, block, 0) > 60);
            first.map(|at| refused(24, block, at))
        })
    }),
    ("24 before a count of less than 60", |sheet, right| {
        instead(sheet, right, 20, |sheet, block, _| {
            let first = bad_events(sheet, block).first().copied();
            let first = first.filter(|_| get(sheet, block, 0) < 60);
            first.map(|at| refused(24, block, at))
        })
    }),
    ("24 before the check", |sheet, right| {
        instead(sheet, right, 19, |sheet, block, _| {
            let first = bad_events(sheet, block).first().copied();
            first.map(|at| refused(24, block, at))
        })
    }),
    ("24 past the count", |sheet, right| {
        instead(sheet, right, 20, |sheet, block, _| {
            let (bad, m) = (bad_in(sheet, block), held(sheet, block));
            let first = bad.first().copied().filter(|at| m > 0 && *at >= m);
            first.map(|at| refused(24, block, at))
        })
    }),
    ("24 for a kind", |sheet, right| {
        instead(sheet, right, 20, |sheet, block, _| {
            let bad = (3..35).find(|at| block == 0 && get(sheet, 0, *at) >> 16 != 0);
            bad.map(|at| refused(24, 0, at - 3))
        })
    }),
    ("24 before the length", |sheet, right| {
        instead(sheet, right, 18, |sheet, _, _| {
            let bad = |at: &usize| checks(sheet, *at) && !bad_events(sheet, *at).is_empty();
            let block = (1..blocks(sheet)).find(bad)?;
            Some(refused(24, block, bad_events(sheet, block)[0]))
        })
    }),
];

/// Another block or another position named.
const NAMES: &[SaysFault] = &[
    ("the last bad event", |sheet, right| {
        instead(sheet, right, 24, |sheet, block, _| {
            let last = bad_events(sheet, block).last().copied();
            last.map(|at| refused(24, block, at))
        })
    }),
    ("the second bad event", |sheet, right| {
        instead(sheet, right, 24, |sheet, block, _| {
            let second = bad_events(sheet, block).get(1).copied();
            second.map(|at| refused(24, block, at))
        })
    }),
    ("the last bad block", |sheet, right| {
        instead(sheet, right, 24, |sheet, block, _| {
            let bad = |at: &usize| checks(sheet, *at) && !bad_events(sheet, *at).is_empty();
            let last = (block + 1..blocks(sheet)).rfind(bad)?;
            Some(refused(24, last, bad_events(sheet, last)[0]))
        })
    }),
    ("a later check first", |sheet, right| {
        instead(sheet, right, 24, |sheet, block, _| {
            let wrong = (block + 1..blocks(sheet)).find(|at| !checks(sheet, *at));
            wrong.map(|at| refused(19, at, 0))
        })
    }),
    ("all counts first", |sheet, right| {
        instead(sheet, right, 24, |sheet, block, _| {
            let wrong = |at: &usize| !(1..=60).contains(&get(sheet, *at, 0));
            let wrong = (block + 1..blocks(sheet)).find(wrong);
            wrong.map(|at| refused(20, at, 0))
        })
    }),
    ("counted over the sheet", |sheet, right| {
        instead(sheet, right, 24, |_, block, at| {
            Some(refused(24, block, EVENTS_PER_BLOCK * (block - 1) + at))
        })
    }),
    ("from 1", |sheet, right| {
        instead(sheet, right, 24, |_, block, at| {
            Some(refused(24, block, at + 1))
        })
    }),
    ("from the end of the block", |sheet, right| {
        instead(sheet, right, 24, |sheet, block, at| {
            Some(refused(24, block, held(sheet, block) - 1 - at))
        })
    }),
    ("the place of the word", |sheet, right| {
        instead(sheet, right, 24, |_, block, at| {
            Some(refused(24, block, 1 + 2 * at))
        })
    }),
    ("always 0", |_, right| Verdict {
        position: 0,
        ..right
    }),
    ("at most 31", |_, right| Verdict {
        position: right.position & 31,
        ..right
    }),
    ("0 in a block not the first", |_, right| Verdict {
        position: right.position * u32::from(right.block == 1),
        ..right
    }),
    ("the block one less", |sheet, right| {
        instead(sheet, right, 24, |_, block, at| {
            Some(refused(24, block - 1, at))
        })
    }),
    ("the block one more", |sheet, right| {
        instead(sheet, right, 24, |_, block, at| {
            Some(refused(24, block + 1, at))
        })
    }),
    ("block 0", |sheet, right| {
        instead(sheet, right, 24, |_, _, at| Some(refused(24, 0, at)))
    }),
    ("the other way round", |sheet, right| {
        instead(sheet, right, 24, |_, block, at| {
            Some(refused(24, at, block))
        })
    }),
];

/// A position where there is none.
const ANY_POSITION: &[SaysFault] = &[
    ("with 18", |sheet, right| {
        instead(sheet, right, 18, |_, block, _| Some(refused(18, block, 1)))
    }),
    ("with 19", |sheet, right| {
        instead(sheet, right, 19, |_, block, _| Some(refused(19, block, 1)))
    }),
    ("with 20 of block 0", |sheet, right| {
        instead(sheet, right, 20, |_, block, _| {
            (block == 0).then_some(refused(20, 0, 1))
        })
    }),
    ("with 20 for the count", |sheet, right| {
        instead(sheet, right, 20, |sheet, block, _| {
            let first = bad_in(sheet, block).first().copied();
            first.map(|at| refused(20, block, at.max(1)))
        })
    }),
    ("with 20 for a word that should be zero", |sheet, right| {
        instead(sheet, right, 20, |sheet, block, _| {
            let m = held(sheet, block);
            let counts = block > 0 && m > 0 && m as u32 == get(sheet, block, 0);
            counts.then_some(refused(20, block, m))
        })
    }),
];

fn all_found(faults: &[SaysFault]) {
    for (name, says) in faults {
        for call in CALLS {
            let fault = Fault::Says(*says);
            must_differ_on(&[FIELDS], &format!("{call}: {name}"), Wrong { call, fault });
        }
    }
}

#[test]
fn a_wrong_order_is_found() {
    all_found(ORDER);
}

#[test]
fn a_wrong_place_is_found() {
    all_found(NAMES);
}

#[test]
fn a_position_where_there_is_none_is_found() {
    all_found(ANY_POSITION);
}

/// The sheet without these upper bits: by the block, the position, and how many events the
/// block and how many blocks the sheet has.
fn without(sheet: &[u8], bits: impl Fn([usize; 4]) -> u32) -> Vec<u8> {
    let mut mended = sheet.to_vec();
    let count = blocks(sheet);
    for block in (1..count).filter(|block| checks(sheet, *block)) {
        let m = held(sheet, block);
        for position in 0..m {
            let at = 1 + 2 * position;
            let word = get(sheet, block, at) & !bits([block, position, m, count]);
            put(&mut mended, block, at, word);
        }
        renew(&mut mended, block);
    }
    mended
}

const UPPER: u32 = 0xFFFF_0000;

/// Each call that takes such sheets for good ones is found.
fn taken_are_found(name: &str, bits: impl Fn([usize; 4]) -> u32 + Copy + 'static) {
    for call in CALLS {
        let fault = Fault::Takes(Box::new(move |sheet| without(sheet, bits)));
        must_differ_on(&[FIELDS], &format!("{call}: {name}"), Wrong { call, fault });
    }
}

#[test]
fn a_bit_let_through_is_found() {
    for bit in 16..32 {
        taken_are_found(&format!("bit {bit}"), move |_| 1 << bit);
        taken_are_found(&format!("all but bit {bit}"), move |_| UPPER ^ 1 << bit);
    }
    taken_are_found("all of them", |_| UPPER);
}

#[test]
fn a_position_let_through_is_found() {
    for passed in 0..EVENTS_PER_BLOCK {
        taken_are_found(&format!("position {passed}"), move |[_, at, _, _]| {
            UPPER * u32::from(at == passed)
        });
    }
}

#[test]
fn a_place_let_through_is_found() {
    let chosen = |is: bool| UPPER * u32::from(is);
    taken_are_found("the last event of a block", move |[_, at, m, _]| {
        chosen(at + 1 == m)
    });
    taken_are_found("all but the first event", move |[_, at, _, _]| {
        chosen(at > 0)
    });
    taken_are_found("block 1", move |[block, ..]| chosen(block == 1));
    taken_are_found("the last block", move |[block, _, _, count]| {
        chosen(block + 1 == count)
    });
    taken_are_found("a full block", move |[_, _, m, _]| chosen(m == 60));
    taken_are_found("a block that is not full", move |[_, _, m, _]| {
        chosen(m < 60)
    });
    taken_are_found("a block between", move |[block, _, _, count]| {
        chosen(block > 1 && block + 1 < count)
    });
}

/// A desk with one call of its own.
#[derive(Clone, Copy)]
enum Own {
    Read(fn(&[u8], &mut [u32], &mut [Entry]) -> Found),
    Work(fn(&[u8], &mut [u8]) -> Worked),
    Why(fn(&[u8], u32) -> Since),
    Export(fn(&[u8], &mut [u8]) -> Exported),
}

impl Desk for Own {
    fn read(&mut self, sheet: &[u8], kinds: &mut [u32], events: &mut [Entry]) -> Found {
        match self {
            Own::Read(read) => read(sheet, kinds, events),
            _ => model::read(sheet, kinds, events),
        }
    }

    fn work(&mut self, sheet: &[u8], out: &mut [u8]) -> Worked {
        match self {
            Own::Work(work) => work(sheet, out),
            _ => model::work(sheet, out),
        }
    }

    fn why(&mut self, sheet: &[u8], position: u32) -> Since {
        match self {
            Own::Why(why) => why(sheet, position),
            _ => model::why(sheet, position),
        }
    }

    fn export(&mut self, sheet: &[u8], out: &mut [u8]) -> Exported {
        match self {
            Own::Export(export) => export(sheet, out),
            _ => model::export(sheet, out),
        }
    }
}

type OwnFault = (&'static str, Own);

/// The sheet as it would be good but for its room, if upper bits are all that is wrong.
fn mended(sheet: &[u8]) -> Vec<u8> {
    without(sheet, |_| UPPER)
}

/// What comes before 24, or is told or written beside it.
const BEFORE_24: &[OwnFault] = &[
    (
        "read: 21 before 24",
        Own::Read(|sheet, kinds, events| {
            let told = model::read(sheet, kinds, events);
            let short = model::read(&mended(sheet), &mut kinds.to_vec(), &mut events.to_vec());
            match (told.number, short.number) {
                (24, 21) => short,
                _ => told,
            }
        }),
    ),
    (
        "work: 21 before 24",
        Own::Work(|sheet, out| match model::work(sheet, out) {
            told if told.number == 24 && out.len() < sheet.len() => refused(21, 0, 0).into(),
            told => told,
        }),
    ),
    (
        "work: an answered event before 24",
        Own::Work(|sheet, out| answered_first(sheet, out, |_, _| true)),
    ),
    (
        "work: the same, in an earlier block",
        Own::Work(|sheet, out| answered_first(sheet, out, |answered, bad| answered < bad)),
    ),
    (
        "why: 29 before 24, position 0",
        Own::Why(|sheet, position| match model::why(sheet, position) {
            told if told.number == 24 && position == 0 => refused(29, 0, 0).into(),
            told => told,
        }),
    ),
    (
        "why: 29 before 24",
        Own::Why(|sheet, position| {
            let told = model::why(sheet, position);
            let nothing = model::why(&mended(sheet), position);
            match (told.number, nothing.number) {
                (24, 29) => nothing,
                _ => told,
            }
        }),
    ),
    (
        "export: 21 before 24",
        Own::Export(|sheet, out| match model::export(sheet, out) {
            told if told.number == 24 && out.is_empty() => refused(21, 0, 0).into(),
            told => told,
        }),
    ),
];

/// 20 for an answered event in the place of 24, by the blocks of both.
fn answered_first(sheet: &[u8], out: &mut [u8], such: fn(u32, u32) -> bool) -> Worked {
    let told = model::work(sheet, out);
    let answered = model::work(&mended(sheet), &mut out.to_vec());
    match (told.number, answered.number) {
        (24, 20) if such(answered.block, told.block) => answered,
        _ => told,
    }
}

const BESIDE_24: &[OwnFault] = &[
    (
        "read: posts and stamp",
        Own::Read(
            |sheet, kinds, events| match model::read(sheet, kinds, events) {
                told if told.number == 24 => Found {
                    posts: get(sheet, 0, 1),
                    stamp: get(sheet, 0, 2),
                    ..told
                },
                told => told,
            },
        ),
    ),
    (
        "read: rooms filled",
        Own::Read(|sheet, kinds, events| {
            let told = model::read(sheet, kinds, events);
            if told.number == 24 {
                model::read(&mended(sheet), kinds, events);
            }
            told
        }),
    ),
    (
        "work: the sheet written",
        Own::Work(|sheet, out| {
            let told = model::work(sheet, out);
            if told.number == 24 {
                let length = out.len().min(sheet.len());
                out[..length].copy_from_slice(&sheet[..length]);
            }
            told
        }),
    ),
    (
        "why: the position that is asked about",
        Own::Why(|sheet, position| match model::why(sheet, position) {
            told if told.number == 24 => Since { position, ..told },
            told => told,
        }),
    ),
    (
        "export: bytes",
        Own::Export(|sheet, out| match model::export(sheet, out) {
            told if told.number == 24 => Exported { bytes: 34, ..told },
            told => told,
        }),
    ),
    (
        "export: the header written",
        Own::Export(|sheet, out| {
            let told = model::export(sheet, out);
            if told.number == 24 && out.len() >= 34 {
                out[..34].copy_from_slice(b"position,event,post,stamp,answer\r\n");
            }
            told
        }),
    ),
];

/// Of a sheet that is not refused the position is 0, and of one with an answered event, which
/// working refuses 20 by its block.
const WITHOUT_24: &[OwnFault] = &[
    (
        "reading",
        Own::Read(
            |sheet, kinds, events| match model::read(sheet, kinds, events) {
                told if told.number == 0 => Found {
                    position: 1,
                    ..told
                },
                told => told,
            },
        ),
    ),
    (
        "working",
        Own::Work(|sheet, out| match model::work(sheet, out) {
            told if told.number == 0 => Worked {
                position: 1,
                ..told
            },
            told => told,
        }),
    ),
    (
        "exporting",
        Own::Export(|sheet, out| match model::export(sheet, out) {
            told if told.number == 0 => Exported {
                position: 1,
                ..told
            },
            told => told,
        }),
    ),
    (
        "working",
        Own::Work(|sheet, out| {
            let mut events = vec![[0; 4]; MOST_EVENTS];
            model::read(sheet, &mut [0; 32], &mut events);
            let answered = events.iter().position(|event| event[2] != 31);
            let mut told = model::work(sheet, out);
            if told.number == 20 && test(sheet).number == 0 {
                told.position = answered.map_or(0, |at| at % EVENTS_PER_BLOCK) as u32;
            }
            told
        }),
    ),
    (
        "working",
        Own::Work(|sheet, out| match model::work(sheet, out) {
            told if told.number == 20 && test(sheet).number == 0 => Worked { number: 24, ..told },
            told => told,
        }),
    ),
];

#[test]
fn a_wrong_call_is_found() {
    for (name, own) in BEFORE_24.iter().chain(BESIDE_24) {
        must_differ_on(&[FIELDS], name, *own);
    }
}

/// By the sort of cases that has such sheets.
#[test]
fn a_position_without_24_is_found() {
    for (sort, own) in WITHOUT_24 {
        must_differ_on(&[*sort], sort, *own);
    }
    let says = |_: &[u8], right: Verdict| match right.number {
        0 => refused(0, 0, 1),
        _ => right,
    };
    let (call, fault) = ("test", Fault::Says(says));
    must_differ_on(&["reading"], "test", Wrong { call, fault });
}

/// So that what finds the faults above is the fault, and not the way it is put in.
#[test]
fn what_changes_nothing_is_not_found() {
    for call in CALLS {
        let same = Fault::Says(|_, right| right);
        let sorts = [FIELDS, "reading"];
        assert!(compare_only(&sorts, Wrong { call, fault: same }).is_ok());
        let same = Fault::Takes(Box::new(|sheet| without(sheet, |_| 0)));
        assert!(compare_only(&[FIELDS], Wrong { call, fault: same }).is_ok());
    }
    assert!(compare_only(&[FIELDS], Own::Work(model::work)).is_ok());
}

/// What is refused, by how the names of the makers begin; and 20 for all others.
const NUMBERS: [(&str, u32); 15] = [
    ("the next event", 24),
    ("a later event", 24),
    ("every later event", 24),
    ("a word that should be zero", 24),
    ("an event word past the count", 24),
    ("check behind", 24),
    ("count behind", 24),
    ("filler behind", 24),
    ("upper bits", 24),
    ("answered", 24),
    ("its check", 19),
    ("check of block 0", 19),
    ("check before", 19),
    ("the length", 18),
    ("", 20),
];

#[test]
fn the_makers_say_what_their_sheets_are() {
    for (at, beside) in BESIDE.iter().enumerate() {
        let name = beside.0;
        let number = NUMBERS.iter().find(|(front, _)| name.starts_with(front));
        let number = number.map(|(_, number)| *number);
        for position in 0..EVENTS_PER_BLOCK {
            let mut random = Random::of_case(7, at as u64, position as u64);
            let said = test(&bad_beside(&mut random, position, beside));
            assert_eq!(Some(said.number), number, "{name}, {position}");
            let own = said.number == 24 && name != "upper bits before it";
            assert!(!own || said.position == position as u32, "{name}");
        }
    }
}
