//! Desks of two tracks that are the model with one fault put in (02, item 7): each must be found
//! by a small run, and the model as it stands must pass it.

mod common;

use common::first;
use common::tracks::{must_differ, small_run};
use compare::desk::{Desk, InProcess, Model};
use compare::tracks::asked::OF_ALL;
use compare::tracks::cases::{compare_tracks, sorts, Wanted, WHOLE};
use compare::tracks::met::MET;
use compare::tracks::of_one::{self, GIVEN};
use compare::tracks::request::{Rows, Tables};
use compare::tracks::tally::CALLS;
use compare::tracks::two::Two;
use compare::tracks::used::{STARTED, USED};
use model::circuit::{POLARISED, VIBRATED};
use model::number::BUSY;
use model::relay::{RL, W241, W314};
use model::{Post, Told, TrackStep};

#[test]
fn the_model_passes_and_all_is_seen() {
    let tally = small_run(Model).unwrap_or_else(|d| panic!("{}: {}", d.name, d.text));
    println!("{}", tally.text(&sorts()));
    assert_eq!(tally.missing(&sorts()), Vec::<String>::new());
}

/// A whole run in this process: cargo test --release -- --ignored.
#[test]
#[ignore = "long; it measures what the comparison alone costs"]
fn the_model_passes_a_whole_run() {
    let began = std::time::Instant::now();
    let run = compare_tracks(&sorts(), 317_944, WHOLE, &mut InProcess(Model));
    let tally = run.unwrap_or_else(|d| panic!("{}: {}", d.name, d.text));
    println!("{}{:?}", tally.text(&sorts()), began.elapsed());
    assert_eq!(tally.missing(&sorts()), Vec::<String>::new());
}

#[test]
fn what_does_not_come_up_is_missed() {
    let none = Wanted {
        events: 0,
        rows: 0,
        sheets: 0,
        questions: 0,
    };
    let run = compare_tracks(&sorts(), 1, none, &mut InProcess(Model));
    let missing = run.map_or(Vec::new(), |tally| tally.missing(&sorts()));
    let lines = |front: &str| missing.iter().filter(|l| l.starts_with(front)).count();
    assert_eq!(lines("events of two tracks, answer"), 21);
    assert_eq!(lines("events of two tracks, "), 21 + MET.len());
    assert_eq!(lines("altered pairs of lines, "), USED.len());
    assert_eq!(lines("starts of two tracks, "), STARTED.len());
    assert_eq!(lines("event "), 24);
    assert_eq!(lines("no event of two tracks at"), 31);
    let as_one: usize = of_one::CALLS.iter().map(|(_, name)| lines(name)).sum();
    assert_eq!(as_one, 4 * GIVEN.len());
    assert_eq!(lines("no call on a sheet"), 8);
    let sheets: usize = CALLS.iter().map(|(_, own)| own.len()).sum();
    assert_eq!(lines("sheets "), 3 * OF_ALL.len() + sheets);
}

/// Two lines and the event.
struct Played<'a> {
    two: &'a mut Two,
    step: TrackStep,
}

impl Played<'_> {
    fn right(&mut self) -> Told {
        self.two.told(self.step)
    }

    /// The event with this track and this place instead.
    fn at(&mut self, track: u32, place: u32) -> Told {
        let [_, number, _, stamp] = self.step;
        self.two.told([track, number, place, stamp])
    }

    fn refused(&self, answer: u32) -> Told {
        let head = self.two.head;
        Told { answer, head }
    }

    fn is_valid(&self) -> bool {
        self.two.is_valid()
    }

    /// The line of the event and the other; none for a track that is neither.
    fn lines(&mut self) -> Option<(&mut [Post], &[Post])> {
        let [first, second] = &mut self.two.rows;
        match self.step[0] {
            0 => Some((first, second)),
            1 => Some((second, first)),
            _ => None,
        }
    }

    /// The event on its line alone, as if there were no other, where the pair is valid; but 25
    /// where this says that the circuit is busy: by the other line, the event's number and the
    /// section in which it sends.
    fn refused_where(&mut self, busy: fn(&[Post], u32, usize) -> bool) -> Told {
        match self.two.circuit {
            POLARISED => self.refused_on_any(busy),
            _ => self.right(),
        }
    }

    /// The same whatever the circuit is.
    fn refused_on_any(&mut self, busy: fn(&[Post], u32, usize) -> bool) -> Told {
        let ([_, number, place, stamp], head) = (self.step, self.two.head);
        if !self.is_valid() {
            return self.refused(1);
        }
        let Some((row, other)) = self.lines() else {
            return self.right();
        };
        let mut after = row.to_vec();
        let told = model::event(&mut after, head, number, place, stamp);
        let sends = (5..=7).contains(&number) && told.answer == 0;
        let section = || place as usize - usize::from(number != 5);
        if sends && busy(other, number, section()) {
            return self.refused(BUSY);
        }
        row.copy_from_slice(&after);
        told
    }
}

fn under_way(other: &[Post], section: usize) -> bool {
    other
        .get(section)
        .is_some_and(|post| post.is_up(W314 | W241))
}

fn facing(other: &[Post], section: usize) -> usize {
    other.len() - 2 - section
}

/// A desk whose events are the model's, with a word put in.
struct Events(fn(Played) -> Told);

impl Desk for Events {
    fn event_tracks(&mut self, two: &mut Two, step: TrackStep) -> Told {
        (self.0)(Played { two, step })
    }
}

/// A fault: its name and the events with it.
type Fault = (&'static str, fn(Played) -> Told);

#[test]
fn the_same_events_told_by_one_line_pass() {
    let desk = Events(|mut played| {
        played.refused_where(|other, _, section| under_way(other, facing(other, section)))
    });
    assert!(small_run(desk).is_ok());
}

const CIRCUITS: &[Fault] = &[
    ("facing one too low", |mut played| {
        played.refused_where(|other, _, s| {
            facing(other, s)
                .checked_sub(1)
                .is_some_and(|s| under_way(other, s))
        })
    }),
    ("facing one too high", |mut played| {
        played.refused_where(|other, _, s| under_way(other, facing(other, s) + 1))
    }),
    ("the same number on both tracks", |mut played| {
        played.refused_where(under_way_there)
    }),
    ("a release asked in the section downstream", |mut played| {
        played.refused_where(|other, number, s| {
            let section = s + usize::from(number != 5);
            section + 2 <= other.len() && under_way(other, facing(other, section))
        })
    }),
    ("any signal of the other track", |mut played| {
        played.refused_where(|other, _, _| (0..other.len()).any(|s| under_way(other, s)))
    }),
    ("an announcement alone is in the way", |mut played| {
        played.refused_where(|other, _, s| other[facing(other, s)].is_up(W314))
    }),
    ("a release alone is in the way", |mut played| {
        played.refused_where(|other, _, s| other[facing(other, s)].is_up(W241))
    }),
    ("an occupied section is in the way", |mut played| {
        played.refused_where(|other, _, s| !other[facing(other, s)].is_up(RL))
    }),
    ("a garage release never met", |mut played| {
        played.refused_where(|other, number, s| number != 7 && under_way(other, facing(other, s)))
    }),
    ("a release never met", |mut played| {
        played.refused_where(|other, number, s| number != 6 && under_way(other, facing(other, s)))
    }),
    ("an announcement never met", |mut played| {
        played.refused_where(|other, number, s| number != 5 && under_way(other, facing(other, s)))
    }),
    ("the middle of an even number never met", |mut played| {
        played.refused_where(|other, _, s| {
            facing(other, s) != s && under_way(other, facing(other, s))
        })
    }),
    ("32 posts never met", |mut played| {
        played.refused_where(|other, _, s| other.len() < 32 && under_way(other, facing(other, s)))
    }),
    ("polarised never refuses", |mut played| {
        played.refused_where(|_, _, _| false)
    }),
    ("vibrated refuses", |mut played| {
        played.refused_on_any(|other, _, s| under_way(other, facing(other, s)))
    }),
];

fn under_way_there(other: &[Post], _: u32, section: usize) -> bool {
    under_way(other, section)
}

#[test]
fn wrong_circuits() {
    for (name, fault) in CIRCUITS {
        must_differ(name, Events(*fault));
    }
}

/// 25 where the circuit is busy and the event would be refused with one of these, or taken.
fn busy_before(mut played: Played, answers: &[u32]) -> Told {
    let [_, number, place, _] = played.step;
    let polarised = played.two.circuit == POLARISED;
    let sends = polarised && (5..=7).contains(&number);
    let section = (place as usize).checked_sub(usize::from(number != 5));
    let valid = played.is_valid();
    let busy = match (played.lines(), section) {
        (Some((_, other)), Some(s)) => s + 1 < other.len() && under_way(other, facing(other, s)),
        _ => false,
    };
    let told = played.right();
    match valid && sends && busy && answers.contains(&told.answer) {
        true => played.refused(BUSY),
        false => told,
    }
}

const ORDERS: &[Fault] = &[
    ("25 before the own list", |played| {
        busy_before(played, &[9, 10, 11, 12, 13])
    }),
    ("25 before 9", |played| busy_before(played, &[9])),
    ("25 before 10", |played| busy_before(played, &[10])),
    ("25 before 11", |played| busy_before(played, &[11])),
    ("25 before 12", |played| busy_before(played, &[12])),
    ("25 before 13", |played| busy_before(played, &[13])),
    ("25 before 22", |played| busy_before(played, &[22])),
    ("25 before 6", |played| busy_before(played, &[6])),
    ("25 before 4", |played| busy_before(played, &[4])),
    ("2 before 3 for a track that is neither", |mut played| {
        let told = played.right();
        match told.answer == 3 && played.step[0] > 1 {
            true => played.refused(2),
            false => told,
        }
    }),
    ("4 before 2 for a track that is neither", |mut played| {
        let told = played.right();
        let behind = (played.step[3].wrapping_sub(played.two.head.last) as i32) < 0;
        match told.answer == 2 && played.step[0] > 1 && behind {
            true => played.refused(4),
            false => told,
        }
    }),
];

#[test]
fn wrong_orders() {
    for (name, fault) in ORDERS {
        must_differ(name, Events(*fault));
    }
}

/// What the event leaves, changed where it is answered so.
fn left(mut played: Played, answers: fn(u32) -> bool, change: fn(&mut [Post], &mut Told)) -> Told {
    let mut told = played.right();
    let other = 1usize.wrapping_sub(played.step[0] as usize);
    if let (true, Some(row)) = (answers(told.answer), played.two.rows.get_mut(other)) {
        change(row, &mut told);
    }
    told
}

const LEFT: &[Fault] = &[
    ("the other row altered when taken", |played| {
        left(played, |answer| answer == 0, |row, _| row[0].a += 1)
    }),
    ("the other's signal dropped on 25", |played| {
        left(
            played,
            |answer| answer == BUSY,
            |row, _| row.iter_mut().for_each(|post| post.drop(W314 | W241)),
        )
    }),
    ("the head moved on 25", |played| {
        left(
            played,
            |answer| answer == BUSY,
            |_, told| told.head.taken += 1,
        )
    }),
    ("the head moved on a refusal", |played| {
        left(played, |answer| answer > 1, |_, told| told.head.taken += 1)
    }),
    ("the last stamp moved on 25", |mut played| {
        let mut told = played.right();
        if told.answer == BUSY {
            told.head.last = played.step[3];
        }
        told
    }),
    ("the tracks exchanged", |mut played| {
        let [track, _, place, _] = played.step;
        let track = if track < 2 { 1 - track } else { track };
        played.at(track, place)
    }),
    ("the lowest bit of a track", |mut played| {
        let [track, _, place, _] = played.step;
        played.at(track & 1, place)
    }),
    ("any track but 0 is track 2", |mut played| {
        let [track, _, place, _] = played.step;
        played.at(track.min(1), place)
    }),
    ("a place of track 2 by track 1's numbers", |mut played| {
        let [track, number, place, _] = played.step;
        let posts = played.two.rows[1].len() as u32;
        let ends = if (8..=10).contains(&number) { 2 } else { 1 };
        let turned = match track == 1 && place + ends <= posts {
            true => posts - ends - place,
            false => place,
        };
        played.at(track, turned)
    }),
];

#[test]
fn wrong_records_and_heads() {
    for (name, fault) in LEFT {
        must_differ(name, Events(*fault));
    }
}

/// A desk whose starts and whose rule of what may be used are the model's, with a word put in.
struct Lines {
    start: fn([usize; 2], &Tables, u32) -> bool,
    valid: fn(&Two) -> bool,
}

impl Desk for Lines {
    fn start_tracks(&mut self, rows: &mut Rows, tables: &Tables, at: [u32; 2]) -> Told {
        let [first, second] = &mut *rows;
        if (self.start)([first.len(), second.len()], tables, at[0]) {
            model::start(first, &tables[0], at[1]);
            return model::start(second, &tables[1], at[1]);
        }
        Model.start_tracks(rows, tables, at)
    }

    fn valid_tracks(&mut self, two: &Two) -> bool {
        (self.valid)(two)
    }

    /// An event where the model finds the lines not valid: taken with no effect where this desk
    /// finds that they are.
    fn event_tracks(&mut self, two: &mut Two, step: TrackStep) -> Told {
        let (valid, head) = ((self.valid)(two), two.head);
        let told = two.told(step);
        let answer = first(&[
            (told.answer == 1 && valid, 0),
            (told.answer != 1 && !valid, 1),
        ]);
        answer.map_or(told, |answer| Told { answer, head })
    }
}

/// Each line by itself.
fn each(two: &Two) -> bool {
    two.rows.iter().all(|row| model::valid(row, two.head))
}

/// It may be used on this circuit.
fn on(two: &Two, circuit: u32) -> bool {
    let two = Two {
        circuit,
        ..two.clone()
    };
    two.is_valid()
}

fn one_length(two: &Two) -> bool {
    two.rows[0].len() == two.rows[1].len()
}

/// Faults of starting: which of those that are wrong are taken.
type Starts = (&'static str, fn([usize; 2], &Tables, u32) -> bool);

/// The rows are as long as the tables, and the circuit is one.
fn lent(lengths: [usize; 2], tables: &Tables, circuit: u32) -> bool {
    circuit < 2 && lengths == [tables[0].len(), tables[1].len()]
}

fn right(tables: &Tables) -> bool {
    tables[0].len() == tables[1].len() && kinds_right(tables) == [true, true]
}

fn kinds_right(tables: &Tables) -> [bool; 2] {
    [0, 1].map(|track| model::kinds_right(&tables[track]))
}

const STARTS: &[Starts] = &[
    ("circuit 2 taken", |lengths, tables, circuit| {
        circuit == 2 && lent(lengths, tables, 0) && right(tables)
    }),
    ("a circuit by its lowest bit", |lengths, tables, circuit| {
        circuit > 1 && circuit & 1 == 1 && lent(lengths, tables, 1) && right(tables)
    }),
    ("tables of two lengths taken", |lengths, tables, circuit| {
        lent(lengths, tables, circuit) && kinds_right(tables) == [true, true]
    }),
    (
        "track 1 started although track 2's row is not right",
        |lengths, tables, circuit| circuit < 2 && right(tables) && lengths[0] == tables[0].len(),
    ),
    (
        "track 2 started although track 1's row is not right",
        |lengths, tables, circuit| circuit < 2 && right(tables) && lengths[1] == tables[1].len(),
    ),
    (
        "track 1 started although track 2's table is wrong",
        |lengths, tables, circuit| {
            lent(lengths, tables, circuit) && kinds_right(tables)[0] && lengths[0] == lengths[1]
        },
    ),
    ("track 2's table alone", |lengths, tables, circuit| {
        lent(lengths, tables, circuit) && kinds_right(tables)[1] && lengths[0] == lengths[1]
    }),
];

#[test]
fn wrong_starts() {
    for &(name, start) in STARTS {
        let valid = Two::is_valid;
        must_differ(name, Lines { start, valid });
    }
}

/// Faults of what may be used.
type Valids = (&'static str, fn(&Two) -> bool);

/// Valid on the vibrated circuit, and on the polarised one without a pair of signals by this
/// rule: by both rows and the section of track 1.
fn without_pairs(two: &Two, is_pair: fn(&Rows, usize) -> bool) -> bool {
    let pairs = || (0..two.rows[0].len() - 1).any(|section| is_pair(&two.rows, section));
    two.circuit < 2 && on(two, VIBRATED) && (two.circuit == VIBRATED || !pairs())
}

const VALIDS: &[Valids] = &[
    ("circuit 2 may be used", |two| {
        on(two, if two.circuit == 2 { 1 } else { two.circuit })
    }),
    ("any circuit but 0 is vibrated", |two| {
        on(two, two.circuit.min(1))
    }),
    ("two lengths may be used", |two| match one_length(two) {
        true => two.is_valid(),
        false => two.circuit < 2 && each(two),
    }),
    ("track 1's line alone", |two| {
        two.circuit < 2 && model::valid(&two.rows[0], two.head)
    }),
    ("track 2's line alone", |two| {
        two.circuit < 2 && model::valid(&two.rows[1], two.head)
    }),
    ("a pair of signals may be", |two| {
        two.circuit < 2 && one_length(two) && each(two)
    }),
    ("no pair of signals on either circuit", |two| {
        two.circuit < 2 && on(two, POLARISED)
    }),
    ("no pair of signals of one number", |two| {
        without_pairs(two, |rows, s| {
            under_way(&rows[0], s) && under_way(&rows[1], s)
        })
    }),
    ("a pair of announcements alone", |two| {
        without_pairs(two, |rows, s| {
            rows[0][s].is_up(W314) && rows[1][facing(&rows[1], s)].is_up(W314)
        })
    }),
    ("33 posts", |two| {
        two.is_valid() || two.rows.iter().all(|row| row.len() == 33)
    }),
    ("no posts", |two| {
        two.is_valid() || two.rows.iter().all(Vec::is_empty)
    }),
    ("1,000,001 taken", |two| {
        let mut two = two.clone();
        two.head.taken -= u32::from(two.head.taken == 1_000_001);
        two.is_valid()
    }),
];

#[test]
fn wrong_lines() {
    for &(name, valid) in VALIDS {
        let start = |_: [usize; 2], _: &Tables, _| false;
        must_differ(name, Lines { start, valid });
    }
}

/// The same starts and lines, told by the model, pass.
#[test]
fn right_lines_pass() {
    let desk = Lines {
        start: |_, _, _| false,
        valid: Two::is_valid,
    };
    assert!(small_run(desk).is_ok());
}
