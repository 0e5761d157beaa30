//! What the altered lines and the starts of two tracks have come upon in a run: what alone made
//! them wrong.

use model::circuit::VIBRATED;
use model::{kinds_right, valid, valid_tracks};

use crate::counts::Wanted;
use crate::tracks::request::Tables;
use crate::tracks::two::Two;

/// Two lines and a circuit that were asked about, or on which an event was answered.
pub struct Used {
    pub two: Two,
    pub valid: bool,
    /// The answer of an event, if one was named.
    pub answer: Option<u32>,
}

pub const USED: &[Wanted<Used>] = &[
    ("valid, polarised, asked", |u| u.asked() && u.good(0)),
    ("valid, vibrated, asked", |u| u.asked() && u.good(1)),
    ("valid, polarised, an event", |u| !u.asked() && u.good(0)),
    ("valid, vibrated, an event", |u| !u.asked() && u.good(1)),
    ("vibrated, a pair of signals", |u| u.good(1) && !u.may(0)),
    ("only a pair of signals wrong, asked", |u| {
        u.asked() && u.only_a_pair()
    }),
    ("only a pair of signals wrong, an event", |u| {
        !u.asked() && u.only_a_pair()
    }),
    ("only the circuit wrong, asked", |u| {
        u.asked() && u.only_the_circuit()
    }),
    ("only the circuit wrong, an event", |u| {
        !u.asked() && u.only_the_circuit()
    }),
    ("only the lengths wrong, asked", |u| {
        u.asked() && u.only_lengths()
    }),
    ("only the lengths wrong, an event", |u| {
        !u.asked() && u.only_lengths()
    }),
    ("track 1's line wrong alone, asked", |u| {
        u.asked() && u.wrong() == [true, false]
    }),
    ("track 1's line wrong alone, an event", |u| {
        !u.asked() && u.wrong() == [true, false]
    }),
    ("track 2's line wrong alone, asked", |u| {
        u.asked() && u.wrong() == [false, true]
    }),
    ("track 2's line wrong alone, an event", |u| {
        !u.asked() && u.wrong() == [false, true]
    }),
    ("both lines wrong", |u| u.wrong() == [true, true]),
    ("both lines of no record, asked", |u| {
        u.asked() && u.both_of(|n| n == 0)
    }),
    ("both lines of no record, an event", |u| {
        !u.asked() && u.both_of(|n| n == 0)
    }),
    ("both lines of one record", |u| u.both_of(|n| n == 1)),
    ("both lines of 33 records, asked", |u| {
        u.asked() && u.both_of(|n| n == 33)
    }),
    ("both lines of 33 records, an event", |u| {
        !u.asked() && u.both_of(|n| n == 33)
    }),
    ("both lines of more than 33 records", |u| {
        u.both_of(|n| n > 33)
    }),
    ("5: 1,000,000 taken", |u| u.answer == Some(5)),
];

impl Used {
    fn asked(&self) -> bool {
        self.answer.is_none()
    }

    fn good(&self, circuit: u32) -> bool {
        self.valid && self.two.circuit == circuit
    }

    /// It may be used on this circuit.
    fn may(&self, circuit: u32) -> bool {
        let Two { rows, head, .. } = &self.two;
        valid_tracks([&rows[0], &rows[1]], circuit, *head)
    }

    fn wrong(&self) -> [bool; 2] {
        let Two { rows, head, .. } = &self.two;
        [&rows[0], &rows[1]].map(|row| !valid(row, *head))
    }

    fn only_a_pair(&self) -> bool {
        !self.valid && self.two.circuit == 0 && self.may(VIBRATED)
    }

    fn only_the_circuit(&self) -> bool {
        !self.valid && self.two.circuit > 1 && self.may(0)
    }

    /// Both lines are of the same length, of which this holds.
    fn both_of(&self, holds: fn(usize) -> bool) -> bool {
        let [first, second] = [&self.two.rows[0], &self.two.rows[1]].map(|row| row.len());
        first == second && holds(first)
    }

    fn only_lengths(&self) -> bool {
        let Two { rows, circuit, .. } = &self.two;
        let lengths = [rows[0].len(), rows[1].len()];
        lengths[0] != lengths[1] && *circuit <= 1 && self.wrong() == [false, false]
    }
}

/// A start of two tracks and its answer.
pub struct Started {
    pub lengths: [usize; 2],
    pub tables: Tables,
    pub circuit: u32,
    pub answer: u32,
}

pub const STARTED: &[Wanted<Started>] = &[
    ("taken, polarised", |s| s.answer == 0 && s.circuit == 0),
    ("taken, vibrated", |s| s.answer == 0 && s.circuit == 1),
    ("taken, 2 posts", |s| s.answer == 0 && s.lengths[0] == 2),
    ("taken, 32 posts", |s| s.answer == 0 && s.lengths[0] == 32),
    ("only the circuit wrong", |s| {
        s.circuit > 1 && s.lent() && s.tables_right() == [true, true] && s.one_length()
    }),
    ("only the tables' lengths wrong", |s| {
        s.circuit <= 1 && s.lent() && s.tables_right() == [true, true] && !s.one_length()
    }),
    ("lengths of two, track 1 the longer", |s| {
        s.tables[0].len() > s.tables[1].len()
    }),
    ("lengths of two, track 2 the longer", |s| {
        s.tables[0].len() < s.tables[1].len()
    }),
    ("only track 1's row wrong", |s| s.only_row(0)),
    ("only track 2's row wrong", |s| s.only_row(1)),
    ("only track 1's table wrong", |s| {
        s.lent() && s.circuit <= 1 && s.tables_right() == [false, true] && s.one_length()
    }),
    ("only track 2's table wrong", |s| {
        s.lent() && s.circuit <= 1 && s.tables_right() == [true, false] && s.one_length()
    }),
];

impl Started {
    fn rows_right(&self) -> [bool; 2] {
        [0, 1].map(|track| self.lengths[track] == self.tables[track].len())
    }

    fn lent(&self) -> bool {
        self.rows_right() == [true, true]
    }

    fn tables_right(&self) -> [bool; 2] {
        [&self.tables[0], &self.tables[1]].map(|kinds| kinds_right(kinds))
    }

    fn one_length(&self) -> bool {
        self.tables[0].len() == self.tables[1].len()
    }

    fn only_row(&self, track: usize) -> bool {
        let mut right = [true; 2];
        right[track] = false;
        self.rows_right() == right
            && self.circuit <= 1
            && self.tables_right() == [true, true]
            && self.one_length()
    }
}
