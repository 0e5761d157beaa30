//! Sheets of two tracks given to the calls of one: block 0 departs from the layout that those
//! have, so they name it, whatever stands behind it.

use model::{test_tracks, TWO_TRACKS};

use crate::counts::Wanted;
use crate::questions::ask;
use crate::random::Random;
use crate::request::Request;
use crate::rooms::{export_of, read_of, work_of};
use crate::sheets::get;
use crate::tracks::damage;

/// The calls, and what a tally says of each.
pub const CALLS: [(&str, &str); 4] = [
    ("read", "read as one track"),
    ("work", "worked as one track"),
    ("why", "asked about as one track"),
    ("export", "exported"),
];

/// Each call, and each kind of sheet of either form.
pub fn names() -> Vec<String> {
    let each = |kind: String| CALLS.map(|(call, _)| format!("{call}, {kind}"));
    damage::names().into_iter().flat_map(each).collect()
}

pub fn given(random: &mut Random, variety: usize) -> Request {
    let sheet = damage::of_kind(random, variety / CALLS.len());
    match variety % CALLS.len() {
        0 => read_of(random, sheet),
        1 => work_of(random, sheet),
        2 => ask(sheet, random.small(0, 70)),
        _ => export_of(random, sheet),
    }
}

/// A sheet that a call of one track was given, and what it returned.
pub struct Given {
    pub sheet: Vec<u8>,
    pub number: u32,
    pub block: u32,
}

/// The call of a request by its place in the list, and what it was given.
pub fn of(request: &Request, reply: &[u32]) -> Option<(usize, Given)> {
    let (call, sheet) = request.sheet_read()?;
    let given = Given {
        sheet: sheet.clone(),
        number: reply[0],
        block: reply[1],
    };
    Some((call, given))
}

pub const GIVEN: &[Wanted<Given>] = &[
    ("two tracks, good", |g| g.not_for_one(0)),
    ("two tracks, 19 for a later block", |g| g.not_for_one(19)),
    ("two tracks, 20 for a later block", |g| g.not_for_one(20)),
    ("two tracks, 24", |g| g.not_for_one(24)),
    ("two tracks, 19 for block 0", |g| {
        g.is_two() && (g.number, g.block) == (19, 0)
    }),
    ("two tracks, 18", |g| g.is_two() && g.number == 18),
];

impl Given {
    fn is_two(&self) -> bool {
        self.sheet.len() >= 4 && get(&self.sheet, 0, 0) == TWO_TRACKS
    }

    /// Refused 20 for block 0, where the calls of both forms return this: 0, or a refusal of a
    /// later block.
    fn not_for_one(&self, number: u32) -> bool {
        let both = test_tracks(&self.sheet);
        let later = number == 0 || both.block > 0;
        let refused = (self.number, self.block) == (20, 0);
        self.is_two() && refused && later && both.number == number
    }
}
