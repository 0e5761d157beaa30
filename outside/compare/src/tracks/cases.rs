//! The sorts of cases of two tracks, and the plan of a whole run of them.

use crate::cases::Sort;
use crate::desk::Library;
use crate::run::{compare_shares, Difference};
use crate::tracks::tally::TrackTally;
use crate::tracks::{calls, full, histories, of_one, questions, rows, starts, writes};

/// How many of each are wanted.
#[derive(Clone, Copy, Debug)]
pub struct Wanted {
    pub events: u64,
    pub rows: u64,
    pub sheets: u64,
    pub questions: u64,
}

/// What the gate runs.
pub const WHOLE: Wanted = Wanted {
    events: 1_000_000,
    rows: 200_000,
    sheets: 60_000,
    questions: 12_000,
};

/// All sorts, in the order in which they take turns.
pub fn sorts() -> Vec<Sort> {
    vec![
        Sort::each("track-lively", histories::LIVELY),
        Sort::each("track-wild", histories::WILD),
        Sort::each("track-turn", histories::TURN),
        Sort::numbered("track-altered", rows::altered_names(), rows::altered),
        Sort::each("track-pairs", rows::PAIRS),
        Sort::each("track-starts", starts::STARTS),
        Sort::numbered("track-reading", calls::reading_names(), calls::reading),
        Sort::numbered("track-working", calls::working_names(), calls::working),
        Sort::each("track-writing", writes::WRITES),
        Sort::numbered("track-fields", calls::field_names(), calls::bad_field),
        Sort::numbered("track-questions", questions::names(), questions::question),
        Sort::numbered("track-of-one", of_one::names(), of_one::given),
        Sort::each("track-full", full::FULL),
    ]
}

/// Each sort's share, in the order of `sorts`.
pub fn shares(wanted: Wanted) -> Vec<u64> {
    let Wanted {
        events,
        rows,
        sheets,
        questions,
    } = wanted;
    vec![
        events * 7 / 10,
        events * 2 / 10,
        events.div_ceil(10),
        rows / 2,
        rows.div_ceil(2),
        rows / 10,
        sheets / 2,
        sheets.div_ceil(2),
        sheets / 4,
        sheets / 2,
        questions,
        sheets / 4,
        sheets.div_ceil(1000),
    ]
}

/// Compares the library with the model on a whole run of two tracks.
pub fn compare_tracks(
    sorts: &[Sort],
    seed: u64,
    wanted: Wanted,
    library: &mut dyn Library,
) -> Result<TrackTally, Difference> {
    let tally = TrackTally::new(sorts);
    compare_shares(
        sorts,
        seed,
        &shares(wanted),
        library,
        tally,
        TrackTally::add,
    )
}
