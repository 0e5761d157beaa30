//! The sorts of cases, and the plan of a whole run.

use crate::desk::{reply, Model};
use crate::random::Random;
use crate::request::{Reply, Request};
use crate::tracks::request::TrackRequest;
use crate::variety::Variety;
use crate::{
    checks, full, histories, long_texts, misprints, questions, rooms, rows, spoiled, starts, texts,
    upper_bits, writes,
};

/// A sort of cases. Its varieties take turns, so that each has its share.
pub struct Sort {
    pub name: &'static str,
    pub varieties: Vec<String>,
    make: Maker,
}

enum Maker {
    Each(&'static [Variety]),
    Numbered(fn(&mut Random, usize) -> Request),
}

impl Sort {
    /// Its varieties have each a name and a maker.
    pub fn each(name: &'static str, varieties: &'static [Variety]) -> Sort {
        Sort {
            name,
            varieties: varieties.iter().map(|v| v.0.to_string()).collect(),
            make: Maker::Each(varieties),
        }
    }

    /// Its varieties have names, and one maker that is given their numbers.
    pub fn numbered(
        name: &'static str,
        varieties: Vec<String>,
        make: fn(&mut Random, usize) -> Request,
    ) -> Sort {
        Sort {
            name,
            varieties,
            make: Maker::Numbered(make),
        }
    }
}

/// One call, or one history of calls, and what the model replies.
pub struct Case {
    pub sort: usize,
    pub index: u64,
    pub variety: usize,
    pub request: Request,
    pub expected: Reply,
}

impl Case {
    /// How much it counts towards its sort's share: a history by its events.
    pub fn weight(&self) -> u64 {
        match &self.request {
            Request::Run { steps, .. } => steps.len() as u64,
            Request::Tracks(TrackRequest::Run { steps, .. }) => steps.len() as u64,
            _ => 1,
        }
    }
}

/// How many of each are wanted.
#[derive(Clone, Copy, Debug)]
pub struct Wanted {
    pub events: u64,
    pub rows: u64,
    pub sheets: u64,
    pub questions: u64,
    pub texts: u64,
    pub blocks: u64,
}

/// What the gate runs.
pub const WHOLE: Wanted = Wanted {
    events: 2_000_000,
    rows: 500_000,
    sheets: 200_000,
    questions: 20_000,
    texts: 200_000,
    blocks: 50_000,
};

pub const ALTERED_ROWS: &str = "altered-rows";
pub const FIELDS: &str = "fields";

/// All sorts, in the order in which they take turns.
pub fn sorts() -> Vec<Sort> {
    let (each, numbered) = (Sort::each, Sort::numbered);
    vec![
        each("lively-histories", histories::LIVELY),
        each("wild-histories", histories::WILD),
        each("turn-histories", histories::TURN),
        each(ALTERED_ROWS, rows::ALTERED),
        each("heads", rows::HEADS),
        each("starts", starts::STARTS),
        numbered("reading", rooms::reading_names(), rooms::reading),
        numbered("working", rooms::output_names(), rooms::working),
        each("writing", writes::WRITES),
        each("full-sheets", full::FULL),
        each("questions", questions::QUESTIONS),
        each("right-texts", texts::RIGHT),
        numbered("misprints", misprints::names(), misprints::misprint),
        each("spoiled-texts", spoiled::SPOILED),
        numbered("cut-texts", texts::cut_names(), texts::cut),
        each("long-texts", long_texts::LONG),
        numbered("exporting", rooms::output_names(), rooms::exporting),
        each("blocks", checks::BLOCKS),
        numbered(FIELDS, upper_bits::names(), upper_bits::bad_field),
    ]
}

/// Each sort's share, in the order of `sorts`.
pub fn shares(wanted: Wanted) -> [u64; 19] {
    let Wanted {
        events,
        rows,
        sheets,
        questions,
        texts,
        blocks,
    } = wanted;
    [
        events * 6 / 10,
        events * 2 / 10,
        events.div_ceil(5),
        rows,
        rows / 10,
        rows / 10,
        sheets / 2,
        sheets.div_ceil(2),
        sheets / 4,
        sheets / 200,
        questions,
        texts / 4,
        texts * 4 / 10,
        texts / 4,
        texts.div_ceil(10),
        texts / 1000,
        texts / 4,
        blocks,
        sheets / 2,
    ]
}

/// The case of this sort and index, from the seed alone.
pub fn case(sorts: &[Sort], seed: u64, sort: usize, index: u64) -> Case {
    let chosen = &sorts[sort];
    let variety = (index % chosen.varieties.len() as u64) as usize;
    let mut random = Random::of_case(seed, sort as u64, index);
    let request = match chosen.make {
        Maker::Each(varieties) => varieties[variety].1(&mut random),
        Maker::Numbered(make) => make(&mut random, variety),
    };
    let expected = reply(&mut Model, &request);
    Case {
        sort,
        index,
        variety,
        request,
        expected,
    }
}

/// How often all sorts take turns, so that a fault in any is found early.
const TURNS: u64 = 50;

/// Gives every case of a run to `sink`, until it says that it wants no more.
pub fn each_case(sorts: &[Sort], seed: u64, shares: &[u64], sink: &mut dyn FnMut(Case) -> bool) {
    let mut next_index = vec![0; sorts.len()];
    let mut done = vec![0; sorts.len()];
    for turn in 1..=TURNS {
        for sort in 0..sorts.len() {
            while done[sort] < shares[sort] * turn / TURNS {
                let case = case(sorts, seed, sort, next_index[sort]);
                next_index[sort] += 1;
                done[sort] += case.weight();
                if !sink(case) {
                    return;
                }
            }
        }
    }
}
