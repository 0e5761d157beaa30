//! The working program, run once for each input, beside what the model writes.

use std::io;

use model::program::{asked, wrote_tracks};
use model::{BLOCK_BYTES, EVENTS_PER_BLOCK, MOST_EVENTS};

use crate::damage::KINDS;
use crate::failing::check_failing_inputs;
use crate::fixed::fixed_cases;
use crate::fixed_fields::{field_cases, WORDS};
use crate::fixed_texts::{check_byte_by_byte, check_long_texts, register_cases};
use crate::misprints;
use crate::questions::QUESTIONS;
use crate::ran::{compared, run_on, with_words, Given, Ran};
use crate::random::Random;
use crate::request::Request;
use crate::sheets::{get, lively_sheet};
use crate::spoiled::SPOILED;
use crate::texts::{Text, RIGHT};
use crate::tracks::programs;
use crate::upper_bits::bad_at;
use crate::words::{check_pipes, check_wrong_words, why_cases, work_cases};

/// Inputs no longer than this are sometimes given byte by byte.
const SMALL: usize = 4 * BLOCK_BYTES;

/// A run of the program: what sort of input it has, its words and the input.
pub struct Asked {
    pub name: String,
    pub words: Vec<String>,
    pub input: Vec<u8>,
}

/// A sort of random runs: its name, its number, how many there are for so many sheets,
/// and the run of an index.
struct Sort {
    name: &'static str,
    number: u64,
    share: fn(u64) -> u64,
    make: fn(&mut Random, u64) -> Asked,
}

const SORTS: [Sort; 6] = [
    Sort {
        name: "desk",
        number: 100,
        share: |sheets| sheets,
        make: |random, index| of_any_kind(random, index, &[]),
    },
    Sort {
        name: "desk-work",
        number: 102,
        share: |sheets| sheets.div_ceil(2),
        make: |random, index| of_any_length(random, index, &["work"]),
    },
    Sort {
        name: "desk-why",
        number: 103,
        share: |sheets| sheets.div_ceil(2),
        make: questioned,
    },
    Sort {
        name: "desk-export",
        number: 104,
        share: |sheets| sheets.div_ceil(2),
        make: |random, index| of_any_length(random, index, &["export"]),
    },
    Sort {
        name: "desk-import",
        number: 105,
        share: |sheets| sheets,
        make: imported,
    },
    Sort {
        name: "desk-fields",
        number: 106,
        share: |sheets| sheets.div_ceil(2),
        make: bad_field,
    },
];

pub fn asked_of(name: impl ToString, words: &[&str], input: Vec<u8>) -> Asked {
    Asked {
        name: name.to_string(),
        words: words.iter().map(|word| word.to_string()).collect(),
        input,
    }
}

fn of_any_kind(random: &mut Random, index: u64, words: &[&str]) -> Asked {
    let (name, make) = KINDS[(index % KINDS.len() as u64) as usize];
    asked_of(name, words, make(random))
}

/// By turns a good sheet of any length and one of any kind.
fn of_any_length(random: &mut Random, index: u64, words: &[&str]) -> Asked {
    if index % 2 == 1 {
        return of_any_kind(random, index / 2, words);
    }
    let (posts, most) = (random.between(2, 32), random.pick(&[60, 300, MOST_EVENTS]));
    let count = random.between(0, most);
    let sheet = lively_sheet(random, posts, count).bytes();
    asked_of("good, of any length", words, sheet)
}

fn questioned(random: &mut Random, index: u64) -> Asked {
    let (name, make) = QUESTIONS[(index % QUESTIONS.len() as u64) as usize];
    let Request::Why { sheet, position } = make(random) else {
        unreachable!("a question is a request of why");
    };
    asked_of(name, &["why", &position.to_string()], sheet)
}

/// By turns a right text, one with a misprint, a spoiled one and the text of a lively sheet.
fn imported(random: &mut Random, index: u64) -> Asked {
    let of = |count: usize| (index / 4) as usize % count;
    let (name, request) = match index % 4 {
        0 => {
            let (name, make) = RIGHT[of(RIGHT.len())];
            (name.to_string(), make(random))
        }
        1 => {
            let names = misprints::names();
            // Not in order, so that a few have each place and damage of all sorts.
            let variety = random.below(names.len());
            (names[variety].clone(), misprints::misprint(random, variety))
        }
        2 => {
            let (name, make) = SPOILED[of(SPOILED.len())];
            (name.to_string(), make(random))
        }
        _ => {
            let count = random.between(0, MOST_EVENTS);
            let sheet = lively_sheet(random, 32, count).worked();
            let mut text = Text::of(&sheet);
            text.quote_somehow(random);
            return asked_of("of a lively sheet", &["import"], text.bytes());
        }
    };
    let Request::Import { text, .. } = request else {
        unreachable!("a text is a request of import");
    };
    asked_of(name, &["import"], text)
}

/// Each word by turns, and each position.
fn bad_field(random: &mut Random, index: u64) -> Asked {
    let (words, _) = WORDS[index as usize % WORDS.len()];
    let position = index as usize / WORDS.len() % EVENTS_PER_BLOCK;
    let answered = random.chance(30);
    asked_of("upper bits", words, bad_at(random, position, answered))
}

/// Most often at once, else in pieces; a small input also byte by byte.
pub fn some_given(random: &mut Random, bytes: usize) -> Given {
    match random.below(8) {
        0 if bytes <= SMALL => Given::InPieces(1),
        1 => Given::InPieces(random.between(2, 700)),
        _ => Given::AtOnce,
    }
}

/// One run compared; the text of a difference if there is one.
fn check_random(command: &[String], seed: u64, sort: &Sort, index: u64) -> Result<(), String> {
    let mut random = Random::of_case(seed, sort.number, index);
    let Asked { name, words, input } = (sort.make)(&mut random, index);
    let given = some_given(&mut random, input.len());
    let words: Vec<&str> = words.iter().map(String::as_str).collect();
    let right = wrote_tracks(asked(&words).ok_or("a wrong word")?, &input);
    let ran = run_on(&with_words(command, words.iter().copied()), &input, given);
    compared(ran, &right).map_err(|text| {
        let (sort, bytes) = (sort.name, input.len());
        let number = if bytes >= 8 { get(&input, 0, 1) } else { 0 };
        format!("{sort}:{index} (seed {seed}), \"{name}\", words {words:?}, {bytes} bytes, N {number}: {text}")
    })
}

fn check_fixed(command: &[String]) -> Result<usize, String> {
    let mut ran = 0;
    for case in fixed_cases()
        .into_iter()
        .chain(work_cases())
        .chain(why_cases())
        .chain(register_cases())
        .chain(field_cases())
    {
        let small = case.input.len() <= SMALL;
        let ways = [Given::AtOnce, Given::InPieces(1)];
        let command = with_words(command, case.words.iter().copied());
        for given in &ways[..if small { 2 } else { 1 }] {
            compared(run_on(&command, &case.input, *given), &case.wrote)
                .map_err(|text| format!("\"{}\", words {:?}: {text}", case.name, case.words))?;
            ran += 1;
        }
    }
    Ok(ran)
}

/// How many random sheets there are: of one track, and of either form.
#[derive(Clone, Copy)]
pub struct Sheets {
    pub of_one: u64,
    pub of_either: u64,
}

/// What ran, and what was wanted of it and never came up.
#[derive(Debug)]
pub struct Done {
    pub text: String,
    pub missing: Vec<String>,
}

/// The fixed cases, the long texts, the inputs that fail and then so many random sheets, half as
/// many for each word and with a bad field, and as many texts; then those of two tracks. What
/// ran, or the first difference.
pub fn compare_program(command: &[String], seed: u64, sheets: Sheets) -> Result<Done, String> {
    let of_one = compare_one_track(command, seed, sheets.of_one)?;
    let mut program = as_program(command);
    let fixed = programs::compare_fixed(&mut program)?;
    let seen = programs::compare_random(seed, sheets.of_either, &mut program)?;
    Ok(Done {
        text: format!(
            "{of_one}; of two tracks: {fixed} fixed runs, {} random sheets of either form",
            sheets.of_either
        ),
        missing: seen.rare(u64::MAX),
    })
}

/// The command as something to ask.
pub fn as_program(command: &[String]) -> impl FnMut(&[&str], &[u8], Given) -> io::Result<Ran> + '_ {
    |words, input, given| run_on(&with_words(command, words.iter().copied()), input, given)
}

fn compare_one_track(command: &[String], seed: u64, sheets: u64) -> Result<String, String> {
    let fixed = check_fixed(command)?;
    let wrong = check_wrong_words(command)?;
    let pipes = check_pipes(command)?;
    let long = check_long_texts(command)?;
    let failing = check_failing_inputs(command)?;
    let slow = check_byte_by_byte(command)?;
    for sort in &SORTS {
        for index in 0..(sort.share)(sheets) {
            check_random(command, seed, sort, index)?;
        }
    }
    let [listed, worked, asked, exported, imported, bad] = SORTS.map(|sort| (sort.share)(sheets));
    Ok(format!(
        "{fixed} fixed runs, {wrong} of wrong words, {pipes} pipes, {long} long texts, \
        {failing} inputs that fail, {slow} texts byte by byte; random sheets: {listed} listed, {worked} worked, {asked} asked about, \
        {exported} exported, {bad} with a bad field; {imported} random texts imported"
    ))
}

/// Replays one random input, named by its sort, a colon and its index.
pub fn only_program(command: &[String], seed: u64, name: &str) -> Result<(), String> {
    let wanted = "no such case: \"desk\", \"desk-work\", \"desk-why\", \"desk-export\", \
        \"desk-import\", \"desk-fields\" or \"desk-tracks\", a colon and a number are wanted";
    let (sort, index) = name.split_once(':').ok_or(wanted)?;
    let index = index.parse().map_err(|_| wanted)?;
    if sort == programs::NAME {
        return programs::compare_one(seed, index, &mut as_program(command)).map(|_| ());
    }
    let sort = SORTS
        .iter()
        .find(|known| known.name == sort)
        .ok_or(wanted)?;
    check_random(command, seed, sort, index)
}
