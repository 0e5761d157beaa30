//! Working programs that are the model with one fault about two tracks put in (02, item 7): each
//! must be found by a small run.

use compare::counts::Counts;
use compare::ran::Ran;
use compare::random::Random;
use compare::tracks::programs::{self, random_run, Run, RUNS};
use compare::tracks::sheets::TrackSheet;
use model::program::{asked, wrote, wrote_tracks, Wrote};

const FEW: u64 = 2_000;

/// A program in this process: what it writes, by its words and its input.
type Writes<'a> = &'a mut dyn FnMut(&[&str], &[u8]) -> Wrote;

fn compare_random(count: u64, program: Writes) -> Result<Counts<Run>, String> {
    programs::compare_random(1, count, &mut |words, input, _| {
        Ok(Ran::well(program(words, input)))
    })
}

fn compare_fixed(program: Writes) -> Result<usize, String> {
    programs::compare_fixed(&mut |words, input, _| Ok(Ran::well(program(words, input))))
}

fn right(words: &[&str], input: &[u8]) -> Wrote {
    asked(words).map_or(Wrote::default(), |asked| wrote_tracks(asked, input))
}

#[test]
fn the_model_passes_and_all_is_seen() {
    let run = compare_random(FEW, &mut |words, input| right(words, input));
    let seen = run.unwrap_or_else(|text| panic!("{text}"));
    println!("{}", seen.text());
    assert_eq!(seen.rare(u64::MAX), Vec::<String>::new());
    assert_eq!(
        compare_fixed(&mut |words, input| right(words, input)),
        Ok(programs::fixed_runs().len())
    );
}

#[test]
fn what_does_not_come_up_is_missed() {
    let run = compare_random(0, &mut |words, input| right(words, input));
    assert_eq!(run.map(|seen| seen.rare(u64::MAX).len()), Ok(RUNS.len()));
}

/// A run is made again from its seed and index.
#[test]
fn a_run_is_made_again() {
    for index in 0..200 {
        let [one, other] = [0, 1].map(|_| random_run(&mut Random::of_case(5, 107, index), index));
        assert_eq!((one.words, one.input), (other.words, other.input));
    }
}

/// A fault: its name, and what is printed in the place of a text, by how many tracks the sheet
/// has and the program's first word.
type Fault = (&'static str, fn(&str, u32, &str) -> Option<String>);

/// Each line of the listing of a sheet of two tracks, changed.
fn lines(text: &str, form: u32, change: impl Fn(&str) -> Option<String>) -> Option<String> {
    let changed: String = text
        .lines()
        .filter_map(change)
        .map(|line| line + "\n")
        .collect();
    (form == 2 && !text.starts_with("refused")).then_some(changed)
}

fn without_last(line: &str) -> String {
    line.rsplit_once(' ')
        .map_or(line, |(front, _)| front)
        .to_string()
}

const FAULTS: &[Fault] = &[
    ("track 2's S lines first", |text, form, word| {
        let (of_sections, events): (Vec<&str>, Vec<&str>) = text
            .split_inclusive('\n')
            .partition(|line| line.starts_with('S'));
        let half = of_sections.len() / 2;
        let turned = [&of_sections[half..], &of_sections[..half]].concat();
        (form == 2 && word.is_empty()).then(|| events.concat() + &turned.concat())
    }),
    ("S lines of both by turns", |text, form, word| {
        let (mut of_sections, events): (Vec<&str>, Vec<&str>) = text
            .split_inclusive('\n')
            .partition(|line| line.starts_with('S'));
        of_sections.sort_by_key(|line| line.split(' ').nth(1).and_then(|s| s.parse::<u32>().ok()));
        (form == 2 && word.is_empty()).then(|| events.concat() + &of_sections.concat())
    }),
    ("S lines of track 1 alone", |text, form, _| {
        lines(text, form, |line| {
            let of_two = line.starts_with('S') && line.ends_with(" 1");
            (!of_two).then(|| line.to_string())
        })
    }),
    ("no track in the event lines", |text, form, word| {
        let changed = lines(text, form, |line| match line.starts_with('S') {
            true => Some(line.to_string()),
            false => Some(without_last(line)),
        });
        changed.filter(|_| word.is_empty())
    }),
    ("no track in the S lines", |text, form, _| {
        lines(text, form, |line| match line.starts_with('S') {
            true => Some(without_last(line)),
            false => Some(line.to_string()),
        })
    }),
    ("tracks from 1", |text, form, word| {
        let changed = lines(text, form, |line| {
            let track = if line.ends_with(" 1") { " 2" } else { " 1" };
            Some(without_last(line) + track)
        });
        changed.filter(|_| word.is_empty())
    }),
    ("the track behind the position", |text, form, word| {
        let changed = lines(text, form, |line| {
            let (front, track) = line.rsplit_once(' ')?;
            let (position, rest) = front.split_once(' ')?;
            Some(format!("{position} {track} {rest}"))
        });
        changed.filter(|_| word.is_empty())
    }),
    ("a track in a sheet of one", |text, form, word| {
        let listed = form == 1 && word.is_empty() && !text.starts_with("refused");
        listed.then(|| text.replace('\n', " 0\n"))
    }),
    ("no track in the line of why", |text, form, word| {
        let changed = lines(text, form, |line| Some(without_last(line)));
        changed.filter(|_| word == "why")
    }),
    ("why tells 0 with a track", |text, form, word| {
        (form == 2 && word == "why" && text == "0\n").then(|| "0 0\n".to_string())
    }),
];

fn with_fault(fault: &Fault, words: &[&str], input: &[u8]) -> Wrote {
    let right = right(words, input);
    let form = TrackSheet::of(input).map_or(0, |sheet| sheet.form);
    let word = words.first().copied().unwrap_or("");
    let text = std::str::from_utf8(&right.printed).unwrap_or("");
    match (fault.1)(text, form, word).filter(|_| word.is_empty() || word == "why") {
        Some(text) => Wrote::printing(&text),
        None => right,
    }
}

/// By the random runs; and by the fixed ones, but for what is wrong in a sheet of one track.
#[test]
fn wrong_texts() {
    for fault in FAULTS {
        let name = fault.0;
        let mut program = |words: &[&str], input: &[u8]| with_fault(fault, words, input);
        let found = compare_random(FEW, &mut program);
        println!(
            "{name}: {}",
            found.err().unwrap_or_else(|| panic!("not found: {name}"))
        );
        let fixed = compare_fixed(&mut program);
        assert_eq!(fixed.is_ok(), name == "a track in a sheet of one", "{name}");
    }
}

/// A program that takes sheets of one track alone, for one of its words.
#[test]
fn two_tracks_refused() {
    for word in ["", "work", "why"] {
        let found = compare_random(FEW, &mut |words, input| match (
            asked(words),
            words.first().copied().unwrap_or("") == word,
        ) {
            (Some(asked), true) => wrote(asked, input),
            _ => right(words, input),
        });
        assert!(found.is_err(), "not found: {word}");
    }
}

/// An export that refuses a sheet of two tracks before it has read it, which is what that of one
/// does, and one that writes track 1's events.
#[test]
fn wrong_exports() {
    let exports = |words: &[&str]| words == ["export"];
    let early = compare_random(FEW, &mut |words, input| match asked(words) {
        Some(asked) if exports(words) => wrote(asked, input),
        _ => right(words, input),
    });
    assert!(early.is_err());
    let track_1 = compare_random(FEW, &mut |words, input| {
        let two = TrackSheet::of(input).filter(|sheet| exports(words) && sheet.form == 2);
        let Some(mut sheet) = two else {
            return right(words, input);
        };
        let posts = sheet.posts();
        sheet.form = 1;
        sheet.table.truncate(posts);
        sheet.tracks.fill(0);
        right(words, &sheet.bytes())
    });
    assert!(track_1.is_err());
}
