//! The program's words: fixed cases of `work` and `why`, wrong words, and pipes.

use std::fs::{self, File, OpenOptions};
use std::io::{self, Seek, Write};
use std::process::{self, Stdio};
use std::sync::atomic::{AtomicU32, Ordering::Relaxed};

use model::program::{Wrote, USAGE};
use model::{paper, short, stuck, MOST_EVENTS, UNANSWERED};

use crate::fixed::{
    computed, early_sheet, from_0, papers_sheet, short_sheet, stuck_sheet, Fixed, BUILT,
};
use crate::ran::{compared, run, run_on, with_words, Given};
use crate::random::Random;
use crate::sheets::{lively_sheet, put, renewed, Sheet};

/// The refusals of `work` are said on standard error. What is refused is typed in.
pub fn work_cases() -> Vec<Fixed> {
    let case = |name, input, wrote| Fixed {
        name,
        words: &["work"],
        input,
        wrote,
    };
    let refused = |name, sheet, text| case(name, sheet, Wrote::saying(text));
    let good = |name, sheet: Sheet, answered: Vec<u8>| {
        let printed = Wrote {
            printed: answered,
            said: String::new(),
        };
        case(name, sheet.bytes(), printed)
    };
    let worked = papers_sheet().worked().bytes();
    let stuck = from_0(&stuck::KINDS, stuck::EXAMPLE.answered()).bytes();
    let early = from_0(&short::KINDS, short::EXAMPLE.answered()).bytes();
    let mut damaged = papers_sheet().bytes();
    put(&mut damaged, 1, 126, 1);
    let (long, renewed) = (vec![1; 3_000_000], renewed(damaged.clone(), 1));
    let mut cases = vec![
        good(
            "work: the paper's fifteen events",
            papers_sheet(),
            worked.clone(),
        ),
        good("work: a button sticks and is freed", stuck_sheet(), stuck),
        good("work: early trains", early_sheet(), early),
        refused("work: empty input", vec![], "refused 18 0\n"),
        refused("work: 3,000,000 bytes", long, "refused 18 0\n"),
        refused("work: wrong check", damaged, "refused 19 1\n"),
        refused("work: wrong contents", renewed, "refused 20 1\n"),
        refused("work: already worked", worked, "refused 20 1\n"),
    ];
    cases.extend(COUNTS.map(lively_worked));
    cases
}

/// How many events the good sheets have that are worked.
const COUNTS: [usize; 10] = [0, 1, 59, 60, 61, 120, 121, 1_000, 3_779, MOST_EVENTS];

fn lively_worked(count: usize) -> Fixed {
    let mut random = Random::of_case(0, BUILT, 2 + count as u64);
    let posts = random.between(2, 32);
    let sheet = lively_sheet(&mut random, posts, count).bytes();
    computed("work: a lively sheet", &["work"], sheet)
}

/// Positions in the paper's worked sheet, and what is printed.
const PAPER: &[(&[&str], &str)] = &[
    (&["why", "5"], "2 4 0 0\n"),
    (&["why", "13"], "2 4 0 0\n"),
    (&["why", "0"], "refused 29 0\n"),
    (&["why", "1"], "refused 29 0\n"),
    (&["why", "3"], "refused 29 0\n"),
    (&["why", "16"], "refused 29 0\n"),
    (&["why", "65541"], "refused 29 0\n"),
    (&["why", "4294967295"], "refused 29 0\n"),
];

fn why_case(
    name: &'static str,
    words: &'static [&'static str],
    sheet: Vec<u8>,
    text: &str,
) -> Fixed {
    Fixed {
        name,
        words,
        input: sheet,
        wrote: Wrote::printing(text),
    }
}

/// The questions of a list, each with what is printed, about one sheet.
fn questions_of(
    name: &'static str,
    sheet: &Sheet,
    list: &[(&'static [&'static str], &str)],
) -> Vec<Fixed> {
    list.iter()
        .map(|&(words, text)| why_case(name, words, sheet.bytes(), text))
        .collect()
}

pub fn why_cases() -> Vec<Fixed> {
    let (case, paper) = (why_case, papers_sheet().worked());
    let worked = paper.bytes();
    let mut cases = questions_of("the paper's worked sheet", &paper, PAPER);
    let mut damaged = worked.clone();
    put(&mut damaged, 1, 126, 1);
    let handed_in = papers_sheet().bytes();
    let full = full_of_9().bytes();
    cases.extend([
        case("P 11", &["why", "4"], case_11().bytes(), "0\n"),
        case("not answered", &["why", "5"], handed_in, "refused 29 0\n"),
        case("cut", &["why", "5"], worked[1..].to_vec(), "refused 18 0\n"),
        case(
            "wrong check",
            &["why", "5"],
            damaged.clone(),
            "refused 19 1\n",
        ),
        case(
            "wrong contents",
            &["why", "0"],
            renewed(damaged, 1),
            "refused 20 1\n",
        ),
        case("3,780 events", &["why", "3780"], full, "3778 5 0 0\n"),
    ]);
    let (stuck, early) = (stuck_sheet().worked(), early_sheet().worked());
    let name = "a button sticks and is freed";
    cases.extend(questions_of(name, &stuck, stuck::EXAMPLE.since));
    let name = "early trains";
    cases.extend(questions_of(name, &early, short::EXAMPLE.since));
    cases
}

/// The paper's case 11: RL is up from the start.
fn case_11() -> Sheet {
    let entry = |(number, post)| [number, post, UNANSWERED, 0];
    let events = [(5, 0), (8, 0), (3, 1), (6, 1)].map(entry).to_vec();
    from_0(&[0, 4, 1], events).worked()
}

/// Announced, lost and restored again and again, and announced twice at the end.
fn full_of_9() -> Sheet {
    let mut events = [(5, 0), (9, 0), (10, 0)].repeat(MOST_EVENTS / 3);
    events[MOST_EVENTS - 3..].copy_from_slice(&[(5, 0), (9, 0), (5, 0)]);
    short_sheet(&events).worked()
}

/// Words that are wrong: other words, too many, too few, and no position.
const WRONG: &[&[&str]] = &[
    &["list"],
    &["Work"],
    &["works"],
    &["wor"],
    &["why5"],
    &["5"],
    &[""],
    &["", "5"],
    &["--help"],
    &["work", "5"],
    &["work", "work"],
    &["work", ""],
    &["why"],
    &["why", "5", "5"],
    &["why", "5", ""],
    &["why", "why"],
    &["export", "x"],
    &["export", ""],
    &["export", "5"],
    &["export", "import"],
    &["Export"],
    &["exports"],
    &["expor"],
    &["import", "x"],
    &["import", ""],
    &["import", "-"],
    &["import", "export"],
    &["IMPORT"],
    &["imports"],
    &["impor"],
];

/// Behind `why`. Some are 5 when they are carried round at 2^32 or at 2^64.
const NO_POSITION: &[&str] = &[
    "",
    "05",
    "00",
    "000000000005",
    "+5",
    "-1",
    "-0",
    " 5",
    "5 ",
    "5\n",
    "5x",
    "x",
    "0x5",
    "5.0",
    "5,",
    "\u{665}",
    "/",
    ":",
    "4294967296",
    "4294967301",
    "10000000000",
    "18446744073709551621",
    "1000000000000000000000000000000000000005",
    "5555555555555555555555555555555555555555",
];

/// Each wrong line of words: the program says how it is used, and reads nothing. First
/// right ones, so that what is read is noticed: all of it, also of a text that is wrong
/// from its first record on.
pub fn check_wrong_words(command: &[String]) -> Result<usize, String> {
    let sheet = papers_sheet().worked().bytes();
    let behind_why: Vec<[&str; 2]> = NO_POSITION.iter().map(|word| ["why", word]).collect();
    let wrong: Vec<&[&str]> = WRONG
        .iter()
        .copied()
        .chain(behind_why.iter().map(|line| &line[..]))
        .collect();
    let refused = Wrote::saying("refused 28 1\n");
    let right: [(&[&str], Wrote); 3] = [
        (&["why", "5"], Wrote::printing("2 4 0 0\n")),
        (&["export"], Wrote::printing(paper::REGISTER)),
        (&["import"], refused),
    ];
    for (words, wrote) in &right {
        check_read(command, words, &sheet, wrote, sheet.len() as u64)?;
    }
    for words in &wrong {
        check_read(command, words, &sheet, &Wrote::saying(USAGE), 0)?;
    }
    Ok(right.len() + wrong.len())
}

/// One run on a file, and how far into it the program has read.
fn check_read(
    command: &[String],
    words: &[&str],
    sheet: &[u8],
    right: &Wrote,
    read: u64,
) -> Result<(), String> {
    let told = |text| format!("words {words:?}: {text}");
    let no_file = |error: io::Error| told(format!("no file to read: {error}"));
    let mut file = nameless_file(sheet).map_err(no_file)?;
    let theirs = file.try_clone().map_err(no_file)?;
    let ran = run(
        &with_words(command, words.iter().copied()),
        Stdio::from(theirs),
        |_| (),
    );
    compared(ran, right).map_err(told)?;
    match file.stream_position().map_err(no_file)? {
        bytes if bytes == read => Ok(()),
        bytes => Err(told(format!(
            "{bytes} bytes were read, and {read} are expected"
        ))),
    }
}

/// A file of these bytes, open at its front, that has no name any more.
fn nameless_file(bytes: &[u8]) -> io::Result<File> {
    static MADE: AtomicU32 = AtomicU32::new(0);
    let name = format!("sheet-{}-{}", process::id(), MADE.fetch_add(1, Relaxed));
    let path = std::env::temp_dir().join(name);
    let mut file = OpenOptions::new()
        .read(true)
        .write(true)
        .create_new(true)
        .open(&path)?;
    fs::remove_file(&path)?;
    file.write_all(bytes)?;
    file.rewind()?;
    Ok(file)
}

/// The program twice in a pipe, by a shell: the words of each, the input, and what comes
/// out. After a refusal the second has an empty input.
fn pipes() -> [([&'static str; 2], Vec<u8>, Wrote); 6] {
    let (paper, worked) = (papers_sheet().bytes(), papers_sheet().worked().bytes());
    let register = paper::REGISTER.as_bytes().to_vec();
    let told = |printed: &[u8], said: &str| Wrote {
        printed: printed.to_vec(),
        said: said.to_string(),
    };
    let both_refused = told(b"refused 18 0\n", "refused 20 1\n");
    [
        (["work", "why 5"], paper.clone(), told(b"2 4 0 0\n", "")),
        (["work", "why 5"], worked.clone(), both_refused),
        (["export", "import"], worked.clone(), told(&worked, "")),
        (["import", "export"], register.clone(), told(&register, "")),
        (["work", "export"], paper, told(&register, "")),
        (
            ["export", "import"],
            worked[1..].to_vec(),
            told(b"", "refused 18 0\nrefused 28 1\n"),
        ),
    ]
}

pub fn check_pipes(command: &[String]) -> Result<usize, String> {
    let pipes = pipes();
    for ([first, second], input, right) in &pipes {
        let line = format!("\"$@\" {first} | \"$@\" {second}");
        let shell = ["sh", "-c", &line, "sh"].map(str::to_string);
        let piped = with_words(&shell, command.iter().map(String::as_str));
        compared(run_on(&piped, input, Given::AtOnce), right)
            .map_err(|text| format!("{first} | {second}: {text}"))?;
    }
    Ok(pipes.len())
}
