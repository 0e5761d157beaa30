//! The program's fixed runs of `export` and `import`, and long texts in pieces.

use model::program::Wrote;
use model::{paper, MOST_EVENTS};

use crate::fixed::{
    computed, early_sheet, from_0, papers_sheet, sheet_of_everything, short_sheet, Fixed,
};
use crate::ran::{compared, run_on, with_words, Given};
use crate::sheets::{put, renewed, Sheet};
use crate::texts::Text;

/// The register of two posts and so many events, of which a sheet may be too small.
pub fn long_text(events: usize) -> Vec<u8> {
    let sheet = Sheet {
        kinds: vec![0, 1],
        stamp: 0,
        events: vec![[1, 0, 31, 1000]; events],
    };
    Text::of(&sheet).bytes()
}

/// What is refused, and what the paper's events give, is typed in.
pub fn register_cases() -> Vec<Fixed> {
    let mut cases = export_cases();
    cases.extend(import_cases());
    cases.extend(WRONG.iter().map(wrong_case));
    cases.extend(short_terminus());
    let (everything, early) = (sheet_of_everything().worked(), early_sheet().worked());
    let [text, early_text] = [&everything, &early].map(|sheet| Text::of(sheet).bytes());
    let full = short_sheet(&vec![(1, 0); MOST_EVENTS]).bytes();
    cases.extend([
        computed("export: short posts", &["export"], early.bytes()),
        computed("import: short posts", &["import"], early_text),
        computed(
            "export: every event and answer",
            &["export"],
            everything.bytes(),
        ),
        computed("export: 3,780 events", &["export"], full),
        computed("import: every event and answer", &["import"], text),
        computed("import: 3,780 events", &["import"], long_text(MOST_EVENTS)),
    ]);
    cases
}

/// The paper's register with a short terminus, both ways.
fn short_terminus() -> [Fixed; 2] {
    let text = paper::REGISTER.replace(",1,1,,", ",17,1,,").into_bytes();
    let sheet = from_0(&[0, 17], paper::EXAMPLE.answered()).bytes();
    let case = |name, words, input: &[u8], printed: &[u8]| Fixed {
        name,
        words,
        input: input.to_vec(),
        wrote: Wrote {
            printed: printed.to_vec(),
            said: String::new(),
        },
    };
    [
        case("export: a short terminus", &["export"], &sheet, &text),
        case("import: a short terminus", &["import"], &text, &sheet),
    ]
}

fn export_cases() -> Vec<Fixed> {
    let case = |name, input, wrote| Fixed {
        name,
        words: &["export"],
        input,
        wrote,
    };
    let refused = |name, sheet, text| case(name, sheet, Wrote::saying(text));
    let sheet = papers_sheet().worked().bytes();
    let mut damaged = sheet.clone();
    put(&mut damaged, 1, 126, 1);
    vec![
        case(
            "export: the paper's fifteen events, worked",
            sheet.clone(),
            Wrote::printing(paper::REGISTER),
        ),
        computed(
            "export: not yet answered",
            &["export"],
            papers_sheet().bytes(),
        ),
        refused("export: empty input", vec![], "refused 18 0\n"),
        refused("export: cut", sheet[1..].to_vec(), "refused 18 0\n"),
        refused("export: 33,280 bytes", vec![0; 33_280], "refused 18 0\n"),
        refused(
            "export: 3,000,000 bytes",
            vec![1; 3_000_000],
            "refused 18 0\n",
        ),
        refused("export: wrong check", damaged.clone(), "refused 19 1\n"),
        refused(
            "export: wrong contents",
            renewed(damaged, 1),
            "refused 20 1\n",
        ),
    ]
}

fn import_cases() -> Vec<Fixed> {
    let sheet = papers_sheet().worked().bytes();
    let case = |name, text: String| Fixed {
        name,
        words: &["import"],
        input: text.into_bytes(),
        wrote: Wrote {
            printed: sheet.clone(),
            said: String::new(),
        },
    };
    let text = paper::REGISTER;
    let quoted = text.replace(',', "\",\"").replace("\r\n", "\"\r\n\"");
    let quoted = format!("\"{}", quoted.trim_end_matches('"'));
    vec![
        case("import: the paper's register", text.to_string()),
        case("import: no last line end", text.trim_end().to_string()),
        case("import: all quoted", quoted.clone()),
        case(
            "import: all quoted, no last line end",
            quoted.trim_end().to_string(),
        ),
        case(
            "import: the header quoted",
            text.replace("post,", "\"post\","),
        ),
    ]
}

/// What is put for what in the paper's register, once, and what is said.
const WRONG: &[(&str, &str, &str, &str)] = &[
    ("import: nothing", paper::REGISTER, "", "refused 28 1\n"),
    ("import: a byte", paper::REGISTER, "p", "refused 28 1\n"),
    (
        "import: the header alone",
        paper::REGISTER,
        "position,event,post,stamp,answer",
        "refused 28 2\n",
    ),
    (
        "import: no terminus",
        ",1,1,,\r\n1,",
        ",4,1,,\r\n1,",
        "refused 28 5\n",
    ),
    (
        "import: a short station for the terminus",
        ",1,1,,\r\n1,",
        ",18,1,,\r\n1,",
        "refused 28 5\n",
    ),
    (
        "import: a short terminus before the terminus",
        ",1,1,,\r\n1,",
        ",17,1,,\r\n,1,2,,\r\n1,",
        "refused 28 5\n",
    ),
    (
        "import: a short origin",
        ",0,0,,",
        ",16,0,,",
        "refused 28 3\n",
    ),
    (
        "import: 21 for a terminus",
        ",1,1,,\r\n1,",
        ",21,1,,\r\n1,",
        "refused 28 4\n",
    ),
    (
        "import: LF for CR LF",
        "answer\r\n",
        "answer\n",
        "refused 28 1\n",
    ),
    (
        "import: LF for the last CR LF",
        "15000,0\r\n",
        "15000,0\n",
        "refused 28 19\n",
    ),
    (
        "import: a lone CR at the end",
        "15000,0\r\n",
        "15000,0\r",
        "refused 28 19\n",
    ),
    (
        "import: a blank line at the end",
        "15000,0\r\n",
        "15000,0\r\n\r\n",
        "refused 28 20\n",
    ),
    (
        "import: a quote never closed",
        ",,,0,",
        ",,,\"0,",
        "refused 28 2\n",
    ),
    (
        "import: a quote inside a field",
        "9000,12",
        "9000,1\"2",
        "refused 28 13\n",
    ),
    (
        "import: behind a closing quote",
        "9000,12",
        "9000,\"12\"3",
        "refused 28 13\n",
    ),
    (
        "import: a leading zero",
        "9000,12",
        "09000,12",
        "refused 28 13\n",
    ),
    ("import: a space", "9000,12", "9000, 12", "refused 28 13\n"),
    (
        "import: a post out of order",
        ",0,0,,",
        ",0,1,,",
        "refused 28 3\n",
    ),
    (
        "import: a position out of order",
        "\n9,6",
        "\n10,6",
        "refused 28 13\n",
    ),
    (
        "import: an answer out of range",
        "9000,12",
        "9000,32",
        "refused 28 13\n",
    ),
    (
        "import: a field too many",
        "9000,12",
        "9000,12,",
        "refused 28 13\n",
    ),
];

fn wrong_case(&(name, from, to, said): &(&'static str, &str, &str, &str)) -> Fixed {
    assert_eq!(paper::REGISTER.matches(from).count(), 1, "{name}");
    Fixed {
        name,
        words: &["import"],
        input: paper::REGISTER.replace(from, to).into_bytes(),
        wrote: Wrote::saying(said),
    }
}

/// The pieces in which the long texts are given, by turns.
const PIECES: [usize; 7] = [65_536, 4_096, 511, 65_535, 512, 30_000, 4_097];

/// So many events that a position has more than 16 bits.
const EVENTS: usize = 70_000;

/// A text, and what is said of it.
type Long = (&'static str, Vec<u8>, &'static str);

/// Texts over 1 MB that are right but for their end, if they are: right ones hold too much.
fn wrong_at_their_end() -> Vec<Long> {
    let right = long_text(EVENTS);
    let and = |tail: &str| [&right[..], tail.as_bytes()].concat();
    let wrong = |name, tail| (name, and(tail), "refused 28 70005\n");
    vec![
        ("right", right.clone(), "refused 18 0\n"),
        ("no last line end", and("70001,1,0,0,31"), "refused 18 0\n"),
        wrong("a wrong answer", "70001,1,0,0,32\r\n"),
        wrong("a position of 16 bits", "4465,1,0,0,31\r\n"),
        wrong("a blank line", "\r\n"),
        wrong("a lone CR", "\r"),
        wrong("a lone LF", "70001,1,0,0,31\n"),
        wrong("a quote never closed", "\"70001\",1,0,0,\"31"),
        wrong("right twice", &String::from_utf8_lossy(&right)),
    ]
}

/// Texts over 1 MB that are wrong from the first or the second record on.
fn wrong_from_their_front() -> Vec<Long> {
    let header = paper::REGISTER.split_inclusive('\n').next().unwrap_or("");
    let digits = "1".repeat(1_200_000);
    let quoted = [b"\"", &long_text(EVENTS)[..]].concat();
    let first = |name, text| (name, text, "refused 28 1\n");
    let second = |name, text: String| (name, text.into_bytes(), "refused 28 2\n");
    vec![
        second("1,200,000 digits", format!("{header},,,{digits},\r\n")),
        second(
            "1,200,000 digits between quotes",
            format!("{header},,,\"{digits}\",\r\n"),
        ),
        first("a quote at the front", quoted),
        first("line ends alone", b"\r\n".repeat(600_000)),
        first("commas alone", vec![b','; 1_200_000]),
        first("quotes alone", vec![b'"'; 1_200_001]),
    ]
}

fn check(
    command: &[String],
    name: &str,
    text: &[u8],
    pieces: usize,
    right: &Wrote,
) -> Result<(), String> {
    let command = with_words(command, ["import"]);
    compared(run_on(&command, text, Given::InPieces(pieces)), right).map_err(|difference| {
        let bytes = text.len();
        format!("\"{name}\", {bytes} bytes in pieces of {pieces}: {difference}")
    })
}

/// Each long text in pieces of some size.
pub fn check_long_texts(command: &[String]) -> Result<usize, String> {
    let long = [wrong_at_their_end(), wrong_from_their_front()].concat();
    for ((name, text, said), pieces) in long.iter().zip(PIECES.iter().cycle()) {
        check(command, name, text, *pieces, &Wrote::saying(said))?;
    }
    Ok(long.len())
}

/// Texts of 3,780 events, of one more, and of more than 1 MB, byte by byte.
pub fn check_byte_by_byte(command: &[String]) -> Result<usize, String> {
    let full = computed("3,780 events", &["import"], long_text(MOST_EVENTS));
    let more = long_text(MOST_EVENTS + 1);
    let wrong = [&long_text(60_000)[..], b"60001,1,0,0,\"\""].concat();
    let runs = [
        ("3,780 events", full.input, full.wrote),
        ("3,781 events", more, Wrote::saying("refused 18 0\n")),
        ("1 MB", wrong, Wrote::saying("refused 28 60005\n")),
    ];
    for (name, text, right) in &runs {
        check(command, name, text, 1, right)?;
    }
    Ok(runs.len())
}
