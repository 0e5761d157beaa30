//! The child processes: the wire to a library's server, and the working program.

use std::time::Duration;

use compare::cases::{sorts, Sort, Wanted};
use compare::child::ChildLibrary;
use compare::desk::Library;
use compare::failing::{failing_inputs, failing_texts};
use compare::fixed::sheet_of_everything;
use compare::program::{as_program, compare_program, Sheets};
use compare::run::{compare, named_case, only};
use compare::tracks::cases as tracks;
use compare::tracks::programs;

const SERVER: &str = env!("CARGO_BIN_EXE_model_server");

const FEW: Wanted = Wanted {
    events: 3_000,
    rows: 2_000,
    sheets: 1_000,
    questions: 300,
    texts: 2_000,
    blocks: 1_000,
};

fn command(words: &[&str]) -> Vec<String> {
    words.iter().map(|word| (*word).to_string()).collect()
}

fn child(words: &[&str]) -> ChildLibrary {
    ChildLibrary::new(&command(words), Duration::from_secs(5)).expect("the child starts")
}

#[test]
fn the_model_behind_the_wire_passes() {
    let mut library = child(&[SERVER]);
    let run = compare(&sorts(), 3, FEW, &mut library);
    assert!(run.is_ok_and(|tally| tally.answers[0] > 0));
    assert_eq!(library.finish(), Ok(()));
}

#[test]
fn a_library_that_ends_or_talks_past_the_question_is_found() {
    let wrong: [&[&str]; 3] = [&["true"], &["cat"], &["yes", "wrong"]];
    for words in wrong {
        let mut library = child(words);
        assert!(compare(&sorts(), 3, FEW, &mut library).is_err());
    }
    let mut library = child(&["sh", "-c", "cat >/dev/null; echo more"]);
    assert!(library.answer(&[]).is_empty());
    assert!(library.finish().is_err());
    assert!(child(&["sh", "-c", "cat; exit 3"]).finish().is_err());
}

#[test]
fn the_model_behind_the_wire_passes_on_two_tracks() {
    let few = tracks::Wanted {
        events: 3_000,
        rows: 2_000,
        sheets: 1_000,
        questions: 300,
    };
    let mut library = child(&[SERVER]);
    let run = tracks::compare_tracks(&tracks::sorts(), 3, few, &mut library);
    assert!(run.is_ok_and(|tally| tally.answers[25] > 0));
    assert_eq!(library.finish(), Ok(()));
}

#[test]
fn one_case_is_replayed_alone() {
    replayed_alone(sorts());
    replayed_alone(tracks::sorts());
}

fn replayed_alone(sorts: Vec<Sort>) {
    for sort in &sorts {
        let name = format!("{}:17", sort.name);
        let (one, other) = (named_case(&sorts, 5, &name), named_case(&sorts, 5, &name));
        let (one, other) = (one.expect("known"), other.expect("known"));
        assert_eq!(one.request.words(), other.request.words());
        let mut library = child(&[SERVER]);
        assert!(only(&sorts, one, &mut library).is_ok());
        assert_eq!(library.finish(), Ok(()));
    }
    assert!(named_case(&sorts, 5, "nothing:1").is_none());
}

#[test]
fn the_models_program_passes() {
    let sheets = Sheets {
        of_one: 60,
        of_either: 1_000,
    };
    let run = compare_program(&command(&[SERVER, "--desk"]), 3, sheets);
    assert!(
        run.as_ref().is_ok_and(|done| done.missing.is_empty()),
        "{run:?}"
    );
}

/// The line of a shell, as a program with the words behind it, must be found, and the
/// difference has this text.
fn must_be_found(wrong: &[(String, &str)]) {
    for (line, text) in wrong {
        let sheets = Sheets {
            of_one: 10,
            of_either: 60,
        };
        let run = compare_program(&command(&["sh", "-c", line, "sh"]), 3, sheets);
        let found = run.expect_err(line);
        assert!(found.contains(text), "{line}: {found}");
    }
}

#[test]
fn a_wrong_program_is_found() {
    let desk = format!("{SERVER} --desk \"$@\"");
    must_be_found(&[
        ("cat > /dev/null".to_string(), "the paper's fifteen"),
        ("head -c 1 > /dev/null; exit 0".to_string(), "line 1"),
        (format!("{desk}; exit 3"), "exit status"),
        (format!("{desk} | tr S s"), "line 16"),
        (format!("{desk}; echo"), "line 17"),
        (format!("head -c 1024 | {desk}"), "33,280 bytes"),
        // Events 60 to 63 reckoned into block 1, as if a block held 64.
        (
            format!("{desk} | sed 's/^refused 20 2$/refused 20 1/'"),
            "the first of block 2",
        ),
        // A failed read is the end of the input to what follows.
        (
            format!("if [ $# -gt 0 ]; then {desk}; else cat 2>/dev/null | {desk}; fi"),
            "[], an input that fails",
        ),
        // So it is here, where something was read before it.
        (
            format!(
                "if [ $# -gt 0 ]; then {desk}; exit; fi; f=$(mktemp); \
                if cat >$f 2>/dev/null || [ -s $f ]; then {desk} <$f; \
                else echo the input could not be read >&2; fi; rm $f"
            ),
            "[], an input that fails after 1 bytes",
        ),
    ]);
}

/// The model's program, but for these words: there the line, in which DESK is the
/// program, stands in its place.
fn but_for(words: &str, line: &str) -> String {
    let desk = format!("{SERVER} --desk \"$@\"");
    let line = line.replace("DESK", &desk);
    format!("case \"$*\" in {words}) {line};; *) {desk};; esac")
}

#[test]
fn a_program_with_wrong_words_is_found() {
    let taken_for = |words, others| but_for(words, &format!("set -- {others}; DESK"));
    must_be_found(&[
        (format!("{SERVER} --desk"), "words [\"work\"]"),
        (but_for("work", "DESK 2>&1"), "work: empty input"),
        (but_for("work", "DESK 2>/dev/null"), "work: empty input"),
        (but_for("work", "DESK | head -c 32767"), "byte 32767"),
        (but_for("why*", "DESK >&2"), "words [\"why\", \"5\"]"),
        (but_for("'why 3780'", "DESK | cut -c -8"), "3,780 events"),
        (but_for("why*", "DESK | sed s/^0$/1/"), "P 11"),
        // Words that are not tested as they should be.
        (taken_for("list", ""), "words [\"list\"]"),
        (taken_for("'work '", "work"), "words [\"work\", \"\"]"),
        (taken_for("'why 5 5'", "why 5"), "[\"why\", \"5\", \"5\"]"),
        (taken_for("'why 0'[0-9]*", "why 5"), "[\"why\", \"05\"]"),
        (taken_for("'why +5'", "why 5"), "[\"why\", \"+5\"]"),
        (taken_for("'why 4294967301'", "why 5"), "\"4294967301\""),
        (taken_for("'why 4294967295'", "why +"), "\"4294967295\""),
        // Wrong words, and the input is looked at all the same.
        (
            but_for("'why 5x'", "head -c 1 >/dev/null; DESK"),
            "1 bytes were read",
        ),
        (
            but_for("'why 5x'", "cat >/dev/null; DESK"),
            "1024 bytes were read",
        ),
        // A failed read is the end of the input, for these words.
        (
            but_for("work", "cat 2>/dev/null | DESK"),
            "[\"work\"], an input that fails",
        ),
        (
            but_for("'why 5'", "cat 2>/dev/null | DESK"),
            "\"5\"], an input that fails",
        ),
    ]);
}

#[test]
fn a_program_with_wrong_jams_is_found() {
    let desk = format!("{SERVER} --desk \"$@\"");
    let name = "a button sticks and is freed";
    must_be_found(&[
        // 22 after 11, and an announcement lost to a jam that counts as received.
        (format!("{desk} | sed 's/^7 6 1 22$/7 6 1 11/'"), name),
        (format!("{desk} | sed 's/^S 0 3 1 2/S 0 3 2 1/'"), name),
        // An arrival that came to nothing, and a question about 22.
        (but_for("'why 26'", "DESK | sed s/^25/27/"), name),
        (but_for("'why 7'", "DESK | sed s/.*/1/"), name),
    ]);
}

/// The program, with what a line of sed does to what it prints, or to what it says, for these
/// words.
fn printed_so(words: &str, line: &str) -> String {
    but_for(words, &format!("DESK | sed -E '{line}'"))
}

fn said_so(words: &str, line: &str) -> String {
    let so = format!("{{ DESK 2>&1 >&3 | sed -E '{line}' >&2; }} 3>&1");
    but_for(words, &so)
}

/// Without the position, with it before the block, 20 in the place of 24, and the last one wrong.
const WRONG_REFUSALS: [&str; 4] = [
    "s/^(refused 24 [0-9]+) .*/\\1/",
    "s/^refused 24 ([0-9]+) (.*)/refused 24 \\2 \\1/",
    "s/^refused 24 /refused 20 /",
    "s/^(refused 24 .*) 59$/\\1 60/",
];

#[test]
fn a_listing_with_wrong_fields_is_found() {
    let name = "upper bits in each position";
    let lines = WRONG_REFUSALS.map(|line| (printed_so("''", line), name));
    must_be_found(&lines);
    let others = [
        ("s/^refused (18|19|20) [0-9]+$/& 0/", "empty input"),
        ("s/^refused 20 ([0-9]+)$/& 0/", "wrong contents in block 0"),
        ("s/^(refused 24 .*) 0$/\\1 1/", name),
        (
            "s/^refused 24 2 6$/refused 24 2 7/",
            "upper bits: the event",
        ),
        ("s/^refused 19 2$/refused 24 2 7/", "wrong check in block 2"),
        (
            "s/^refused 20 4$/refused 24 4 20/",
            "answered: the first of",
        ),
    ];
    must_be_found(&others.map(|(line, text)| (printed_so("''", line), text)));
}

#[test]
fn a_word_with_wrong_fields_is_found() {
    let name = "upper bits in each position";
    for line in WRONG_REFUSALS {
        must_be_found(&[
            (printed_so("'why 1'", line), name),
            (said_so("work", line), name),
            (said_so("export", line), name),
        ]);
    }
    let any = "s/^refused (18|19|20) [0-9]+$/& 0/";
    must_be_found(&[
        (printed_so("why*", any), "\"cut\""),
        (said_so("work", any), "work: empty input"),
        (said_so("export", any), "export: empty input"),
        (said_so("import", "s/^refused .*/& 0/"), "import: nothing"),
        // 24 printed, where it should be said.
        (
            but_for(
                "work",
                "{ DESK 2>&1 >&3 | { read -r l; case $l in 'refused 24'*) echo \"$l\" >&3;; \
                ?*) echo \"$l\" >&2;; esac; }; } 3>&1",
            ),
            name,
        ),
    ]);
}

#[test]
fn a_program_with_wrong_exports_is_found() {
    must_be_found(&[
        (but_for("export", "DESK | tr -d '\\r'"), "export: the paper"),
        (but_for("export", "DESK 2>&1"), "export: empty input"),
        (
            but_for("export", "DESK | head -c 65536"),
            "export: 3,780 events",
        ),
        (
            but_for("export", "head -c 32768 | DESK"),
            "export: 33,280 bytes",
        ),
    ]);
}

#[test]
fn a_program_with_wrong_imports_is_found() {
    must_be_found(&[
        (but_for("import", "DESK 2>/dev/null"), "import: nothing"),
        (
            but_for("import", "tr -d '\"' | DESK"),
            "import: a quote never",
        ),
        (
            but_for("import", "sed 's/\\r*$/\\r/' | DESK"),
            "import: no last line",
        ),
        (
            but_for(
                "import",
                "sed -z 's/[^\\r]\\n/\\r&/g;s/\\r\\(.\\)\\n/\\1\\r\\n/g' | DESK",
            ),
            "import: LF for CR LF",
        ),
        // An input of some length, and no more.
        (
            but_for("import", "head -c 131072 | DESK"),
            "\"right\", 1318951 bytes in pieces of 65536",
        ),
        // One read, and no more: found at whichever text a read does not take whole.
        (
            but_for("import", "dd bs=131072 count=1 2>/dev/null | DESK"),
            "[\"import\"]",
        ),
        // Records counted in 16 bits, or from 0.
        (said_so("import", "s/70005/4469/"), "\"a wrong answer\""),
        (said_so("import", "s/28 1$/28 0/"), "import: nothing"),
    ]);
}

#[test]
fn a_program_with_wrong_words_of_registers_is_found() {
    let taken_for = |words, others| but_for(words, &format!("set -- {others}; DESK"));
    must_be_found(&[
        (taken_for("'export x'", "export"), "[\"export\", \"x\"]"),
        (taken_for("'import '", "import"), "[\"import\", \"\"]"),
        // What is wrong from its start on is not read on.
        (
            but_for(
                "import",
                "h=$(dd bs=1 count=8 2>&-); case $h in posit*|'\"'posit*) ;; \
                *) echo refused 28 1 >&2; exit;; esac; { printf %s \"$h\"; cat; } | DESK",
            ),
            "[\"import\"]: 8 bytes were read",
        ),
        // A failed read is the end of the input, for these words.
        (
            but_for("export", "cat 2>/dev/null | DESK"),
            "[\"export\"], an input that fails",
        ),
        (
            but_for("import", "cat 2>/dev/null | DESK"),
            "[\"import\"], an input that fails",
        ),
    ]);
}

/// The program, but for a sheet of two tracks: there this line stands in its place.
fn but_for_two_tracks(words: &str, line: &str) -> String {
    let so = format!(
        "f=$(mktemp); if cat >$f 2>/dev/null; then case $(od -An -tu4 -N4 $f) in *' 2') {line};; \
        *) DESK <$f;; esac; else echo the input could not be read >&2; fi; rm $f"
    );
    but_for(words, &so)
}

#[test]
fn a_program_wrong_on_two_tracks_is_found() {
    let event = "s/^(([0-9]+ ){3}[0-9]+) [01]$/\\1/";
    let wrong = [
        (but_for_two_tracks("''", "echo refused 20 0"), "words []"),
        (
            but_for_two_tracks("work", "echo refused 20 0 >&2"),
            "\"our example\", words [\"work\"]",
        ),
        (
            but_for_two_tracks("'why '*", "echo refused 20 0"),
            "\"our example\", words [\"why\", \"2\"]",
        ),
        (
            but_for_two_tracks("export", "echo refused 21 0 >&2"),
            "\"our example\", words [\"export\"]",
        ),
        // No track in a line: of an event, of a section, of the event that is named.
        (printed_so("''", event), "line 1: "),
        (
            printed_so("''", "s/^(S( [0-9]+){10}) [01]$/\\1/"),
            "line 22: ",
        ),
        (printed_so("'why '*", event), "words [\"why\", \"11\"]"),
        // Room for the longest listing of one track.
        (
            but_for("''", "DESK | head -c 58000"),
            "\"3,780 events of two tracks\", words []",
        ),
    ];
    for (line, text) in wrong {
        let command = command(&["sh", "-c", &line, "sh"]);
        let found = programs::compare_fixed(&mut as_program(&command)).expect_err(&line);
        assert!(found.contains(text), "{line}: {found}");
    }
    let right = command(&[SERVER, "--desk"]);
    let count = programs::fixed_runs().len();
    assert_eq!(programs::compare_fixed(&mut as_program(&right)), Ok(count));
}

#[test]
fn some_inputs_that_fail_would_be_good_sheets() {
    let listed = |bytes: &Vec<u8>| !model::listing(bytes).starts_with("refused");
    assert_eq!(failing_inputs().into_iter().filter(listed).count(), 5);
    let imported = |text: &Vec<u8>| model::import(text, &mut [0; 32_768]).number == 0;
    assert_eq!(failing_texts().into_iter().filter(imported).count(), 5);
}

#[test]
fn the_sheet_of_everything_is_built() {
    let sheet = sheet_of_everything();
    assert_eq!(sheet.kinds.len(), 32);
    assert!((2..=4)
        .chain(17..=20)
        .all(|kind| sheet.kinds.contains(&kind)));
}
