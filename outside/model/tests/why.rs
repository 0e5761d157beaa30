//! 02, item 1: since when, and what the program prints of it.

mod common;

use common::{fifteen, sheet, work_whole};
use model::program::{asked, wrote, Asked, Wrote, USAGE};
use model::*;

/// The worked sheet of these events, each a number and a place, all at stamp 0.
fn worked(kinds: &[u32], events: &[(u32, u32)]) -> Vec<u8> {
    let entry = |&(number, place): &(u32, u32)| [number, place, UNANSWERED, 0];
    let events: Vec<Entry> = events.iter().map(entry).collect();
    work_whole(&sheet(kinds, 0, &events))
}

fn refused(number: u32, block: u32) -> Since {
    Since {
        number,
        block,
        position: 0,
    }
}

/// Kinds, events, the answer of the last event, and the event that is named.
type Example = (&'static [u32], &'static [(u32, u32)], u32, u32);

const EXAMPLES: &[Example] = &[
    // P 11: RL is up from the start.
    (&[0, 4, 1], &[(5, 0), (8, 0), (3, 1), (6, 1)], 13, 0),
    // The same after a restoration, and after a release that arrived.
    (
        &[0, 4, 1],
        &[(5, 1), (9, 1), (10, 1), (5, 0), (8, 0), (3, 1), (6, 1)],
        13,
        3,
    ),
    (
        &[0, 3, 1],
        &[
            (5, 1),
            (8, 1),
            (3, 2),
            (6, 2),
            (8, 1),
            (5, 0),
            (8, 0),
            (3, 1),
            (6, 1),
        ],
        13,
        5,
    ),
    // Announced twice; and again after a restoration.
    (&[0, 1], &[(5, 0), (5, 0)], 9, 1),
    (&[0, 1], &[(5, 0), (9, 0), (10, 0), (5, 0), (5, 0)], 9, 4),
    // A neighbour's announcement is not this post's.
    (&[0, 2, 1], &[(5, 1), (5, 0), (5, 1)], 9, 1),
    // RL is dropped by the announcement, L by the strike before it.
    (&[0, 1], &[(1, 0), (4, 0), (2, 0), (5, 0), (5, 0)], 9, 4),
    (&[0, 2, 1], &[(1, 1), (4, 1), (2, 1), (5, 1), (1, 1)], 8, 2),
    // A second strike finds L down.
    (&[0, 1], &[(1, 0), (4, 0), (4, 0), (2, 0), (1, 0)], 8, 2),
    // A strike with a normal lever drops nothing.
    (&[0, 1], &[(4, 0), (5, 0), (1, 0)], 8, 2),
    // At kinds 3 and 4 only the announcement drops L.
    (&[0, 3, 1], &[(1, 1), (2, 1), (5, 1), (1, 1)], 8, 3),
    // Refused events between, of the same post and the same number.
    (&[0, 1], &[(5, 0), (1, 0), (5, 0), (1, 0), (1, 0)], 8, 1),
];

#[test]
fn since_when() {
    for &(kinds, events, answer, position) in EXAMPLES {
        let sheet = worked(kinds, events);
        let mut entries = vec![[0; 4]; events.len()];
        assert_eq!(read(&sheet, &mut [0; 3], &mut entries).number, 0);
        assert_eq!(entries[events.len() - 1][2], answer, "{kinds:?} {events:?}");
        let since = Since {
            position,
            ..Since::default()
        };
        let asked = why(&sheet, events.len() as u32);
        assert_eq!(asked, since, "{kinds:?} {events:?}");
    }
}

#[test]
fn the_papers_fifteen_events() {
    let sheet = work_whole(&fifteen());
    for position in 0..=17 {
        let expected = match position {
            5 | 13 => Since {
                position: 2,
                ..Since::default()
            },
            _ => refused(29, 0),
        };
        assert_eq!(why(&sheet, position), expected, "{position}");
    }
    for position in [1 << 16 | 5, 1 << 31 | 5, u32::MAX] {
        assert_eq!(why(&sheet, position), refused(29, 0));
    }
}

#[test]
fn every_answer_is_compared() {
    let right = paper::EXAMPLE.answered();
    let asked = |events: &[Entry]| why(&sheet(&paper::KINDS, 0, events), 5).number;
    assert_eq!(asked(&right), 0);
    assert_eq!(asked(&paper::EXAMPLE.unanswered()), 29);
    for at in 0..right.len() {
        for answer in (0..32).filter(|&answer| answer != right[at][2]) {
            let mut events = right.clone();
            events[at][2] = answer;
            assert_eq!(asked(&events), 29, "event {at} answered {answer}");
        }
    }
    // An answer that would do, where working gives another.
    let mut events = paper::EXAMPLE.answered();
    events[0][2] = 8;
    assert_eq!(why(&sheet(&paper::KINDS, 0, &events), 1), refused(29, 0));
    assert_eq!(why(&sheet(&paper::KINDS, 0, &[]), 1), refused(29, 0));
}

#[test]
fn reading_refuses_first() {
    let good = work_whole(&fifteen());
    for position in [0, 5, 99] {
        assert_eq!(why(&[], position), refused(18, 0));
        assert_eq!(why(&good[..1000], position), refused(18, 0));
        let mut bytes = good.clone();
        bytes[512 + 4 * 126] = 1;
        assert_eq!(why(&bytes, position), refused(19, 1));
        renew_check(&mut bytes[512..], 1);
        assert_eq!(why(&bytes, position), refused(20, 1));
    }
}

#[test]
fn what_the_program_writes() {
    let paper = fifteen();
    let sheet = work_whole(&paper);
    assert_eq!(
        wrote(Asked::Listing, &paper),
        Wrote::printing(paper::LISTING)
    );
    let printed = Wrote {
        printed: sheet.clone(),
        ..Wrote::default()
    };
    assert_eq!(wrote(Asked::Worked, &paper), printed);
    assert_eq!(
        wrote(Asked::Worked, &sheet),
        Wrote::saying("refused 20 1\n")
    );
    assert_eq!(wrote(Asked::Worked, &[]), Wrote::saying("refused 18 0\n"));
    let case_11 = worked(&[0, 4, 1], EXAMPLES[0].1);
    let texts: [(&[u8], u32, &str); 6] = [
        (&sheet, 5, "2 4 0 0\n"),
        (&sheet, 13, "2 4 0 0\n"),
        (&case_11, 4, "0\n"),
        (&sheet, 1, "refused 29 0\n"),
        (&paper, 5, "refused 29 0\n"),
        (&sheet[1..], 5, "refused 18 0\n"),
    ];
    for (sheet, position, text) in texts {
        assert_eq!(wrote(Asked::Why(position), sheet), Wrote::printing(text));
    }
}

#[test]
fn the_programs_words() {
    assert_eq!(asked(&[]), Some(Asked::Listing));
    assert_eq!(asked(&["work"]), Some(Asked::Worked));
    for (word, position) in [("0", 0), ("5", 5), ("4294967295", u32::MAX)] {
        assert_eq!(asked(&["why", word]), Some(Asked::Why(position)));
    }
    let wrong = [
        "05",
        "00",
        "+5",
        "-1",
        " 5",
        "5 ",
        "5x",
        "",
        "4294967296",
        "5555555555555555555555555555555555555555",
    ];
    for word in wrong {
        assert_eq!(asked(&["why", word]), None, "{word:?}");
    }
    let lines: [&[&str]; 5] = [
        &["list"],
        &[""],
        &["work", "5"],
        &["why"],
        &["why", "5", "5"],
    ];
    for words in lines {
        assert_eq!(asked(words), None, "{words:?}");
    }
    assert_eq!(
        USAGE,
        "usage: desk [work | why POSITION | export | import] <INPUT\n"
    );
}
