//! Each call of two tracks through the wrapper: that pointers, counts and returned structs meet the C calling
//! convention, and that what is refused is left as it was.
mod common;

use common::{since, verdict};
use desk::tracks::{
    event, read, start, test, valid, why, work, write, Found, Worked, POLARISED, VIBRATED,
};
use desk::{Head, Post, Told, Verdict};
use model::both::{answered, table, unanswered, KINDS};
use model::{both, paper, renew_check};

const CIRCUITS: [(u32, &str); 2] = [(POLARISED, both::POLARISED), (VIBRATED, both::VIBRATED)];

/// The lines of our example at its end, after its answers one by one.
fn played(circuit: u32, text: &str) -> ([[Post; 3]; 2], Head) {
    let (mut first, mut second) = ([Post::default(); 3], [Post::default(); 3]);
    let mut told = start([&mut first, &mut second], [&KINDS, &KINDS], circuit, 0);
    assert_eq!((told.answer, told.head), (0, Head::default()));
    let (events, tracks) = answered(text);
    for ([number, place, answer, stamp], track) in events.into_iter().zip(tracks) {
        let step = [track, number, place, stamp];
        let before = (first, second, told.head);
        told = event([&mut first, &mut second], circuit, told.head, step);
        assert_eq!(told.answer, answer, "{step:?}");
        if answer != 0 {
            assert_eq!(before, (first, second, told.head), "{step:?}");
        }
    }
    ([first, second], told.head)
}

/// What a line of a listing says of a section: a, r, x, q, e, y, v, g, h.
fn section(row: &[Post], at: usize) -> [u32; 9] {
    let (up, down) = (row[at], row[at + 1]);
    let held = u32::from(up.word & desk::relay::RL == 0);
    [up.a, down.r, up.x, down.q, down.e, up.y, up.v, up.g, held]
}

/// The lines of the sections that end a listing.
fn sections(rows: [&[Post]; 2]) -> String {
    let mut text = String::new();
    for (track, row) in rows.into_iter().enumerate() {
        for at in 0..row.len() - 1 {
            let counts = section(row, at).map(|count| count.to_string()).join(" ");
            text += &format!("S {at} {counts} {track}\n");
        }
    }
    text
}

#[test]
fn our_example_event_by_event() {
    for (circuit, text) in CIRCUITS {
        let (rows, head) = played(circuit, text);
        let lines = [&rows[0][..], &rows[1]];
        assert!(text.ends_with(&sections(lines)));
        assert!(valid(lines, circuit, head));
        assert!(!valid(lines, 2, head));
        assert!(!valid([&rows[0], &rows[1][..2]], circuit, head));
        assert!(!valid(lines, circuit, Head::default()));
    }
}

/// A signal on each track between the same two posts may be with vibrated current alone.
#[test]
fn two_signals_between_two_posts() {
    let (mut first, mut second) = ([Post::default(); 3], [Post::default(); 3]);
    let rows = [&mut first[..], &mut second];
    let mut head = start(rows, [&KINDS, &KINDS], VIBRATED, 7).head;
    for step in [[0, 5, 0, 7], [1, 5, 1, 7]] {
        let told = event([&mut first, &mut second], VIBRATED, head, step);
        assert_eq!(told.answer, 0);
        head = told.head;
    }
    assert_eq!(head, Head { taken: 2, last: 7 });
    assert!(valid([&first, &second], VIBRATED, head));
    assert!(!valid([&first, &second], POLARISED, head));
    let told = event([&mut first, &mut second], POLARISED, head, [0, 2, 0, 7]);
    assert_eq!((told.answer, told.head), (1, head));
}

#[test]
fn a_start_or_a_track_refused() {
    let marked = Post {
        word: 9,
        ..Post::default()
    };
    let (mut first, mut second) = ([marked; 3], [marked; 3]);
    let refused = Told {
        answer: 1,
        head: Head::default(),
    };
    let (right, short, wrong) = (&KINDS[..], &paper::KINDS[..], &[0, 0, 1][..]);
    for (tables, circuit) in [
        ([right, right], 2),
        ([right, short], 0),
        ([short, right], 1),
        ([wrong, right], 0),
        ([right, wrong], 1),
    ] {
        let told = start([&mut first, &mut second], tables, circuit, 5);
        assert_eq!(told, refused, "{tables:?} on {circuit}");
    }
    let told = start([&mut first, &mut second[..2]], [right, short], 0, 5);
    assert_eq!(told, refused);
    assert_eq!((first, second), ([marked; 3], [marked; 3]));
    let head = start([&mut first, &mut second], [right, right], 1, 5).head;
    for (step, answer) in [([2, 1, 0, 5], 2), ([u32::MAX, 13, 0, 5], 3)] {
        let told = event([&mut first, &mut second], 1, head, step);
        assert_eq!((told.answer, told.head), (answer, head));
    }
}

/// Our example as a sheet, unanswered and answered.
fn sheets(circuit: u32, text: &str) -> [[u8; 1024]; 2] {
    [unanswered(text), answered(text)].map(|(events, tracks)| {
        let mut sheet = [0; 1024];
        let number = write(2, &table(circuit), 0, &events, &tracks, &mut sheet);
        assert_eq!(number, 0);
        sheet
    })
}

#[test]
fn our_example_as_a_sheet() {
    for (circuit, text) in CIRCUITS {
        let [sheet, right] = sheets(circuit, text);
        assert_eq!(test(&sheet), Verdict::default());
        let mut out = [7; 1025];
        let worked = work(&sheet, &mut out);
        let lines = [worked.first.posts(), worked.second.posts()];
        assert_eq!((worked.number, worked.tracks), (0, 2));
        assert_eq!((&out[..1024], out[1024]), (&right[..], 7));
        assert!(text.ends_with(&sections(lines)));
        let (rows, head) = played(circuit, text);
        assert_eq!((lines, worked.head), ([&rows[0][..], &rows[1]], head));
        let (mut words, mut events, mut tracks) = ([9; 8], [[9; 4]; 22], [9; 22]);
        let found = read(&right, &mut words, &mut events, &mut tracks);
        let expected = Found {
            tracks: 2,
            posts: 3,
            events: 21,
            ..Found::default()
        };
        assert_eq!(found, expected);
        assert_eq!((&words[..7], words[7]), (&table(circuit)[..], 9));
        let pair = (events[..21].to_vec(), tracks[..21].to_vec());
        assert_eq!(pair, answered(text));
        assert_eq!((events[21], tracks[21]), ([9; 4], 9));
    }
}

#[test]
fn a_sheet_of_one_track() {
    let (events, tracks) = (paper::EXAMPLE.unanswered(), [0; 15]);
    let (mut sheet, mut same, mut out) = ([0; 1024], [0; 1024], [0; 1024]);
    assert_eq!(write(1, &paper::KINDS, 0, &events, &tracks, &mut sheet), 0);
    assert_eq!(desk::write(&paper::KINDS, 0, &events, &mut same), 0);
    assert_eq!(sheet, same);
    let worked = work(&sheet, &mut out);
    let lines = (worked.first.posts().len(), worked.second.posts().len());
    assert_eq!((worked.number, worked.tracks, lines), (0, 1, (2, 0)));
    assert_eq!(worked.first, desk::work(&sheet, &mut same).row);
    assert_eq!(out, same);
    assert_eq!(why(&out, 5), since(0, 0, 2));
    let mut room = ([9; 2], [[9; 4]; 15], [9; 15]);
    let found = read(&out, &mut room.0, &mut room.1, &mut room.2);
    assert_eq!((found.tracks, found.posts, found.events), (1, 2, 15));
    assert_eq!(room.2, [0; 15]);
}

#[test]
fn since_when_on_each_track() {
    let [_, sheet] = sheets(POLARISED, both::POLARISED);
    for (position, line) in both::SINCE {
        let named = line
            .split(' ')
            .next()
            .and_then(|word| word.trim().parse().ok());
        assert_eq!(why(&sheet, position), since(0, 0, named.unwrap_or(99)));
    }
    // Answered 25, taken, and not there.
    for position in [2, 1, 0, 22] {
        assert_eq!(why(&sheet, position), since(29, 0, 0));
    }
}

/// Each call that reads a sheet of either form refuses it so, and writes nothing.
fn refused_so(sheet: &[u8], right: Verdict) {
    let Verdict {
        number,
        block,
        position,
    } = right;
    assert_eq!(test(sheet), right);
    let (mut words, mut events, mut tracks) = ([9; 65], [[9; 4]; 60], [9; 60]);
    let found = Found {
        number,
        block,
        position,
        ..Found::default()
    };
    assert_eq!(read(sheet, &mut words, &mut events, &mut tracks), found);
    let mut out = [7; 2048];
    let worked = work(sheet, &mut out);
    let Worked {
        tracks: count,
        first,
        second,
        head,
        ..
    } = worked;
    let three = (worked.number, worked.block, worked.position);
    assert_eq!(three, (number, block, position));
    assert_eq!((count, head), (0, Head::default()));
    assert!(first.posts().is_empty() && second.posts().is_empty());
    assert_eq!(why(sheet, 1), since(number, block, position));
    assert_eq!((words, events, tracks), ([9; 65], [[9; 4]; 60], [9; 60]));
    assert_eq!(out, [7; 2048]);
}

#[test]
fn sheets_refused() {
    let [good, _] = sheets(VIBRATED, both::VIBRATED);
    // Track 1's last kind, track 2's first, the circuit, and the word behind it.
    for word in [5, 6, 9, 10] {
        let mut sheet = good;
        sheet[4 * word] ^= 2;
        renew_check(&mut sheet[..512], 0);
        refused_so(&sheet, verdict(20, 0, 0));
    }
    let mut sheet = good;
    sheet[512 + 4 + 8 * 20 + 2] |= 2;
    refused_so(&sheet, verdict(19, 1, 0));
    renew_check(&mut sheet[512..], 1);
    refused_so(&sheet, verdict(24, 1, 20));
    refused_so(&good[..1023], verdict(18, 0, 0));
    refused_so(&[], verdict(18, 0, 0));
    // Rooms too short by one: 21, last.
    let (mut words, mut events, mut tracks) = ([9; 7], [[9; 4]; 21], [9; 21]);
    for short in 0..3 {
        let [k, m, t] = [0, 1, 2].map(|room| usize::from(room == short));
        let rooms = (&mut words[k..], &mut events[m..], &mut tracks[t..]);
        assert_eq!(read(&good, rooms.0, rooms.1, rooms.2).number, 21);
    }
    assert_eq!((words, events, tracks), ([9; 7], [[9; 4]; 21], [9; 21]));
    assert_eq!(work(&good, &mut [0; 1023]).number, 21);
}

/// The calls of one track name block 0.
#[test]
fn two_tracks_are_not_for_the_calls_of_one() {
    let [mut sheet, _] = sheets(POLARISED, both::POLARISED);
    for _ in 0..2 {
        let mut out = [7; 1024];
        let told = desk::test(&sheet);
        assert_eq!((told.number, told.block), (20, 0));
        assert_eq!(
            desk::read(&sheet, &mut [9; 9], &mut [[9; 4]; 30]).number,
            20
        );
        assert_eq!(desk::work(&sheet, &mut out).number, 20);
        assert_eq!(desk::why(&sheet, 17), since(20, 0, 0));
        let told = desk::export(&sheet, &mut out);
        assert_eq!((told.number, told.block), (20, 0));
        assert_eq!(out, [7; 1024]);
        // Then with a later block spoiled, which is not looked at.
        sheet[600] ^= 1;
    }
}

#[test]
fn writes_refused() {
    let (events, tracks) = unanswered(both::POLARISED);
    let (table, mut out) = (table(POLARISED), [7; 1024]);
    let mut refused = |form, words: &[u32], events: &[[u32; 4]], tracks: &[u32], room| {
        let number = write(form, words, 0, events, tracks, &mut out[..room]);
        assert_eq!(out, [7; 1024]);
        number
    };
    for form in [0, 1, 3] {
        assert_eq!(refused(form, &table, &events, &tracks, 1024), 1);
    }
    assert_eq!(refused(2, &table[..6], &events, &tracks, 1024), 1);
    assert_eq!(refused(2, &both::table(2), &events, &tracks, 1024), 1);
    assert_eq!(refused(2, &table, &events, &[2; 21], 1024), 20);
    assert_eq!(refused(2, &table, &events, &tracks[1..], 1024), 20);
    assert_eq!(refused(1, &KINDS, &events, &tracks, 1024), 20);
    assert_eq!(refused(2, &table, &[[32, 0, 31, 0]], &[0], 1024), 20);
    assert_eq!(
        refused(2, &table, &[[1, 0, 31, 0]; 3781], &[1; 3781], 0),
        18
    );
    assert_eq!(refused(2, &table, &events, &tracks, 1023), 21);
}

#[test]
fn empty_slices() {
    let told = start([&mut [], &mut []], [&[], &[]], 0, 5);
    assert_eq!((told.answer, told.head), (1, Head::default()));
    assert!(!valid([&[], &[]], 0, Head::default()));
    let told = event([&mut [], &mut []], 0, Head::default(), [0, 1, 0, 0]);
    assert_eq!(told.answer, 1);
    assert_eq!(write(2, &[], 0, &[], &[], &mut []), 1);
    assert_eq!(write(2, &table(0), 0, &[], &[], &mut []), 21);
    assert_eq!(read(&[], &mut [], &mut [], &mut []).number, 18);
}
