//! 02, item 7: the sheet of two tracks, its listing, since when, and what has no register.

mod common;

use common::two::{Any, Two, CIRCUITS};
use common::{set_word, sheet, word};
use model::both::{answered, unanswered, POLARISED, VIBRATED};
use model::number::*;
use model::program::{wrote, wrote_tracks, Asked, Wrote};
use model::*;

/// Of two tracks: an event with its track.
type Tracked = (Entry, u32);

const ONE: [u32; 3] = [0, 3, 17];
const OTHER: [u32; 3] = [0, 18, 1];

/// Track 1's kinds, track 2's, the circuit.
fn table(circuit: u32) -> Vec<u32> {
    [&ONE[..], &OTHER, &[circuit]].concat()
}

fn written(form: u32, table: &[u32], stamp: u32, events: &[Tracked]) -> Vec<u8> {
    let (entries, tracks): (Vec<Entry>, Vec<u32>) = events.iter().copied().unzip();
    let mut out = vec![0; sheet_length(events.len())];
    let number = write_tracks(form, table, stamp, &entries, &tracks, &mut out);
    assert_eq!(number, TAKEN);
    out
}

/// The sheet of 130 events of both tracks, none of them answered, so that blocks 1 and 2 hold 60
/// and block 3 holds 10.
fn good() -> Vec<u8> {
    let event = |k: u32| ([1 + k % 12, k % 3, UNANSWERED, 7 * k], k % 2);
    let events: Vec<Tracked> = (0..130).map(event).collect();
    written(2, &table(0), 5, &events)
}

fn seal(bytes: &mut [u8], block: usize) {
    renew_check(&mut bytes[512 * block..][..512], block as u32);
}

/// This word of a block, under a right check.
fn with(mut bytes: Vec<u8>, block: usize, at: usize, value: u32) -> Vec<u8> {
    set_word(&mut bytes, 128 * block + at, value);
    seal(&mut bytes, block);
    bytes
}

fn said(number: u32, block: u32, position: u32) -> Verdict {
    Verdict {
        number,
        block,
        position,
    }
}

/// What reading finds in wide rooms: table, events, tracks.
fn read_wide(bytes: &[u8]) -> (FoundTracks, Vec<u32>, Vec<Tracked>) {
    let (mut table, mut events) = (vec![9; 65], vec![[9; 4]; MOST_EVENTS]);
    let mut tracks = vec![9; MOST_EVENTS];
    let found = read_tracks(bytes, &mut table, &mut events, &mut tracks);
    let words = match found.tracks {
        2 => 2 * found.posts as usize + 1,
        _ => found.posts as usize,
    };
    assert!(table[words..].iter().all(|&word| word == 9));
    table.truncate(words);
    events.truncate(found.events as usize);
    (found, table, events.into_iter().zip(tracks).collect())
}

/// Every call that reads both forms refuses it so, and alters nothing.
fn all_say(bytes: &[u8], right: Verdict) {
    let Verdict {
        number,
        block,
        position,
    } = right;
    assert_eq!(test_tracks(bytes), right);
    assert_eq!(read_wide(bytes), (right.into(), vec![], vec![]));
    let mut out = vec![9; bytes.len()];
    assert_eq!(work_tracks(bytes, &mut out), right.into());
    assert_eq!(export_tracks(bytes, &mut out), right.into());
    assert!(out.iter().all(|&byte| byte == 9));
    assert_eq!(why_tracks(bytes, 1), right.into());
    let line = match number {
        24 => format!("refused 24 {block} {position}\n"),
        _ => format!("refused {number} {block}\n"),
    };
    assert_eq!(listing_tracks(bytes), line);
    assert_eq!(wrote_tracks(Asked::Listing, bytes), Wrote::printing(&line));
    assert_eq!(wrote_tracks(Asked::Why(1), bytes), Wrote::printing(&line));
    assert_eq!(wrote_tracks(Asked::Worked, bytes), Wrote::saying(&line));
    assert_eq!(wrote_tracks(Asked::Exported, bytes), Wrote::saying(&line));
}

/// Every call of one track refuses it so.
fn one_track_says(bytes: &[u8], right: Verdict) {
    assert_eq!(test(bytes), right);
    let (mut kinds, mut events) = ([9; 65], vec![[9; 4]; MOST_EVENTS]);
    assert_eq!(read(bytes, &mut kinds, &mut events), right.into());
    let mut out = vec![9; bytes.len().max(MOST_TEXT)];
    assert_eq!(work(bytes, &mut out), right.into());
    assert_eq!(export(bytes, &mut out), right.into());
    assert_eq!(why(bytes, 1), right.into());
    let line = format!("refused {} {}\n", right.number, right.block);
    assert_eq!(listing(bytes), line);
    assert_eq!(wrote(Asked::Worked, bytes), Wrote::saying(&line));
}

/// "A two-track sheet has 2 in word 0, track 2's kinds after track 1's, then the circuit kind."
#[test]
fn word_by_word() {
    let events: &[Tracked] = &[
        ([5, 2, 31, 77], 1),
        ([31, 63, 31, u32::MAX], 0),
        ([0; 4], 1),
    ];
    let bytes = written(2, &table(1), 1234, events);
    let front = [2, 3, 1234, 0, 3, 17, 0, 18, 1, 1];
    // 5 | 2 << 5 | 31 << 11 | 1 << 16 is 129093, and all fields full with no track 65535.
    let later = [3, 129_093, 77, 65_535, u32::MAX, 65_536, 0];
    for (block, words) in [&front[..], &later].into_iter().enumerate() {
        let held: Vec<u32> = (0..127).map(|at| word(&bytes, 128 * block + at)).collect();
        assert_eq!(&held[..words.len()], words);
        assert!(held[words.len()..].iter().all(|&word| word == 0));
    }
    // 317944 less the words: 2, 3, 1234, 20, 19 and 1.
    assert_eq!(word(&bytes, 127), 317_944 - 1279);
    assert_eq!(test_tracks(&bytes), Verdict::default());
}

/// 2N + 1 words at N = 2 and N = 32: words 3 to 7, and 3 to 67.
#[test]
fn as_many_words_as_the_tables_have() {
    let mut any = Any(77);
    for (posts, past) in [(2, 8), (32, 68)] {
        let table = [any.table(posts), any.table(posts), vec![1]].concat();
        assert_eq!(table.len() + 3, past);
        let bytes = written(2, &table, 0, &[]);
        let (found, read, events) = read_wide(&bytes);
        assert_eq!((found.tracks, found.posts, found.events), (2, posts, 0));
        assert_eq!((read, events), (table.clone(), vec![]));
        assert_eq!(word(&bytes, past - 1), 1);
        all_say(&with(bytes.clone(), 0, past - 1, 2), said(20, 0, 0));
        for at in [past, past + 1, 126] {
            all_say(&with(bytes.clone(), 0, at, 1), said(20, 0, 0));
        }
        // One post more or less leaves words that don't fit.
        for n in [posts - 1, posts + 1] {
            all_say(&with(bytes.clone(), 0, 1, n), said(20, 0, 0));
        }
        let refused = |table: &[u32]| write_tracks(2, table, 0, &[], &[], &mut [0; 512]);
        assert_eq!(refused(&table), TAKEN);
        assert_eq!(refused(&table[..table.len() - 1]), NOT_VALID);
        assert_eq!(refused(&[&table[..], &[0]].concat()), NOT_VALID);
    }
    let long = [any.table(33), any.table(33), vec![0]].concat();
    assert_eq!(
        write_tracks(2, &long, 0, &[], &[], &mut [0; 512]),
        NOT_VALID
    );
}

/// Each word of block 0 in turn with each of these values: right where the table says so.
#[test]
fn each_word_of_block_0() {
    const VALUES: [u32; 12] = [0, 1, 2, 3, 4, 5, 16, 17, 20, 21, 1 << 16, u32::MAX];
    let middle = [2, 3, 4, 18, 19, 20];
    for at in 0..127 {
        for value in VALUES {
            let allowed = match at {
                0 => value == 2,
                1 => value == 3,
                2 => true,
                3 | 6 => value == 0,
                4 | 7 => middle.contains(&value),
                5 | 8 => value == 1 || value == 17,
                9 => value <= 1,
                _ => value == 0,
            };
            let bytes = with(good(), 0, at, value);
            match allowed {
                true => assert_eq!(test_tracks(&bytes), Verdict::default()),
                false => all_say(&bytes, said(20, 0, 0)),
            }
        }
    }
    let mut unchecked = with(good(), 0, 9, 2);
    unchecked[511] ^= 1;
    all_say(&unchecked, said(19, 0, 0));
}

/// A table of two tracks under a 1 and one of one track under a 2 are wrong.
#[test]
fn the_other_form_in_word_0() {
    all_say(&with(good(), 0, 0, 1), said(20, 0, 0));
    let one = sheet(&ONE, 0, &[[1, 0, 31, 0]]);
    assert_eq!(test_tracks(&one), Verdict::default());
    all_say(&with(one, 0, 0, 2), said(20, 0, 0));
    for form in [0, 3, 4, 1 << 16 | 1, 1 << 16 | 2, u32::MAX] {
        all_say(&with(good(), 0, 0, form), said(20, 0, 0));
    }
}

/// "24 there speaks of bits 17 to 31", in a one-track sheet of 16 to 31.
#[test]
fn upper_bits_in_both_forms() {
    let event = |k: u32| ([1 + k % 12, k % 3, UNANSWERED, 7 * k], 0);
    let events: Vec<Tracked> = (0..130).map(event).collect();
    let forms = [(1, ONE.to_vec()), (2, table(1))];
    for (form, table) in forms {
        let bytes = written(form, &table, 5, &events);
        for (block, position) in [(1, 0), (1, 59), (2, 7), (3, 9)] {
            let at = 1 + 2 * position;
            for bit in 16..32 {
                let value = word(&bytes, 128 * block + at) | 1 << bit;
                let changed = with(bytes.clone(), block, at, value);
                let (block, position) = (block as u32, position as u32);
                if (form, bit) == (2, 16) {
                    let (_, _, found) = read_wide(&changed);
                    let place = 60 * (block as usize - 1) + position as usize;
                    let mut right = events.clone();
                    right[place].1 = 1;
                    assert_eq!(found, right);
                } else {
                    all_say(&changed, said(24, block, position));
                }
            }
        }
        // 24 after 20 for the count, and before 20 for words that should be zero.
        let bad = with(bytes, 3, 1, 1 << 17);
        all_say(&with(bad.clone(), 3, 126, 1), said(24, 3, 0));
        all_say(&with(bad.clone(), 3, 0, 0), said(20, 3, 0));
        // An event word past the count is a word that should be zero.
        let past = with(with(bad, 3, 1, 1), 3, 1 + 2 * 10, 1 << 16);
        all_say(&past, said(20, 3, 0));
    }
}

/// For the calls of one track, a sheet of two has wrong contents in block 0; and the length and
/// that block's check come first.
#[test]
fn calls_of_one_track_refuse_it() {
    one_track_says(&good(), said(20, 0, 0));
    one_track_says(&good()[1..], said(18, 0, 0));
    let mut unchecked = good();
    unchecked[511] ^= 1;
    one_track_says(&unchecked, said(19, 0, 0));
    // A later block is not reached.
    one_track_says(&with(good(), 2, 3, 1 << 17), said(20, 0, 0));
}

/// A sheet of one track is to the calls of both what it was.
#[test]
fn one_track_by_both_calls() {
    let events = paper::EXAMPLE.unanswered();
    let bytes = sheet(&paper::KINDS, 0, &events);
    let (found, kinds, tracked) = read_wide(&bytes);
    assert_eq!((found.tracks, found.posts, found.events), (1, 2, 15));
    assert_eq!(kinds, paper::KINDS);
    assert_eq!(tracked, events.iter().map(|e| (*e, 0)).collect::<Vec<_>>());
    let (mut one, mut both) = (vec![0; bytes.len()], vec![0; bytes.len()]);
    let worked = work_tracks(&bytes, &mut both);
    assert_eq!((worked.tracks, &worked.second), (1, &vec![]));
    assert_eq!(work(&bytes, &mut one), worked.into());
    assert_eq!(one, both);
    assert_eq!(listing_tracks(&bytes), paper::LISTING);
    for position in 0..17 {
        assert_eq!(why_tracks(&one, position), why(&one, position));
    }
    let register = wrote_tracks(Asked::Exported, &one);
    assert_eq!(register, Wrote::printing(paper::REGISTER));
}

/// What writing returns into a room of so many bytes, which a refusal leaves as it was.
fn returned(form: u32, table: &[u32], events: &[Entry], tracks: &[u32], room: usize) -> u32 {
    let mut out = vec![9; room];
    let number = write_tracks(form, table, 0, events, tracks, &mut out);
    assert!(number == 0 || out.iter().all(|&byte| byte == 9));
    number
}

const EVENT: Entry = [1, 0, UNANSWERED, 0];

/// 1 for a form that is neither, for each table and for the circuit; before all else.
#[test]
fn writing_tests_1_first() {
    let right = table(0);
    for form in [0, 3, 1 << 16, u32::MAX] {
        assert_eq!(returned(form, &right, &[EVENT], &[0], 1024), 1);
        assert_eq!(returned(form, &ONE, &[EVENT], &[2], 0), 1);
    }
    assert_eq!(returned(1, &right, &[EVENT], &[0], 1024), 1);
    assert_eq!(returned(2, &ONE, &[EVENT], &[0], 1024), 1);
    assert_eq!(returned(2, &table(2), &[[32, 0, 0, 0]], &[], 0), 1);
    assert_eq!(returned(2, &[], &[], &[], 1024), 1);
    assert_eq!(returned(2, &[0], &[], &[], 1024), 1);
    for at in 0..6 {
        let mut table = right.clone();
        table[at] = 5;
        assert_eq!(returned(2, &table, &[EVENT], &[0], 1024), 1);
    }
}

/// 20 for a track out of its field, one without an event, an event without one, and a field; then
/// 18, then 21.
#[test]
fn writing_tests_20_18_21() {
    let many = vec![EVENT; MOST_EVENTS + 1];
    let zeros = vec![0; MOST_EVENTS + 1];
    for (form, table) in [(1, &ONE[..]), (2, &table(0))] {
        for track in [form, 2, 3, 1 << 16, u32::MAX] {
            assert_eq!(returned(form, table, &[EVENT, EVENT], &[0, track], 0), 20);
        }
        assert_eq!(returned(form, table, &[EVENT], &[form - 1], 1024), 0);
        assert_eq!(returned(form, table, &[EVENT], &[], 1024), 20);
        assert_eq!(returned(form, table, &[], &[0], 512), 20);
        assert_eq!(returned(form, table, &[EVENT], &[0, 0], 1024), 20);
        assert_eq!(returned(form, table, &[[1, 64, 0, 0]], &[0], 0), 20);
        assert_eq!(returned(form, table, &many, &zeros[1..], 0), 20);
        assert_eq!(returned(form, table, &many, &zeros, 0), 18);
        let (most, tracks) = (&many[1..], &zeros[1..]);
        assert_eq!(returned(form, table, most, tracks, 32_767), 21);
        assert_eq!(returned(form, table, most, tracks, 32_768), 0);
        assert_eq!(returned(form, table, &[EVENT], &[0], 1023), 21);
        assert_eq!(returned(form, table, &[EVENT], &[0], 1024), 0);
    }
}

/// 21, last, where any of the three rooms is too short.
#[test]
fn rooms() {
    let (bytes, one) = (good(), sheet(&ONE, 0, &[[1, 0, 31, 0]; 3]));
    for (bytes, words, count) in [(&bytes, 7, 130), (&one, 3, 3)] {
        for short in 0..8 {
            let less = |room: usize, bit: usize| room - (short >> bit & 1);
            let mut table = vec![9; less(words, 0)];
            let mut events = vec![[9; 4]; less(count, 1)];
            let mut tracks = vec![9; less(count, 2)];
            let found = read_tracks(bytes, &mut table, &mut events, &mut tracks);
            if short == 0 {
                assert_eq!((found.number, found.events as usize), (0, count));
                continue;
            }
            assert_eq!(found, said(21, 0, 0).into());
            assert!(table.iter().chain(&tracks).all(|&word| word == 9));
            assert!(events.concat().iter().all(|&word| word == 9));
        }
        // A bad block comes before a room.
        let bad = with(bytes.clone(), 1, 126, 1);
        assert_eq!(read_tracks(&bad, &mut [], &mut [], &mut []).number, 20);
    }
}

/// "A sheet that was written reads back as its table and events. An accepted sheet, read and
/// written again, has the same bytes."
#[test]
fn there_and_back() {
    let mut any = Any(5);
    for count in [0, 1, 59, 60, 61, 120, 121, MOST_EVENTS] {
        for form in [1, 2] {
            let posts = 2 + any.below(31);
            let table = match form {
                1 => any.table(posts),
                _ => [any.table(posts), any.table(posts), vec![any.below(2)]].concat(),
            };
            let events: Vec<Tracked> = (0..count)
                .map(|_| {
                    let fields = [any.below(32), any.below(64), any.below(32)];
                    let [number, post, answer] = fields;
                    ([number, post, answer, any.below(u32::MAX)], any.below(form))
                })
                .collect();
            let bytes = written(form, &table, any.below(u32::MAX), &events);
            let (found, read, tracked) = read_wide(&bytes);
            assert_eq!((found.tracks, found.posts), (form, posts));
            assert_eq!((&read, &tracked), (&table, &events));
            assert_eq!(written(form, &read, found.stamp, &tracked), bytes);
        }
    }
}

/// The sheet of our example, on this circuit.
fn of_listing(circuit: u32, (events, tracks): (Vec<Entry>, Vec<u32>)) -> Vec<u8> {
    let tracked: Vec<Tracked> = events.into_iter().zip(tracks).collect();
    written(2, &both::table(circuit), 0, &tracked)
}

#[test]
fn the_listing_byte_for_byte() {
    for (circuit, text) in CIRCUITS.into_iter().zip([POLARISED, VIBRATED]) {
        let handed_in = of_listing(circuit, unanswered(POLARISED));
        assert_eq!(listing_tracks(&handed_in), text);
        assert_eq!(
            wrote_tracks(Asked::Listing, &handed_in),
            Wrote::printing(text)
        );
        let mut out = vec![9; handed_in.len() + 1];
        let worked = work_tracks(&handed_in, &mut out);
        assert_eq!((worked.number, worked.tracks, out[1024]), (0, 2, 9));
        let right = of_listing(circuit, answered(text));
        assert_eq!(&out[..1024], right);
        let made = Wrote {
            printed: right.clone(),
            said: String::new(),
        };
        assert_eq!(wrote_tracks(Asked::Worked, &handed_in), made);
        // The lines at the end are those of the events taken one by one.
        let mut two = Two::fresh([&both::KINDS, &both::KINDS], circuit, 0);
        let (events, tracks) = answered(text);
        for ([number, place, answer, stamp], track) in events.into_iter().zip(tracks) {
            assert_eq!(two.take([track, number, place, stamp]), answer);
        }
        assert_eq!(
            (&worked.first, &worked.second),
            (&two.rows[0], &two.rows[1])
        );
        assert_eq!(worked.head, two.head);
        // Worked once; the first answered event is in block 1. An output one byte short.
        assert_eq!(work_tracks(&right, &mut out), said(20, 1, 0).into());
        let told = work_tracks(&handed_in, &mut out[..1023]);
        assert_eq!(told, said(21, 0, 0).into());
    }
}

/// The event named is of the chosen event's own track, and its line has the track last.
#[test]
fn since_when() {
    let bytes = of_listing(0, answered(POLARISED));
    for position in 0..=22 {
        let line = both::SINCE.iter().find(|(at, _)| *at == position);
        let line = line.map_or("refused 29 0\n", |(_, line)| line);
        let said = wrote_tracks(Asked::Why(position), &bytes);
        assert_eq!(said, Wrote::printing(line), "{position}");
    }
    assert_eq!(why_tracks(&bytes, 18).position, 4);
    assert_eq!(why_tracks(&bytes, 16), Since::default());
    // The answers of the other circuit, and each answer altered.
    let other = of_listing(1, answered(POLARISED));
    assert_eq!(why_tracks(&other, 11), said(29, 0, 0).into());
    for at in 0..21 {
        let (mut events, tracks) = answered(POLARISED);
        events[at][2] ^= 1;
        let bytes = of_listing(0, (events, tracks));
        assert_eq!(why_tracks(&bytes, 11), said(29, 0, 0).into());
    }
}

/// The same post and the same number on both tracks, at other times; 13 after a restoration.
#[test]
fn since_when_on_both_tracks() {
    let events = [
        (5, 0, 1),
        (5, 0, 0),
        (9, 0, 0),
        (10, 0, 0),
        (5, 1, 0),
        (5, 0, 0),
        (5, 0, 0),
        (5, 0, 1),
        (9, 1, 0),
        (10, 1, 0),
        (8, 0, 0),
        (3, 1, 0),
        (6, 1, 0),
        (8, 0, 1),
        (3, 1, 1),
        (6, 1, 1),
    ];
    let entry = |&(number, post, track): &(u32, u32, u32)| ([number, post, 31, 0], track);
    let handed_in = of_listing(1, events.iter().map(entry).unzip());
    let mut bytes = handed_in.clone();
    assert_eq!(work_tracks(&handed_in, &mut bytes).number, 0);
    let named = [(7, 9, 6), (8, 9, 1), (13, 13, 10), (16, 13, 0)];
    let (_, _, found) = read_wide(&bytes);
    for (position, answer, since) in named {
        assert_eq!(found[position - 1].0[2], answer, "{position}");
        let told = why_tracks(&bytes, position as u32);
        assert_eq!((told.number, told.position), (0, since), "{position}");
    }
}

/// "Item 3's export refuses it (20, block 0)", after the refusals of reading, and before 21.
#[test]
fn it_has_no_register() {
    for bytes in [
        good(),
        of_listing(0, answered(POLARISED)),
        of_listing(1, Default::default()),
    ] {
        for room in [0, MOST_TEXT] {
            let mut out = vec![9; room];
            assert_eq!(export_tracks(&bytes, &mut out), said(20, 0, 0).into());
            assert!(out.iter().all(|&byte| byte == 9));
        }
        let said = wrote_tracks(Asked::Exported, &bytes);
        assert_eq!(said, Wrote::saying("refused 20 0\n"));
    }
    let mut unchecked = good();
    unchecked[1023] ^= 1;
    all_say(&unchecked, said(19, 1, 0));
    all_say(&with(good(), 2, 1, 1 << 17), said(24, 2, 0));
    all_say(&with(good(), 3, 126, 1), said(20, 3, 0));
    all_say(&good()[..2000], said(18, 0, 0));
}
