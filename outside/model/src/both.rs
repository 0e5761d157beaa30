//! 02, item 7: an example of our own, told line by line, in the form of the paper's. Table 0, 3, 1
//! on both tracks; start stamp 0; event k stamped 1000k. Position, event, post, answer, track.
//!
//! With polarised current. Track 1 announces (1), and track 2 can't between the same posts until
//! that has arrived (2 to 4); it can between the others (5), where track 1 can't (6). That
//! announcement is lost and the section restored (7 to 9). Track 2's other announcement is
//! received and held (8 to 12), a passage recorded and released (13, 14), and a garage release of
//! track 1, recorded by then (10), meets that release (15). Then 13, 9 and 8, to be asked about
//! (16 to 18). The release arrives, and the garage release is sent (19, 20). No track has a post
//! 3 (21).

use crate::sheet::{Entry, UNANSWERED};

/// Of each track.
pub const KINDS: [u32; 3] = [0, 3, 1];

pub const POLARISED: &str = "\
1 5 0 0 0
2 5 1 25 1
3 8 0 0 0
4 5 1 0 1
5 5 0 0 1
6 5 1 25 0
7 9 0 0 1
8 8 1 0 1
9 10 0 0 1
10 3 1 0 0
11 5 1 9 1
12 10 1 17 1
13 3 2 0 1
14 6 2 0 1
15 7 1 25 0
16 6 1 13 0
17 5 0 9 0
18 1 1 8 1
19 8 1 0 1
20 7 1 0 0
21 1 3 2 1
S 0 1 1 0 1 1 0 0 0 1 0
S 1 0 0 0 0 0 0 0 0 0 0
S 0 1 0 1 0 0 0 0 1 0 1
S 1 1 1 0 1 1 0 1 0 0 1
";

/// The same with vibrated current: 25 becomes 0, and what follows from that.
pub const VIBRATED: &str = "\
1 5 0 0 0
2 5 1 0 1
3 8 0 0 0
4 5 1 9 1
5 5 0 0 1
6 5 1 0 0
7 9 0 0 1
8 8 1 0 1
9 10 0 0 1
10 3 1 0 0
11 5 1 9 1
12 10 1 17 1
13 3 2 0 1
14 6 2 0 1
15 7 1 0 0
16 6 1 11 0
17 5 0 9 0
18 1 1 8 1
19 8 1 0 1
20 7 1 11 0
21 1 3 2 1
S 0 1 1 0 1 1 0 0 0 1 0
S 1 1 0 0 0 0 0 0 0 1 0
S 0 1 0 1 0 0 0 0 1 0 1
S 1 1 1 0 1 1 0 1 0 0 1
";

/// Since when, by the program's words, and what it prints of the worked polarised sheet.
pub const SINCE: [(u32, &str); 4] = [
    (11, "4 5 1 0 1\n"),
    (16, "0\n"),
    (17, "1 5 0 0 0\n"),
    (18, "4 5 1 0 1\n"),
];

/// Track 1's kinds, track 2's, the circuit.
pub fn table(circuit: u32) -> Vec<u32> {
    [&KINDS[..], &KINDS, &[circuit]].concat()
}

/// The events of a listing with their answers, and the track of each.
pub fn answered(text: &str) -> (Vec<Entry>, Vec<u32>) {
    let numbers = |line: &str| -> Option<Vec<u32>> {
        let words = line.split(' ');
        words.map(|word| word.parse().ok()).collect()
    };
    let event = |line: Vec<u32>| match line[..] {
        [k, number, post, answer, track] => Some(([number, post, answer, 1000 * k], track)),
        _ => None,
    };
    text.lines().filter_map(numbers).filter_map(event).unzip()
}

/// The same as they are handed in.
pub fn unanswered(text: &str) -> (Vec<Entry>, Vec<u32>) {
    let (mut events, tracks) = answered(text);
    events.iter_mut().for_each(|event| event[2] = UNANSWERED);
    (events, tracks)
}
