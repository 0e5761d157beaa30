//! 02, item 2: an example of our own, told line by line, in the form of the paper's.
//! Table 0, 3, 1; start stamp 0; event k stamped 1000k.
//!
//! Post 1 jams, once only, and the origin cannot (1 to 3). An announcement arrives and
//! is lost; the strike records nothing, the release is refused, the section is restored
//! (4 to 8). Post 1 is freed, once only (9 to 11). The next announcement is received
//! (12 to 14). A jam leaves it recorded, and refuses both releases until it is freed
//! (15 to 18). The release asks the onward block, is sent, and arrives although post 1
//! is jammed again (19 to 24). An announcement is lost to that jam (25 to 27).

use crate::listed::Listed;

pub const KINDS: [u32; 3] = [0, 3, 1];

pub const EXAMPLE: Listed = Listed {
    kinds: &KINDS,
    text: LISTING,
    since: SINCE,
};

const LISTING: &str = "\
1 11 1 0
2 11 1 22
3 11 0 6
4 5 0 0
5 8 0 0
6 3 1 0
7 6 1 22
8 10 0 0
9 12 1 0
10 12 1 23
11 12 0 6
12 5 0 0
13 8 0 0
14 3 1 0
15 11 1 0
16 6 1 22
17 7 1 22
18 12 1 0
19 6 1 13
20 5 1 0
21 1 1 8
22 6 1 0
23 11 1 0
24 8 0 0
25 5 0 0
26 5 0 9
27 8 0 0
28 13 0 3
S 0 3 1 2 1 1 0 1 1 1
S 1 1 0 0 0 0 0 0 0 1
";

/// Since when: 8, 9 and 13 among jams; 22 and 23, which are not asked about.
const SINCE: &[(&[&str], &str)] = &[
    (&["why", "19"], "0\n"),
    (&["why", "21"], "20 5 1 0\n"),
    (&["why", "26"], "25 5 0 0\n"),
    (&["why", "7"], "refused 29 0\n"),
    (&["why", "10"], "refused 29 0\n"),
];
