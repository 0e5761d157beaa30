//! 02, item 5: an example of our own, told line by line, in the form of the paper's.
//! Table 0, 18, 3, 17; start stamp 0; event k stamped 1000k.
//!
//! A strike at post 1 records a passage before any announcement, a second one nothing, and
//! both releases are refused; the same strike at post 2, an ordinary one, is lost (1 to 5).
//! The announcement arrives, a third strike records nothing, and the release asks the onward
//! block (6 to 10). Post 1 is else as kind 2: the signal pedal drops L (11 to 14). It
//! announces and releases, and the next train strikes while that release is under way (15
//! to 18). At post 2 a strike behind the announcement is wanted (19 to 21). Post 3 jams, and
//! a strike there records its passage all the same; the announcement is lost to the jam
//! (22 to 25). 22 before 11, and the devices that a terminus lacks (26 to 30). Restored, the
//! next announcement finds the passage recorded, and the release asks the lever (31 to 37).
//! It is lost; post 2 releases (38 to 41). Post 1 has its passage still, and with the next
//! announcement a garage release (42 to 45).

use crate::listed::Listed;

pub const KINDS: [u32; 4] = [0, 18, 3, 17];

pub const EXAMPLE: Listed = Listed {
    kinds: &KINDS,
    text: LISTING,
    since: SINCE,
};

const LISTING: &str = "\
1 3 1 0
2 3 1 0
3 6 1 11
4 7 1 11
5 3 2 0
6 5 0 0
7 10 0 16
8 8 0 0
9 3 1 0
10 6 1 13
11 1 1 0
12 4 1 0
13 2 1 0
14 1 1 8
15 5 1 0
16 6 1 0
17 3 1 0
18 8 0 0
19 8 1 0
20 6 2 12
21 3 2 0
22 11 3 0
23 3 3 0
24 5 2 0
25 8 2 0
26 6 3 22
27 12 3 0
28 6 3 11
29 7 3 6
30 5 3 6
31 10 2 0
32 5 2 0
33 8 2 0
34 1 3 0
35 6 3 10
36 2 3 0
37 6 3 0
38 5 2 9
39 9 2 0
40 6 2 0
41 8 1 0
42 7 1 11
43 5 0 0
44 8 0 0
45 7 1 0
46 16 1 3
S 0 2 2 0 2 2 0 1 0 1
S 1 1 1 0 1 1 0 1 0 0
S 2 2 1 1 1 1 1 0 1 1
";

/// Since when: 13, 8 and 9 at short posts and at the one beside them; 11, which is not asked about.
const SINCE: &[(&[&str], &str)] = &[
    (&["why", "10"], "0\n"),
    (&["why", "14"], "12 4 1 0\n"),
    (&["why", "38"], "32 5 2 0\n"),
    (&["why", "3"], "refused 29 0\n"),
    (&["why", "42"], "refused 29 0\n"),
];
