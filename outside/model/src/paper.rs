//! 01, The program and one listing: the paper's own example. Table 0, 1; start stamp
//! 0; event k stamped 1000k.

use crate::listed::Listed;

pub const KINDS: [u32; 2] = [0, 1];

pub const EXAMPLE: Listed = Listed {
    kinds: &KINDS,
    text: LISTING,
    since: &[],
};

/// The text as the paper has it.
pub const LISTING: &str = "\
1 1 0 0
2 4 0 0
3 5 0 10
4 2 0 0
5 1 0 8
6 5 0 0
7 3 1 0
8 8 0 0
9 6 1 12
10 3 1 0
11 6 1 0
12 9 0 0
13 1 0 8
14 10 0 0
15 1 0 0
S 0 1 1 0 1 1 1 0 1 0
";

/// The register of these events with their answers, by 02, item 3.
pub const REGISTER: &str = "\
position,event,post,stamp,answer\r
,,,0,\r
,0,0,,\r
,1,1,,\r
1,1,0,1000,0\r
2,4,0,2000,0\r
3,5,0,3000,10\r
4,2,0,4000,0\r
5,1,0,5000,8\r
6,5,0,6000,0\r
7,3,1,7000,0\r
8,8,0,8000,0\r
9,6,1,9000,12\r
10,3,1,10000,0\r
11,6,1,11000,0\r
12,9,0,12000,0\r
13,1,0,13000,8\r
14,10,0,14000,0\r
15,1,0,15000,0\r
";
