//! The heavy ones of two tracks: sheets of 64 blocks and 3,780 events, and one block more.

use model::{MOST_EVENTS, UNANSWERED};

use crate::full::{one_block_more, spoil_last};
use crate::histories::{lively_event, some_posts};
use crate::questions::TOLD;
use crate::random::Random;
use crate::tracks::calls::{read_into, work_into};
use crate::tracks::questions::ask;
use crate::tracks::sheets::{lively, TrackSheet};
use crate::variety::Variety;

pub const FULL: &[Variety] = &[
    ("read 3,780 events", |random| {
        let sheet = full(random).bytes();
        read_into(random, sheet, [0, 0, 0])
    }),
    ("read 3,780 events, tracks room one short", |random| {
        let sheet = full(random).bytes();
        read_into(random, sheet, [0, 0, -1])
    }),
    ("work 3,780 events", |random| {
        let sheet = full(random).bytes();
        work_into(random, sheet, 0)
    }),
    ("work, last block bad", |random| {
        let mut sheet = full(random).bytes();
        spoil_last(random, &mut sheet, 17);
        work_into(random, sheet, 0)
    }),
    ("work, last event answered", |random| {
        let mut sheet = full(random);
        sheet.events[MOST_EVENTS - 1][2] = random.small(0, UNANSWERED - 1);
        work_into(random, sheet.bytes(), 0)
    }),
    ("why, 3,780 events", |random| {
        let sheet = full(random).worked();
        let told = sheet.events.iter().rposition(|e| TOLD.contains(&e[2]));
        ask(sheet.bytes(), told.map_or(0, |at| at as u32 + 1))
    }),
    ("33,280 bytes of right checks", |random| {
        let sheet = one_block_more(full(random).bytes());
        work_into(random, sheet, 0)
    }),
];

fn full(random: &mut Random) -> TrackSheet {
    let posts = some_posts(random);
    lively(random, posts, MOST_EVENTS, lively_event)
}
