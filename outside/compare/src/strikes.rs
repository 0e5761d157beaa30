//! Events about a passage that comes before its announcement (02, item 5): strikes, and what
//! is tried while such a passage waits.

use model::{relay, Post};

use crate::buttons::about_post;
use crate::random::Random;

/// What is tried while a passage waits at a short post: its train is announced, and that
/// arrives, is lost or restored; the pedal is struck again, the button jams, and a release
/// is asked for, which is refused.
const WHILE_IT_WAITS: [u32; 14] = [5, 5, 5, 8, 8, 8, 9, 10, 3, 3, 6, 6, 7, 11];

/// What is tried where an announcement is recorded and no passage: the pedal is struck, or a
/// release is asked for, which is refused.
const BEFORE_THE_TRAIN: [u32; 5] = [3, 6, 6, 6, 7];

/// What is tried where both are recorded: the lever, which refuses a release at a terminus,
/// the pedal, and the releases.
const WITH_BOTH: [u32; 6] = [1, 3, 6, 6, 6, 7];

/// A passage is recorded here and no announcement.
pub fn waits(post: &Post) -> bool {
    post.is_up(relay::KPG) && !post.is_up(relay::AN)
}

/// An event about a passage at some post but the origin: its number and place.
pub fn about_a_passage(random: &mut Random, row: &[Post]) -> (u32, u32) {
    let post = random.between(1, row.len() - 1);
    about_passage_at(random, row, post)
}

/// The same at this post.
pub fn about_passage_at(random: &mut Random, row: &[Post], post: usize) -> (u32, u32) {
    let announced = row[post].is_up(relay::AN);
    let number = match (announced, row[post].is_up(relay::KPG)) {
        (false, false) => 3,
        (false, true) => random.pick(&WHILE_IT_WAITS),
        (true, false) => random.pick(&BEFORE_THE_TRAIN),
        (true, true) => random.pick(&WITH_BOTH),
    };
    about_post(number, post)
}
