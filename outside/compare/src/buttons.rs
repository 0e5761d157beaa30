//! Events about the release button (02, item 2): jams, freeings, and what a jam alters.

use model::{relay, Post};

use crate::random::Random;

/// What is tried at a jammed post: most often it is freed; before that it jams again, is
/// asked for a release, and what is under way to it or from it arrives.
const AT_A_JAMMED_POST: [u32; 12] = [12, 12, 12, 12, 11, 6, 6, 6, 7, 7, 8, 8];

/// What is tried at a post that is free.
const AT_A_FREE_POST: [u32; 4] = [11, 11, 11, 12];

/// An event of this number and its place: this post, for 5 the one upstream, and for 8, 9
/// and 10 the section upstream.
pub fn about_post(number: u32, post: usize) -> (u32, u32) {
    let upstream = matches!(number, 5 | 8..=10);
    let place = if upstream {
        post.saturating_sub(1)
    } else {
        post
    };
    (number, place as u32)
}

/// An event at a jammed post: its number and place.
pub fn at_a_jammed_post(random: &mut Random, post: usize) -> (u32, u32) {
    about_post(random.pick(&AT_A_JAMMED_POST), post)
}

/// An event about the button of some post that has one; where the post is free, only so
/// often in a hundred, so that not many posts are jammed at a time.
pub fn about_a_button(random: &mut Random, row: &[Post], percent: usize) -> Option<(u32, u32)> {
    let post = random.between(1, row.len() - 1);
    if row[post].is_up(relay::JAM) {
        return Some(at_a_jammed_post(random, post));
    }
    let number = random.pick(&AT_A_FREE_POST);
    random.chance(percent).then_some((number, post as u32))
}
