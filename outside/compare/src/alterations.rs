//! What other hands may do to a line: relays, counts, kinds, records, the head.

use model::{kind, relay, Post};

use crate::histories::Play;
use crate::random::Random;
use crate::request::{post_of, post_words, POST_WORDS};
use crate::tables::{any_number, kind_inside, other_form};

pub type Alteration = fn(&mut Random, &mut Play);

fn some_post<'a>(random: &mut Random, play: &'a mut Play) -> &'a mut Post {
    let at = random.below(play.row.len());
    &mut play.row[at]
}

/// Alters one of the nine counts of one post.
fn alter_count(random: &mut Random, play: &mut Play, change: impl Fn(u32) -> u32) {
    let post = some_post(random, play);
    let mut words = post_words(post);
    let at = random.between(2, POST_WORDS - 1);
    words[at] = change(words[at]);
    *post = post_of(&words);
}

pub fn flip_relay(random: &mut Random, play: &mut Play) {
    let bit = random.below(9);
    some_post(random, play).word ^= 1 << bit;
}

/// A bit that is no relay, often the first of them.
pub fn flip_upper(random: &mut Random, play: &mut Play) {
    let any = random.between(9, 31);
    let bit = random.pick(&[9, any]);
    some_post(random, play).word ^= 1 << bit;
}

/// Allowed at every post but the origin, whatever else is up there.
pub fn flip_jam(random: &mut Random, play: &mut Play) {
    some_post(random, play).word ^= relay::JAM;
}

pub fn jam_origin(_: &mut Random, play: &mut Play) {
    play.row[0].word |= relay::JAM;
}

/// A passage recorded with no announcement, at some post but the origin: allowed at a short
/// one.
pub fn early_relay(random: &mut Random, play: &mut Play) {
    let at = random.between(1, play.row.len() - 1);
    play.row[at].drop(relay::AN);
    play.row[at].raise(relay::KPG);
}

/// The same, and q grown with it, so that no other rule is broken.
pub fn early_passage(random: &mut Random, play: &mut Play) {
    let at = random.between(1, play.row.len() - 1);
    let post = &mut play.row[at];
    if !post.is_up(relay::AN | relay::KPG) {
        post.raise(relay::KPG);
        post.q += 1;
        play.head.taken += 1;
    }
}

pub fn count_more(random: &mut Random, play: &mut Play) {
    alter_count(random, play, |count| count.wrapping_add(1));
}

pub fn count_less(random: &mut Random, play: &mut Play) {
    alter_count(random, play, |count| count.wrapping_sub(1));
}

pub fn huge_count(random: &mut Random, play: &mut Play) {
    let huge = random.edge_word();
    alter_count(random, play, |_| huge);
}

/// One more garage release than releases.
pub fn garage_over(random: &mut Random, play: &mut Play) {
    let post = some_post(random, play);
    post.c = post.e + 1;
}

/// Counts of one section moved together, the first up and the second down or the
/// reverse: some moves keep every rule, others break a single one.
const MOVES: [(&str, &str); 16] = [
    ("ag", ""),
    ("ar", ""),
    ("ax", ""),
    ("av", ""),
    ("axg", ""),
    ("arqev", ""),
    ("arqe", ""),
    ("ye", ""),
    ("yeq", ""),
    ("yeqrag", ""),
    ("qe", ""),
    ("c", ""),
    ("r", "x"),
    ("v", "y"),
    ("v", "yg"),
    ("v", "g"),
];

pub fn move_counts(random: &mut Random, play: &mut Play) {
    let section = random.below(play.row.len() - 1);
    let by: u32 = random.pick(&[1, 1, 2, u32::MAX]);
    let (up, down) = random.pick(&MOVES);
    let pair = &mut play.row[section..section + 2];
    for (names, by) in [(up, by), (down, by.wrapping_neg())] {
        for name in names.chars() {
            let count = count_named(pair, name);
            *count = count.wrapping_add(by);
        }
    }
}

/// A section's count by its letter in the paper.
fn count_named(pair: &mut [Post], name: char) -> &mut u32 {
    match name {
        'a' => &mut pair[0].a,
        'x' => &mut pair[0].x,
        'y' => &mut pair[0].y,
        'v' => &mut pair[0].v,
        'g' => &mut pair[0].g,
        'r' => &mut pair[1].r,
        'q' => &mut pair[1].q,
        'e' => &mut pair[1].e,
        _ => &mut pair[1].c,
    }
}

pub fn wrong_kind(random: &mut Random, play: &mut Play) {
    let kind = match random.below(4) {
        0 => random.edge_word(),
        1 => 5,
        _ => any_number(random),
    };
    some_post(random, play).kind = kind;
}

/// Another kind for a post inside, which the relays and counts may allow.
pub fn other_inside(random: &mut Random, play: &mut Play) {
    let posts = play.row.len();
    if posts > 2 {
        play.row[random.between(1, posts - 2)].kind = kind_inside(random);
    }
}

/// Allowed at every post but one where a passage waits for its announcement.
pub fn form_changed(random: &mut Random, play: &mut Play) {
    let post = some_post(random, play);
    post.kind = other_form(post.kind);
}

pub fn swap_records(random: &mut Random, play: &mut Play) {
    let posts = play.row.len();
    let (one, other) = (random.below(posts), random.below(posts));
    play.row.swap(one, other);
}

pub fn any_words(random: &mut Random, play: &mut Play) {
    let mut words = [0; POST_WORDS];
    words.fill_with(|| random.edge_word());
    let post = some_post(random, play);
    words[1] = post.kind;
    *post = post_of(&words);
}

pub fn all_any_words(random: &mut Random, play: &mut Play) {
    for post in &mut play.row {
        let mut words = [0; POST_WORDS];
        words.fill_with(|| random.edge_word());
        *post = post_of(&words);
    }
    play.head.taken = random.edge_word();
}

/// The events taken at a count, one below it, or further down.
pub fn lower_taken(random: &mut Random, play: &mut Play) {
    let most = most_count(&play.row);
    play.head.taken = match random.below(4) {
        0 => most,
        1 => random.below(most as usize + 1) as u32,
        _ => most.saturating_sub(1),
    };
}

/// Any relays, most often without those that the post can't have.
pub fn any_relays(random: &mut Random, play: &mut Play) {
    for post in &mut play.row {
        let can_have = match kind::ordinary(post.kind) {
            0 => 0xFC,
            1 => 0x133,
            _ => 0x1FF,
        };
        if random.chance(30) {
            post.word = random.word() & can_have;
        }
    }
}

pub fn most_count(row: &[Post]) -> u32 {
    let counts = |post: &Post| post_words(post)[2..].iter().copied().max();
    row.iter().filter_map(counts).max().unwrap_or(0)
}
