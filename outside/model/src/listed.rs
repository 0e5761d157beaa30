//! An example told as a listing: a table, and the events with their answers. The start stamp
//! is 0, and event k is stamped 1000k.

use crate::sheet::{Entry, UNANSWERED};

pub struct Listed {
    pub kinds: &'static [u32],
    /// The listing of its sheet.
    pub text: &'static str,
    /// Questions of since when, by the program's words, and what it prints of the worked sheet.
    pub since: &'static [(&'static [&'static str], &'static str)],
}

impl Listed {
    /// The events with the answers that the listing gives them.
    pub fn answered(&self) -> Vec<Entry> {
        let event_line = |line: &str| {
            let numbers: Vec<u32> = line.split(' ').filter_map(|w| w.parse().ok()).collect();
            match numbers[..] {
                [k, number, post, answer] => Some([number, post, answer, 1000 * k]),
                _ => None,
            }
        };
        self.text.lines().filter_map(event_line).collect()
    }

    /// The events as they are handed in.
    pub fn unanswered(&self) -> Vec<Entry> {
        let unanswered = |[number, post, _, stamp]: Entry| [number, post, UNANSWERED, stamp];
        self.answered().into_iter().map(unanswered).collect()
    }
}
