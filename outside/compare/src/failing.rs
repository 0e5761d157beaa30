//! The working program on an input that fails: it prints nothing, and says so.

use std::io::{self, Write};
use std::os::fd::OwnedFd;
use std::os::unix::net::UnixStream;
use std::process::Stdio;

use model::program::{asked, wrote_tracks, Wrote, UNREAD};
use model::{paper, BLOCK_BYTES, MOST_BLOCKS, MOST_EVENTS};

use crate::child::TIME_LIMIT;
use crate::fixed::short_sheet;
use crate::fixed_texts::long_text;
use crate::ran::{compared, run, run_on, with_words, Given, Ran};

/// Runs the program on an input that gives these bytes and fails at the next read: a
/// socket that does not wait, whose other end stays open to the end of the program.
fn run_on_failing(command: &[String], bytes: &[u8]) -> io::Result<Ran> {
    let (mut ours, theirs) = UnixStream::pair()?;
    ours.set_write_timeout(Some(TIME_LIMIT))?;
    ours.write_all(bytes)?;
    theirs.set_nonblocking(true)?;
    run(command, Stdio::from(OwnedFd::from(theirs)), |_| ())
}

/// Each input that fails, for each word; and first the same bytes where the input ends there,
/// which are answered, so that a program which takes a failure for the end is found.
pub fn check_failing_inputs(command: &[String]) -> Result<usize, String> {
    let (inputs, texts) = (failing_inputs(), failing_texts());
    let lines: [(&[&str], &[Vec<u8>]); 5] = [
        (&[], &inputs),
        (&["work"], &inputs),
        (&["why", "5"], &inputs),
        (&["export"], &inputs),
        (&["import"], &texts),
    ];
    for (words, inputs) in lines {
        let command = with_words(command, words.iter().copied());
        let asked = asked(words).ok_or("a wrong word")?;
        for bytes in inputs {
            let named = |how| {
                move |text| {
                    format!(
                        "{words:?}, an input that {how} after {} bytes: {text}",
                        bytes.len()
                    )
                }
            };
            let ended = run_on(&command, bytes, Given::AtOnce);
            compared(ended, &wrote_tracks(asked, bytes)).map_err(named("ends"))?;
            let failed = run_on_failing(&command, bytes);
            compared(failed, &Wrote::saying(UNREAD)).map_err(named("fails"))?;
        }
    }
    Ok(lines.iter().map(|(_, inputs)| inputs.len()).sum())
}

/// Inputs that fail: at once, within a block, after whole blocks, where a sheet that
/// ended there would be good, after a whole sheet, and past the longest sheet.
pub fn failing_inputs() -> Vec<Vec<u8>> {
    let sheet = short_sheet(&[(1, 0); 200]).bytes();
    let full = short_sheet(&vec![(1, 0); MOST_EVENTS]).bytes();
    let mut inputs: Vec<Vec<u8>> = [0, 1, 511, 512, 1024, 1025, 2048, sheet.len()]
        .into_iter()
        .map(|length| sheet[..length].to_vec())
        .collect();
    inputs.push(full);
    for length in [MOST_BLOCKS * BLOCK_BYTES + 1, 40_000, 100_000] {
        inputs.push(vec![0; length]);
    }
    inputs
}

/// Texts that fail: at once, within a record, after a record, where a text that ended there
/// would be right, after a whole text, and after a record that can't stand.
pub fn failing_texts() -> Vec<Vec<u8>> {
    let text = paper::REGISTER.as_bytes();
    let mut texts: Vec<Vec<u8>> = [0, 1, 33, 34, 40, 57, 70, 71, text.len() - 2, text.len()]
        .into_iter()
        .map(|length| text[..length].to_vec())
        .collect();
    texts.push(b"position,event\r\n".to_vec());
    texts.push([text, b"\r\n", text].concat());
    texts.push(long_text(3_700));
    texts.push([&long_text(3_700)[..], b"\""].concat());
    texts
}
