//! A program run once, beside what the model writes.

use std::io::{self, Read, Write};
use std::process::{ChildStdin, Command, Stdio};
use std::sync::mpsc::sync_channel;
use std::thread;

use model::program::Wrote;

use crate::child::{watch, TIME_LIMIT};

/// What a program wrote, and whether it ended with status 0.
pub struct Ran {
    wrote: Wrote,
    ended_well: bool,
}

impl Ran {
    /// A program that wrote this and ended with status 0.
    pub fn well(wrote: Wrote) -> Ran {
        let ended_well = true;
        Ran { wrote, ended_well }
    }
}

/// How the sheet is given to the program.
#[derive(Clone, Copy, PartialEq)]
pub enum Given {
    AtOnce,
    InPieces(usize),
}

/// The command, and these words behind it.
pub fn with_words<'a>(command: &[String], words: impl IntoIterator<Item = &'a str>) -> Vec<String> {
    let words = words.into_iter().map(str::to_string);
    command.iter().cloned().chain(words).collect()
}

/// Runs a program with this input; `give` has our end of it, where it is a pipe.
pub fn run(
    command: &[String],
    stdin: Stdio,
    give: impl FnOnce(Option<ChildStdin>) + Send,
) -> io::Result<Ran> {
    let mut child = Command::new(&command[0])
        .args(&command[1..])
        .stdin(stdin)
        .stdout(Stdio::piped())
        .stderr(Stdio::piped())
        .spawn()?;
    let stdin = child.stdin.take();
    let (stdout, stderr) = (child.stdout.take(), child.stderr.take());
    let wrote = thread::scope(|scope| {
        let (all_is_well, watched) = sync_channel(1);
        scope.spawn(|| watch(&mut child, TIME_LIMIT, watched));
        scope.spawn(move || give(stdin));
        let said = scope.spawn(move || all_of(stderr));
        let printed = all_of(stdout)?;
        let said = said.join().map_err(|_| io::ErrorKind::Other)??;
        let _ = all_is_well.send(());
        let said = String::from_utf8_lossy(&said).into_owned();
        io::Result::Ok(Wrote { printed, said })
    })?;
    let ended_well = child.wait()?.success();
    Ok(Ran { wrote, ended_well })
}

/// Runs a program on one sheet.
pub fn run_on(command: &[String], sheet: &[u8], given: Given) -> io::Result<Ran> {
    run(command, Stdio::piped(), |stdin| {
        if let Some(stdin) = stdin {
            give(stdin, sheet, given);
        }
    })
}

fn all_of(stream: Option<impl Read>) -> io::Result<Vec<u8>> {
    let mut bytes = Vec::new();
    if let Some(mut stream) = stream {
        stream.read_to_end(&mut bytes)?;
    }
    Ok(bytes)
}

/// The end of this function ends the program's input.
fn give(mut stdin: ChildStdin, sheet: &[u8], given: Given) {
    let size = match given {
        Given::AtOnce => sheet.len().max(1),
        Given::InPieces(size) => size,
    };
    for piece in sheet.chunks(size) {
        // A program that has seen enough may stop reading.
        if stdin.write_all(piece).is_err() {
            break;
        }
    }
}

/// The text of a difference from what is expected, if there is one.
pub fn compared(ran: io::Result<Ran>, expected: &Wrote) -> Result<(), String> {
    let Ran { wrote, ended_well } =
        ran.map_err(|error| format!("the program could not be run: {error}"))?;
    if wrote.printed != expected.printed {
        return Err(first_difference(&wrote.printed, &expected.printed));
    }
    if wrote.said != expected.said {
        let (said, right) = (wrote.said, &expected.said);
        return Err(format!(
            "standard error: said {said:?}, the model expects {right:?}"
        ));
    }
    if ended_well {
        return Ok(());
    }
    Err("all that is written is right but the exit status is not 0".to_string())
}

/// The first line that differs, or of a sheet the first byte.
fn first_difference(printed: &[u8], expected: &[u8]) -> String {
    let same = printed.iter().zip(expected).take_while(|(a, b)| a == b);
    let at = same.count();
    if let (Ok(printed), Ok(expected)) =
        (std::str::from_utf8(printed), std::str::from_utf8(expected))
    {
        let line = 1 + expected.as_bytes()[..at]
            .iter()
            .filter(|&&byte| byte == b'\n')
            .count();
        let (one, other) = (
            printed.split_inclusive('\n').nth(line - 1),
            expected.split_inclusive('\n').nth(line - 1),
        );
        return format!("line {line}: printed {one:?}, the model expects {other:?}");
    }
    let (length, right) = (printed.len(), expected.len());
    let (one, other) = (printed.get(at), expected.get(at));
    format!(
        "byte {at}: printed {one:?} and {length} bytes, the model expects {other:?} and {right}"
    )
}
