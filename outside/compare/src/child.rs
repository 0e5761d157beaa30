//! The library as a child process that reads requests and writes replies.

use std::io::{self, BufReader, Read, Write};
use std::process::{Child, ChildStdin, ChildStdout, Command, Stdio};
use std::sync::mpsc::{sync_channel, Receiver, RecvTimeoutError};
use std::thread;
use std::time::Duration;

use crate::desk::Library;
use crate::request::{Reply, Request};

/// No line has more records than this; a reply that says so is not read on.
const MOST_RECORDS: u32 = 64;

/// A child that says nothing for so long on one batch, or one sheet, is ended.
pub const TIME_LIMIT: Duration = Duration::from_secs(60);

pub struct ChildLibrary {
    limit: Duration,
    child: Child,
    stdin: Option<ChildStdin>,
    stdout: BufReader<ChildStdout>,
}

impl ChildLibrary {
    pub fn new(command: &[String], limit: Duration) -> io::Result<Self> {
        let mut child = piped(command)?;
        let stdin = child.stdin.take();
        let stdout = child.stdout.take().ok_or(io::ErrorKind::BrokenPipe)?;
        let stdout = BufReader::with_capacity(1 << 18, stdout);
        Ok(ChildLibrary {
            limit,
            child,
            stdin,
            stdout,
        })
    }

    /// Ends the input. The server must then end well and have nothing more to say.
    pub fn finish(mut self) -> Result<(), String> {
        drop(self.stdin.take());
        let mut surplus = Vec::new();
        let (child, stdout, limit) = (&mut self.child, &mut self.stdout, self.limit);
        let read = thread::scope(|scope| {
            let (all_is_well, watched) = sync_channel(1);
            scope.spawn(move || watch(child, limit, watched));
            let read = stdout.read_to_end(&mut surplus);
            let _ = all_is_well.send(());
            read
        });
        let status = self.child.wait();
        match (read, status) {
            (Ok(0), Ok(status)) if status.success() => Ok(()),
            (Ok(bytes), Ok(status)) => Err(format!(
                "the library ended with {status} and {bytes} bytes that were not asked for"
            )),
            (read, status) => Err(format!("the library's end: {read:?}, {status:?}")),
        }
    }
}

/// The command, with its input and output held here.
pub fn piped(command: &[String]) -> io::Result<Child> {
    Command::new(&command[0])
        .args(&command[1..])
        .stdin(Stdio::piped())
        .stdout(Stdio::piped())
        .spawn()
}

/// No server outlives its run, also when a difference ends it early.
impl Drop for ChildLibrary {
    fn drop(&mut self) {
        let _ = self.child.kill();
        let _ = self.child.wait();
    }
}

impl Library for ChildLibrary {
    /// Requests are sent by a thread of their own, so that neither pipe can stand
    /// full with both sides waiting. Fewer replies than requests mean that the
    /// library went silent.
    fn answer(&mut self, requests: &[Request]) -> Vec<Reply> {
        let ChildLibrary {
            limit,
            child,
            stdin,
            stdout,
        } = self;
        thread::scope(|scope| {
            let (all_is_well, watched) = sync_channel(1);
            scope.spawn(|| watch(child, *limit, watched));
            scope.spawn(|| {
                if let Some(stdin) = stdin {
                    // A broken pipe shows as missing replies.
                    let _ = send(stdin, requests);
                }
            });
            let replies: Vec<Reply> = requests
                .iter()
                .map_while(|request| receive(stdout, request).ok())
                .collect();
            if replies.len() == requests.len() {
                // Else the watch ends the child: with nobody reading its replies
                // the sender could wait for ever.
                let _ = all_is_well.send(());
            }
            drop(all_is_well);
            replies
        })
    }
}

/// Ends the child unless word comes within the limit that all is well.
pub fn watch(child: &mut Child, limit: Duration, watched: Receiver<()>) {
    if let Err(why) = watched.recv_timeout(limit) {
        if why == RecvTimeoutError::Timeout {
            eprintln!("nothing heard within {} seconds", limit.as_secs_f64());
        }
        let _ = child.kill();
    }
}

fn send(stdin: &mut ChildStdin, requests: &[Request]) -> io::Result<()> {
    let mut bytes = Vec::new();
    for request in requests {
        for word in request.words() {
            bytes.extend_from_slice(&word.to_le_bytes());
        }
        if bytes.len() >= 1 << 16 {
            stdin.write_all(&bytes)?;
            bytes.clear();
        }
    }
    stdin.write_all(&bytes)?;
    stdin.flush()
}

fn receive(stdout: &mut impl Read, request: &Request) -> io::Result<Reply> {
    let mut reply = Vec::new();
    read_words(stdout, request.reply_front(), &mut reply)?;
    if request.said_records(&reply) > MOST_RECORDS {
        return Err(io::ErrorKind::InvalidData.into());
    }
    let rest = request.reply_len(&reply) - reply.len();
    read_words(stdout, rest, &mut reply)?;
    Ok(reply)
}

fn read_words(stdout: &mut impl Read, count: usize, reply: &mut Reply) -> io::Result<()> {
    let mut bytes = vec![0; 4 * count];
    stdout.read_exact(&mut bytes)?;
    let word = |four: &[u8]| u32::from_le_bytes([four[0], four[1], four[2], four[3]]);
    reply.extend(bytes.chunks_exact(4).map(word));
    Ok(())
}
