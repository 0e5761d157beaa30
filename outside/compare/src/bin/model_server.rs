//! The model behind the wire that a library's server has: what the tests of the
//! wire talk to, and a pattern for such a server. With --desk, which comes first, it
//! is the working program; the program's words follow.

use std::io::{self, BufRead, BufReader, Read, Write};

use compare::desk::{reply, Model};
use compare::request::{post_of, Request, POST_WORDS};
use compare::tracks::request::{Rows, Tables, TrackRequest};
use compare::tracks::sheets::TrackSheet;
use compare::tracks::two::Two;
use model::{Head, Post};

struct Wire<R>(R);

impl<R: Read> Wire<R> {
    fn bytes(&mut self, count: usize) -> io::Result<Vec<u8>> {
        let mut bytes = vec![0; count.next_multiple_of(4)];
        self.0.read_exact(&mut bytes)?;
        bytes.truncate(count);
        Ok(bytes)
    }

    fn words(&mut self, count: usize) -> io::Result<Vec<u32>> {
        let bytes = self.bytes(4 * count)?;
        let word = |four: &[u8]| u32::from_le_bytes([four[0], four[1], four[2], four[3]]);
        Ok(bytes.chunks(4).map(word).collect())
    }

    fn few<const K: usize>(&mut self) -> io::Result<[u32; K]> {
        let words = self.words(K)?;
        words
            .try_into()
            .map_err(|_| io::ErrorKind::InvalidData.into())
    }

    fn many<const K: usize>(&mut self, count: u32) -> io::Result<Vec<[u32; K]>> {
        (0..count).map(|_| self.few()).collect()
    }

    fn row(&mut self, count: u32) -> io::Result<Vec<Post>> {
        let records: Vec<[u32; POST_WORDS]> = self.many(count)?;
        Ok(records.iter().map(post_of).collect())
    }

    fn request(&mut self) -> io::Result<Request> {
        match self.few()? {
            [1] => {
                let [rows, kinds, stamp] = self.few()?;
                let row = self.row(rows)?;
                let kinds = self.words(kinds as usize)?;
                Ok(Request::Start { row, kinds, stamp })
            }
            [2] => {
                let [rows, taken, last] = self.few()?;
                let row = self.row(rows)?;
                let head = Head { taken, last };
                Ok(Request::Valid { row, head })
            }
            [3] => {
                let [rows, taken, last] = self.few()?;
                let (step, row) = (self.few()?, self.row(rows)?);
                let head = Head { taken, last };
                Ok(Request::Event { row, head, step })
            }
            [7] => {
                let [posts, stamp, count] = self.few()?;
                let kinds = self.words(posts as usize)?;
                let steps = self.many(count)?;
                Ok(Request::Run {
                    kinds,
                    stamp,
                    steps,
                })
            }
            [code @ 12..=15] => self.lines_request(code).map(Request::Tracks),
            [code @ 16..=19] => self.track_sheet_request(code).map(Request::Tracks),
            [code] => self.sheet_request(code),
        }
    }

    fn rows(&mut self, first: u32, second: u32) -> io::Result<Rows> {
        Ok([self.row(first)?, self.row(second)?])
    }

    fn tables(&mut self, first: u32, second: u32) -> io::Result<Tables> {
        Ok([self.words(first as usize)?, self.words(second as usize)?])
    }

    /// The calls of two tracks, on lines.
    fn lines_request(&mut self, code: u32) -> io::Result<TrackRequest> {
        match code {
            12 => {
                let [n, m, k, j, circuit, stamp] = self.few()?;
                Ok(TrackRequest::Start {
                    rows: self.rows(n, m)?,
                    tables: self.tables(k, j)?,
                    circuit,
                    stamp,
                })
            }
            15 => {
                let [k, j, circuit, stamp, count] = self.few()?;
                Ok(TrackRequest::Run {
                    tables: self.tables(k, j)?,
                    circuit,
                    stamp,
                    steps: self.many(count)?,
                })
            }
            _ => {
                let [n, m, circuit, taken, last] = self.few()?;
                let step = if code == 14 { Some(self.few()?) } else { None };
                let (rows, head) = (self.rows(n, m)?, Head { taken, last });
                let two = Two {
                    rows,
                    circuit,
                    head,
                };
                Ok(match step {
                    Some(step) => TrackRequest::Event(two, step),
                    None => TrackRequest::Valid(two),
                })
            }
        }
    }

    fn track_write(&mut self) -> io::Result<TrackRequest> {
        let [form, words, stamp, events, tracks, out_len, fill] = self.few()?;
        let sheet = TrackSheet {
            form,
            table: self.words(words as usize)?,
            stamp,
            events: self.many(events)?,
            tracks: self.words(tracks as usize)?,
        };
        let (out_len, fill) = (out_len as usize, fill as u8);
        Ok(TrackRequest::Write {
            sheet,
            out_len,
            fill,
        })
    }

    /// The calls of two tracks, on sheets.
    fn track_sheet_request(&mut self, code: u32) -> io::Result<TrackRequest> {
        match code {
            16 => {
                let [bytes, table, events, tracks, fill] = self.few()?;
                Ok(TrackRequest::Read {
                    sheet: self.bytes(bytes as usize)?,
                    rooms: [table, events, tracks].map(|room| room as usize),
                    fill,
                })
            }
            17 => self.track_write(),
            18 => {
                let [bytes, out_len, fill] = self.few()?;
                Ok(TrackRequest::Work {
                    sheet: self.bytes(bytes as usize)?,
                    out_len: out_len as usize,
                    fill: fill as u8,
                })
            }
            _ => {
                let [bytes, position] = self.few()?;
                let sheet = self.bytes(bytes as usize)?;
                Ok(TrackRequest::Why { sheet, position })
            }
        }
    }

    fn sheet_request(&mut self, code: u32) -> io::Result<Request> {
        match code {
            4 => {
                let [bytes, kinds_room, events_room, fill] = self.few()?;
                Ok(Request::Read {
                    sheet: self.bytes(bytes as usize)?,
                    kinds_room: kinds_room as usize,
                    events_room: events_room as usize,
                    fill,
                })
            }
            5 => {
                let [kinds, stamp, events, out_len, fill] = self.few()?;
                Ok(Request::Write {
                    kinds: self.words(kinds as usize)?,
                    stamp,
                    events: self.many(events)?,
                    out_len: out_len as usize,
                    fill: fill as u8,
                })
            }
            8 => {
                let [bytes, position] = self.few()?;
                let sheet = self.bytes(bytes as usize)?;
                Ok(Request::Why { sheet, position })
            }
            11 => {
                let [bytes, number] = self.few()?;
                let block = self.bytes(bytes as usize)?;
                Ok(Request::Check { block, number })
            }
            _ => self.made_request(code),
        }
    }

    /// The same for the calls that make bytes of bytes.
    fn made_request(&mut self, code: u32) -> io::Result<Request> {
        let [bytes, out_len, fill] = self.few()?;
        let bytes = self.bytes(bytes as usize)?;
        let (out_len, fill) = (out_len as usize, fill as u8);
        match code {
            6 => Ok(Request::Work {
                sheet: bytes,
                out_len,
                fill,
            }),
            9 => Ok(Request::Export {
                sheet: bytes,
                out_len,
                fill,
            }),
            10 => Ok(Request::Import {
                text: bytes,
                out_len,
                fill,
            }),
            _ => Err(io::ErrorKind::InvalidData.into()),
        }
    }
}

fn main() -> io::Result<()> {
    let words: Vec<String> = std::env::args().skip(1).collect();
    let words: Vec<&str> = words.iter().map(String::as_str).collect();
    match words.split_first() {
        Some((&"--desk", words)) => model::program::desk(words),
        _ => serve(),
    }
}

fn serve() -> io::Result<()> {
    let mut wire = Wire(BufReader::with_capacity(1 << 16, io::stdin().lock()));
    let mut out = io::stdout().lock();
    let mut ready = Vec::new();
    loop {
        // What is ready goes out whenever the input runs dry.
        if wire.0.buffer().is_empty() || ready.len() > 1 << 18 {
            out.write_all(&ready)?;
            out.flush()?;
            ready.clear();
        }
        if wire.0.fill_buf()?.is_empty() {
            return Ok(());
        }
        let request = wire.request()?;
        for word in reply(&mut Model, &request) {
            ready.extend_from_slice(&word.to_le_bytes());
        }
    }
}
