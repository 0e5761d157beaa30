//! How often each number at or about the short forms (02, item 5) stood in each place of a
//! table that is right but perhaps for it, by the call that was given the table.

use std::fmt::Write;

use model::{check, kinds_right, BLOCK_BYTES};

use crate::misprints::inside;
use crate::request::Request;
use crate::sheets::get;
use crate::tables::{Place, ABOUT_SHORT};

const EVERYWHERE: &[Place] = &[Place::First, Place::Inside, Place::Last];

/// The calls that have a table, and the places that are wanted of each.
const WANTED: [(&str, &[Place]); 7] = [
    ("start", EVERYWHERE),
    ("read", EVERYWHERE),
    ("write", EVERYWHERE),
    ("work", EVERYWHERE),
    ("why", EVERYWHERE),
    ("export", EVERYWHERE),
    (
        "import",
        &[Place::First, Place::Inside, Place::Last, Place::Post31],
    ),
];

/// The counts by the call, the place and the number.
#[derive(Default)]
pub struct Stood([[[u64; ABOUT_SHORT.len()]; 4]; WANTED.len()]);

impl Stood {
    pub fn add(&mut self, request: &Request) {
        let Some((call, kinds)) = table_of(request) else {
            return;
        };
        let Some(call) = WANTED.iter().position(|(wanted, _)| *wanted == call) else {
            return;
        };
        for (place, number) in standing(&kinds) {
            let number = (number - ABOUT_SHORT[0]) as usize;
            self.0[call][place as usize][number] += 1;
        }
    }

    /// What is wanted, by its name: the counts of the numbers.
    fn named(&self) -> Vec<(String, [u64; ABOUT_SHORT.len()])> {
        let mut named = Vec::new();
        for ((call, places), counts) in WANTED.iter().zip(&self.0) {
            for &place in *places {
                let name = format!("{call}, {}", place.name());
                named.push((name, counts[place as usize]));
            }
        }
        named
    }

    /// What never stood, one line for each.
    pub fn missing(&self) -> Vec<String> {
        let mut lines = Vec::new();
        for (name, counts) in self.named() {
            for (number, count) in ABOUT_SHORT.iter().zip(counts) {
                if count == 0 {
                    lines.push(format!("tables, {name}: {number} never stood there"));
                }
            }
        }
        lines
    }

    /// The whole as a text.
    pub fn text(&self) -> String {
        let mut text = "tables, right but perhaps for one kind of 16 to 21:\n".to_string();
        for (name, counts) in self.named() {
            // Writing to a String cannot fail.
            let _ = write!(text, "  {name:18}");
            for count in counts {
                let _ = write!(text, " {count:8}");
            }
            text.push('\n');
        }
        text
    }
}

/// The call, and the table that it is given.
fn table_of(request: &Request) -> Option<(&'static str, Vec<u32>)> {
    match request {
        Request::Start { kinds, .. } => Some(("start", kinds.clone())),
        Request::Write { kinds, .. } => Some(("write", kinds.clone())),
        Request::Read { sheet, .. } => Some(("read", table_of_sheet(sheet)?)),
        Request::Work { sheet, .. } => Some(("work", table_of_sheet(sheet)?)),
        Request::Why { sheet, .. } => Some(("why", table_of_sheet(sheet)?)),
        Request::Export { sheet, .. } => Some(("export", table_of_sheet(sheet)?)),
        Request::Import { text, .. } => Some(("import", table_of_text(text))),
        _ => None,
    }
}

/// What block 0 says, where that is right in all but perhaps its kinds.
fn table_of_sheet(sheet: &[u8]) -> Option<Vec<u32>> {
    let block = sheet.first_chunk::<BLOCK_BYTES>()?;
    let posts = get(block, 0, 1) as usize;
    let right = check(block, 0) && get(block, 0, 0) == 1 && (2..=32).contains(&posts);
    right.then(|| (3..3 + posts).map(|at| get(block, 0, at)).collect())
}

/// The kinds of the records that have nothing but a kind and a post.
fn table_of_text(text: &[u8]) -> Vec<u32> {
    let rows = text.split(|&byte| byte == b'\n').skip(2);
    rows.map_while(kind_of_row).collect()
}

fn kind_of_row(row: &[u8]) -> Option<u32> {
    let row = std::str::from_utf8(row).ok()?.trim_end_matches('\r');
    let mut fields = row.split(',').map(inside);
    let (position, kind, _) = (fields.next()?, fields.next()?, fields.next()?);
    let behind = (fields.next()?, fields.next()?);
    (position.is_empty() && behind == ("", "")).then_some(())?;
    kind.parse().ok()
}

/// The numbers that stand in a table, and where: each if it is right, else the one that
/// alone makes it wrong.
fn standing(kinds: &[u32]) -> Vec<(Place, u32)> {
    let all_right = kinds_right(kinds);
    let mut found = Vec::new();
    for (at, &number) in kinds.iter().enumerate() {
        let stands = || {
            let mut mended = kinds.to_vec();
            mended[at] = [0, 2, 1][Place::of(at, kinds.len()) as usize];
            kinds_right(&mended)
        };
        if ABOUT_SHORT.contains(&number) && (all_right || stands()) {
            found.push((Place::of(at, kinds.len()), number));
            if at == 31 {
                found.push((Place::Post31, number));
            }
        }
    }
    found
}
