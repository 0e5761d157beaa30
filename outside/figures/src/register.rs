//! Export and import as one would write them for speed, and no more than one would: for the figures. The tests hold
//! both beside the model.
use model::{
    Exported, Imported, BLOCK_BYTES, CHECK, EVENTS_PER_BLOCK, MOST_BLOCKS, MOST_EVENTS, MOST_TEXT,
};

const SHEET_BYTES: usize = BLOCK_BYTES * MOST_BLOCKS;
const HEADER: [&[u8]; 5] = [b"position", b"event", b"post", b"stamp", b"answer"];

type Block = [u8; BLOCK_BYTES];

fn word(block: &Block, at: usize) -> u32 {
    u32::from_le_bytes([
        block[4 * at],
        block[4 * at + 1],
        block[4 * at + 2],
        block[4 * at + 3],
    ])
}

fn put(block: &mut [u8], at: usize, word: u32) {
    block[4 * at..4 * at + 4].copy_from_slice(&word.to_le_bytes());
}

fn sum(words: &[u8]) -> u32 {
    words.chunks_exact(4).fold(0, |sum, w| {
        sum.wrapping_add(u32::from_le_bytes([w[0], w[1], w[2], w[3]]))
    })
}

/// The number and the position of a block's refusal, zeros if it is good.
fn test(block: &Block, at: usize, last: bool) -> (u32, u32) {
    if sum(block) != CHECK + at as u32 {
        return (19, 0);
    }
    if at > 0 {
        return test_events(block, last);
    }
    (if is_table(block) { 0 } else { 20 }, 0)
}

fn is_zero(block: &Block, from: usize) -> bool {
    block[4 * from..BLOCK_BYTES - 4]
        .iter()
        .all(|&byte| byte == 0)
}

/// A terminus, in either form.
fn is_last(kind: u32) -> bool {
    matches!(kind, 1 | 17)
}

fn is_between(kind: u32) -> bool {
    matches!(kind, 2..=4 | 18..=20)
}

fn is_table(block: &Block) -> bool {
    let posts = word(block, 1) as usize;
    word(block, 0) == 1
        && (2..=32).contains(&posts)
        && word(block, 3) == 0
        && (1..posts - 1).all(|post| is_between(word(block, 3 + post)))
        && is_last(word(block, 2 + posts))
        && is_zero(block, 3 + posts)
}

fn test_events(block: &Block, last: bool) -> (u32, u32) {
    let count = word(block, 0) as usize;
    if !(1..=EVENTS_PER_BLOCK).contains(&count) || (count < EVENTS_PER_BLOCK && !last) {
        return (20, 0);
    }
    if let Some(event) = (0..count).find(|event| word(block, 1 + 2 * event) >> 16 != 0) {
        return (24, event as u32);
    }
    (if is_zero(block, 1 + 2 * count) { 0 } else { 20 }, 0)
}

/// A number in decimal, and a byte behind it.
fn push(text: &mut Vec<u8>, mut number: u32, behind: u8) {
    let mut digits = [behind; 11];
    let mut at = 10;
    loop {
        at -= 1;
        digits[at] = b'0' + (number % 10) as u8;
        number /= 10;
        if number == 0 {
            break;
        }
    }
    text.extend_from_slice(&digits[at..]);
}

pub fn export(sheet: &[u8], out: &mut [u8]) -> Exported {
    let refused = |number, block, position| Exported {
        number,
        block,
        position,
        bytes: 0,
    };
    let (blocks, rest) = sheet.as_chunks::<BLOCK_BYTES>();
    if !rest.is_empty() || !(1..=MOST_BLOCKS).contains(&blocks.len()) {
        return refused(18, 0, 0);
    }
    for (at, block) in blocks.iter().enumerate() {
        let (number, position) = test(block, at, at == blocks.len() - 1);
        if number != 0 {
            return refused(number, at as u32, position);
        }
    }
    let text = text_of(blocks);
    if out.len() < text.len() {
        return refused(21, 0, 0);
    }
    out[..text.len()].copy_from_slice(&text);
    Exported {
        bytes: text.len(),
        ..Exported::default()
    }
}

fn text_of(blocks: &[Block]) -> Vec<u8> {
    let table = &blocks[0];
    let mut text = Vec::with_capacity(MOST_TEXT);
    text.extend_from_slice(&HEADER.join(&b','));
    text.extend_from_slice(b"\r\n,,,");
    push(&mut text, word(table, 2), b',');
    text.extend_from_slice(b"\r\n");
    for post in 0..word(table, 1) {
        text.push(b',');
        push(&mut text, word(table, 3 + post as usize), b',');
        push(&mut text, post, b',');
        text.extend_from_slice(b",\r\n");
    }
    let mut position = 0;
    for block in &blocks[1..] {
        for event in 0..word(block, 0) as usize {
            let packed = word(block, 1 + 2 * event);
            position += 1;
            push(&mut text, position, b',');
            push(&mut text, packed & 31, b',');
            push(&mut text, packed >> 5 & 63, b',');
            push(&mut text, word(block, 2 + 2 * event), b',');
            push(&mut text, packed >> 11, b'\r');
            text.push(b'\n');
        }
    }
    text
}

/// What is left of a text. Each of these takes something from its front, or gives nothing.
struct Rest<'a>(&'a [u8]);

impl Rest<'_> {
    fn take(&mut self, bytes: &[u8]) -> Option<()> {
        self.0 = self.0.strip_prefix(bytes)?;
        Some(())
    }

    /// A field, quoted or not.
    fn field<T>(&mut self, content: impl FnOnce(&mut Self) -> Option<T>) -> Option<T> {
        if self.0.first() != Some(&b'"') {
            return content(self);
        }
        self.0 = &self.0[1..];
        let found = content(self)?;
        self.take(b"\"")?;
        Some(found)
    }

    fn empty(&mut self) -> Option<()> {
        self.field(|_| Some(()))
    }

    /// A number below this. One with a leading zero ends behind it, where a digit can't stand.
    fn number(&mut self, below: u64) -> Option<u32> {
        self.field(|rest| {
            let mut value = 0;
            let mut length = 0;
            while let Some(digit @ b'0'..=b'9') = rest.0.get(length) {
                value = 10 * value + u64::from(digit - b'0');
                length += 1;
                if value == 0 || value >= below {
                    break;
                }
            }
            rest.0 = &rest.0[length..];
            (length > 0 && value < below).then_some(value as u32)
        })
    }

    fn comma(&mut self) -> Option<()> {
        self.take(b",")
    }

    /// The end of a record: CR LF, or the end of the text.
    fn end(&mut self) -> Option<()> {
        if self.0.is_empty() {
            return Some(());
        }
        self.take(b"\r\n")
    }

    fn header(&mut self) -> Option<()> {
        for (at, name) in HEADER.iter().enumerate() {
            if at > 0 {
                self.comma()?;
            }
            self.field(|rest| rest.take(name))?;
        }
        self.end()
    }

    fn start(&mut self) -> Option<u32> {
        for _ in 0..3 {
            self.empty()?;
            self.comma()?;
        }
        let stamp = self.number(1 << 32)?;
        self.comma()?;
        self.empty()?;
        self.end()?;
        Some(stamp)
    }

    fn post(&mut self, next: u32) -> Option<u32> {
        self.empty()?;
        self.comma()?;
        let kind = self.number(21)?;
        self.comma()?;
        let post = self.number(32)?;
        self.comma()?;
        self.empty()?;
        self.comma()?;
        self.empty()?;
        self.end()?;
        let may = match next {
            0 => kind == 0,
            31 => is_last(kind),
            _ => is_last(kind) || is_between(kind),
        };
        (may && post == next).then_some(kind)
    }

    /// The packed word and the stamp of an event.
    fn event(&mut self, next: u64) -> Option<(u32, u32)> {
        let position = self.position(next)?;
        self.comma()?;
        let event = self.number(32)?;
        self.comma()?;
        let post = self.number(64)?;
        self.comma()?;
        let stamp = self.number(1 << 32)?;
        self.comma()?;
        let answer = self.number(32)?;
        self.end()?;
        (position == next).then_some((event | post << 5 | answer << 11, stamp))
    }

    /// A number up to this one, which may be larger than a word.
    fn position(&mut self, most: u64) -> Option<u64> {
        match u32::try_from(most) {
            Ok(_) => self.number(most + 1).map(u64::from),
            Err(_) => self.field(|rest| rest.take(most.to_string().as_bytes()).map(|()| most)),
        }
    }
}

pub fn import(text: &[u8], out: &mut [u8]) -> Imported {
    let refused = |number, record| Imported {
        number,
        record,
        bytes: 0,
    };
    let mut sheet = vec![0; SHEET_BYTES];
    let events = match fill(text, &mut sheet) {
        Ok(events) => events,
        Err(record) => return refused(28, record),
    };
    if events > MOST_EVENTS as u64 {
        return refused(18, 0);
    }
    let bytes = model::sheet_length(events as usize);
    if out.len() < bytes {
        return refused(21, 0);
    }
    for (at, block) in sheet[..bytes].chunks_exact_mut(BLOCK_BYTES).enumerate() {
        let check = (CHECK + at as u32).wrapping_sub(sum(block));
        put(block, 127, check);
    }
    out[..bytes].copy_from_slice(&sheet[..bytes]);
    Imported {
        number: 0,
        record: 0,
        bytes,
    }
}

/// Puts what the text says to a sheet of zeros, but for the checks, and gives the number of events, of which only 3,780
/// are put. The number of the first record that can't stand or is missing, if there is one.
fn fill(text: &[u8], sheet: &mut [u8]) -> Result<u64, u64> {
    let mut rest = Rest(text);
    let mut record: u64 = 1;
    rest.header().ok_or(record)?;
    record = 2;
    let stamp = rest.start().ok_or(record)?;
    let mut posts = 0;
    loop {
        record += 1;
        let kind = rest.post(posts).ok_or(record)?;
        put(sheet, 3 + posts as usize, kind);
        posts += 1;
        if is_last(kind) {
            break;
        }
    }
    put(sheet, 0, 1);
    put(sheet, 1, posts);
    put(sheet, 2, stamp);
    let mut events = 0;
    while !rest.0.is_empty() {
        record += 1;
        let (packed, stamp) = rest.event(events + 1).ok_or(record)?;
        if events < MOST_EVENTS as u64 {
            let at = events as usize;
            let block = &mut sheet[BLOCK_BYTES * (1 + at / EVENTS_PER_BLOCK)..][..BLOCK_BYTES];
            let at = at % EVENTS_PER_BLOCK;
            put(block, 0, at as u32 + 1);
            put(block, 1 + 2 * at, packed);
            put(block, 2 + 2 * at, stamp);
        }
        events += 1;
    }
    Ok(events)
}
