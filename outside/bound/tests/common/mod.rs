//! Object files and archives made by hand.
#![allow(dead_code)]

pub const PC32: u64 = 2;
pub const PLT32: u64 = 4;

/// The bytes, written in hexadecimal.
pub fn bytes(text: &str) -> Vec<u8> {
    text.split_whitespace()
        .map(|byte| u8::from_str_radix(byte, 16).unwrap())
        .collect()
}

/// A relocation: its place, its kind, its symbol (from 0: the functions, the names elsewhere, then the section of the
/// code) and what is added.
pub type Link = (u64, u64, usize, i64);

/// An object file with one section of code and one of data.
pub struct Maker {
    /// Name, binding and code of each function, one behind the other.
    pub functions: Vec<(&'static str, u8, &'static str)>,
    pub elsewhere: Vec<&'static str>,
    pub links: Vec<Link>,
    pub data: usize,
    pub data_links: Vec<Link>,
    pub data_flags: u64,
}

/// Functions that others can call.
pub fn object(functions: &[(&'static str, &'static str)]) -> Maker {
    Maker {
        functions: functions
            .iter()
            .map(|&(name, code)| (name, 1, code))
            .collect(),
        elsewhere: Vec::new(),
        links: Vec::new(),
        data: 0,
        data_links: Vec::new(),
        data_flags: 2,
    }
}

fn words(numbers: &[(u64, usize)]) -> Vec<u8> {
    let bytes = |&(number, count): &(u64, usize)| number.to_le_bytes()[..count].to_vec();
    numbers.iter().flat_map(bytes).collect()
}

fn table(links: &[Link]) -> Vec<u8> {
    let one = |&(at, kind, symbol, addend): &Link| {
        let symbol = (symbol as u64 + 1) << 32;
        words(&[(at, 8), (symbol | kind, 8), (addend as u64, 8)])
    };
    links.iter().flat_map(one).collect()
}

impl Maker {
    /// The number of the section symbol of the data, for links.
    pub fn data_symbol(&self) -> usize {
        self.functions.len() + self.elsewhere.len() + 1
    }

    fn code(&self) -> Vec<u8> {
        self.functions.iter().flat_map(|one| bytes(one.2)).collect()
    }

    /// The symbols and their names; the first symbol is none.
    fn symbols(&self) -> (Vec<u8>, Vec<u8>) {
        let (mut names, mut table, mut start) = (vec![0], vec![0; 24], 0);
        let mut add = |name: &str, info: u64, section: u64, value: u64, size: u64| {
            let at = names.len() as u64;
            names.extend(name.bytes().chain([0]));
            table.extend(words(&[
                (at, 4),
                (info, 2),
                (section, 2),
                (value, 8),
                (size, 8),
            ]));
        };
        for (name, binding, code) in &self.functions {
            let size = bytes(code).len() as u64;
            add(name, u64::from(*binding) << 4 | 2, 1, start, size);
            start += size;
        }
        for name in &self.elsewhere {
            add(name, 1 << 4, 0, 0, 0);
        }
        add("", 3, 1, 0, 0);
        add("", 3, 2, 0, 0);
        (table, names)
    }

    /// Kind, flags, link, info and content of each section.
    fn sections(&self) -> [(u64, u64, u64, u64, Vec<u8>); 7] {
        let (symbols, names) = self.symbols();
        [
            (0, 0, 0, 0, Vec::new()),
            (1, 6, 0, 0, self.code()),
            (1, self.data_flags, 0, 0, vec![0; self.data]),
            (4, 0, 5, 1, table(&self.links)),
            (4, 0, 5, 2, table(&self.data_links)),
            (2, 0, 6, 1, symbols),
            (3, 0, 0, 0, names),
        ]
    }

    pub fn file(&self) -> Vec<u8> {
        let (mut headers, mut content) = (Vec::new(), Vec::new());
        for (kind, flags, link, info, bytes) in self.sections() {
            let (at, size) = (64 + content.len() as u64, bytes.len() as u64);
            let entry = if matches!(kind, 2 | 4) { 24 } else { 0 };
            headers.extend(words(&[(0, 4), (kind, 4), (flags, 8), (0, 8), (at, 8)]));
            headers.extend(words(&[
                (size, 8),
                (link, 4),
                (info, 4),
                (1, 8),
                (entry, 8),
            ]));
            content.extend(bytes);
        }
        let start = 64 + content.len() as u64;
        let mut file = b"\x7fELF\x02\x01\x01".to_vec();
        file.resize(16, 0);
        file.extend(words(&[
            (1, 2),
            (62, 2),
            (1, 4),
            (0, 8),
            (0, 8),
            (start, 8),
            (0, 4),
        ]));
        file.extend(words(&[(64, 2), (0, 4), (64, 2), (7, 2), (6, 2)]));
        [file, content, headers].concat()
    }
}

/// An archive of these files, with an index of its own before them.
pub fn archive(files: &[Vec<u8>]) -> Vec<u8> {
    let mut made = b"!<arch>\n".to_vec();
    let mut add = |name: &str, content: &[u8]| {
        let size = content.len();
        made.extend(format!("{name:<16}{:<12}{:<6}{:<6}{:<8}{size:<10}`\n", 0, 0, 0, 644).bytes());
        made.extend(content);
        made.resize(made.len().next_multiple_of(2), b'\n');
    };
    add("/", b"odd");
    for file in files {
        add("one.o/", file);
    }
    made
}
