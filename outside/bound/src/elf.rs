//! Relocatable object files of ELF, 64 bits, for x86-64: sections, symbols and relocations.

pub const PC32: u32 = 2;
pub const PLT32: u32 = 4;

const SYMBOLS: u64 = 2;
const RELOCATIONS_WITH_ADDEND: u64 = 4;
const NO_BYTES: u64 = 8;
const RELOCATIONS: u64 = 9;

/// The bytes of a symbol, and of a relocation.
const ENTRY: usize = 24;

const WRITE: u64 = 1;
const LOADED: u64 = 2;
const EXECUTE: u64 = 4;

#[derive(Debug, Default)]
pub struct Object {
    pub sections: Vec<Section>,
    pub symbols: Vec<Symbol>,
}

#[derive(Debug, Default)]
pub struct Section {
    pub executable: bool,
    /// Loaded, neither written nor executed.
    pub constant: bool,
    pub bytes: Vec<u8>,
    /// In the order of their offsets.
    pub relocations: Vec<Relocation>,
}

#[derive(Clone, Copy, Debug, PartialEq, Eq)]
pub enum Binding {
    Local,
    Global,
    /// Weak and anything else: a linker may put another in its place.
    Other,
}

#[derive(Clone, Copy, Debug, PartialEq, Eq)]
pub enum Home {
    Undefined,
    Section(usize),
    /// Absolute, common and the like.
    Other,
}

#[derive(Debug)]
pub struct Symbol {
    pub name: String,
    pub function: bool,
    pub binding: Binding,
    pub home: Home,
    pub value: u64,
    pub size: u64,
}

#[derive(Clone, Copy, Debug)]
pub struct Relocation {
    pub offset: usize,
    pub kind: u32,
    pub symbol: usize,
    pub addend: i64,
}

/// A section as its header says it.
struct Header {
    kind: u64,
    flags: u64,
    offset: usize,
    size: usize,
    link: usize,
    info: usize,
    entry: u64,
}

impl Object {
    pub fn read(file: &[u8]) -> Result<Object, String> {
        let headers = headers(file)?;
        let mut object = Object::default();
        for header in &headers {
            let table = matches!(header.kind, SYMBOLS | RELOCATIONS_WITH_ADDEND);
            if table && header.entry != ENTRY as u64 {
                return Err("entries of another size".to_string());
            }
            object.sections.push(section(file, header)?);
        }
        let mut tables = headers.iter().filter(|header| header.kind == SYMBOLS);
        if let Some(table) = tables.next() {
            let names = headers.get(table.link).ok_or("symbols without names")?;
            object.symbols = symbols(content(file, table)?, content(file, names)?)?;
        }
        for header in &headers {
            object.relocate(file, header)?;
        }
        for section in &mut object.sections {
            section.relocations.sort_by_key(|one| one.offset);
        }
        Ok(object)
    }

    /// The relocations of this section, if it has any, put to the section that they are of.
    fn relocate(&mut self, file: &[u8], header: &Header) -> Result<(), String> {
        if header.kind == RELOCATIONS {
            return Err("relocations without an addend".to_string());
        }
        if header.kind != RELOCATIONS_WITH_ADDEND {
            return Ok(());
        }
        let home = self.sections.get_mut(header.info);
        let home = home.ok_or("relocations of no section")?;
        for entry in content(file, header)?.chunks(ENTRY) {
            let info = number(entry, 8, 8)?;
            let relocation = Relocation {
                offset: number(entry, 0, 8)? as usize,
                kind: info as u32,
                symbol: (info >> 32) as usize,
                addend: number(entry, 16, 8)? as i64,
            };
            if relocation.symbol >= self.symbols.len() {
                return Err("a relocation against no symbol".to_string());
            }
            home.relocations.push(relocation);
        }
        Ok(())
    }
}

/// A number of so many bytes, the lowest first.
fn number(bytes: &[u8], at: usize, count: usize) -> Result<u64, String> {
    let end = at.checked_add(count).ok_or("an object file cut off")?;
    let found = bytes.get(at..end).ok_or("an object file cut off")?;
    Ok(found
        .iter()
        .rev()
        .fold(0, |sum, &b| sum << 8 | u64::from(b)))
}

fn headers(file: &[u8]) -> Result<Vec<Header>, String> {
    // 64 bits, lowest byte first; a relocatable file; x86-64
    let right = number(file, 4, 2)? == 0x0102 && number(file, 16, 2)? == 1;
    if !file.starts_with(b"\x7fELF") || !right || number(file, 18, 2)? != 62 {
        return Err("no relocatable object file for x86-64".to_string());
    }
    let start = number(file, 40, 8)? as usize;
    let (step, count) = (number(file, 58, 2)? as usize, number(file, 60, 2)? as usize);
    if step != 64 || count == 0 {
        return Err("section headers of another size or number".to_string());
    }
    (0..count)
        .map(|i| header(file, start.saturating_add(i * step)))
        .collect()
}

fn header(file: &[u8], at: usize) -> Result<Header, String> {
    let field = |offset: usize, count| number(file, at.saturating_add(offset), count);
    Ok(Header {
        kind: field(4, 4)?,
        flags: field(8, 8)?,
        offset: field(24, 8)? as usize,
        size: field(32, 8)? as usize,
        link: field(40, 4)? as usize,
        info: field(44, 4)? as usize,
        entry: field(56, 8)?,
    })
}

fn content<'a>(file: &'a [u8], header: &Header) -> Result<&'a [u8], String> {
    if header.kind == NO_BYTES {
        return Ok(&[]);
    }
    let end = header.offset.checked_add(header.size);
    end.and_then(|end| file.get(header.offset..end))
        .ok_or_else(|| "a section past the end".to_string())
}

fn section(file: &[u8], header: &Header) -> Result<Section, String> {
    Ok(Section {
        executable: header.flags & EXECUTE != 0,
        constant: header.flags & (WRITE | LOADED | EXECUTE) == LOADED,
        bytes: content(file, header)?.to_vec(),
        relocations: Vec::new(),
    })
}

fn symbols(table: &[u8], names: &[u8]) -> Result<Vec<Symbol>, String> {
    table.chunks(ENTRY).map(|one| symbol(one, names)).collect()
}

fn symbol(entry: &[u8], names: &[u8]) -> Result<Symbol, String> {
    let info = number(entry, 4, 1)?;
    let name = number(entry, 0, 4)? as usize;
    let name = names.get(name..).ok_or("a name past the end")?;
    let name = name.split(|&b| b == 0).next().unwrap_or(&[]);
    Ok(Symbol {
        name: String::from_utf8_lossy(name).into_owned(),
        function: info & 15 == 2,
        binding: match info >> 4 {
            0 => Binding::Local,
            1 => Binding::Global,
            _ => Binding::Other,
        },
        home: match number(entry, 6, 2)? as usize {
            0 => Home::Undefined,
            index @ 1..=0xFEFF => Home::Section(index),
            _ => Home::Other,
        },
        value: number(entry, 8, 8)?,
        size: number(entry, 16, 8)?,
    })
}
