//! One x86-64 instruction: how long it is, where it leads and what it does with rsp. What is not known is refused.

use crate::operands::{Memory, Operands, Place, Reader, Use, RSP};

#[derive(Clone, Copy, Debug, PartialEq, Eq)]
pub enum Effect {
    Plain,
    Nop,
    Push,
    Pop,
    /// rsp is moved by so much.
    Move(i64),
    /// rsp is set in another way.
    Set,
    /// Calls and jumps lead so far from the instruction's end.
    Call(i64),
    CallIndirect,
    Jump(i64),
    Branch(i64),
    /// To where a register says, or a place in memory.
    JumpIndirect(Option<u8>),
    Return,
    Stop,
}

/// What an instruction may be in a jump through a table.
#[derive(Clone, Copy, Debug, PartialEq, Eq)]
pub enum Part {
    None,
    /// `lea table(%rip),to`
    Address,
    /// `movslq (base,index,4),to`
    Entry {
        base: u8,
        to: u8,
    },
    /// `add from,to`
    Add {
        from: u8,
        to: u8,
    },
}

#[derive(Clone, Copy, Debug, PartialEq, Eq)]
pub struct Instruction {
    pub length: usize,
    pub effect: Effect,
    /// A place in memory so far from rsp, perhaps with an index added.
    pub stack: Option<i32>,
    /// The value of rsp goes somewhere else.
    pub escapes: bool,
    pub part: Part,
}

type Decoded = Result<(Effect, Part), String>;

/// The instruction at the front of the bytes.
pub fn decode(bytes: &[u8]) -> Result<Instruction, String> {
    let mut reader = Reader::new(bytes);
    let opcode = reader.prefixes()?;
    let (effect, part) = if opcode == 0x0F {
        let second = reader.byte()?;
        (two_bytes(&mut reader, second)?, Part::None)
    } else {
        one_byte(&mut reader, opcode)?
    };
    if reader.at > 15 {
        return Err("an instruction of more than 15 bytes".to_string());
    }
    Ok(Instruction {
        length: reader.at,
        effect: if reader.sets { Effect::Set } else { effect },
        stack: reader.stack,
        escapes: reader.escapes,
        part,
    })
}

fn unknown<T>(what: &str) -> Result<T, String> {
    Err(format!("an instruction that is not known: {what}"))
}

fn plain(effect: Effect) -> Decoded {
    Ok((effect, Part::None))
}

fn one_byte(reader: &mut Reader, opcode: u8) -> Decoded {
    let repeats = matches!(opcode, 0x90 | 0xA4 | 0xA5 | 0xAA | 0xAB | 0xC3);
    if reader.repeat.is_some() && !repeats {
        return unknown(&format!("{opcode:02x} with a prefix"));
    }
    match opcode {
        0x00..=0x3F => arithmetic(reader, opcode),
        0x63 => entry(reader),
        0x8D => address(reader),
        0x80 | 0x81 | 0x83 => with_immediate(reader, opcode).and_then(plain),
        0x50..=0x5F | 0x68 | 0x6A | 0x70..=0x7F | 0xC3 | 0xE8 | 0xE9 | 0xEB => {
            if reader.sixteen {
                return unknown(&format!("66 {opcode:02x}"));
            }
            moving(reader, opcode).and_then(plain)
        }
        0xF6 | 0xF7 | 0xFE | 0xFF => group(reader, opcode).and_then(plain),
        _ => simple(reader, opcode).and_then(plain),
    }
}

/// add, or, adc, sbb, and, sub, xor, cmp, each in six forms.
fn arithmetic(reader: &mut Reader, opcode: u8) -> Decoded {
    let written = match opcode >> 3 {
        7 => Use::Reads,
        _ => Use::Writes,
    };
    let found = match opcode & 7 {
        form @ 0..=3 => {
            let (read, written) = sized(Use::Reads, written, form & 1 == 1);
            match form {
                0 | 1 => reader.operands(read, written)?,
                _ => reader.operands(written, read)?,
            }
        }
        4 => return reader.immediate(1).and_then(|_| plain(Effect::Plain)),
        5 => return reader.sized().and_then(|_| plain(Effect::Plain)),
        _ => return unknown(&format!("{opcode:02x}")),
    };
    let part = match (opcode, found.place) {
        (0x01, Place::Register(to)) if reader.wide() => Part::Add {
            from: found.register,
            to,
        },
        (0x03, Place::Register(from)) if reader.wide() => Part::Add {
            from,
            to: found.register,
        },
        _ => Part::None,
    };
    Ok((Effect::Plain, part))
}

/// Both uses, of bytes where the operands are bytes.
fn sized(one: Use, other: Use, full: bool) -> (Use, Use) {
    let byte = |what| match what {
        Use::Reads => Use::ReadsByte,
        Use::Writes => Use::WritesByte,
        other => other,
    };
    if full {
        (one, other)
    } else {
        (byte(one), byte(other))
    }
}

/// movslq, of which an entry of a table may be read.
fn entry(reader: &mut Reader) -> Decoded {
    let found = reader.operands(Use::Writes, Use::Reads)?;
    let part = match found.place {
        Place::Memory(Memory {
            base: Some(base),
            index: Some(_),
            scale: 4,
            displacement: 0,
            ..
        }) if reader.wide() => Part::Entry {
            base,
            to: found.register,
        },
        _ => Part::None,
    };
    Ok((Effect::Plain, part))
}

/// lea, which may move rsp, and else copies it where it is the base.
fn address(reader: &mut Reader) -> Decoded {
    let found = reader.parse()?;
    let Place::Memory(memory) = found.place else {
        return unknown("lea of a register");
    };
    if found.register == RSP {
        let moved = memory.base == Some(RSP) && memory.index.is_none() && reader.wide();
        return match moved {
            true => plain(Effect::Move(memory.displacement.into())),
            false => plain(Effect::Set),
        };
    }
    reader.note_memory(memory);
    reader.escapes |= memory.base == Some(RSP);
    let part = match memory.from_rip && reader.wide() {
        true => Part::Address,
        false => Part::None,
    };
    Ok((Effect::Plain, part))
}

/// The same eight as `arithmetic`, with an immediate: add and sub may move rsp.
fn with_immediate(reader: &mut Reader, opcode: u8) -> Result<Effect, String> {
    let found = reader.parse()?;
    let number = match opcode {
        0x81 => reader.sized()?,
        _ => reader.immediate(1)?,
    };
    let register = match found.place {
        Place::Register(register) => register,
        Place::Memory(memory) => {
            reader.note_memory(memory);
            return Ok(Effect::Plain);
        }
    };
    if register == RSP && opcode != 0x80 && reader.wide() {
        match found.extension {
            0 => return Ok(Effect::Move(number)),
            5 => return Ok(Effect::Move(-number)),
            _ => {}
        }
    }
    let written = match found.extension {
        7 => Use::Reads,
        _ => Use::Writes,
    };
    let (written, _) = sized(written, Use::Not, opcode != 0x80);
    reader.note(register, written);
    Ok(Effect::Plain)
}

/// push, pop, calls, jumps and the return.
fn moving(reader: &mut Reader, opcode: u8) -> Result<Effect, String> {
    let register = reader.low_register(opcode);
    Ok(match opcode {
        0x50..=0x57 => {
            reader.note(register, Use::Reads);
            Effect::Push
        }
        0x58..=0x5F => {
            reader.note(register, Use::Writes);
            Effect::Pop
        }
        0x68 => reader.immediate(4).map(|_| Effect::Push)?,
        0x6A => reader.immediate(1).map(|_| Effect::Push)?,
        0x70..=0x7F => Effect::Branch(reader.immediate(1)?),
        0xC3 => Effect::Return,
        0xE8 => Effect::Call(reader.immediate(4)?),
        0xE9 => Effect::Jump(reader.immediate(4)?),
        _ => Effect::Jump(reader.immediate(1)?),
    })
}

/// The two groups whose opcode goes on in the ModRM byte: test to idiv, and inc to push.
fn group(reader: &mut Reader, opcode: u8) -> Result<Effect, String> {
    let found = reader.operands(Use::Not, Use::Not)?;
    let full = opcode & 1 == 1;
    let (read, written) = sized(Use::Reads, Use::Writes, full);
    let (what, effect) = match (opcode, found.extension) {
        (0xF6, 0) => reader.immediate(1).map(|_| (read, Effect::Plain))?,
        (0xF7, 0) => reader.sized().map(|_| (read, Effect::Plain))?,
        (0xF6 | 0xF7, 2 | 3) => (written, Effect::Plain),
        (0xF6 | 0xF7, 4..=7) => (read, Effect::Plain),
        (0xFE | 0xFF, 0 | 1) => (written, Effect::Plain),
        (0xFF, 2) if !reader.sixteen => (read, Effect::CallIndirect),
        (0xFF, 4) if !reader.sixteen => match found.place {
            Place::Register(register) => (read, Effect::JumpIndirect(Some(register))),
            Place::Memory(_) => (read, Effect::JumpIndirect(None)),
        },
        (0xFF, 6) if !reader.sixteen => (read, Effect::Push),
        (opcode, extension) => return unknown(&format!("{opcode:02x} /{extension}")),
    };
    note_place(reader, found, what);
    Ok(effect)
}

fn note_place(reader: &mut Reader, found: Operands, what: Use) {
    if let Place::Register(register) = found.place {
        reader.note(register, what);
    }
}

/// What only computes or moves data, between operands that a ModRM byte says.
fn simple(reader: &mut Reader, opcode: u8) -> Result<Effect, String> {
    let (read, written) = sized(Use::Reads, Use::Writes, opcode & 1 == 1);
    match opcode {
        0x69 | 0x6B => {
            reader.operands(Use::Writes, Use::Reads)?;
            match opcode {
                0x69 => reader.sized()?,
                _ => reader.immediate(1)?,
            };
        }
        0x84 | 0x85 => {
            reader.operands(read, read)?;
        }
        0x86 | 0x87 => {
            reader.operands(written, written)?;
        }
        0x88 | 0x89 => {
            reader.operands(read, written)?;
        }
        0x8A | 0x8B => {
            reader.operands(written, read)?;
        }
        0xC0 | 0xC1 | 0xC6 | 0xC7 | 0xD0..=0xD3 => shift_or_store(reader, opcode, written)?,
        _ => return short(reader, opcode),
    }
    Ok(Effect::Plain)
}

/// What has no ModRM byte, and stops, does nothing, computes or moves data.
fn short(reader: &mut Reader, opcode: u8) -> Result<Effect, String> {
    let low = reader.low_register(opcode);
    match opcode {
        0x90 if low == 0 => return Ok(Effect::Nop),
        0xCC | 0xF4 => return Ok(Effect::Stop),
        // leave
        0xC9 => return Ok(Effect::Set),
        0x90..=0x97 => reader.note(low, Use::Writes),
        // cwde, cdq and those longer; string moves and stores
        0x98 | 0x99 | 0xA4 | 0xA5 | 0xAA | 0xAB => {}
        0xA8 => reader.immediate(1).map(drop)?,
        0xA9 => reader.sized().map(drop)?,
        0xB0..=0xB7 => {
            reader.note(low, Use::WritesByte);
            reader.immediate(1)?;
        }
        0xB8..=0xBF => {
            reader.note(low, Use::Writes);
            match reader.wide() {
                true => reader.immediate(8)?,
                false => reader.sized()?,
            };
        }
        _ => return unknown(&format!("{opcode:02x}")),
    }
    Ok(Effect::Plain)
}

/// Shifts (all but the sixth, which is none) and a store of an immediate.
fn shift_or_store(reader: &mut Reader, opcode: u8, written: Use) -> Result<(), String> {
    let found = reader.operands(Use::Not, written)?;
    match (opcode, found.extension) {
        (0xC7, 0) => reader.sized().map(drop),
        (0xC6, 0) => reader.immediate(1).map(drop),
        (0xC6 | 0xC7, _) | (_, 6) => unknown(&format!("{opcode:02x} /{}", found.extension)),
        (0xC0 | 0xC1, _) => reader.immediate(1).map(drop),
        _ => Ok(()),
    }
}

/// The opcodes behind 0F. Of those for xmm registers: what compilers use of SSE2 on whole numbers.
fn two_bytes(reader: &mut Reader, second: u8) -> Result<Effect, String> {
    let prefix = match (reader.repeat, reader.sixteen) {
        (Some(byte), _) => byte,
        (None, true) => 0x66,
        (None, false) => 0,
    };
    match (prefix, second) {
        (0, 0x0B) => return Ok(Effect::Stop),
        (0, 0x80..=0x8F) => return Ok(Effect::Branch(reader.immediate(4)?)),
        (0 | 0x66, 0x1F) => return reader.parse().map(|_| Effect::Nop),
        (0xF3, 0x1E) => match reader.byte()? {
            0xFA => return Ok(Effect::Nop),
            byte => return unknown(&format!("f3 0f 1e {byte:02x}")),
        },
        (_, 0x38 | 0x3A) => {
            let third = reader.byte()?;
            return match wider_vector(reader, prefix, second, third)? {
                true => Ok(Effect::Plain),
                false => unknown(&format!(
                    "0f {second:02x} {third:02x} with prefix {prefix:02x}"
                )),
            };
        }
        _ => {}
    }
    if !general(reader, prefix, second)? && !vector(reader, prefix, second)? {
        return unknown(&format!("0f {second:02x} with prefix {prefix:02x}"));
    }
    Ok(Effect::Plain)
}

/// The opcodes behind 0F for general registers.
fn general(reader: &mut Reader, prefix: u8, second: u8) -> Result<bool, String> {
    match (prefix, second) {
        (0 | 0x66, 0x40..=0x4F | 0xAF | 0xB7 | 0xBF | 0xBC | 0xBD) | (0xF3, 0xB8 | 0xBC | 0xBD) => {
            reader.operands(Use::Writes, Use::Reads)?;
        }
        (0 | 0x66, 0xB6 | 0xBE) => {
            reader.operands(Use::Writes, Use::ReadsByte)?;
        }
        (0, 0x90..=0x9F) => {
            reader.operands(Use::Not, Use::WritesByte)?;
        }
        (0 | 0x66, 0xA3 | 0xAB | 0xB3 | 0xBB) => {
            // In memory the bit may be far from the place.
            if let Place::Memory(_) = reader.operands(Use::Reads, bit(second >> 3 & 3))?.place {
                return unknown("a bit of memory");
            }
        }
        (0 | 0x66, 0xA4 | 0xAC) => {
            reader.operands(Use::Reads, Use::Writes)?;
            reader.immediate(1)?;
        }
        (0 | 0x66, 0xA5 | 0xAD) => {
            reader.operands(Use::Reads, Use::Writes)?;
        }
        (0 | 0x66, 0xBA) => {
            let found = reader.operands(Use::Not, Use::Not)?;
            if found.extension < 4 {
                return unknown(&format!("0f ba /{}", found.extension));
            }
            note_place(reader, found, bit(found.extension & 3));
            reader.immediate(1)?;
        }
        (0, 0xC8..=0xCF) => reader.note(reader.low_register(second), Use::Writes),
        _ => return Ok(false),
    }
    Ok(true)
}

/// bt reads its operand; bts, btr and btc write it.
fn bit(which: u8) -> Use {
    match which {
        0 => Use::Reads,
        _ => Use::Writes,
    }
}

/// The opcodes behind 0F for xmm registers, whose number 4 is not rsp.
fn vector(reader: &mut Reader, prefix: u8, second: u8) -> Result<bool, String> {
    let (register, place, immediate) = match (prefix, second) {
        (_, 0x10 | 0x11) => (Use::Not, Use::Not, 0),
        (0 | 0x66, 0x12..=0x17 | 0x28 | 0x29 | 0x54..=0x57) => (Use::Not, Use::Not, 0),
        (0 | 0x66, 0x50) | (0x66, 0xD7) => (Use::Writes, Use::Not, 0),
        (0x66, 0x60..=0x6D | 0x74..=0x76) => (Use::Not, Use::Not, 0),
        (0x66, 0x6E) => (Use::Not, Use::Reads, 0),
        (0x66, 0x7E) => (Use::Not, Use::Writes, 0),
        (0xF3, 0x7E) | (0x66 | 0xF3, 0x6F | 0x7F) => (Use::Not, Use::Not, 0),
        (0x66 | 0xF2 | 0xF3, 0x70) | (0 | 0x66, 0xC6) => (Use::Not, Use::Not, 1),
        (0x66, 0x71..=0x73) => (Use::Not, Use::Not, 1),
        (0x66, 0xC4) => (Use::Not, Use::Reads, 1),
        (0x66, 0xC5) => (Use::Writes, Use::Not, 1),
        (0x66, 0xF0 | 0xF7 | 0xFF) => return Ok(false),
        (0x66, 0xD1..=0xFE) => (Use::Not, Use::Not, 0),
        _ => return Ok(false),
    };
    let found = reader.operands(register, place)?;
    reader.immediate(immediate)?;
    Ok(right(prefix, second, found))
}

/// The opcodes behind 0F 38 and 0F 3A for xmm registers: what compilers use of SSSE3 and SSE4.1 on whole numbers.
fn wider_vector(reader: &mut Reader, prefix: u8, second: u8, third: u8) -> Result<bool, String> {
    let (place, immediate) = match (prefix, second, third) {
        // bytes shuffled; numbers compared, widened, multiplied, packed; the least and the greatest
        (
            0x66,
            0x38,
            0x00 | 0x17 | 0x1C..=0x1E | 0x20..=0x25 | 0x29 | 0x2B | 0x30..=0x35 | 0x38..=0x40,
        ) => (Use::Not, 0),
        // blends, and two registers shifted as one
        (0x66, 0x3A, 0x0E | 0x0F) => (Use::Not, 1),
        // one number taken out of a register, and one put into it
        (0x66, 0x3A, 0x14..=0x16) => (Use::Writes, 1),
        (0x66, 0x3A, 0x20 | 0x22) => (Use::Reads, 1),
        _ => return Ok(false),
    };
    reader.operands(Use::Not, place)?;
    reader.immediate(immediate)?;
    Ok(true)
}

/// Whether an opcode for xmm registers has the operands and the extension that it must have, where not all are right.
fn right(prefix: u8, second: u8, found: Operands) -> bool {
    let memory = matches!(found.place, Place::Memory(_));
    match (prefix, second) {
        (0x66, 0x12 | 0x16) | (_, 0x13 | 0x17 | 0xE7) => memory,
        (_, 0x50 | 0xC5 | 0xD7) => !memory,
        (_, 0x71 | 0x72) => !memory && matches!(found.extension, 2 | 4 | 6),
        (_, 0x73) => !memory && matches!(found.extension, 2 | 3 | 6 | 7),
        _ => true,
    }
}
