//! The parts that instructions share: prefixes, operands and immediates, and what an operand does with rsp.

/// The number of rsp among the general registers. With a bit of REX it is r12; as an index it is none.
pub const RSP: u8 = 4;

/// What is done with an operand that may be a general register.
#[derive(Clone, Copy, PartialEq, Eq)]
pub enum Use {
    /// No general register: an xmm register, or a part of the opcode.
    Not,
    Reads,
    /// Or reads and writes.
    Writes,
    ReadsByte,
    WritesByte,
}

#[derive(Clone, Copy)]
pub struct Memory {
    pub base: Option<u8>,
    pub index: Option<u8>,
    pub scale: u8,
    pub displacement: i32,
    pub from_rip: bool,
}

#[derive(Clone, Copy)]
pub enum Place {
    Register(u8),
    Memory(Memory),
}

/// The operands that a ModRM byte says.
#[derive(Clone, Copy)]
pub struct Operands {
    pub register: u8,
    /// The three bits of the register alone, where they are a part of the opcode.
    pub extension: u8,
    pub place: Place,
}

/// The bytes of an instruction that is being read, and what is known of it so far.
pub struct Reader<'a> {
    bytes: &'a [u8],
    pub at: usize,
    /// 66
    pub sixteen: bool,
    /// F2 or F3
    pub repeat: Option<u8>,
    rex: Option<u8>,
    pub stack: Option<i32>,
    pub escapes: bool,
    pub sets: bool,
}

impl<'a> Reader<'a> {
    pub fn new(bytes: &'a [u8]) -> Self {
        Reader {
            bytes,
            at: 0,
            sixteen: false,
            repeat: None,
            rex: None,
            stack: None,
            escapes: false,
            sets: false,
        }
    }

    pub fn byte(&mut self) -> Result<u8, String> {
        let byte = self.bytes.get(self.at).ok_or("an instruction cut off")?;
        self.at += 1;
        Ok(*byte)
    }

    /// Prefixes up to the opcode, which is returned. REX stands last. 2E and 3E name a segment that begins at 0, or
    /// mark a jump; the other segments, lock and addresses of 32 bits are not known here.
    pub fn prefixes(&mut self) -> Result<u8, String> {
        loop {
            match self.byte()? {
                0x66 => self.sixteen = true,
                0x2E | 0x3E => {}
                byte @ (0xF2 | 0xF3) if self.repeat.is_none() => self.repeat = Some(byte),
                byte @ 0x40..=0x4F => {
                    self.rex = Some(byte);
                    return self.byte();
                }
                byte => return Ok(byte),
            }
        }
    }

    fn rex_bit(&self, bit: u8) -> bool {
        self.rex.is_some_and(|rex| rex >> bit & 1 == 1)
    }

    /// Whether the operands have 64 bits.
    pub fn wide(&self) -> bool {
        self.rex_bit(3)
    }

    /// The general register that an opcode's low bits name.
    pub fn low_register(&self, opcode: u8) -> u8 {
        opcode & 7 | u8::from(self.rex_bit(0)) << 3
    }

    /// A number of so many bytes, with its sign.
    pub fn immediate(&mut self, count: usize) -> Result<i64, String> {
        let mut number: u64 = 0;
        for i in 0..count {
            number |= u64::from(self.byte()?) << (8 * i);
        }
        let unused = 64 - 8 * count.max(1) as u32;
        Ok((number << unused) as i64 >> unused)
    }

    /// An immediate of the operands' size, but at most four bytes.
    pub fn sized(&mut self) -> Result<i64, String> {
        let short = self.sixteen && !self.wide();
        self.immediate(if short { 2 } else { 4 })
    }

    /// Notes what happens to a general register, which matters if it is rsp or a part of it.
    pub fn note(&mut self, register: u8, what: Use) {
        let byte = matches!(what, Use::ReadsByte | Use::WritesByte);
        // Without REX the byte register 4 is ah.
        if register != RSP || byte && self.rex.is_none() {
            return;
        }
        match what {
            Use::Not => {}
            Use::Reads | Use::ReadsByte => self.escapes = true,
            Use::Writes | Use::WritesByte => self.sets = true,
        }
    }

    /// Reads a ModRM byte with what follows it, and notes what its operands do.
    pub fn operands(&mut self, register: Use, place: Use) -> Result<Operands, String> {
        let found = self.parse()?;
        self.note(found.register, register);
        match found.place {
            Place::Register(number) => self.note(number, place),
            Place::Memory(memory) => self.note_memory(memory),
        }
        Ok(found)
    }

    /// An index makes the address anything, as a copy of rsp would.
    pub fn note_memory(&mut self, memory: Memory) {
        if memory.base == Some(RSP) {
            self.stack = Some(memory.displacement);
            self.escapes |= memory.index.is_some();
        }
    }

    /// Reads a ModRM byte with what follows it, and notes nothing.
    pub fn parse(&mut self) -> Result<Operands, String> {
        let byte = self.byte()?;
        let extension = byte >> 3 & 7;
        let place = if byte >> 6 == 3 {
            Place::Register(self.low_register(byte))
        } else {
            Place::Memory(self.memory(byte >> 6, byte & 7)?)
        };
        Ok(Operands {
            register: extension | u8::from(self.rex_bit(2)) << 3,
            extension,
            place,
        })
    }

    fn memory(&mut self, mode: u8, low: u8) -> Result<Memory, String> {
        let mut memory = Memory {
            base: Some(self.low_register(low)),
            index: None,
            scale: 1,
            displacement: 0,
            from_rip: mode == 0 && low == 5,
        };
        if low == 4 {
            let byte = self.byte()?;
            let index = byte >> 3 & 7 | u8::from(self.rex_bit(1)) << 3;
            memory.scale = 1 << (byte >> 6);
            memory.index = (index != RSP).then_some(index);
            memory.base = Some(self.low_register(byte));
        }
        // Register 5 (or 13) as a base without a displacement means a displacement without a base.
        let none = mode == 0 && memory.base.is_some_and(|base| base & 7 == 5);
        if none {
            memory.base = None;
        }
        memory.displacement = match mode {
            1 => self.immediate(1)?,
            2 => self.immediate(4)?,
            _ if none => self.immediate(4)?,
            _ => 0,
        } as i32;
        Ok(memory)
    }
}
