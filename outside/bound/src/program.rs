//! The object files together: their functions, and where relocations lead.

use crate::archive::objects;
use crate::elf::{Binding, Home, Object, Relocation, Symbol, PC32, PLT32};

/// A function: its object file and its symbol there.
#[derive(Clone, Copy, Debug, PartialEq, Eq, PartialOrd, Ord)]
pub struct Id {
    pub object: usize,
    pub symbol: usize,
}

#[derive(Default)]
pub struct Program {
    pub objects: Vec<Object>,
}

/// Whether the relocation gives the way from its own place.
fn relative(relocation: &Relocation) -> bool {
    matches!(relocation.kind, PC32 | PLT32)
}

impl Program {
    pub fn add(&mut self, file: &[u8]) -> Result<(), String> {
        for bytes in objects(file)? {
            self.objects.push(Object::read(bytes)?);
        }
        Ok(())
    }

    pub fn symbol(&self, id: Id) -> &Symbol {
        &self.objects[id.object].symbols[id.symbol]
    }

    /// Every function that has code here.
    pub fn functions(&self) -> impl Iterator<Item = Id> + '_ {
        (0..self.objects.len()).flat_map(|object| {
            let count = self.objects[object].symbols.len();
            let ids = (0..count).map(move |symbol| Id { object, symbol });
            ids.filter(|&id| self.symbol(id).function && self.section(id).is_some())
        })
    }

    pub fn section(&self, id: Id) -> Option<usize> {
        match self.symbol(id).home {
            Home::Section(index) => Some(index),
            _ => None,
        }
    }

    /// The function's bytes, and where they begin in its section.
    pub fn code(&self, id: Id) -> Result<(usize, &[u8]), String> {
        let symbol = self.symbol(id);
        let found = self.section(id);
        let section = found.and_then(|index| self.objects[id.object].sections.get(index));
        let section = section.filter(|section| section.executable);
        let bytes = &section.ok_or("no function in executable code")?.bytes;
        let (start, size) = (symbol.value as usize, symbol.size as usize);
        let end = start.checked_add(size).ok_or("a size past the end")?;
        match bytes.get(start..end) {
            Some([]) => Err("a function without a size".to_string()),
            Some(code) => Ok((start, code)),
            None => Err("a function past its section's end".to_string()),
        }
    }

    /// The relocations in the function's bytes.
    pub fn relocations(&self, id: Id) -> impl Iterator<Item = &Relocation> {
        let symbol = self.symbol(id);
        let (start, end) = (symbol.value, symbol.value.saturating_add(symbol.size));
        let section = self.section(id).unwrap_or(0);
        let all = &self.objects[id.object].sections[section].relocations;
        all.iter()
            .filter(move |one| (start..end).contains(&(one.offset as u64)))
    }

    /// The section and the place in it to which a jump with this relocation leads, if it is in the same object.
    pub fn aim(&self, object: usize, relocation: &Relocation) -> Option<(usize, i64)> {
        let symbol = &self.objects[object].symbols[relocation.symbol];
        match symbol.home {
            // What is added is meant from the relocation, four bytes before the instruction's end.
            Home::Section(section) if relative(relocation) && symbol.binding != Binding::Other => {
                Some((section, symbol.value as i64 + relocation.addend + 4))
            }
            _ => None,
        }
    }

    /// The function that begins at this place.
    pub fn starting(&self, object: usize, section: usize, at: i64) -> Result<Id, String> {
        let mut found = self.functions().filter(|&id| {
            let value = self.symbol(id).value as i64;
            id.object == object && self.section(id) == Some(section) && value == at
        });
        let first = found.next();
        let first = first.ok_or("it leads to no function's start")?;
        let size = self.symbol(first).size;
        match found.all(|id| self.symbol(id).size == size) {
            true => Ok(first),
            false => Err("it leads to functions of two sizes".to_string()),
        }
    }

    /// The function to which a call with this relocation leads.
    pub fn linked(&self, object: usize, relocation: &Relocation) -> Result<Id, String> {
        if let Some((section, at)) = self.aim(object, relocation) {
            return self.starting(object, section, at);
        }
        let symbol = &self.objects[object].symbols[relocation.symbol];
        let start = relative(relocation) && relocation.addend == -4;
        if symbol.home == Home::Undefined && start {
            return self.global(&symbol.name);
        }
        Err(format!("{}: a call that is not known", symbol.name))
    }

    /// The one function of this name that others can call.
    pub fn global(&self, name: &str) -> Result<Id, String> {
        let mut found = self.functions().filter(|&id| {
            let symbol = self.symbol(id);
            symbol.name == name && symbol.binding != Binding::Local
        });
        let first = found.next();
        let first = first.ok_or_else(|| format!("{name} is in none of the archives"))?;
        if found.next().is_some() || self.symbol(first).binding == Binding::Other {
            return Err(format!("{name} is not the only one of its name"));
        }
        Ok(first)
    }
}
