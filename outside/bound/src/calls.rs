//! The bound of a call: the deepest path through its functions, each with its return address.

use std::collections::BTreeMap;

use crate::flow::{frame, Body, Call, Callee, Refusal};
use crate::program::{Id, Program};
use crate::tables::{inside, places};

/// The bytes of a return address.
const RETURN: u64 = 8;

/// The bytes of a call, and each function's part of them on the deepest path.
#[derive(Clone, Debug, PartialEq, Eq)]
pub struct Bound {
    pub bytes: u64,
    pub path: Vec<(String, u64)>,
}

/// A function: its name, where it begins in its section, and its bytes.
pub struct Code<'a> {
    pub name: &'a str,
    pub start: usize,
    pub bytes: &'a [u8],
}

#[derive(Default)]
pub struct Calls {
    program: Program,
    known: BTreeMap<Id, Result<Bound, String>>,
    /// The functions that are being looked at, each called by the one before.
    trail: Vec<Id>,
}

impl Calls {
    /// Takes in an archive or an object file.
    pub fn add(&mut self, file: &[u8]) -> Result<(), String> {
        self.program.add(file)
    }

    /// The bound of the function with this name, or why there is none.
    pub fn bound(&mut self, name: &str) -> Result<Bound, String> {
        let id = self.program.global(name)?;
        self.of(id)
    }

    /// Every function.
    pub fn codes(&self) -> Result<Vec<Code<'_>>, String> {
        let program = &self.program;
        let one = |id| {
            let name = program.symbol(id).name.as_str();
            let (start, bytes) = program.code(id).map_err(|why| format!("{name}: {why}"))?;
            Ok(Code { name, start, bytes })
        };
        program.functions().map(one).collect()
    }

    fn of(&mut self, id: Id) -> Result<Bound, String> {
        if let Some(known) = self.known.get(&id) {
            return known.clone();
        }
        if let Some(first) = self.trail.iter().position(|&one| one == id) {
            return Err(self.circle(first));
        }
        self.trail.push(id);
        let found = self.deepest(id);
        self.trail.pop();
        self.known.insert(id, found.clone());
        found
    }

    /// The function's own extent, or a call that goes deeper.
    fn deepest(&mut self, id: Id) -> Result<Bound, String> {
        let name = self.program.symbol(id).name.clone();
        let place = |at: usize, why: &str| format!("{name}+{at:#x}: {why}");
        let body = self.body(id).map_err(|why| place(0, &why))?;
        let frame = frame(&body).map_err(|Refusal { at, why }| place(at, &why))?;
        let bytes = RETURN + frame.extent;
        let mut bound = Bound {
            bytes,
            path: vec![(name.clone(), bytes)],
        };
        for call in &frame.calls {
            let callee = self.callee(id, call).map_err(|why| place(call.at, &why))?;
            let deeper = self.of(callee)?;
            let own = call.depth + if call.tail { 0 } else { RETURN };
            if own + deeper.bytes > bound.bytes {
                bound.bytes = own + deeper.bytes;
                bound.path = vec![(name.clone(), own)];
                bound.path.extend(deeper.path);
            }
        }
        Ok(bound)
    }

    fn body(&self, id: Id) -> Result<Body<'_>, String> {
        let (start, code) = self.program.code(id)?;
        let link = |one| inside(&self.program, id, self.program.aim(id.object, one));
        Ok(Body {
            code,
            links: self
                .program
                .relocations(id)
                .map(|one| (one.offset - start, link(one)))
                .collect(),
            tables: places(&self.program, id),
        })
    }

    fn callee(&self, id: Id, call: &Call) -> Result<Id, String> {
        let start = self.program.symbol(id).value;
        match call.callee {
            Callee::Near(far) => {
                let section = self.program.section(id).unwrap_or(0);
                self.program
                    .starting(id.object, section, start as i64 + far)
            }
            Callee::Linked(at) => {
                let mut all = self.program.relocations(id);
                let found = all.find(|one| one.offset == start as usize + at);
                self.program
                    .linked(id.object, found.ok_or("no relocation")?)
            }
        }
    }

    fn circle(&self, first: usize) -> String {
        let name = |&id| self.program.symbol(id).name.as_str();
        let mut names: Vec<&str> = self.trail[first..].iter().map(name).collect();
        names.push(names[0]);
        format!("recursion: {}", names.join(" calls "))
    }
}
