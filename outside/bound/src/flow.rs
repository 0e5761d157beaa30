//! How deep a function's own code goes below its return address, and where it calls others.
//!
//! Every path from the entry is followed. Each place has one depth, whichever path leads to it, so no loop makes the
//! stack grow; all code is reached, so no way through it is missed. That compiled code writes no further below rsp than
//! the 128 bytes that the calling convention leaves it is taken for granted only where the address is computed.

use std::collections::{BTreeMap, BTreeSet};

use crate::decode::{decode, Effect, Instruction, Part};

/// The bytes below rsp that a function may use without moving it.
const RED_ZONE: i64 = 128;

/// A function's code, and what the object file says about it.
pub struct Body<'a> {
    pub code: &'a [u8],
    /// Where relocations stand, each with the place in this code that a jump with it leads to, if it does.
    pub links: BTreeMap<usize, Option<usize>>,
    /// The places that the function's jump tables lead to, or why they are not known.
    pub tables: Result<Vec<usize>, String>,
}

#[derive(Clone, Copy, Debug, PartialEq, Eq)]
pub enum Callee {
    /// By the relocation at this place.
    Linked(usize),
    /// So far from the function's own start.
    Near(i64),
}

#[derive(Clone, Copy, Debug, PartialEq, Eq)]
pub struct Call {
    pub at: usize,
    pub depth: u64,
    pub callee: Callee,
    /// A jump, so that the callee returns in place of this function.
    pub tail: bool,
}

/// What a function needs below its return address, in whole words, without its callees; and their calls.
#[derive(Debug, PartialEq, Eq)]
pub struct Frame {
    pub extent: u64,
    pub calls: Vec<Call>,
}

/// Why a function cannot be bounded, and where.
#[derive(Clone, Debug, PartialEq, Eq)]
pub struct Refusal {
    pub at: usize,
    pub why: String,
}

struct Walk<'a> {
    body: &'a Body<'a>,
    seen: BTreeMap<usize, (i64, Instruction)>,
    ahead: Vec<(usize, i64)>,
    /// Where jumps lead.
    aims: BTreeSet<usize>,
    /// Where none may lead: behind the first instruction of a jump through a table.
    runs: BTreeSet<usize>,
    deepest: i64,
    lowest: i64,
    escapes: bool,
    calls: Vec<Call>,
}

pub fn frame(body: &Body) -> Result<Frame, Refusal> {
    let mut walk = Walk {
        body,
        seen: BTreeMap::new(),
        ahead: vec![(0, 0)],
        aims: BTreeSet::new(),
        runs: BTreeSet::new(),
        deepest: 0,
        lowest: 0,
        escapes: false,
        calls: Vec::new(),
    };
    while let Some((at, depth)) = walk.ahead.pop() {
        walk.straight(at, depth)?;
    }
    walk.whole()?;
    let zone = if walk.escapes { RED_ZONE } else { 0 };
    let extent = walk.lowest.max(walk.deepest + zone) as u64;
    Ok(Frame {
        extent: extent.next_multiple_of(8),
        calls: walk.calls,
    })
}

fn refuse<T>(at: usize, why: &str) -> Result<T, Refusal> {
    let why = why.to_string();
    Err(Refusal { at, why })
}

impl Walk<'_> {
    /// Follows the code from here to where it ends, jumps away, or was before.
    fn straight(&mut self, mut at: usize, mut depth: i64) -> Result<(), Refusal> {
        let mut before = [(0, Part::None); 2];
        loop {
            if at >= self.body.code.len() {
                return refuse(at, "the code runs past the function's end");
            }
            if self.met(at, depth)? {
                return Ok(());
            }
            let instruction = decode(&self.body.code[at..]).map_err(|why| Refusal { at, why })?;
            self.seen.insert(at, (depth, instruction));
            let link = self.link(at, &instruction)?;
            if let Effect::JumpIndirect(register) = instruction.effect {
                return self.through_table(at, depth, register, before);
            }
            let next = self.step(at, depth, &instruction, link)?;
            self.reach(depth, &instruction, next);
            before = [before[1], (at, instruction.part)];
            at += instruction.length;
            match next {
                Some(deep) => depth = deep,
                None => return Ok(()),
            }
        }
    }

    /// Whether the place was reached before; then it was at the same depth.
    fn met(&self, at: usize, depth: i64) -> Result<bool, Refusal> {
        match self.seen.get(&at) {
            Some((known, _)) if *known != depth => {
                refuse(at, &format!("reached {known} and {depth} bytes deep"))
            }
            known => Ok(known.is_some()),
        }
    }

    /// The relocation in an instruction, which must not decide how far it moves rsp or reaches from it.
    fn link(&self, at: usize, instruction: &Instruction) -> Result<Option<usize>, Refusal> {
        let end = at + instruction.length;
        let mut links = self.body.links.range(at..end);
        let Some((&link, _)) = links.next() else {
            return Ok(None);
        };
        let jumps = matches!(
            instruction.effect,
            Effect::Call(_) | Effect::Jump(_) | Effect::Branch(_)
        );
        let bad = match instruction.effect {
            Effect::Move(_) => true,
            _ if jumps => instruction.length < 5 || link + 4 != end || links.next().is_some(),
            _ => instruction.stack.is_some() || link + 4 > end,
        };
        match bad {
            true => refuse(at, "a relocation where the number must be known"),
            false => Ok(Some(link)),
        }
    }

    /// What one instruction does. Returns the depth behind it, or none where the code does not go on there.
    fn step(
        &mut self,
        at: usize,
        depth: i64,
        instruction: &Instruction,
        link: Option<usize>,
    ) -> Result<Option<i64>, Refusal> {
        let near = |far| (at + instruction.length) as i64 + far;
        let deep = match instruction.effect {
            Effect::Plain | Effect::Nop => depth,
            Effect::Push => depth + 8,
            Effect::Pop => depth - 8,
            Effect::Move(by) => depth - by,
            Effect::Call(far) => {
                self.call(at, depth, link, near(far), false);
                depth
            }
            Effect::Branch(far) => {
                self.jump(at, depth, link, near(far))?;
                depth
            }
            Effect::Jump(far) => return self.jump(at, depth, link, near(far)).map(|()| None),
            Effect::Return if depth != 0 => {
                return refuse(at, &format!("a return {depth} bytes deep"));
            }
            Effect::Return | Effect::Stop => return Ok(None),
            Effect::Set => return refuse(at, "rsp is set, but not moved by a constant"),
            Effect::CallIndirect => return refuse(at, "an indirect call"),
            Effect::JumpIndirect(_) => return refuse(at, "an indirect jump"),
        };
        match deep >= 0 {
            true => Ok(Some(deep)),
            false => refuse(at, "rsp is moved above the return address"),
        }
    }

    /// How far down an instruction reaches, and the depth behind it.
    fn reach(&mut self, depth: i64, instruction: &Instruction, behind: Option<i64>) {
        self.escapes |= instruction.escapes;
        if let Some(from_rsp) = instruction.stack {
            self.lowest = self.lowest.max(depth - i64::from(from_rsp));
        }
        self.deepest = self.deepest.max(behind.unwrap_or(depth));
    }

    fn call(&mut self, at: usize, depth: i64, link: Option<usize>, near: i64, tail: bool) {
        let callee = link.map_or(Callee::Near(near), Callee::Linked);
        self.calls.push(Call {
            at,
            depth: depth as u64,
            callee,
            tail,
        });
    }

    /// A jump inside the function, or to another one, which then returns to the caller of this one.
    fn jump(
        &mut self,
        at: usize,
        depth: i64,
        link: Option<usize>,
        near: i64,
    ) -> Result<(), Refusal> {
        let inside = match link {
            Some(link) => self.body.links[&link],
            None => usize::try_from(near)
                .ok()
                .filter(|&to| to < self.body.code.len()),
        };
        if let Some(to) = inside {
            self.aims.insert(to);
            if !self.met(to, depth)? {
                self.ahead.push((to, depth));
            }
            return Ok(());
        }
        if depth != 0 {
            return refuse(
                at,
                &format!("a jump out of the function {depth} bytes deep"),
            );
        }
        self.call(at, depth, link, near, true);
        Ok(())
    }

    /// `movslq (base,index,4),to; add base,to; jmp *to` leads to every place in the function's tables.
    fn through_table(
        &mut self,
        at: usize,
        depth: i64,
        register: Option<u8>,
        before: [(usize, Part); 2],
    ) -> Result<(), Refusal> {
        let [(_, load), (addition, add)] = before;
        let (Part::Entry { base, to }, Some(register)) = (load, register) else {
            return refuse(at, "an indirect jump");
        };
        if to == base || register != to || add != (Part::Add { from: base, to }) {
            return refuse(at, "an indirect jump");
        }
        self.runs.extend([addition, at]);
        match &self.body.tables {
            Err(why) => refuse(at, why),
            Ok(places) if places.is_empty() => refuse(at, "an indirect jump without a table"),
            Ok(places) => {
                self.aims.extend(places);
                self.ahead.extend(places.iter().map(|&to| (to, depth)));
                Ok(())
            }
        }
    }

    /// No jump into an instruction or into a jump through a table, and between the reached instructions only padding.
    fn whole(&self) -> Result<(), Refusal> {
        if let Some(&at) = self.runs.intersection(&self.aims).next() {
            return refuse(at, "a jump into a jump through a table");
        }
        let mut end = 0;
        let last = (self.body.code.len(), 0);
        let reached = self.seen.iter().map(|(&at, (_, one))| (at, one.length));
        for (at, length) in reached.chain([last]) {
            if at < end {
                return refuse(at, "a jump into an instruction");
            }
            self.padding(end, at)?;
            end = at + length;
        }
        Ok(())
    }

    fn padding(&self, mut at: usize, end: usize) -> Result<(), Refusal> {
        while at < end {
            let found = decode(&self.body.code[at..end]).map_err(|why| Refusal { at, why })?;
            if !matches!(found.effect, Effect::Nop | Effect::Stop) {
                return refuse(at, "code that no path reaches");
            }
            at += found.length;
        }
        Ok(())
    }
}
