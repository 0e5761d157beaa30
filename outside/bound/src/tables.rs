//! The jump tables of a function: in constant data, each entry a relocation that gives the way from the table's start.

use std::collections::BTreeSet;

use crate::decode::Part;
use crate::elf::PC32;
use crate::program::{Id, Program};
use crate::starts::sweep;

/// A place in a section.
type Spot = (usize, i64);

/// The places in the function to which its tables lead.
pub fn places(program: &Program, id: Id) -> Result<Vec<usize>, String> {
    let same_object = program.functions().filter(|one| one.object == id.object);
    let starts: BTreeSet<Spot> = same_object
        .flat_map(|one| addresses(program, one))
        .collect();
    let mut found = BTreeSet::new();
    for start in addresses(program, id) {
        let end = starts
            .range((start.0, start.1 + 1)..)
            .next()
            .filter(|next| next.0 == start.0);
        let end = end.map_or(i64::MAX, |next| next.1);
        found.extend(entries(program, id, start, end)?);
    }
    Ok(found.into_iter().collect())
}

/// The constant data whose address the function takes.
fn addresses(program: &Program, id: Id) -> Vec<Spot> {
    let Ok((start, code)) = program.code(id) else {
        return Vec::new();
    };
    let ends: BTreeSet<usize> = sweep(code)
        .into_iter()
        .map_while(Result::ok)
        .filter(|(_, instruction)| instruction.part == Part::Address)
        .map(|(at, instruction)| start + at + instruction.length)
        .collect();
    let sections = &program.objects[id.object].sections;
    program
        .relocations(id)
        .filter(|one| one.kind == PC32 && ends.contains(&(one.offset + 4)))
        .filter_map(|one| program.aim(id.object, one))
        .filter(|spot| sections.get(spot.0).is_some_and(|one| one.constant))
        .collect()
}

/// Where the entries of one table lead: up to the next table, or to the first place without such a relocation.
fn entries(program: &Program, id: Id, start: Spot, end: i64) -> Result<Vec<usize>, String> {
    let object = &program.objects[id.object];
    let relocations = &object.sections[start.0].relocations;
    let mut found = Vec::new();
    let mut at = start.1;
    while at < end {
        let entry = relocations
            .binary_search_by_key(&at, |one| one.offset as i64)
            .map(|index| &relocations[index]);
        let Some(entry) = entry.ok().filter(|one| one.kind == PC32) else {
            break;
        };
        // What a jump adds for its own end is not there in an entry.
        let aim = program.aim(id.object, entry);
        let place = aim.map(|(section, to)| (section, to - 4 - (at - start.1)));
        found.push(inside(program, id, place).ok_or("a jump table leads out of the function")?);
        at += 4;
    }
    Ok(found)
}

/// The place from the function's start, if it is in the function.
pub fn inside(program: &Program, id: Id, place: Option<Spot>) -> Option<usize> {
    let (section, at) = place?;
    let symbol = program.symbol(id);
    let from_start = usize::try_from(at - symbol.value as i64).ok()?;
    let own = program.section(id) == Some(section) && (from_start as u64) < symbol.size;
    own.then_some(from_start)
}
