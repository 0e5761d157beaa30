//! Where the instructions of functions begin, to be compared with a disassembler's list.

use crate::calls::{Calls, Code};
use crate::decode::{decode, Instruction};

/// Each instruction of the code with its place, one behind the other; the last is an error if one is not known.
pub fn sweep(code: &[u8]) -> Vec<Result<(usize, Instruction), String>> {
    let mut found = Vec::new();
    let mut at = 0;
    while at < code.len() {
        let one = decode(&code[at..]).map_err(|why| format!("+{at:#x}: {why}"));
        let length = one.as_ref().map_or(code.len(), |one| one.length);
        found.push(one.map(|one| (at, one)));
        at += length;
    }
    found
}

/// A line for each instruction of each function: the place in the section, and the function's name.
pub fn lines(calls: &Calls) -> Result<Vec<String>, String> {
    let mut lines = Vec::new();
    for Code { name, start, bytes } in calls.codes()? {
        for one in sweep(bytes) {
            let (at, _) = one.map_err(|why| format!("{name}{why}"))?;
            lines.push(format!("{:x} {name}", start + at));
        }
    }
    Ok(lines)
}
