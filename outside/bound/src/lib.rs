//! Bounds the stack of compiled x86-64 functions, for every input, from their machine code alone.

pub mod archive;
pub mod calls;
pub mod decode;
pub mod elf;
pub mod flow;
mod operands;
mod program;
pub mod starts;
mod tables;
