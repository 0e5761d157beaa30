//! What the calls return of a sheet, from its three numbers.
use desk::{Since, Verdict};

pub fn since(number: u32, block: u32, position: u32) -> Since {
    Since {
        number,
        block,
        position,
    }
}

pub fn verdict(number: u32, block: u32, position: u32) -> Verdict {
    Verdict {
        number,
        block,
        position,
    }
}
