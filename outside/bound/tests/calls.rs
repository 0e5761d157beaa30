//! Object files made by hand: where calls lead, the deepest path, and what is refused.

mod common;

use bound::calls::Calls;
use common::{archive, object, Maker, PC32, PLT32};

/// The bound of a function with its path, or why there is none.
fn bound(makers: &[Maker], name: &str) -> Result<String, String> {
    let mut calls = Calls::default();
    for maker in makers {
        calls.add(&maker.file())?;
    }
    let bound = calls.bound(name)?;
    let parts: u64 = bound.path.iter().map(|part| part.1).sum();
    assert_eq!(parts, bound.bytes);
    let part = |(name, bytes): &(String, u64)| format!("{name} {bytes}");
    let path: Vec<String> = bound.path.iter().map(part).collect();
    Ok(path.join(", "))
}

fn good(makers: &[Maker], name: &str, path: &str) {
    assert_eq!(bound(makers, name), Ok(path.to_string()));
}

fn refused(makers: &[Maker], name: &str, why: &str) {
    assert_eq!(bound(makers, name), Err(why.to_string()));
}

/// push %rbx; call; pop %rbx; ret
const CALL: &str = "53 e8 00 00 00 00 5b c3";
/// push; push; pop; pop; ret
const LEAF: &str = "53 55 5d 5b c3";

fn linked(symbol: usize, addend: i64) -> Maker {
    let mut made = object(&[("caller", CALL), ("leaf", LEAF)]);
    made.elsewhere = vec!["other"];
    made.links = vec![(2, PLT32, symbol, addend)];
    made
}

#[test]
fn calls_by_relocations() {
    good(&[linked(1, -4)], "leaf", "leaf 24");
    good(&[linked(1, -4)], "caller", "caller 16, leaf 24");
    // by the section's symbol and the place of leaf in it
    good(&[linked(3, 8 - 4)], "caller", "caller 16, leaf 24");
    refused(
        &[linked(3, 9 - 4)],
        "caller",
        "caller+0x1: it leads to no function's start",
    );
    refused(
        &[linked(1, -3)],
        "caller",
        "caller+0x1: it leads to no function's start",
    );
    let mut other_kind = linked(1, -4);
    other_kind.links[0].1 = 9;
    refused(
        &[other_kind],
        "caller",
        "caller+0x1: leaf: a call that is not known",
    );
}

#[test]
fn calls_to_other_archives() {
    let other = || object(&[("other", LEAF)]);
    let none = "other is in none of the archives";
    good(&[linked(2, -4), other()], "caller", "caller 16, other 24");
    refused(&[linked(2, -4)], "caller", &format!("caller+0x1: {none}"));
    refused(&[linked(2, -4)], "other", none);
    let two = "caller+0x1: other is not the only one of its name";
    refused(&[linked(2, -4), other(), other()], "caller", two);
    // behind its start, and by another kind of relocation
    let unknown = "caller+0x1: other: a call that is not known";
    refused(&[linked(2, -3), other()], "caller", unknown);
    let mut other_kind = linked(2, -4);
    other_kind.links[0].1 = 9;
    refused(&[other_kind, other()], "caller", unknown);
    // one that is weak, and one that only its own file can call
    let mut weak = other();
    weak.functions[0].1 = 2;
    refused(&[linked(2, -4), weak], "caller", two);
    let mut local = other();
    local.functions[0].1 = 0;
    refused(
        &[linked(2, -4), local],
        "caller",
        &format!("caller+0x1: {none}"),
    );
}

#[test]
fn calls_and_jumps_without_relocations() {
    let near = object(&[("caller", "53 e8 02 00 00 00 5b c3"), ("leaf", LEAF)]);
    good(&[near], "caller", "caller 16, leaf 24");
    let middle = object(&[("caller", "53 e8 03 00 00 00 5b c3"), ("leaf", LEAF)]);
    refused(
        &[middle],
        "caller",
        "caller+0x1: it leads to no function's start",
    );
    let tail = object(&[("caller", "53 5b eb 00"), ("leaf", LEAF)]);
    good(&[tail], "caller", "caller 0, leaf 24");
    let out = object(&[("caller", "53 5b eb 01"), ("leaf", LEAF)]);
    refused(
        &[out],
        "caller",
        "caller+0x2: it leads to no function's start",
    );
    let deep = object(&[("caller", "53 eb 00"), ("leaf", LEAF)]);
    refused(
        &[deep],
        "caller",
        "caller+0x1: a jump out of the function 8 bytes deep",
    );
    // its own frame is deeper than what it jumps to
    let shallow = object(&[("caller", "53 5b eb 00"), ("leaf", "c3")]);
    good(&[shallow], "caller", "caller 16");
}

#[test]
fn recursion() {
    let own = object(&[("own", "53 e8 fa ff ff ff 5b c3")]);
    refused(&[own], "own", "recursion: own calls own");
    let mut two = object(&[("one", CALL), ("two", CALL), ("user", CALL)]);
    two.links = vec![(2, PC32, 1, -4), (10, PLT32, 0, -4), (18, PLT32, 1, -4)];
    refused(&[two], "user", "recursion: two calls one calls two");
}

/// lea 0(%rip),%r10; movslq (%r10,%r13,4),%r11; add %r10,%r11; jmp *%r11; push; pop; ret; ret
const SWITCH: &str = "4c 8d 15 00 00 00 00 4f 63 1c aa 4d 01 d3 41 ff e3 53 5b c3 c3";

/// Two entries at 4 in the data, and behind them one that another function takes for the start of its table.
fn switch(entries: [i64; 2]) -> Maker {
    let mut made = object(&[("switch", SWITCH), ("next", SWITCH)]);
    let data = made.data_symbol();
    made.links = vec![(3, PC32, data, 0), (24, PC32, data, 8)];
    made.data = 16;
    made.data_links = vec![
        (4, PC32, 2, entries[0]),
        (8, PC32, 2, entries[1] + 4),
        (12, PC32, 2, 21 + 17),
    ];
    made
}

#[test]
fn jump_tables() {
    good(&[switch([17, 20])], "switch", "switch 16");
    refused(
        &[switch([17, 17])],
        "switch",
        "switch+0x14: code that no path reaches",
    );
    let out = "switch+0xe: a jump table leads out of the function";
    refused(&[switch([17, 21])], "switch", out);
    refused(&[switch([-1, 20])], "switch", out);
    let mut written = switch([17, 20]);
    written.data_flags = 3;
    refused(
        &[written],
        "switch",
        "switch+0xe: an indirect jump without a table",
    );
}

#[test]
fn archives() {
    let mut calls = Calls::default();
    let files = [linked(2, -4).file(), object(&[("other", LEAF)]).file()];
    calls.add(&archive(&files)).unwrap();
    assert_eq!(calls.bound("caller").map(|bound| bound.bytes), Ok(40));
}

#[test]
fn files_that_are_cut_off_or_of_another_kind() {
    let file = linked(1, -4).file();
    for length in 0..file.len() {
        assert!(Calls::default().add(&file[..length]).is_err(), "{length}");
    }
    let mut other = file.clone();
    other[18] = 183;
    assert!(Calls::default().add(&other).is_err());
    let whole = archive(&[file]);
    for length in [7, 8 + 30, 8 + 60, whole.len() / 2] {
        assert!(Calls::default().add(&whole[..length]).is_err(), "{length}");
    }
    assert!(Calls::default().add(b"!<thin>\n").is_err());
}
