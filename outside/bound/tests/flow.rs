//! Code made by hand: what is followed, and what is refused.

mod common;

use std::collections::BTreeMap;

use bound::flow::{frame, Body, Call, Callee, Frame};
use common::bytes;

/// A function of these bytes, with links (each a place, and where it leads) and the places of its tables.
fn walk(text: &str, links: &[(usize, Option<usize>)], tables: &[usize]) -> Result<Frame, String> {
    let code = bytes(text);
    let body = Body {
        code: &code,
        links: BTreeMap::from_iter(links.iter().copied()),
        tables: Ok(tables.to_vec()),
    };
    frame(&body).map_err(|refusal| format!("{:x}: {}", refusal.at, refusal.why))
}

fn extent(text: &str) -> Result<u64, String> {
    walk(text, &[], &[]).map(|frame| frame.extent)
}

fn refused(text: &str, why: &str) {
    assert_eq!(extent(text), Err(why.to_string()), "{text}");
}

#[test]
fn extents() {
    assert_eq!(extent("c3"), Ok(0));
    assert_eq!(extent("53 5b c3"), Ok(8));
    // push %rbx; sub $0x20,%rsp; add $0x20,%rsp; pop %rbx; ret
    assert_eq!(extent("53 48 83 ec 20 48 83 c4 20 5b c3"), Ok(40));
    // the red zone: mov %al,-0x21(%rsp), in whole words
    assert_eq!(extent("88 44 24 df c3"), Ok(40));
    assert_eq!(extent("53 88 44 24 df 5b c3"), Ok(48));
    // a place above rsp takes nothing more
    assert_eq!(extent("53 88 44 24 01 5b c3"), Ok(8));
    // a copy of rsp may be used down to the end of the red zone
    assert_eq!(extent("53 48 89 e0 5b c3"), Ok(136));
    // lea -0x100(%rsp),%rax
    assert_eq!(extent("48 8d 84 24 00 ff ff ff c3"), Ok(256));
}

#[test]
fn one_depth_at_each_place() {
    // a loop that keeps its depth: push; 1: pop; push; jne 1b; pop; ret
    assert_eq!(extent("53 5b 53 75 fc 5b c3"), Ok(8));
    refused("53 75 fd c3", "0: reached 0 and 8 bytes deep");
    refused("50 eb fd", "0: reached 0 and 8 bytes deep");
    // je 1f; push; 1: ret
    refused("74 01 53 c3", "3: a return 8 bytes deep");
    // je 1f; push; 1: nop; ud2
    refused("74 01 53 90 0f 0b", "3: reached 8 and 0 bytes deep");
    refused("53 c3", "1: a return 8 bytes deep");
    refused("5b c3", "0: rsp is moved above the return address");
    refused("48 83 c4 08 c3", "0: rsp is moved above the return address");
}

#[test]
fn jumps_stay_inside() {
    refused(
        "53 74 10 5b c3",
        "1: a jump out of the function 8 bytes deep",
    );
    refused("90", "1: the code runs past the function's end");
    refused("74 00", "2: the code runs past the function's end");
    // jmp into the immediate of mov $0xc3c3c3c3,%eax
    refused("74 01 b8 c3 c3 c3 c3 c3", "3: a jump into an instruction");
    refused("48 29 c4 c3", "0: rsp is set, but not moved by a constant");
    refused(
        "0f 05 c3",
        "0: an instruction that is not known: 0f 05 with prefix 00",
    );
}

#[test]
fn all_code_is_reached() {
    assert_eq!(extent("c3 90 66 90"), Ok(0));
    assert_eq!(extent("c3 0f 0b"), Ok(0));
    refused("c3 31 c0 c3", "1: code that no path reaches");
}

#[test]
fn calls() {
    let frame = walk("53 e8 00 00 00 00 5b c3", &[(2, None)], &[]).unwrap();
    let call = |at, depth, callee, tail| Call {
        at,
        depth,
        callee,
        tail,
    };
    assert_eq!(frame.extent, 8);
    assert_eq!(frame.calls, [call(1, 8, Callee::Linked(2), false)]);
    let frame = walk("e8 fb ff ff ff c3", &[], &[]).unwrap();
    assert_eq!(frame.calls, [call(0, 0, Callee::Near(0), false)]);
    let frame = walk("e9 00 00 00 00", &[(1, None)], &[]).unwrap();
    assert_eq!(frame.calls, [call(0, 0, Callee::Linked(1), true)]);
    let frame = walk("74 30 c3", &[], &[]).unwrap();
    assert_eq!(frame.calls, [call(0, 0, Callee::Near(50), true)]);
    // a jump by a relocation to a place in the function itself
    let frame = walk("e9 00 00 00 00 90 c3", &[(1, Some(6))], &[]).unwrap();
    assert_eq!(frame.calls, []);
    refused("ff d0 c3", "0: an indirect call");
    refused("ff 10 c3", "0: an indirect call");
}

#[test]
fn relocations_decide_nothing() {
    let why = "a relocation where the number must be known".to_string();
    let sub = walk("48 81 ec 00 00 00 00 c3", &[(3, None)], &[]);
    assert_eq!(sub, Err(format!("0: {why}")));
    let far = walk("88 84 24 00 00 00 00 c3", &[(3, None)], &[]);
    assert_eq!(far, Err(format!("0: {why}")));
    let short = walk("eb 00 c3", &[(1, None)], &[]);
    assert_eq!(short, Err(format!("0: {why}")));
    // one that reaches into the next instruction
    let across = walk("8b 05 00 00 00 00 c3", &[(3, None)], &[]);
    assert_eq!(across, Err(format!("0: {why}")));
    assert!(walk("8b 05 00 00 00 00 c3", &[(2, None)], &[]).is_ok());
}

/// movslq (%r10,%r13,4),%r11; add %r10,%r11; jmp *%r11; two ways that end with a return
const TABLE: &str = "4f 63 1c aa 4d 01 d3 41 ff e3 53 5b c3 c3";

#[test]
fn jumps_through_tables() {
    assert_eq!(walk(TABLE, &[], &[10, 13]).map(|frame| frame.extent), Ok(8));
    let none = walk(TABLE, &[], &[]);
    assert_eq!(none, Err("7: an indirect jump without a table".to_string()));
    let missed = walk(TABLE, &[], &[13]);
    assert_eq!(missed, Err("a: code that no path reaches".to_string()));
    // the two depths of push; pop; ret, which the table leads into
    let deeper = walk(TABLE, &[], &[10, 11, 13]);
    assert!(deeper.is_err_and(|why| why.contains("reached") || why.contains("above")));
    // a table that leads to the jump itself
    let itself = walk(TABLE, &[], &[7, 10, 13]);
    assert_eq!(
        itself,
        Err("7: a jump into a jump through a table".to_string())
    );
}

#[test]
fn other_indirect_jumps() {
    refused("ff e0", "0: an indirect jump");
    refused("ff 20", "0: an indirect jump");
    let broken = [
        "4f 63 1c aa 90 4d 01 d3 41 ff e3 c3", // something between
        "4f 63 1c aa 4d 01 d3 41 ff e2 c3",    // another register
        "4f 63 1c aa 4d 01 cb 41 ff e3 c3",    // another base
        "4f 63 14 aa 4d 01 d2 41 ff e2 c3",    // the base is gone
    ];
    for text in broken {
        let found = walk(text, &[], &[11]);
        assert!(
            found.is_err_and(|why| why.ends_with("an indirect jump")),
            "{text}"
        );
    }
}
