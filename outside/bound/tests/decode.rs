//! Instructions with known lengths and effects, and rsp in every place where it can stand.

mod common;

use bound::decode::{decode, Effect, Instruction, Part};
use common::bytes;

/// The instruction of these bytes, all of them and none behind.
fn one(text: &str) -> Instruction {
    let code = bytes(text);
    let found = decode(&code).unwrap_or_else(|why| panic!("{text}: {why}"));
    assert_eq!(found.length, code.len(), "{text}");
    found
}

fn effect(text: &str) -> Effect {
    one(text).effect
}

/// Neither rsp nor memory from it has a part in it.
fn without_rsp(text: &str) {
    let found = one(text);
    let expected = (Effect::Plain, None, false);
    assert_eq!(
        (found.effect, found.stack, found.escapes),
        expected,
        "{text}"
    );
}

#[test]
fn lengths() {
    for text in [
        "31 c0",                         // xor %eax,%eax
        "41 83 e0 30",                   // and $0x30,%r8d
        "41 f7 c0 fd ff ff ff",          // test $0xfffffffd,%r8d
        "41 f6 c1 08",                   // test $8,%r9b
        "49 ba 00 00 00 00 ff ff ff ff", // movabs
        "b8 01 00 00 00",                // mov $1,%eax
        "66 b8 01 00",                   // mov $1,%ax
        "66 c7 01 65 72",                // movw $0x7265,(%rcx)
        "c7 05 00 00 00 00 01 00 00 00", // movl $1,0(%rip)
        "8b 04 8d 00 00 00 00",          // mov 0(,%rcx,4),%eax
        "42 8b 84 39 58 06 00 00",       // mov 0x658(%rcx,%r15,1),%eax
        "48 69 c0 e8 03 00 00",          // imul $1000,%rax,%rax
        "6b c0 2c",                      // imul $44,%eax,%eax
        "f3 48 ab",                      // rep stos
        "0f ba e6 01",                   // bt $1,%esi
        "41 0f 45 ea",                   // cmovne
        "66 0f 70 c0 00",                // pshufd
        "66 0f db 05 00 00 00 00",       // pand 0(%rip),%xmm0
        "f3 0f 6f 04 0f",                // movdqu
        "66 41 0f 6e c1",                // movd %r9d,%xmm0
        "66 0f 38 00 05 00 00 00 00",    // pshufb 0(%rip),%xmm0
        "66 0f 3a 0f c1 08",             // palignr $8,%xmm1,%xmm0
        "66 0f 3a 22 40 04 01",          // pinsrd $1,4(%rax),%xmm0
        "66 49 0f 3a 16 c3 01",          // pextrq $1,%xmm0,%r11
    ] {
        without_rsp(text);
    }
}

/// Two registers each: behind 0F 38 with nothing behind them, behind 0F 3A with an immediate.
#[test]
fn of_ssse3_and_sse41() {
    for third in [
        0x00, // pshufb
        0x17, // ptest
        0x1C, 0x1D, 0x1E, // pabsb, pabsw, pabsd
        0x20, 0x21, 0x22, 0x23, 0x24, 0x25, // pmovsxbw to pmovsxdq
        0x29, // pcmpeqq
        0x2B, // packusdw
        0x30, 0x31, 0x32, 0x33, 0x34, 0x35, // pmovzxbw to pmovzxdq
        0x38, 0x39, 0x3A, 0x3B, // pminsb, pminsd, pminuw, pminud
        0x3C, 0x3D, 0x3E, 0x3F, // pmaxsb, pmaxsd, pmaxuw, pmaxud
        0x40, // pmulld
    ] {
        without_rsp(&format!("66 0f 38 {third:02x} c1"));
    }
    for third in [
        0x0E, // pblendw
        0x0F, // palignr
        0x14, 0x15, 0x16, // pextrb, pextrw, pextrd to %eax
        0x20, 0x22, // pinsrb, pinsrd from %eax
    ] {
        without_rsp(&format!("66 0f 3a {third:02x} c0 01"));
    }
}

#[test]
fn padding() {
    for text in [
        "90",
        "66 90",
        "0f 1f 84 00 00 00 00 00",
        "66 2e 0f 1f 84 00 00 00 00 00",
        "66 66 66 66 66 2e 0f 1f 84 00 00 00 00 00",
        "f3 0f 1e fa",
    ] {
        assert_eq!(effect(text), Effect::Nop, "{text}");
    }
}

#[test]
fn ways() {
    assert_eq!(effect("e8 bc ff ff ff"), Effect::Call(-68));
    assert_eq!(effect("e9 00 01 00 00"), Effect::Jump(256));
    assert_eq!(effect("eb fe"), Effect::Jump(-2));
    assert_eq!(effect("74 1d"), Effect::Branch(29));
    assert_eq!(effect("0f 85 66 01 00 00"), Effect::Branch(358));
    assert_eq!(effect("c3"), Effect::Return);
    assert_eq!(effect("f3 c3"), Effect::Return);
    assert_eq!(effect("0f 0b"), Effect::Stop);
    assert_eq!(effect("f4"), Effect::Stop);
    assert_eq!(effect("cc"), Effect::Stop);
    assert_eq!(effect("ff d0"), Effect::CallIndirect);
    assert_eq!(effect("ff 15 00 00 00 00"), Effect::CallIndirect);
    assert_eq!(effect("41 ff e3"), Effect::JumpIndirect(Some(11)));
    assert_eq!(effect("3e ff e0"), Effect::JumpIndirect(Some(0)));
    assert_eq!(effect("ff 24 c5 00 00 00 00"), Effect::JumpIndirect(None));
}

#[test]
fn moves_of_rsp() {
    assert_eq!(effect("55"), Effect::Push);
    assert_eq!(effect("41 54"), Effect::Push);
    assert_eq!(effect("6a 01"), Effect::Push);
    assert_eq!(effect("68 01 00 00 00"), Effect::Push);
    assert_eq!(effect("ff 75 08"), Effect::Push);
    assert_eq!(effect("5d"), Effect::Pop);
    assert_eq!(effect("41 5c"), Effect::Pop);
    assert_eq!(effect("48 83 ec 68"), Effect::Move(-104));
    assert_eq!(effect("48 83 ec 80"), Effect::Move(128));
    assert_eq!(effect("48 81 ec 00 10 00 00"), Effect::Move(-4096));
    assert_eq!(effect("48 81 c4 48 ed 00 00"), Effect::Move(60744));
    assert_eq!(effect("48 8d 64 24 f8"), Effect::Move(-8));
}

const SETS: [&str; 39] = [
    "5c",                   // pop %rsp
    "48 89 c4",             // mov %rax,%rsp
    "48 8b 64 24 08",       // mov 8(%rsp),%rsp
    "89 c4",                // mov %eax,%esp
    "83 ec 08",             // sub $8,%esp
    "66 83 ec 08",          // sub $8,%sp
    "40 80 ec 08",          // sub $8,%spl
    "48 29 c4",             // sub %rax,%rsp
    "48 2b 20",             // sub (%rax),%rsp
    "48 83 e4 e0",          // and $-32,%rsp
    "48 8d 25 00 00 00 00", // lea 0(%rip),%rsp
    "48 8d 24 04",          // lea (%rsp,%rax,1),%rsp
    "48 8d 65 f8",          // lea -8(%rbp),%rsp
    "8d 64 24 f8",          // lea -8(%rsp),%esp
    "48 94",                // xchg %rax,%rsp
    "48 87 e0",             // xchg %rsp,%rax
    "48 87 c4",             // xchg %rax,%rsp
    "c9",                   // leave
    "bc 00 00 00 00",       // mov $0,%esp
    "40 b4 00",             // mov $0,%spl
    "48 c7 c4 00 00 00 00", // mov $0,%rsp
    "48 ff c4",             // inc %rsp
    "48 f7 dc",             // neg %rsp
    "48 d1 e4",             // shl %rsp
    "48 63 e0",             // movslq %eax,%rsp
    "48 0f af e0",          // imul %rax,%rsp
    "48 0f 44 e0",          // cmove %rax,%rsp
    "0f b6 e0",             // movzbl %al,%esp
    "40 0f 94 c4",          // sete %spl
    "48 0f ba ec 03",       // bts $3,%rsp
    "48 0f cc",             // bswap %rsp
    "66 48 0f 7e e4",       // movq %xmm4,%rsp
    "0f 50 e1",             // movmskps %xmm1,%esp
    "66 0f c5 e1 00",       // pextrw $0,%xmm1,%esp
    "66 0f d7 e1",          // pmovmskb %xmm1,%esp
    "66 0f 3a 14 cc 00",    // pextrb $0,%xmm1,%esp
    "66 0f 3a 15 cc 00",    // pextrw $0,%xmm1,%esp
    "66 0f 3a 16 cc 00",    // pextrd $0,%xmm1,%esp
    "66 48 0f 3a 16 cc 00", // pextrq $0,%xmm1,%rsp
];

#[test]
fn rsp_set_otherwise() {
    for text in SETS {
        assert_eq!(effect(text), Effect::Set, "{text}");
    }
}

#[test]
fn rsp_read() {
    for text in [
        "54",                      // push %rsp
        "48 89 e1",                // mov %rsp,%rcx
        "48 89 22",                // mov %rsp,(%rdx)
        "48 8b cc",                // mov %rsp,%rcx
        "89 e0",                   // mov %esp,%eax
        "40 88 e0",                // mov %spl,%al
        "48 01 e0",                // add %rsp,%rax
        "4c 39 dc",                // cmp %r11,%rsp
        "48 8d 4c 24 30",          // lea 0x30(%rsp),%rcx
        "4a 8d 04 24",             // lea (%rsp,%r12,1),%rax
        "42 8b 84 3c 58 06 00 00", // mov 0x658(%rsp,%r15,1),%eax
        "66 48 0f 6e e4",          // movq %rsp,%xmm4
        "66 0f 3a 20 e4 00",       // pinsrb $0,%esp,%xmm4
        "66 48 0f 3a 22 e4 00",    // pinsrq $0,%rsp,%xmm4
    ] {
        assert!(one(text).escapes, "{text}");
    }
}

#[test]
fn memory_from_rsp() {
    assert_eq!(one("88 44 24 df").stack, Some(-33));
    assert_eq!(one("0f 29 44 24 10").stack, Some(16));
    assert_eq!(one("0f 29 04 24").stack, Some(0));
    assert_eq!(one("ff 44 24 4c").stack, Some(76));
    assert_eq!(one("48 8d 9c 24 00 ff ff ff").stack, Some(-256));
    assert_eq!(one("48 83 7c 24 90 08").stack, Some(-112));
    assert_eq!(one("0f 94 44 24 87").stack, Some(-121));
    assert_eq!(one("66 0f 38 39 44 24 f0").stack, Some(-16));
    assert_eq!(one("66 0f 3a 16 44 24 8c 01").stack, Some(-116));
    assert_eq!(one("66 0f 3a 22 44 24 04 02").stack, Some(4));
    assert!(!one("88 44 24 df").escapes);
}

#[test]
fn four_that_is_not_rsp() {
    for text in [
        "0f 28 e0",          // movaps %xmm0,%xmm4
        "0f 28 c4",          // movaps %xmm4,%xmm0
        "66 0f fe e4",       // paddd %xmm4,%xmm4
        "66 0f 6e e0",       // movd %eax,%xmm4
        "66 0f 7e e0",       // movd %xmm4,%eax
        "66 0f 72 e4 1f",    // psrad $31,%xmm4
        "66 0f 38 39 e4",    // pminsd %xmm4,%xmm4
        "66 0f 3a 0f e4 08", // palignr $8,%xmm4,%xmm4
        "66 0f 3a 16 e0 00", // pextrd $0,%xmm4,%eax
        "66 0f 3a 22 e0 00", // pinsrd $0,%eax,%xmm4
        "49 89 c4",          // mov %rax,%r12
        "4c 89 e0",          // mov %r12,%rax
        "49 83 c4 08",       // add $8,%r12
        "41 bc 00 00 00 00", // mov $0,%r12d
        "4c 8d 60 08",       // lea 8(%rax),%r12
        "4d 8b 64 24 f8",    // mov -8(%r12),%r12
        "45 8d 54 24 01",    // lea 1(%r12),%r10d
        "4a 8b 04 20",       // mov (%rax,%r12,1),%rax
        "8b 04 20",          // mov (%rax),%eax, with no index
        "b4 08",             // mov $8,%ah
        "88 e0",             // mov %ah,%al
        "00 c4",             // add %al,%ah
        "c0 e4 03",          // shl $3,%ah
        "0f 94 c4",          // sete %ah
        "80 e4 04",          // and $4,%ah
        "41 80 e4 04",       // and $4,%r12b
        "49 94",             // xchg %rax,%r12
        "49 0f cc",          // bswap %r12
        "f7 e1",             // mul %ecx, whose extension is 4
    ] {
        without_rsp(text);
    }
}

#[test]
fn parts_of_a_jump_through_a_table() {
    let part = |text| one(text).part;
    assert_eq!(part("4c 8d 15 00 00 00 00"), Part::Address);
    assert_eq!(part("4f 63 1c aa"), Part::Entry { base: 10, to: 11 });
    assert_eq!(part("4d 01 d3"), Part::Add { from: 10, to: 11 });
    assert_eq!(part("4d 03 da"), Part::Add { from: 10, to: 11 });
    // another displacement or scale, or 32 bits
    assert_eq!(part("4b 63 4c aa 04"), Part::None);
    assert_eq!(part("4b 63 0c 6a"), Part::None);
    assert_eq!(part("43 63 0c aa"), Part::None);
    assert_eq!(part("01 d3"), Part::None);
}

#[test]
fn refused() {
    for text in [
        "c2 08 00",                   // ret $8
        "c8 10 00 00",                // enter
        "0f 05",                      // syscall
        "cd 80",                      // int $0x80
        "8f 00",                      // pop (%rax)
        "66 50",                      // push %ax
        "66 c3",                      // a return of 16 bits
        "64 48 8b 04 25 28 00 00 00", // mov %fs:0x28,%rax
        "67 8b 00",                   // an address of 32 bits
        "f0 ff 00",                   // lock
        "ff 28",                      // a far jump
        "48 66 90",                   // a prefix behind REX
        "0f 38 00 c0",                // pshufb of MMX
        "0f 3a 0f c0 01",             // palignr of MMX
        "66 0f 38 37 c0",             // pcmpgtq, which the compiler has not used yet
        "66 0f 38 2a 04 24",          // movntdqa
        "66 0f 3a 17 c0 01",          // extractps
        "66 0f 3a 63 c0 00",          // pcmpistri
        "f2 0f 38 f1 c0",             // crc32
        "66 0f 38",                   // cut off
        "c5 f8 28 c0",                // vmovaps
        "d9 00",                      // flds
        "0f ab 04 24",                // bts %eax,(%rsp)
        "0f a2",                      // cpuid
        "c6 f8 00",                   // xabort
        "06",                         // no instruction
        "48",                         // cut off
        "48 83 ec",                   // cut off
        "",
    ] {
        assert!(decode(&bytes(text)).is_err(), "{text}");
    }
}
