//! Small listings by hand: here those that are summed up, below those that are refused, and jumps
//! by tables.

mod refused;
mod tables;

use super::{bound, Link, Taken};

/// A section with lines that semicolons part; before each stands its place. The tabs are put in.
fn section(name: &str, lines: &str) -> String {
    let line = |line: &str| {
        let (at, text) = line.split_once(": ").expect("a place stands before it");
        match text.split_once(' ') {
            Some((kind, target)) if kind.starts_with("R_") => {
                format!("\t\t\t{at}: {kind}\t{target}\n")
            }
            _ => format!("  {at}:\t{text}\n"),
        }
    };
    let lines: String = lines.split("; ").map(line).collect();
    format!("\nDisassembly of section {name}:\n\n{lines}")
}

/// A function in a section of its own.
fn function(name: &str, lines: &str) -> String {
    let text = section(&format!(".text.{name}"), lines);
    text.replacen(":\n\n", &format!(":\n\n0000000000000000 <{name}>:\n"), 1)
}

fn door(lines: &str) -> String {
    function("speltmallet_door", lines)
}

/// A function that takes 40 bytes: 8 for the return address and 32 of its own.
fn forty() -> String {
    function("forty", "0: sub $0x20,%rsp; 4: add $0x20,%rsp; 8: ret")
}

fn bytes(text: &str) -> i64 {
    bound(text).expect("it is accepted").bytes()
}

/// The message of the refusal has the words.
#[track_caller]
fn refused(text: &str, words: &str) {
    let why = bound(text).expect_err("it is refused");
    assert!(why.contains(words), "it says: {why}");
}

#[test]
fn what_objdump_prints_is_read() {
    let text = "In archive libkernel.a:\n\nmodule.o:     file format elf64-x86-64\n\n\n\
        Disassembly of section .text.lines::join:\n\n0000000000000000 <lines::join>:\n   \
        0:\tcmpb   $0x1,(%rdi,%rcx,1)\n   4:\tjne    b <lines::join+0xb>\n   \
        6:\tmovzbl -0x3(%rsp,%r9,1),%r10d\n   b:\tret\n  \
        c:\tdata16 cs nopw 0x0(%rax,%rax,1)\n\n\
        Disassembly of section .text.speltmallet_door:\n\n0000000000000000 <speltmallet_door>:\n   \
        0:\tpush   %rbp\n   1:\tsub    $0x28,%rsp\n   \
        5:\tlea    0x0(%rip),%rdi        # c <speltmallet_door+0xc>\n\t\t\t\
        8: R_X86_64_PC32\t.rodata.cst16-0x4\n   c:\tcall   11 <speltmallet_door+0x11>\n\t\t\t\
        d: R_X86_64_PLT32\t.text.lines::join-0x4\n  \
        11:\tadd    $0x28,%rsp\n  15:\tpop    %rbp\n  16:\tret\n\n\
        Disassembly of section .comment:\n\n0000000000000000 <.comment>:\n   0:\t(bad)\n\t...\n";
    let link = |name: &str, frame, red_zone| Link {
        name: name.to_string(),
        taken: Taken { frame, red_zone },
    };
    let bound = bound(text).expect("it is accepted");
    let chain = [link("speltmallet_door", 56, 0), link("lines::join", 8, 3)];
    assert_eq!(bound.chain, chain);
    assert_eq!((bound.bytes(), bound.functions), (67, 2));
}

#[test]
fn a_call_counts_at_its_own_depth() {
    let text = door(
        "0: push %rbx; 1: call 6; 2: R_X86_64_PLT32 .text.forty-0x4; 6: sub $0x64,%rsp; \
         a: call f; b: R_X86_64_PLT32 small-0x4; f: add $0x64,%rsp; 13: pop %rbx; 14: ret",
    );
    let called = forty() + &function("small", "0: ret");
    assert_eq!(bytes(&(text.clone() + &called)), 8 + 8 + 100 + 8);
    let shallow = text.replace("0x64", "0x8");
    assert_eq!(bytes(&(shallow + &called)), 8 + 8 + 40);
}

#[test]
fn pushes_and_subtractions_count() {
    let text = door(
        "0: push 0x8(%rdi); 3: push $0x5; 5: push %r12; 7: sub $0x64,%rsp; \
         b: lea -0x10(%rsp),%rsp; 10: mov %rsp,%rdi; 13: add $0x74,%rsp; \
         17: pop %r12; 19: lea 0x10(%rsp),%rsp; 1e: ret",
    );
    assert_eq!(bytes(&text), 8 + 24 + 100 + 16);
    // 0xffffffffffffff80 is -128
    let text = door("0: add $0xffffffffffffff80,%rsp; 4: sub $0xffffffffffffff80,%rsp; 8: ret");
    assert_eq!(bytes(&text), 8 + 128);
}

#[test]
fn the_deepest_way_counts() {
    let text = "0: je 7; 2: push %rax; 3: push %rax; 4: pop %rax; 5: jmp b; 7: push %rax; \
                b: pop %rax; c: ret";
    assert_eq!(bytes(&door(text)), 8 + 16);
    let other = text.replace("3: push %rax; 4: pop %rax", "3: mov %eax,%eax");
    let other = other.replace(
        "7: push %rax",
        "7: push %rax; 8: push %rax; 9: push %rax; a: pop %rax; a: pop %rax",
    );
    assert_eq!(bytes(&door(&other)), 8 + 24);
}

#[test]
fn the_red_zone_counts() {
    let zone = |does: &str| {
        bytes(&door(&format!(
            "0: push %rax; 1: {does}; 6: pop %rax; 7: ret"
        )))
    };
    assert_eq!(zone("mov %dil,-0x5d(%rsp)"), 16 + 93);
    assert_eq!(zone("mov %dil,-0x58(%rsp,%rdx,1)"), 16 + 88);
    assert_eq!(zone("cmp -0x2c(%rsp),%r14b"), 16 + 44);
    assert_eq!(zone("lea -0x40(%rsp),%rdi"), 16 + 64);
    assert_eq!(zone("movdqa %xmm0,(%rsp)"), 16);
    assert_eq!(zone("mov %dil,0x8(%rsp)"), 16);
    assert_eq!(zone("mov %dil,-0x8(%rdi)"), 16);
    let shallow = "0: movups %xmm0,-0x10(%rsp); 5: push %rax; 6: pop %rax; 7: ret";
    assert_eq!(bytes(&door(shallow)), 8 + 16);
    let deep = format!(
        "0: sub $0x64,%rsp; 2: add $0x64,%rsp; {}",
        &shallow.replace("0:", "4:")
    );
    assert_eq!(bytes(&door(&deep)), 8 + 100);
}

#[test]
fn a_tail_call_gives_the_frame_up() {
    let jump = "0: push %rax; 1: pop %rax; 2: jmp 7; 3: R_X86_64_PLT32 .text.forty-0x4";
    assert_eq!(bytes(&(door(jump) + &forty())), 40);
    let branch =
        "0: je 6; 2: R_X86_64_PLT32 .text.forty-0x4; 6: sub $0x8,%rsp; a: pop %rax; e: ret";
    assert_eq!(bytes(&(door(branch) + &forty())), 40);
    let deep = branch.replace("a: pop %rax", "a: sub $0x5c,%rsp; d: add $0x64,%rsp");
    assert_eq!(bytes(&(door(&deep) + &forty())), 108);
}

#[test]
fn padding_counts_nothing() {
    let text = "0: jmp 9; 2: nopw 0x0(%rax,%rax,1); 9: ret; a: xchg %ax,%ax; c: int3; d: ud2";
    assert_eq!(bytes(&door(text)), 8);
    assert_eq!(bytes(&door("0: push %rax; 1: ud2")), 16);
}

#[test]
fn a_function_that_the_door_does_not_reach_counts_nothing() {
    let main = function("main", "0: call *%rax; 2: ret");
    let found = bound(&(main + &door("0: ret"))).expect("it is accepted");
    assert_eq!((found.bytes(), found.functions), (8, 1));
}

fn member(text: String) -> String {
    format!("one.o:     file format elf64-x86-64\n{text}")
}

#[test]
fn a_section_of_the_own_member_is_called() {
    let call = door("0: call 5; 1: R_X86_64_PLT32 .text.forty-0x4; 5: ret");
    let other = member(function("forty", "0: ret"));
    assert_eq!(bytes(&(other + &member(call + &forty()))), 48);
}

#[test]
fn another_member_is_called_by_name() {
    let call = door("0: call 5; 1: R_X86_64_PLT32 forty-0x4; 5: ret");
    let own = function("forty", "0: ret");
    let other = member(forty());
    assert_eq!(bytes(&(member(call.clone()) + &other)), 48);
    assert_eq!(bytes(&(other.clone() + &member(call.clone() + &own))), 16);
    refused(&(member(call) + &other + &other), "forty-0x4 is not known");
}
