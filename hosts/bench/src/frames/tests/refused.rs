//! What is refused, and with which words.

use super::{bytes, door, forty, function, refused, section};

#[track_caller]
fn door_refused(lines: &str, words: &str) {
    refused(&door(lines), words);
}

/// A function that calls another.
fn caller(name: &str, called: &str) -> String {
    let call = format!("0: call 5; 1: R_X86_64_PLT32 .text.{called}-0x4; 5: ret");
    function(name, &call)
}

#[test]
fn recursion_is_refused() {
    let text = caller("speltmallet_door", "speltmallet_door");
    refused(&text, "recursion: speltmallet_door calls speltmallet_door");
    door_refused("0: call 0; 5: ret", "recursion");
}

#[test]
fn mutual_recursion_is_refused() {
    let text = caller("speltmallet_door", "a") + &caller("a", "b") + &caller("b", "a");
    refused(&text, "recursion: a calls b calls a");
    let jump = text
        .replacen("call 5\n", "jmp 5\n", 3)
        .replace("5:\tret\n", "5:\tud2\n");
    refused(&jump, "recursion: a calls b calls a");
    // twice is not recursion
    let text = caller("speltmallet_door", "a") + &caller("a", "forty") + &forty();
    let twice = text.replacen(
        "  5:\tret\n",
        "  5:\tcall a\n\t\t\t6: R_X86_64_PLT32\tforty-0x4\n  a:\tret\n",
        1,
    );
    assert_eq!(bytes(&twice), 8 + 8 + 40);
}

#[test]
fn a_frame_of_changing_size_is_refused() {
    for instruction in [
        "and $0xfffffffffffffff0,%rsp",
        "sub %rax,%rsp",
        "mov %rax,%rsp",
        "lea (%rsp,%rax,1),%rsp",
        "lea 0x8(%rsp,%rax,1),%rsp",
        "lea 0x8(%rax),%rsp",
        "cmovne %rax,%rsp",
        "xchg %rax,%rsp",
        "add $0x8,%esp",
        "mov %rsp,0x8(%rdi)",
        "push %rsp",
        "pop %rsp",
        "mov %rsp,%rbp",
        "lea 0x20(%rsp),%rbp",
    ] {
        let lines = format!("0: push %rax; 1: {instruction}; 8: pop %rax; 9: ret");
        door_refused(&lines, "the frame's size is not a constant");
    }
}

#[test]
fn an_instruction_that_is_not_known_is_refused() {
    for instruction in [
        "leave",
        "enter $0x8,$0x0",
        "pushf",
        "push %ax",
        "push %fs",
        "pop (%rax)",
        "ret $0x8",
        "hlt",
        "int3",
        "syscall",
        "loop 0",
        "jrcxz 0",
        "lcall *(%rax)",
        "rep stos %al,%es:(%rdi)",
    ] {
        let lines = format!("0: push %rax; 1: {instruction}; 8: pop %rax; 9: ret");
        door_refused(&lines, "the instruction is not known");
    }
}

#[test]
fn an_indirect_call_or_jump_is_refused() {
    door_refused("0: call *%rax; 2: ret", "whom it calls is not known");
    door_refused("0: call *0x8(%rax); 3: ret", "whom it calls is not known");
    door_refused("0: jmp *0x0(,%rax,8)", "where it goes is not known");
    door_refused("0: jmp *%rax", "it jumps by no table that is known");
}

#[test]
fn an_unknown_target_is_refused() {
    let calls = |target: &str| door(&format!("0: call 5; 1: {target}; 5: ret")) + &forty();
    assert_eq!(bytes(&calls("R_X86_64_PLT32 .text.forty-0x4")), 48);
    refused(
        &calls("R_X86_64_PLT32 memset-0x4"),
        "memset-0x4 is not known",
    );
    refused(
        &calls("R_X86_64_64 .text.forty-0x4"),
        ".text.forty-0x4 is not known",
    );
    refused(
        &calls("R_X86_64_PLT32 .text.forty+0x0"),
        "it calls no function",
    );
    door_refused("0: call 5; 5: ret", "it calls no function");
    door_refused("0: jmp 40", "it jumps to no instruction of its own");
    refused(&forty(), "there is no function speltmallet_door");
}

#[test]
fn two_depths_at_a_joint_are_refused() {
    let lines = "0: je 3; 2: push %rax; 3: nop; 4: ud2";
    door_refused(lines, "speltmallet_door at 0x3: it is reached with");
    let lines = "0: push %rax; 1: jmp 0";
    door_refused(lines, "it is reached with 0 and with 8 bytes taken");
}

#[test]
fn stack_that_is_still_taken_or_was_not_is_refused() {
    door_refused("0: push %rax; 1: ret", "it returns with 8 bytes taken");
    door_refused("0: pop %rax; 1: ud2", "it gives back more stack");
    let jump = "0: push %rax; 2: jmp 7; 3: R_X86_64_PLT32 .text.forty-0x4";
    refused(
        &(door(jump) + &forty()),
        "it jumps to forty with 8 bytes taken",
    );
}

#[test]
fn what_no_way_leads_to_or_from_is_refused() {
    door_refused("0: je 0", "it runs past its end");
    door_refused(
        "0: ret; 1: mov %eax,%ebx; 3: ret",
        "at 0x1: no way leads to it",
    );
    // the label in between makes two functions of it
    let text = door("0: nop; 1: ret").replace("  1:", "0000000000000001 <other>:\n  1:");
    refused(&text, "speltmallet_door: it runs past its end");
}

#[test]
fn a_line_that_cannot_be_read_is_refused() {
    door_refused("0: (bad); 1: ret", "line 5 of the listing");
    refused(&(door("0: ret") + "\t...\n"), "it is no instruction");
    refused(
        &door("0: ret").replace("  0:", "  0x:"),
        "it is no instruction",
    );
    refused(
        &door("0: ret; 1: R_X86_64_64 a; 5: R_X86_64_64 b"),
        "is the second of one",
    );
    refused(
        "a.o:     file format elf64-littleaarch64\n",
        "not for x86-64",
    );
    refused(&(door("0: ret") + &door("0: ret")), "two sections");
    refused("  0:\tret\n", "it stands in no section");
    let text = door("0: ret") + &section(".text.other", "0: ret");
    refused(&text, "it stands in no function");
    let constant = door("0: ret") + "\nDisassembly of section .rodata:\n\n\t\t\t0 R_X86_64_PC32\n";
    refused(&constant, "it is no relocation");
}
