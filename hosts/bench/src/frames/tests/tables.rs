//! Jumps by tables.

use super::{bytes, door, forty, function, refused, section};

/// A jump by the table at 8; one way from there jumps by the table at 0.
const CODE: &str = "0: lea 0x0(%rip),%rcx; 3: R_X86_64_PC32 .rodata.speltmallet_door+0x4; \
                    7: movslq (%rcx,%rax,4),%rax; b: add %rcx,%rax; d: mov %r14d,%edx; \
                    e: jmp *%rax; 10: ret; 11: push %rbx; 12: jmp 20; 14: ret; \
                    20: sub $0x50,%rsp; 24: add $0x50,%rsp; 28: pop %rbx; \
                    31: lea 0x0(%rip),%rdx; 34: R_X86_64_PC32 .rodata.speltmallet_door-0x4; \
                    38: movslq (%rdx,%rax,4),%rsi; 3c: add %rdx,%rsi; 3f: jmp *%rsi; 41: ret";

/// The table at 0 goes to 0x10 and 0x41, the one at 8 to 0x10, 0x11 and 0x14.
const TABLES: &str = "0: R_X86_64_PC32 .text.speltmallet_door+0x10; \
                      4: R_X86_64_PC32 .text.speltmallet_door+0x45; \
                      8: R_X86_64_PC32 .text.speltmallet_door+0x10; \
                      c: R_X86_64_PC32 .text.speltmallet_door+0x15; \
                      10: R_X86_64_PC32 .text.speltmallet_door+0x1c";

fn with_tables(code: &str, tables: &str) -> String {
    door(code) + &section(".rodata.speltmallet_door", tables)
}

#[test]
fn a_jump_by_a_table_goes_to_each_entry() {
    assert_eq!(bytes(&with_tables(CODE, TABLES)), 8 + 8 + 80);
    let call = CODE.replace(
        "14: ret",
        "14: call 19; 15: R_X86_64_PLT32 forty-0x4; 19: ret",
    );
    let deep = forty().replace("0x20", "0x200");
    assert_eq!(bytes(&(with_tables(&call, TABLES) + &deep)), 8 + 8 + 512);
}

#[test]
fn a_table_that_does_not_fit_is_refused() {
    let (start, _) = TABLES.split_once("; c:").expect("it has that entry");
    refused(&with_tables(CODE, start), "at 0x11: no way leads to it");
    let astray = TABLES.replace("+0x15", "+0x17");
    refused(
        &with_tables(CODE, &astray),
        "an entry that is no instruction",
    );
    let other = TABLES.replace("+0x15", "+0x18");
    refused(&with_tables(CODE, &other), "at 0x11: no way leads to it");
    let elsewhere = TABLES.replace("speltmallet_door+0x15", "forty+0x4");
    let text = with_tables(CODE, &elsewhere) + &forty();
    refused(&text, "an entry that is no instruction");
    refused(&door(CODE), "it jumps by no table that is known");
    let absolute = TABLES.replace("R_X86_64_PC32", "R_X86_64_64");
    refused(&with_tables(CODE, &absolute), "its table has no entries");
}

#[test]
fn a_jump_by_something_else_is_refused() {
    for (was, is) in [
        (
            "7: movslq (%rcx,%rax,4),%rax",
            "7: movslq (%rdx,%rax,4),%rax",
        ),
        (
            "7: movslq (%rcx,%rax,4),%rax",
            "7: movslq 0x4(%rcx,%rax,4),%rax",
        ),
        (
            "7: movslq (%rcx,%rax,4),%rax",
            "7: movslq (%rcx,%rax,8),%rax",
        ),
        ("7: movslq (%rcx,%rax,4),%rax", "7: mov (%rcx,%rax,4),%rax"),
        ("0: lea 0x0(%rip),%rcx", "0: lea 0x0(%rbx),%rcx"),
        ("b: add %rcx,%rax", "b: nop"),
        ("b: add %rcx,%rax", "b: add %ecx,%eax"),
        ("b: add %rcx,%rax", "b: add %rdx,%rax"),
        ("b: add %rcx,%rax", "b: sub %rcx,%rax"),
        ("d: mov %r14d,%edx", "d: mov %r14b,%ah"),
        ("d: mov %r14d,%edx", "d: mul %r14"),
        ("d: mov %r14d,%edx", "d: cltq"),
        ("e: jmp *%rax", "e: jmp *%rcx"),
    ] {
        let code = CODE.replace(was, is);
        assert_ne!(code, CODE);
        refused(
            &with_tables(&code, TABLES),
            "it jumps by no table that is known",
        );
    }
}

#[test]
fn an_entry_counts_from_its_own_table() {
    let other = "0: lea 0x0(%rip),%rbx; 0: R_X86_64_PC32 .rodata.speltmallet_door-0x4; 0: lea";
    let code = CODE.replace("0: lea", other);
    assert_eq!(bytes(&with_tables(&code, TABLES)), 8 + 8 + 80);
    let code = code.replace("add %rcx,%rax", "add %rbx,%rax");
    refused(
        &with_tables(&code, TABLES),
        "it jumps by no table that is known",
    );
}

#[test]
fn what_one_way_does_not_know_is_not_known() {
    let code = CODE.replace("0: lea", "0: je e; 0: lea");
    refused(
        &with_tables(&code, TABLES),
        "it jumps by no table that is known",
    );
    let code = CODE.replace("14: ret", "14: dec %eax; 16: jmp e");
    refused(
        &with_tables(&code, TABLES),
        "it jumps by no table that is known",
    );
}

#[test]
fn a_call_keeps_the_registers_that_it_has_to_keep() {
    let called = function("called", "0: ret");
    let call = "call b; 8: R_X86_64_PLT32 called-0x4";
    let code = CODE.replace("7: movslq", &format!("7: {call}; b: movslq"));
    let text = with_tables(&code, TABLES) + &called;
    refused(&text, "it jumps by no table that is known");
    let text = with_tables(&code.replace("%rcx", "%rbx"), TABLES) + &called;
    assert_eq!(bytes(&text), 8 + 8 + 80);
}
