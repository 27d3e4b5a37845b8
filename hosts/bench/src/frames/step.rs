//! What one instruction does to the stack pointer, and how it goes on from there. An instruction
//! that is not known is refused.

use super::line::Instruction;

/// What an instruction does, as far as the stack goes.
#[derive(Clone, Copy, Debug, PartialEq)]
pub enum Step {
    /// It takes so many bytes of stack, or gives them back where it is below 0, and goes on.
    Takes(i64),
    Calls,
    Returns,
    Jumps,
    /// It jumps or goes on.
    Branches,
    /// It jumps to where a register points.
    JumpsBy(usize),
    /// It traps, and nothing follows.
    Traps,
}

/// The instructions that leave the stack pointer alone unless they name it, that go on with the
/// next one, and that name every register which they write to. The width, one of b, w, l and q, can
/// follow. A name that is missing may be right all the same: look it up, and add it if it is.
const PLAIN: &str = "adc add and bsf bsr bswap bt btc btr bts cmp dec inc lea mov movabs movsbl \
                     movsbq movsbw movslq movswl movswq movzbl movzbq movzbw movzwl movzwq neg nop \
                     not or rcl rcr rol ror sar sbb shl shld shr shrd sub test xchg xor";

/// The same, but not every register is named.
const HIDDEN: &str = "cbtw cltd cltq cqto cwtd cwtl div idiv imul mul";

/// What follows the j of a jump, the cmov of a move and the set of a byte.
const CONDITIONS: &str = "a ae b be e g ge l le ne no np ns o p s";

fn is_of(list: &str, name: &str) -> bool {
    list.split(' ').any(|word| word == name)
}

fn is_sized(list: &str, name: &str) -> bool {
    let stem = name.strip_suffix(['b', 'w', 'l', 'q']);
    is_of(list, name) || stem.is_some_and(|stem| is_of(list, stem))
}

fn is_under_condition(stem: &str, name: &str) -> bool {
    let condition = name.strip_prefix(stem);
    condition.is_some_and(|condition| is_of(CONDITIONS, condition))
}

/// Whether an instruction is plain. Those of SSE are.
fn is_plain(name: &str, operands: &[&str]) -> bool {
    is_sized(PLAIN, name)
        || is_under_condition("cmov", name)
        || is_under_condition("set", name)
        || operands.iter().any(|word| word.starts_with("%xmm"))
}

/// The registers that an instruction may write to, where it names them all. After a call they are
/// those that a function need not keep.
pub fn written(instruction: &Instruction) -> Option<Vec<usize>> {
    let (name, operands) = instruction.words();
    if name == "call" {
        return Some(NOT_KEPT.split(' ').filter_map(register).collect());
    }
    let is_jump = name == "jmp" || is_under_condition("j", name);
    if !is_jump && !is_plain(name, &operands) {
        return None;
    }
    let words = operands.iter().flat_map(|word| word.split(['(', ',', ')']));
    Some(words.filter_map(register).collect())
}

/// What fills a gap between instructions.
pub fn is_padding(instruction: &Instruction) -> bool {
    match instruction.words() {
        ("nop" | "nopl" | "nopw" | "int3" | "ud2", _) => true,
        ("xchg", operands) => operands == ["%ax", "%ax"],
        _ => false,
    }
}

pub const REGISTERS: usize = 16;
const RSP: &str = "%rsp";
const RBP: &str = "%rbp";
const NOT_KEPT: &str = "%rax %rcx %rdx %rsi %rdi %r8 %r9 %r10 %r11";
const FRAME_POINTER: &str = "%rbp is a frame pointer, so the frame's size is not a constant";

/// The number of the 64-bit register that a name is a part of.
pub fn register(name: &str) -> Option<usize> {
    const NAMES: [&str; 8] = [
        "rax eax ax al ah",
        "rbx ebx bx bl bh",
        "rcx ecx cx cl ch",
        "rdx edx dx dl dh",
        "rsi esi si sil",
        "rdi edi di dil",
        "rbp ebp bp bpl",
        "rsp esp sp spl",
    ];
    let name = name.strip_prefix('%')?;
    let number = NAMES.iter().position(|names| is_of(names, name));
    number.or_else(|| {
        let number = name.strip_prefix('r')?.trim_end_matches(['d', 'w', 'b']);
        number
            .parse()
            .ok()
            .filter(|number| (8..REGISTERS).contains(number))
    })
}

/// The number of a register that is named with all its 64 bits.
pub fn whole(name: &str) -> Option<usize> {
    let is_whole = name.starts_with("%r") && !name.ends_with(['d', 'w', 'b']);
    register(name).filter(|_| is_whole)
}

/// A number as objdump writes it: `0x28`, `-0x28`, or with all 64 bits, `0xffffffffffffff80`.
fn number(text: &str) -> Option<i64> {
    let (sign, text) = match text.strip_prefix('-') {
        Some(rest) => (-1, rest),
        None => (1, text),
    };
    let value = u64::from_str_radix(text.strip_prefix("0x")?, 16).ok()?;
    Some(sign * value as i64)
}

/// The number and the rest, `%rsp)` or `%rsp,%rdx,1)`, of a place found by the stack pointer.
fn by_pointer(operand: &str) -> Option<(&str, &str)> {
    let place = operand.split_once('(')?;
    place.1.starts_with(RSP).then_some(place)
}

/// How many bytes below the stack pointer an instruction reaches: its part of the red zone.
pub fn below(instruction: &Instruction) -> Result<i64, String> {
    let places = instruction
        .operands
        .iter()
        .filter_map(|word| by_pointer(word));
    let above = |(text, _): (&str, &str)| match text {
        "" => Ok(0),
        _ => number(text).ok_or(format!("the distance {text} from %rsp cannot be read")),
    };
    let all: Vec<i64> = places.map(above).collect::<Result<_, _>>()?;
    Ok(-all.into_iter().min().unwrap_or(0).min(0))
}

/// What an instruction does; the message says why it is refused.
pub fn step(instruction: &Instruction) -> Result<Step, String> {
    let (name, operands) = instruction.words();
    let stop = |why: &str| Err(format!("'{name} {}': {why}", operands.join(",")));
    match (name, &operands[..]) {
        ("push", [what]) if what.starts_with('$') || what.ends_with(')') => Ok(Step::Takes(8)),
        ("push", [what]) if whole(what).is_some() && *what != RSP => Ok(Step::Takes(8)),
        ("pop", [what]) if whole(what).is_some() && *what != RSP => Ok(Step::Takes(-8)),
        ("call", [to]) if !to.starts_with('*') => Ok(Step::Calls),
        ("call", _) => stop("whom it calls is not known"),
        ("jmp", [to]) => jumped(to).map_or_else(|| stop("where it goes is not known"), Ok),
        ("ret", []) => Ok(Step::Returns),
        ("ud2", []) => Ok(Step::Traps),
        (_, [_]) if is_under_condition("j", name) => Ok(Step::Branches),
        ("mov", [RSP, RBP]) => stop(FRAME_POINTER),
        ("lea", [from, RBP]) if by_pointer(from).is_some() => stop(FRAME_POINTER),
        _ if operands.iter().any(|word| register(word) == register(RSP)) => {
            let moved = moved(name, &operands).map(Step::Takes);
            moved.map_or_else(|| stop("the frame's size is not a constant"), Ok)
        }
        _ if is_plain(name, &operands) || is_sized(HIDDEN, name) => Ok(Step::Takes(0)),
        _ => stop("the instruction is not known"),
    }
}

/// A jump to a place, or to where a register points.
fn jumped(to: &str) -> Option<Step> {
    match to.strip_prefix('*') {
        Some(by) => whole(by).map(Step::JumpsBy),
        None => Some(Step::Jumps),
    }
}

/// The bytes that an instruction takes which names the stack pointer: its number, and none where it
/// only copies the pointer.
fn moved(name: &str, operands: &[&str]) -> Option<i64> {
    match (name, operands) {
        ("sub", [by, RSP]) => number(by.strip_prefix('$')?),
        ("add", [by, RSP]) => number(by.strip_prefix('$')?).map(|by| -by),
        ("lea", [place, RSP]) => match by_pointer(place)? {
            (by, "%rsp)") => number(by).map(|by| -by),
            _ => None,
        },
        ("mov", [RSP, to]) => whole(to).filter(|_| *to != RSP).map(|_| 0),
        _ => None,
    }
}
