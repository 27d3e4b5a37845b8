//! One line of a listing: a label, an instruction, or what the linker is to put into one.

use super::listing::Place;

/// What the linker is to put into an instruction or a constant.
pub struct Relocation {
    pub kind: String,
    /// The section or symbol and the number to be added, as they are printed.
    pub target: String,
    /// The target, where it is in a section that was read.
    pub place: Option<Place>,
}

impl Relocation {
    /// The place that an instruction means whose last four bytes say how far from its end that is.
    pub fn meant(&self) -> Option<Place> {
        let near = matches!(&self.kind[..], "R_X86_64_PC32" | "R_X86_64_PLT32");
        let place = self.place.filter(|_| near)?;
        Some(place.plus(4))
    }
}

/// One instruction: its name and operands as objdump writes them.
pub struct Instruction {
    pub at: i64,
    pub name: String,
    pub operands: Vec<String>,
    pub relocation: Option<Relocation>,
}

impl Instruction {
    /// The name and the operands, to be matched.
    pub fn words(&self) -> (&str, Vec<&str>) {
        let operands = self.operands.iter().map(String::as_str);
        (&self.name, operands.collect())
    }

    /// The place whose address it takes.
    pub fn address(&self) -> Option<Place> {
        let ("lea", [source, _]) = (&self.name[..], &self.operands[..]) else {
            return None;
        };
        let relative = source.ends_with("(%rip)");
        let relocation = self.relocation.as_ref().filter(|_| relative)?;
        relocation.meant()
    }
}

/// `0000000000000000 <lines::join>:`
pub fn label(line: &str) -> Option<(i64, &str)> {
    let (at, name) = line.strip_suffix(">:")?.split_once(" <")?;
    Some((i64::from_str_radix(at, 16).ok()?, name))
}

/// `  8:`, a tab, and `cmpb   $0x1,(%rdi,%rcx,1)`; what follows `#` or `<` is objdump's remark.
pub fn instruction(line: &str) -> Option<Instruction> {
    let (at, text) = line.split_once(":\t")?;
    let at = i64::from_str_radix(at.trim_start(), 16).ok()?;
    let text = text.split(['#', '<']).next()?.trim_end();
    let (name, operands) = named(text);
    let is_name = name.starts_with(|c: char| c.is_ascii_lowercase());
    is_name.then(|| Instruction {
        at,
        name: name.to_string(),
        operands: split(operands),
        relocation: None,
    })
}

/// The name and the operands. Words before a nop, before a jump by a table and before a return
/// change nothing here, and older versions of objdump have a q after some names.
fn named(text: &str) -> (&str, &str) {
    let (name, rest) = text.split_once(' ').unwrap_or((text, ""));
    let rest = rest.trim_start();
    match name {
        "data16" | "cs" if rest.contains("nop") => named(rest),
        "notrack" if rest.starts_with("jmp") => named(rest),
        "rep" | "repz" if rest.starts_with("ret") => named(rest),
        "callq" | "jmpq" | "retq" | "pushq" | "popq" => (&name[..name.len() - 1], rest),
        _ => (name, rest),
    }
}

/// The operands, cut at the commas that stand in no parentheses.
fn split(operands: &str) -> Vec<String> {
    let mut open = 0;
    let parts = operands.split(|c| {
        open += i32::from(c == '(') - i32::from(c == ')');
        c == ',' && open == 0
    });
    let parts = parts.filter(|part| !part.is_empty());
    parts.map(str::to_string).collect()
}

/// Three tabs, `12d: R_X86_64_PC32`, a tab, and `.rodata.sound::threads_ok-0x4`.
pub fn relocation(line: &str) -> Option<(i64, Relocation)> {
    let (at, rest) = line.strip_prefix("\t\t\t")?.split_once(": ")?;
    let (kind, target) = rest.split_once('\t')?;
    let relocation = Relocation {
        kind: kind.to_string(),
        target: target.to_string(),
        place: None,
    };
    Some((i64::from_str_radix(at, 16).ok()?, relocation))
}

/// `.text.lines::join-0x4`: a name, and the number that is added to its place.
pub fn sum(target: &str) -> Option<(&str, i64)> {
    let sign = target.rfind("+0x").or_else(|| target.rfind("-0x"));
    let Some(sign) = sign else {
        return Some((target, 0));
    };
    let number = i64::from_str_radix(&target[sign + 3..], 16).ok()?;
    let minus = target[sign..].starts_with('-');
    Some((&target[..sign], if minus { -number } else { number }))
}
