//! What objdump prints, taken apart.

use crate::machine::Machine;

pub struct Function<'a> {
    pub name: &'a str,
    pub code: Vec<Instruction<'a>>,
}

pub struct Instruction<'a> {
    pub at: u64,
    pub word: &'a str,
    pub operands: &'a str,
    /// The function or the constant that the linker puts in.
    pub symbol: Option<&'a str>,
}

/// All functions, of which each has a section of its own.
pub fn functions(text: &str) -> Result<(Machine, Vec<Function<'_>>), String> {
    let format = text.lines().find_map(|line| line.split_once("file format ")).ok_or("no disassembly")?.1;
    let machine = Machine::named(format.trim()).ok_or(format!("{format}: a machine that is not known here"))?;
    let mut functions: Vec<Function> = Vec::new();
    for line in text.lines() {
        if let Some((_, name)) = line.strip_suffix(">:").and_then(|line| line.split_once(" <")) {
            functions.push(Function { name, code: Vec::new() });
        } else if let Some(Function { code, .. }) = functions.last_mut() {
            read(code, machine.without_comment(line));
        }
    }
    functions.retain(|f| !f.code.is_empty());
    Ok((machine, functions))
}

/// An instruction, or the symbol of the one before.
fn read<'a>(code: &mut Vec<Instruction<'a>>, line: &'a str) {
    let Some((at, rest)) = line.split_once(':') else { return };
    let Ok(at) = u64::from_str_radix(at.trim(), 16) else { return };
    let rest = rest.trim();
    let (word, operands) = rest.split_once(char::is_whitespace).unwrap_or((rest, ""));
    let operands = operands.trim();
    match code.last_mut() {
        Some(before) if word.starts_with("R_") => before.symbol = Some(without_addend(operands)),
        _ => code.push(Instruction { at, word, operands, symbol: None }),
    }
}

/// `.text.name-0x4` and `name` are both the function `name`.
fn without_addend(symbol: &str) -> &str {
    let name = symbol.strip_prefix(".text.").unwrap_or(symbol);
    name.rsplit_once("-0x").or(name.rsplit_once("+0x")).map_or(name, |(name, _)| name)
}

impl Instruction<'_> {
    /// Where a jump within the function goes: `jne 1f3 <f+0x1f3>`, `cbz x8, 0x120 <f+0x120>`.
    pub fn target(&self) -> Result<u64, String> {
        let number = self.operands.split(" <").next().and_then(|before| before.split_whitespace().last());
        let digits = number.map(|number| number.trim_start_matches("0x"));
        digits.and_then(|digits| u64::from_str_radix(digits, 16).ok()).ok_or(self.strange())
    }

    /// The answer where the rules of this program do not cover an instruction.
    pub fn strange(&self) -> String {
        format!("{:x}: {} {}: not covered", self.at, self.word, self.operands)
    }
}

/// A number as either disassembler writes it: `$0x118`, `$280`, `#-96`, `-0x38`, `$0xffffffffffffff80`.
pub fn number(text: &str) -> Option<i64> {
    let text = text.trim_start_matches(['$', '#']);
    let (sign, digits) = text.strip_prefix('-').map_or((1, text), |digits| (-1, digits));
    let value = match digits.strip_prefix("0x") {
        Some(hex) => u64::from_str_radix(hex, 16).map(u64::cast_signed),
        None => digits.parse(),
    };
    value.ok().map(|value| sign * value)
}
