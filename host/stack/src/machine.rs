//! What an instruction does to the stack pointer, and what comes after it.

use crate::code::{number, Instruction};

#[derive(Clone, Copy, Debug, PartialEq)]
pub enum Machine {
    X86_64,
    Aarch64,
}

pub struct Effect {
    /// The stack pointer goes down by so many bytes.
    pub down: i64,
    /// So many bytes below the stack pointer are used, which x86-64 allows of up to 128.
    pub below: i64,
    pub next: Next,
}

#[derive(Clone, Copy, PartialEq)]
pub enum Next {
    Following,
    /// A call of the symbol, then the following.
    Call,
    /// The following, or a jump.
    Branch,
    Jump,
    /// A jump to a place out of a table.
    Switch,
    /// A return, or a trap.
    End,
}

impl Machine {
    pub fn named(format: &str) -> Option<Machine> {
        match format {
            "elf64-x86-64" => Some(Machine::X86_64),
            "elf64-littleaarch64" => Some(Machine::Aarch64),
            _ => None,
        }
    }

    /// The bytes that a call puts on the stack.
    pub fn return_address(self) -> i64 {
        match self {
            Machine::X86_64 => 8,
            Machine::Aarch64 => 0,
        }
    }

    pub fn without_comment(self, line: &str) -> &str {
        let mark = match self {
            Machine::X86_64 => " #",
            Machine::Aarch64 => "//",
        };
        line.split_once(mark).map_or(line, |(before, _)| before)
    }

    /// What fills the space up to the next aligned place, and is never reached.
    pub fn is_padding(self, i: &Instruction) -> bool {
        let words: &[&str] = match self {
            Machine::X86_64 => &["nop", "cs", "data16", "xchg", "int3"],
            Machine::Aarch64 => &["nop", "udf"],
        };
        words.iter().any(|word| i.word.starts_with(word))
    }

    pub fn effect(self, i: &Instruction) -> Result<Effect, String> {
        match self {
            Machine::X86_64 => x86_64(i),
            Machine::Aarch64 => aarch64(i),
        }
    }
}

fn x86_64(i: &Instruction) -> Result<Effect, String> {
    let word = i.word.trim_end_matches('q');
    let next = match word {
        "call" if i.symbol.is_none() => return Err(i.strange()),
        "call" => Next::Call,
        "jmp" if i.operands.starts_with('*') => Next::Switch,
        "jmp" => Next::Jump,
        "ret" | "ud2" => Next::End,
        _ if word.starts_with('j') => Next::Branch,
        _ => Next::Following,
    };
    let (source, to) = i.operands.rsplit_once(',').map_or(("", i.operands), |(from, to)| (from, to.trim()));
    let down = match word {
        "push" => Some(8),
        "pop" => Some(-8),
        "sub" if to == "%rsp" => number(source),
        "add" if to == "%rsp" => number(source).map(|bytes| -bytes),
        "cmp" | "test" => Some(0),
        "leave" | "enter" | "pushw" | "popw" | "pushf" | "popf" | "notrack" | "bnd" => None,
        _ if to == "%rsp" => None,
        _ => Some(0),
    };
    let address = i.operands.split_once("(%rsp").and_then(|(before, _)| before.rsplit([',', ' ', '*']).next());
    Ok(Effect { down: down.ok_or(i.strange())?, below: below(address), next })
}

/// Bytes below the stack pointer, of an address that is so far from it.
fn below(address: Option<&str>) -> i64 {
    address.and_then(number).map_or(0, |at| 0.max(-at))
}

fn aarch64(i: &Instruction) -> Result<Effect, String> {
    let next = match i.word {
        "blr" => return Err(i.strange()),
        "bl" if i.symbol.is_none() => return Err(i.strange()),
        "bl" => Next::Call,
        "b" => Next::Jump,
        "br" => Next::Switch,
        "ret" | "brk" => Next::End,
        "cbz" | "cbnz" | "tbz" | "tbnz" => Next::Branch,
        word if word.starts_with("b.") => Next::Branch,
        _ => Next::Following,
    };
    let by = |text: &str| number(text).map(|at| -at);
    let pointer = i.operands.strip_prefix("sp, ");
    let address = i.operands.split_once("[sp").map(|(_, address)| address.trim_start_matches(", "));
    let down = match (i.word, pointer, address) {
        ("sub", Some(rest), _) => rest.strip_prefix("sp, ").and_then(number),
        ("add", Some(rest), _) => rest.strip_prefix("sp, ").and_then(by),
        (_, Some(_), _) => None,
        // the address becomes the stack pointer's, or it does after the access
        (_, _, Some(address)) if address.ends_with("]!") => by(address.trim_end_matches("]!")),
        (_, _, Some(address)) if address.starts_with("], ") => by(address.trim_start_matches("], ")),
        _ => Some(0),
    };
    let address = address.map(|address| address.trim_end_matches(']'));
    Ok(Effect { down: down.ok_or(i.strange())?, below: below(address), next })
}
