//! The stack that each call of an archive needs, read from its machine code: whatever a call is lent, it goes
//! no deeper. How deep one input takes it, `touched` of `clock` shows.
//!
//! What a function needs is found by following every way through it, and what a call needs by the deepest
//! chain of calls below it. That tells all as long as no function calls itself, none is called by a pointer
//! and none takes stack of a size that is known only when it runs. Other code is an error, not a guess.

mod chain;
mod code;
mod machine;
mod need;

use std::process::{Command, ExitCode};

const HELP: &str = "stack ARCHIVE: bytes of stack that each function which ARCHIVE hands out needs, and the
deepest chain of calls with the bytes of each. They are counted from the caller's stack pointer: on x86-64 the
return address is among them, arguments that the caller puts on the stack are not. OBJDUMP names another
disassembler than objdump, such as llvm-objdump for the archive of another machine.";

fn main() -> ExitCode {
    let words: Vec<String> = std::env::args().skip(1).collect();
    let [archive] = &words[..] else {
        eprintln!("{HELP}");
        return ExitCode::from(2);
    };
    match disassembled(archive).and_then(|text| table(&text)) {
        Ok(table) => {
            print!("{table}");
            ExitCode::SUCCESS
        }
        Err(why) => {
            eprintln!("stack: {why}");
            ExitCode::FAILURE
        }
    }
}

fn disassembled(archive: &str) -> Result<String, String> {
    let tool = std::env::var("OBJDUMP").unwrap_or("objdump".into());
    let run = Command::new(&tool).args(["-d", "-r", "--no-show-raw-insn", archive]).output();
    let output = run.map_err(|why| format!("{tool}: {why}"))?;
    if !output.status.success() {
        return Err(format!("{tool} {archive}: {}", String::from_utf8_lossy(&output.stderr)));
    }
    String::from_utf8(output.stdout).map_err(|why| format!("{tool}: {why}"))
}

/// A line for each function that no other calls.
fn table(text: &str) -> Result<String, String> {
    let (machine, functions) = code::functions(text)?;
    let needs = functions.iter().map(|f| Ok((f.name, need::of(f, machine)?))).collect::<Result<_, String>>()?;
    let rows = chain::tops(&needs).into_iter().map(|top| {
        let links = chain::deepest(&needs, top)?;
        let bytes = machine.return_address() + chain::bytes(&links);
        Ok(format!("{top:<24}{bytes:>5}  {}\n", chain::shown(&links)))
    });
    rows.collect()
}

#[cfg(test)]
mod tests;
