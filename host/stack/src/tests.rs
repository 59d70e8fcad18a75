//! Small disassemblies, as objdump and as llvm-objdump write them.

use super::*;

/// The functions of an object of a machine, each with its code.
fn text(format: &str, functions: &[(&str, &str)]) -> String {
    let of = |(name, code): &(&str, &str)| format!("\n0000000000000000 <{name}>:\n{code}\n");
    format!("lib.o:     file format {format}\n{}", functions.iter().map(of).collect::<String>())
}

fn x86_64(functions: &[(&str, &str)]) -> Result<String, String> {
    table(&text("elf64-x86-64", functions))
}

const LEAF: (&str, &str) = ("a::leaf", "   0:\tmov    %rdi,-0x38(%rsp)\n   5:\tret");

/// Two pushed arguments, and a way around the call.
const TOP: &str = "   0:\tpush   %rbp
   1:\tsub    $0x110,%rsp
   5:\tje     1c <top+0x1c>
   7:\tpush   %rax
   9:\tpush   0x20(%rsp)
   d:\tcall   12 <top+0x12>
\t\t\te: R_X86_64_PLT32\t.text.a::leaf-0x4
  12:\tadd    $0x10,%rsp
  1c:\tadd    $0x110,%rsp
  20:\tpop    %rbp
  21:\tret";

/// The return address, a push, 272 bytes, two arguments, the second return address, and 56 bytes below.
#[test]
fn a_chain_on_x86_64() {
    let wanted = "top                       368  top 304, a::leaf 56\n";
    assert_eq!(x86_64(&[LEAF, ("top", TOP)]).as_deref(), Ok(wanted));
    let llvm = TOP.replace("push ", "pushq").replace("$0x110,%rsp", "$272, %rsp    # imm = 0x110");
    let llvm = llvm.replace("call   12 <", "callq 0x12 <").replace("1c <top", "0x1c <top");
    assert_eq!(x86_64(&[LEAF, ("top", &llvm)]).as_deref(), Ok(wanted));
}

/// 128 fits in fewer bytes as the negative of itself.
#[test]
fn a_negative_number() {
    let code = "   0:\tsub    $0xffffffffffffff80,%rsp\n   4:\tadd    $-128, %rsp\n   8:\tret";
    assert_eq!(x86_64(&[("top", code)]).as_deref(), Ok("top                         8  top 0\n"));
    let code = "   0:\tadd    $0xffffffffffffff80,%rsp\n   4:\tsub    $-128, %rsp\n   8:\tret";
    assert_eq!(x86_64(&[("top", code)]).as_deref(), Ok("top                       136  top 128\n"));
}

#[test]
fn a_chain_on_aarch64() {
    let top = "   0:\tstp\tx29, x30, [sp, #-96]!
   4:\tsub\tsp, sp, #0x130
   8:\tcbz\tw1, 10 <top+0x10>
   c:\tbl\t0 <a::leaf>
\t\t\tc: R_AARCH64_CALL26\t.text.a::leaf
  10:\tadd\tsp, sp, #0x130
  14:\tldp\tx29, x30, [sp], #96
  18:\tmov\tw0, #0x2                   \t// #2
  1c:\tret";
    let leaf = ("a::leaf", "   0:\tstr\tx8, [sp, #-16]!\n   4:\tldr\tx8, [sp], #16\n   8:\tret");
    let table = table(&text("elf64-littleaarch64", &[leaf, ("top", top)]));
    assert_eq!(table.as_deref(), Ok("top                       416  top 400, a::leaf 16\n"));
}

/// What a function calls last by a jump stands where the function stood.
#[test]
fn a_jump_to_a_function() {
    let top = "   0:\tpush   %rbp\n   1:\tpop    %rbp\n   2:\tjmp    7 <top+0x7>\n\t\t\t3: R_X86_64_PLT32\ta::leaf-0x4";
    assert_eq!(x86_64(&[LEAF, ("top", top)]).as_deref(), Ok("top                        64  top 0, a::leaf 56\n"));
}

/// Places out of a table are as deep as the jump.
#[test]
fn a_jump_by_a_table() {
    let top = "   0:\tsub    $0x8,%rsp\n   4:\tjmp    *%rax\n   6:\tpush   %rbx\n   7:\tpop    %rbx
   8:\tadd    $0x8,%rsp\n   c:\tret\n   d:\tnopl   (%rax)";
    assert_eq!(x86_64(&[("top", top)]).as_deref(), Ok("top                        24  top 16\n"));
}

#[test]
fn what_is_not_known_is_an_error() {
    for (code, why) in [
        ("   0:\tcall   *%rax\n   2:\tret", "top: 0: call *%rax: not covered"),
        ("   0:\tand    $-64,%rsp\n   4:\tret", "top: 0: and $-64,%rsp: not covered"),
        ("   0:\tsub    %rax,%rsp\n   4:\tret", "top: 0: sub %rax,%rsp: not covered"),
        ("   0:\tnotrack jmp *%rax", "top: 0: notrack jmp *%rax: not covered"),
        ("   0:\tpush   %rax", "top: it runs on past its end"),
        ("   0:\tje     3 <top+0x3>\n   2:\tpush   %rax\n   3:\tret", "top: 3: 8 and 0 bytes"),
        ("   0:\tret\n   1:\tpush   %rax", "top: 1: no way leads here"),
        (
            "   0:\tcall   5 <top+0x5>\n\t\t\t1: R_X86_64_PLT32\tmemcpy-0x4\n   5:\tret",
            "memcpy is called and is not there",
        ),
    ] {
        assert_eq!(x86_64(&[("top", code)]), Err(why.into()));
    }
    let again = "   0:\tcall   5 <f+0x5>\n\t\t\t1: R_X86_64_PLT32\tf-0x4\n   5:\tret";
    let top = ("top", "   0:\tcall   5 <top+0x5>\n\t\t\t1: R_X86_64_PLT32\tf-0x4\n   5:\tret");
    assert_eq!(x86_64(&[("f", again), top]), Err("f calls itself".into()));
    assert_eq!(table("lib.o: file format elf32-i386\n"), Err("elf32-i386: a machine that is not known here".into()));
}
