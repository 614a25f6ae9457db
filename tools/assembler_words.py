#!/usr/bin/env python3
"""Compares what `assembly_reading` makes of 600 texts with what an assembler makes of them, GNU as (riscv64-unknown-elf-as,
of the package binutils-riscv64-unknown-elf) or, where that is missing, llvm-mc: the words, or that it is no instruction. Writes the texts with the assembler's
words as a test into a copy of the crate, and runs it by `rt try`.

    tools/assembler_words.py [SEED]
"""
import os
import random
import re
import shutil
import subprocess
import sys
import tempfile

COUNT = 600
ASSEMBLERS = {
    "GNU as": (["riscv64-unknown-elf-as", "-march=rv32ima", "-mabi=ilp32", "-mno-relax"], "riscv64-unknown-elf-objcopy"),
    "llvm-mc": (["llvm-mc", "--triple=riscv32", "--mattr=+m,+a,-relax", "--filetype=obj"], "llvm-objcopy"),
}
NAME = "GNU as" if shutil.which("riscv64-unknown-elf-as") else "llvm-mc"
ABI = "zero ra sp gp tp t0 t1 t2 s0 s1 a0 a1 a2 a3 a4 a5 a6 a7 s2 s3 s4 s5 s6 s7 s8 s9 s10 s11 t3 t4 t5 t6 fp".split()
LOADS = "lb lh lw lbu lhu".split()
STORES = "sb sh sw".split()
IMMEDIATES = "addi slti sltiu xori ori andi".split()
SHIFTS = "slli srli srai".split()
REGISTERS = "add sub sll slt sltu xor srl sra or and mul mulh mulhsu mulhu div divu rem remu".split()
BRANCHES = "beq bne blt bge bltu bgeu bgt ble bgtu bleu".split()
ZERO_BRANCHES = "beqz bnez bltz bgez blez bgtz".split()
AMOS = ["amo%s.w" % a for a in "swap add xor and or min max minu maxu".split()]
SETS = "r w rw i o io ir iw irw or ow orw ior iow iorw".split()


def texts(rng):
    def register():
        return rng.choice(ABI) if rng.random() < 0.4 else "x%d" % rng.randrange(32)

    def written():
        # GNU as makes a NOP more of an `li` to x0.
        return rng.choice([name for name in ABI if name != "zero"])

    def number(low, high):
        n = rng.choice([low, high, 0, 1, -1, rng.randint(low, high)])
        n = min(max(n, low), high)
        return hex(n) if n >= 0 and rng.random() < 0.3 else str(n)

    def comma():
        return rng.choice([",", ", ", " , "])

    def line(name, *operands):
        return name + rng.choice([" ", "  ", "\t"]) + comma().join(operands)

    def address():
        return "%s(%s)" % (number(-2050, 2049), register())

    def at():
        return rng.choice(["(%s)", "0(%s)"]) % register()

    def suffix():
        return rng.choice(["", ".aq", ".rl", ".aqrl"])

    def target(low, high):
        n = rng.randint(low // 2, high // 2) * 2
        return ".+%d" % n if n >= 0 else ".-%d" % -n

    kinds = [
        lambda: line(rng.choice(LOADS), register(), address()),
        lambda: line(rng.choice(STORES), register(), address()),
        lambda: line(rng.choice(IMMEDIATES), register(), register(), number(-2050, 2049)),
        lambda: line(rng.choice(SHIFTS), register(), register(), number(0, 33)),
        lambda: line(rng.choice(REGISTERS), register(), register(), register()),
        lambda: line(rng.choice(BRANCHES), register(), register(), target(-4096, 4094)),
        lambda: line(rng.choice(ZERO_BRANCHES), register(), target(-4096, 4094)),
        lambda: line("fence", rng.choice(SETS), rng.choice(SETS)),
        lambda: rng.choice(["fence", "fence.tso", "nop", "ecall", "ebreak"]),
        lambda: line("lr.w" + suffix(), register(), at()),
        lambda: line("sc.w" + suffix(), register(), register(), at()),
        lambda: line(rng.choice(AMOS) + suffix(), register(), register(), at()),
        lambda: line("li", written(), number(-2**31, 2**32 - 1)),
        lambda: line("li", written(), number(-2049, 2048)),
        lambda: line("li", written(), str(rng.randrange(2**20) * 4096)),
        lambda: line(rng.choice("mv not neg seqz snez".split()), register(), register()),
        lambda: line(rng.choice(["lui", "auipc"]), register(), number(0, 2**20)),
        lambda: line("j", target(-2**20, 2**20 - 2)),
        lambda: line("jal", register(), target(-2**20, 2**20 - 2)),
        lambda: line("jalr", register(), address()),
        lambda: line(rng.choice(REGISTERS), register(), register()),
        lambda: line(rng.choice(LOADS), register()),
        lambda: line("ld", register(), address()),
    ]
    return [rng.choice(kinds)() for _ in range(COUNT)]


def assembled(folder, text):
    """The words that the assembler makes of a text, or None."""
    source, made, words = (os.path.join(folder, name) for name in ("a.s", "a.o", "a.bin"))
    if NAME == "llvm-mc":
        # It takes a distance as a number alone.
        text = re.sub(r"\.\+?(-?\d+)$", r"\1", text)
    with open(source, "w") as out:
        out.write(text + "\n")
    call, copier = ASSEMBLERS[NAME]
    if subprocess.run([*call, source, "-o", made], capture_output=True).returncode:
        return None
    subprocess.run([copier, "-O", "binary", made, words], check=True)
    with open(words, "rb") as read:
        found = read.read()
    return [int.from_bytes(found[i : i + 4], "little") for i in range(0, len(found), 4)]


HEAD = """use crate::{Statement, read_statement};
use rv32_decode::encode;
use std::test::Fail;

fn words_of(text: &[u8]) -> (u32, u32) {
    match read_statement(text) {
        Ok(Statement::One(instr)) => (encode(&instr), 0),
        Ok(Statement::Two(first, second)) => (encode(&first), encode(&second)),
        _ => (0, 0),
    }
}

#[test]
fn texts_make_the_assemblers_words(rt: HostRuntime) -> Result<(), Fail> {
    for (text, first, second) in &WORDS {
        let (one, two) = words_of(text);
        if one != *first || two != *second {
            let text = text.escape_ascii();
            println!(rt; "differs: {text} is {one:#x} {two:#x}, by the assembler {first:#x} {second:#x}")?;
        }
    }
    Ok(())
}
"""


def main():
    rng = random.Random(int(sys.argv[1]) if len(sys.argv) > 1 else 1)
    with tempfile.TemporaryDirectory() as folder:
        rows = []
        for text in texts(rng):
            words = (assembled(folder, text) or []) + [0, 0]
            rows.append('    (b"%s", %#x, %#x),\n' % (text.replace("\t", "\\t"), words[0], words[1]))
        copy = os.path.join(folder, "copy")
        shutil.copytree(".", copy, ignore=shutil.ignore_patterns(".git", "out", "target"))
        test = os.path.join(copy, "crates/assembly_reading/src/tests.rt")
        with open(test, "w") as out:
            out.write(HEAD + "\nconst WORDS: [(&[u8], u32, u32); %d] = [\n%s];\n" % (len(rows), "".join(rows)))
        run = subprocess.run(["rt", "try", "--test"], cwd=os.path.dirname(os.path.dirname(test)), capture_output=True, text=True)
        differs = [line.strip() for line in (run.stdout + run.stderr).splitlines() if line.strip().startswith("differs")]
        print("\n".join(differs) if differs else run.stdout[-2000:] + run.stderr[-2000:])
        print("%d texts, %d of them no instruction for %s, %d differ" % (len(rows), sum("0x0, 0x0" in r for r in rows), NAME, len(differs)))
        sys.exit(1 if differs or run.returncode else 0)


if __name__ == "__main__":
    main()
