"""Builds of C programs by two compilers, as `drafts.py` and `jumps.py` take them."""

import subprocess

ABI = ("-march=rv32im", "-mabi=ilp32")
CODE = ("-ffreestanding", "-fno-optimize-sibling-calls")
LINK = ("-nostdlib", "-static", "-Wl,-Ttext=0x10000", "-Wl,-Tdata=0x20000", "-Wl,--build-id=none")
GCC = "riscv64-unknown-elf-gcc"
LEVELS = ("-O0", "-O1", "-O2", "-Os")


def run(*words):
    return subprocess.run(words, stdout=subprocess.PIPE, stderr=subprocess.PIPE, text=True)


def build(compiler, level, source, out, *flags):
    """Whether a program is built, with more flags for its code."""
    code = (*CODE, *flags)
    if compiler == "gcc":
        return run(GCC, *ABI, level, *code, *LINK, "-o", out, source).returncode == 0
    made = run("clang", "--target=riscv32-unknown-elf", "-fno-addrsig", *ABI, level, *code, "-S", "-o", out + ".s", source)
    return made.returncode == 0 and run(GCC, *ABI, *LINK, "-o", out, out + ".s").returncode == 0
