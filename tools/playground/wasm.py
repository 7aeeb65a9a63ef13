"""Compiles the LLVM modules of a proved program or libraries for WebAssembly.

The kit makes a module for Linux on x86-64. Its layouts agree with those of wasm64 (little endian,
64-bit pointers, the same alignments), so clang compiles it for that. It is linked with `runtime`,
which has the allocator and, for a program, the C functions of the system. Then Binaryen gives it
32-bit addresses, for browsers that have no others.
"""
import os
import re
import subprocess
import tempfile

from table32 import with_table32

HERE = os.path.dirname(os.path.abspath(__file__))
TRIPLE = "wasm64-unknown-unknown"
LAYOUT = "e-m:e-p:64:64-p10:8:8-p20:8:8-i64:64-i128:128-n32:64-S128-ni:1:10:20"
FLAGS = [f"--target={TRIPLE}", "-mcpu=lime1", "--no-default-config", "-ffunction-sections",
         "-fdata-sections"]
OF_PROVED = ["-mllvm", "-expand-div-rem-bits=64", "-mllvm", "-trap-unreachable"]
OF_RUNTIME = ["-O3", "-mbulk-memory", "-ffreestanding", "-std=gnu17", "-Wall", "-Wextra", "-Werror"]
LINK = ["-mwasm64", "--no-entry", "--stack-first", "-z", "stack-size=8388608", "--gc-sections",
        "--strip-all", "--fatal-warnings"]
LOWER = ["--enable-memory64", "--enable-bulk-memory", "--enable-nontrapping-float-to-int",
         "--enable-sign-ext", "--enable-multivalue", "--enable-mutable-globals",
         "--memory64-lowering"]
# How well the proved code and the whole module are optimized.
GOOD, FAST = ("-O3", "-O2"), ("-O1", "-O0")
PROGRAM = ["memory", "compiler", "world"]
LIBRARY = ["memory", "compiler"]
OF_MACHINE = re.compile(r' "(probe-stack|stack-probe-size|target-cpu|target-features|frame-pointer)'
                        r'"="[^"]*"')
SANITIZED = re.compile(r"\bsanitize_address\b ?")
BARE = re.compile(r"^(attributes #\d+ = \{) *\}")


def run(*words, **how):
    subprocess.run(words, check=True, **how)


def retargeted(line):
    """A line of the module's text, for wasm64. A program's `main` becomes a function of the
    runtime's."""
    if line.startswith("target datalayout"):
        return f'target datalayout = "{LAYOUT}"\n'
    if line.startswith("target triple"):
        return f'target triple = "{TRIPLE}"\n'
    if line.startswith("attributes"):
        return BARE.sub(r"\1 nounwind }", SANITIZED.sub("", OF_MACHINE.sub("", line)))
    return SANITIZED.sub("", line).replace("@main(", "@rattle_main(")


def compile_module(clang, module, level, folder):
    """Writes the object of the module; returns its path, and whether it is a program."""
    text, retold = f"{folder}/proved.ll", f"{folder}/retargeted.ll"
    run(clang, "-x", "ir", module, "-S", "-emit-llvm", "-O0", "-Xclang", "-disable-llvm-passes",
        "-o", text, stderr=subprocess.DEVNULL)
    is_program = False
    with open(text, encoding="utf-8") as lines, open(retold, "w", encoding="utf-8") as to:
        for line in map(retargeted, lines):
            is_program |= line.startswith("define") and "@rattle_main(" in line
            to.write(line)
    run(clang, *FLAGS, *OF_PROVED, level, "-c", "-x", "ir", retold, "-o", f"{folder}/proved.o")
    return f"{folder}/proved.o", is_program


def compile_runtime(clang, names, folder):
    """Writes the objects of the runtime; returns their paths."""
    for name in names:
        source = f"{HERE}/runtime/{name}.c"
        run(clang, *FLAGS, *OF_RUNTIME, "-c", source, "-o", f"{folder}/{name}.o")
    return [f"{folder}/{name}.o" for name in names]


def write_wasm(clang, modules, exports, out, levels=GOOD):
    """Compiles modules to the file `out`. Libraries export these functions too."""
    with tempfile.TemporaryDirectory() as folder:
        proved, is_program = [], False
        for number, module in enumerate(modules):
            os.mkdir(f"{folder}/{number}")
            path, is_program = compile_module(clang, module, levels[0], f"{folder}/{number}")
            proved.append(path)
        parts = compile_runtime(clang, PROGRAM if is_program else LIBRARY, folder)
        linked = f"{folder}/linked.wasm"
        words = ["wasm-ld", *LINK, *(f"--export={it}" for it in exports), "-o", linked]
        run(*words, *proved, *parts, executable=clang)
        with open(linked, "rb") as file:
            data = with_table32(file.read())
        with open(linked, "wb") as file:
            file.write(data)
        run("wasm-opt", *LOWER, levels[1], linked, "-o", out)
