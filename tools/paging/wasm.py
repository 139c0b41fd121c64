"""WebAssembly of a program's bitcode: the module is given another target, compiled, and linked with web/machine."""

import os
import pathlib
import re

from tools.packing import Failure
from tools.paging.kit import call

# The target that the toolchain writes the module for, and ours. Both have pointers, integers and structs of the same forms.
GIVEN = ('target datalayout = "e-m:e-p270:32:32-p271:32:32-p272:64:64-i64:64-i128:128-f80:128-n8:16:32:64-S128"',
         'target triple = "x86_64-unknown-linux-gnu"')
WANTED = ('target datalayout = "e-m:e-p:64:64-p10:8:8-p20:8:8-i64:64-i128:128-n32:64-S128-ni:1:10:20"',
          'target triple = "wasm64-unknown-unknown"')
# Attributes of functions that speak of the processor or of its stack.
DROPPED = re.compile(r' "(?:frame-pointer|probe-stack|stack-probe-size|target-cpu)"="[^"]*"')
# Those that are left are LLVM's own words.
TARGET_WORDS = re.compile(r'"[^"]*"')
COMPILING = ["--target=wasm64-unknown-unknown", "-mcpu=lime1", "-mllvm", "-expand-div-rem-bits=64", "-mllvm", "-expand-fp-convert-bits=64",
             "-ffunction-sections", "-fdata-sections", "--no-default-config", "-fno-crash-diagnostics", "-Werror"]
OWN = ["-O2", "-fwrapv", "-ffreestanding", "-nostdinc", "-fno-builtin", "-Wall", "-Wextra"]
MACHINE = ("heap", "wide", "system")
# In bytes. The memory of the page (web/app/programs.js) has the same limits.
STACK, INITIAL, MAXIMUM = 8 << 20, 16 << 20, 4 << 30
LINKING = ["-flavor", "wasm", "-mwasm64", "--no-entry", "--stack-first", "-z", f"stack-size={STACK}", "--import-memory",
           f"--initial-memory={INITIAL}", f"--max-memory={MAXIMUM}", "--export=main", "--gc-sections", "--threads=1", "--fatal-warnings",
           "--strip-all"]


def changed(name, why):
    return Failure(f"the module of {name} {why}: the toolchain has changed what it hands to clang, and this script has to be fitted to it")


def retargeted(name, text):
    """The module's text for the other target. Whatever isn't known is refused."""
    for given, wanted in zip(GIVEN, WANTED):
        if text.count(f"\n{given}\n") != 1:
            raise changed(name, f"doesn't have the line {given}")
        text = text.replace(given, wanted)
    if re.search(r"^module asm |\basm (?:sideeffect |alignstack |inteldialect )*\"", text, re.MULTILINE):
        raise changed(name, "has assembly")
    lines = text.split("\n")
    for at, line in enumerate(lines):
        if line.startswith("attributes #"):
            line = DROPPED.sub("", line)
            if TARGET_WORDS.search(line):
                raise changed(name, f"has the attribute {TARGET_WORDS.search(line)[0]}")
            lines[at] = line.replace("{ }", "{ nounwind }")
    return "\n".join(lines)


def compiled(kit, name, module, work):
    clang, text, made = kit.part("toolchain", "bin", "clang"), pathlib.Path(work, f"{name}.ll"), os.path.join(work, f"{name}.wasm.o")
    call([clang, "-x", "ir", module, "-S", "-emit-llvm", "-Xclang", "-disable-llvm-passes", "--no-default-config", "-o", text])
    text.write_text(retargeted(name, text.read_text(encoding="utf-8")), encoding="utf-8")
    call([clang, *COMPILING, "-O3", "-c", "-x", "ir", text, "-o", made])
    return made


def machine(kit, sources, work):
    """The paths of the object files of web/machine, whose sources lie in a folder."""
    made = []
    for name in MACHINE:
        made.append(os.path.join(work, f"{name}.o"))
        call([kit.part("toolchain", "bin", "clang"), *COMPILING, *OWN, "-c", os.path.join(sources, f"{name}.c"), "-o", made[-1]])
    return made


def linked(kit, objects, made):
    """Links a program's object file with those of web/machine: the file `made`."""
    call([kit.part("toolchain", "bin", "ld.lld"), *LINKING, *objects, "-o", made])
