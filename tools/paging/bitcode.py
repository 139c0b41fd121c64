"""The bitcode of a proved program: what the toolchain hands to its clang.

The toolchain proves a program, writes it as one module of LLVM, and has clang compile that. It keeps no module, and names no way to get
it, so it is given a clang that keeps a copy and then does as the other. What comes of it has to be, byte for byte, the program that was
proved and built before, so the module is that program's.
"""

import filecmp
import os
import pathlib

from commands.crates import crates_of, uses_of
from tools.packing import need
from tools.paging.kit import call

TARGET = "x86_64-unknown-linux-gnu"
# Keeps each module that is compiled.
KEEPING = """#!/bin/sh
for word; do
  case "$word" in *.bc) cp "$word" "$(mktemp '{kept}/XXXXXX.bc')" || exit 1 ;; esac
done
exec '{clang}' "$@"
"""


def keeping_toolchain(kit, folder):
    """A toolchain with such a clang, and the folder where that keeps modules."""
    kept, made = os.path.join(folder, "kept"), os.path.join(folder, "toolchain")
    os.makedirs(os.path.join(made, "bin"))
    os.makedirs(kept)
    os.symlink(kit.part("toolchain", "lib"), os.path.join(made, "lib"))
    for name in os.listdir(kit.part("toolchain", "bin")):
        if name != "clang":
            os.symlink(kit.part("toolchain", "bin", name), os.path.join(made, "bin", name))
    clang = pathlib.Path(made, "bin", "clang")
    clang.write_text(KEEPING.format(kept=kept, clang=kit.part("toolchain", "bin", "clang")), encoding="utf-8")
    clang.chmod(0o755)
    return made, kept


def libraries(root, kit, name):
    words = ["-L", f"dependency={kit.part('rlibs')}", "--extern", f"std={kit.part('rlibs', 'std.rlib')}"]
    for crate in sorted(crates_of(root, name) - {name}):
        words += ["-L", f"dependency={os.path.join(root, 'crates', crate, 'out', 'rlib')}"]
    uses = uses_of(root)
    for crate in uses[name]:
        own = os.path.join(root, "crates", crate, "out", "rlib", f"{crate}.rlib")
        words += ["--extern", f"{crate}={own if crate in uses else kit.part('rlibs', f'{crate}.rlib')}"]
    return words


def build(root, kit, name, toolchain, made):
    """Proves and builds the program again, in the folder of its crate, with this toolchain: the file `made`."""
    words = [kit.part("bin", "rattle"), "build", "--crate-name", name, "src/main.rt", *libraries(root, kit, name),
             "--antt-project", kit.part("rattle", "logic", "antt-project.json"), "--logic-built", kit.part("logic_built"),
             "--links", f"{name}=", "--incremental", "out/incremental", "--toolchain", toolchain, "-o", f"{made}.o"]
    folder = os.path.join(root, "crates", name)
    os.makedirs(os.path.join(folder, "out"), exist_ok=True)
    said = call(words, cwd=folder)
    need(any(line.startswith("logic=proved ") for line in said.splitlines()), f"the toolchain doesn't say that {name} is proved:\n{said[-2000:]}")
    call([kit.part("bin", "rattle-link"), "--target", TARGET, "--toolchain", kit.part("toolchain"), "-o", made, f"{made}.o",
          kit.part("c", "libos_c.a"), kit.part("c", "liblibc_c.a")], cwd=folder)


def bitcode(root, kit, name, program, work):
    """The path of the module of `program`, below the folder `work`."""
    toolchain, kept = keeping_toolchain(kit, work)
    made = os.path.join(work, name)
    build(root, kit, name, toolchain, made)
    modules = os.listdir(kept)
    need(len(modules) == 1, f"the toolchain handed {len(modules)} modules to clang, and not one: this script has to be fitted to it")
    need(filecmp.cmp(made, program, shallow=False), f"{program} isn't the program that these sources give: build it again")
    return os.path.join(kept, modules[0])
