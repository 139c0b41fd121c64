"""How tools/page is built and refused, with a toolchain of stand-ins, and texts in place of modules."""

import pathlib

import pytest

from tests.shared.rows import write
from tools.packing import Failure
from tools.paging.bitcode import bitcode
from tools.paging.document import bundle
from tools.paging.wasm import GIVEN, WANTED, retargeted

MODULE = "\n".join(("; ModuleID", *GIVEN, "define i32 @main() #0 {", "ret i32 0", "}",
                    'attributes #0 = { nounwind "frame-pointer"="all" "target-cpu"="x86-64" }', 'attributes #1 = { "probe-stack"="inline-asm" }', ""))
DUE = "\n".join(("; ModuleID", *WANTED, "define i32 @main() #0 {", "ret i32 0", "}", "attributes #0 = { nounwind }", "attributes #1 = { nounwind }", ""))
CHANGED = "the module of p %s: the toolchain has changed what it hands to clang, and this script has to be fitted to it"
# What is done to the module's text, and why it is refused.
REFUSED = (
    (GIVEN[0], GIVEN[0].replace("i64:64", "i64:32"), "doesn't have the line " + GIVEN[0]),
    (GIVEN[1], 'target triple = "aarch64-unknown-linux-gnu"', "doesn't have the line " + GIVEN[1]),
    ("ret i32 0", 'call void asm sideeffect "nop", ""()', "has assembly"),
    ("; ModuleID", '\nmodule asm "nop"', "has assembly"),
    ('"target-cpu"="x86-64"', '"strictfp"="true"', 'has the attribute "strictfp"'),
)
# A compiler that makes a program of a module's bytes, and the toolchain's command, which hands COUNT modules to it.
CLANG = """#!/bin/sh
for word; do case "$word" in *.bc) cat "$word" >>"$PWD/made" ;; esac; done
"""
RATTLE = """#!/bin/sh
while [ $# -gt 0 ]; do
  case "$1" in --toolchain) clang="$2/bin/clang" ;; -o) to="$2" ;; esac
  shift
done
rm -f made
for number in $(seq {count}); do
  printf 'module %s' "$number" >module.bc
  "$clang" -c module.bc || exit 1
done
[ ! -e made ] || mv made "$to"
echo '{said}'
exit {status}
"""
LINK = """#!/bin/sh
while [ $# -gt 0 ]; do
  case "$1" in -o) cp "$2.o" "$2" ;; esac
  shift
done
"""
# The script of a stand-in, the bytes of the program that was proved, and what is due: the module, or a part of why there is none.
PROVED = "logic=proved functions=1"
HANDED = (
    ({"count": 1, "said": PROVED, "status": 0}, b"module 1", "module 1"),
    ({"count": 1, "said": PROVED, "status": 0}, b"another", "isn't the program that these sources give: build it again"),
    ({"count": 2, "said": PROVED, "status": 0}, b"module 1module 2", "the toolchain handed 2 modules to clang, and not one"),
    ({"count": 1, "said": "logic=not-proved", "status": 0}, b"module 1", "the toolchain doesn't say that p is proved"),
    ({"count": 1, "said": "no", "status": 1}, b"module 1", "rattle fails with status 1"),
)
MODULES = {
    "main.js": 'import { one } from "./one.js";\n\nexport function main() {\n  return one;\n}\n',
    "one.js": "// One.\n\nexport const one = 1;\n",
}
BUNDLE = "// one.js\n// One.\n\nconst one = 1;\n\n// main.js\nfunction main() {\n  return one;\n}\n"
# Modules that aren't bundled, and why.
UNBUNDLED = (
    ({"main.js": 'import one from "./one.js";\n'}, "not a form that is bundled: import one from"),
    ({"main.js": 'import { two } from "./one.js";\n'}, "one.js exports no two"),
    ({"one.js": 'import { main } from "./main.js";\nexport const one = main;\n'}, "imports itself, by others"),
    ({"main.js": 'import { one } from "./one.js";\nconst one = one;\n'}, "one also stands in"),
    ({"main.js": "export default 1;\n"}, "not a form that is bundled: export default 1;"),
)


class StandIn:
    """A toolchain whose parts are scripts, in a folder."""

    def __init__(self, folder, told):
        self.folder = folder
        for place, text in (("bin/rattle", RATTLE.format(**told)), ("bin/rattle-link", LINK), ("toolchain/bin/clang", CLANG), ("toolchain/lib/x", ""),
                            ("rlibs/std.rlib/x", ""), ("rattle/logic/antt-project.json", ""), ("logic_built/x", ""), ("c/libos_c.a", ""),
                            ("c/liblibc_c.a", "")):
            path = pathlib.Path(folder, place)
            path.parent.mkdir(parents=True, exist_ok=True)
            path.write_text(text, encoding="utf-8")
            path.chmod(0o755)

    def part(self, *place):
        return str(pathlib.Path(self.folder, *place))


def outcome(make):
    try:
        return make()
    except Failure as failure:
        return str(failure)


def handed(told, program, folder):
    write(folder, {"root/crates/p/": b"", "root/crates.txt": b"p:\n", "proved": program})
    module = bitcode(f"{folder}/root", StandIn(f"{folder}/kit", told), "p", f"{folder}/proved", f"{folder}/made")
    return pathlib.Path(module).read_text(encoding="utf-8")


def bundled(changed, folder):
    write(folder, {name: text.encode() for name, text in {**MODULES, **changed}.items()})
    return bundle(f"{folder}/main.js")


def test_module():
    assert retargeted("p", MODULE) == DUE


@pytest.mark.parametrize("old, new, why", REFUSED, ids=[row[2] for row in REFUSED])
def test_refused_module(old, new, why):
    assert outcome(lambda: retargeted("p", MODULE.replace(old, new))) == CHANGED % why


@pytest.mark.parametrize("told, program, due", HANDED, ids=[row[2] for row in HANDED])
def test_handed(told, program, due, folder):
    assert due in outcome(lambda: handed(told, program, folder))


def test_bundle(folder):
    assert bundled({}, folder) == BUNDLE


@pytest.mark.parametrize("changed, due", UNBUNDLED, ids=[row[1] for row in UNBUNDLED])
def test_unbundled(changed, due, folder):
    assert due in outcome(lambda: bundled(changed, folder))
