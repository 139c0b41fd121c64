"""tools/uncompiled: wrong bodies that must not compile, since a type's fields are private or a value is spent. Each is made in a copy of the
sources, and the program is built of it without a proof: the compiler has to refuse the line, with the words that stand here. It ends with
status 1 where one is compiled, or is refused for another reason.
"""

import os
import re
import subprocess
import sys
import tempfile

from tools import parser
from tools.crates.copies import copy_sources, times_changed

CHAIN = "crates/table/src/chain.rt"

# The name of a wrong body, the file, the text that stands there once and what is put in its place, and what the compiler says of it.
BODIES = (
    ("verdict_asks_the_rule_instead_of_the_classifier", CHAIN,
     "            if cross(&self.entries[place].rule, packet) {",
     "            if self.entries[place].rule.kept.spec().matches.is_empty() {",
     r"field `kept`.*private"),
    ("table_keeps_boxes_and_inserts_them_again", CHAIN,
     "        self.classifier.insert(at, boxed)?;\n",
     "        self.classifier.insert(at, boxed)?;\n        self.classifier.insert(at, boxed)?;\n",
     r"moved.*`?boxed`?|`?boxed`?.*moved"),
)


def problem(name, file, old, new, said):
    """What is wrong with a body: nothing where the compiler refuses it as it should."""
    with tempfile.TemporaryDirectory() as folder:
        copy_sources(folder)
        times = times_changed(folder, file, old, new)
        if times != 1:
            return f"{name}: the text to be changed stands in {file} {times} times"
        ended = subprocess.run(["rt", "try", "--", "session"], cwd=os.path.join(folder, "crates", "iptsim"), stdin=subprocess.DEVNULL,
                               stdout=subprocess.PIPE, stderr=subprocess.STDOUT, text=True, check=False)
    if ended.returncode != 1:
        return f"{name}: it compiles"
    return None if re.search(said, ended.stdout) else f"{name}: it is refused for another reason:\n{ended.stdout}"


parser("uncompiled", __doc__).parse_args()
found = list(filter(None, (problem(*body) for body in BODIES)))
for line in found:
    print("uncompiled: " + line, file=sys.stderr)
if found:
    sys.exit(1)
print(f"uncompiled: {len(BODIES)} wrong bodies don't compile")
