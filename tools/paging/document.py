"""The page: one file, with its style, its script, and the packed programs.

The script is one of the page's modules: each after those that it imports, without the words that import and export. A module names what it takes on
lines of one form, `import { a, b } from "./x.js";`, and what it gives stands behind `export`. Names of one module are seen in all, so no two may have
the same at their top level.
"""

import base64
import gzip
import hashlib
import os
import pathlib
import re

from tools.packing import Failure, need

PLACE = re.compile(r"\{\{(\w+)\}\}")
WIDTH = 160
# The browser compares these with their digests from the first letter to the last.
FORMS = ("<style>{{style}}</style>", '<script type="module">{{script}}</script>')
IMPORT = re.compile(r'^import \{ ([\w, ]+) \} from "(\.[\w./-]+\.js)";$')
EXPORTED = re.compile(r"^export (?=(?:async function|function|const|let|class)\b)")
NAMED = re.compile(r"^(?:export )?(?:async function|function|const|let|class)\*? ([\w$]+)")


class Module:
    """A module's lines without imports, what it imports from where, and what it exports."""

    def __init__(self, path):
        self.path, self.imports, self.lines = path, [], []
        for number, line in enumerate(pathlib.Path(path).read_text(encoding="utf-8").split("\n"), 1):
            found = IMPORT.match(line)
            if found:
                self.imports.append((os.path.normpath(os.path.join(os.path.dirname(path), found[2])), found[1].split(", ")))
            elif line.startswith("import ") or line.startswith("export ") and not EXPORTED.match(line):
                raise Failure(f"{path}:{number}: not a form that is bundled: {line}")
            else:
                self.lines.append(line)
        named = [(NAMED.match(line)[1], line) for line in self.lines if NAMED.match(line)]
        self.names = {name for name, _ in named}
        self.exports = {name for name, line in named if line.startswith("export ")}

    def text(self):
        return "\n".join(EXPORTED.sub("", line) for line in self.lines).strip()


def gather(path, found, above=()):
    """Puts a module behind those that it imports."""
    if path in found:
        return
    need(path not in above, f"{path} imports itself, by others")
    module = Module(path)
    for below, _ in module.imports:
        gather(below, found, (*above, path))
    for below, names in module.imports:
        for name in names:
            need(name in found[below].exports, f"{path}: {os.path.basename(below)} exports no {name}")
    found[path] = module


def bundle(entry):
    found, owners = {}, {}
    gather(os.path.normpath(entry), found)
    for module in found.values():
        for name in sorted(module.names):
            if name in owners:
                raise Failure(f"{module.path}: {name} also stands in {owners[name]}")
            owners[name] = module.path
    top = os.path.dirname(os.path.normpath(entry))
    return "\n\n".join(f"// {os.path.relpath(path, top)}\n{module.text()}" for path, module in found.items()) + "\n"


def digest(text):
    return f"'sha256-{base64.b64encode(hashlib.sha256(text.encode()).digest()).decode()}'"


def policy(style, script):
    """What the browser lets the page do: its own script and style, its own Worker, WebAssembly, and no connection at all."""
    return (f"default-src 'none'; script-src {digest(script)} 'wasm-unsafe-eval'; style-src {digest(style)}; img-src data:; worker-src blob:;"
            " connect-src 'none'; form-action 'none'; base-uri 'none'")


def block(name, text):
    """A part of the page that isn't run as it stands."""
    need("</script" not in text.lower() and "<!--" not in text, f"the part {name} of the page has a text that would end it")
    return f'<script type="text/plain" id="{name}">{text}</script>'


def packed(data):
    """Bytes as text, compressed the same way each time."""
    letters = base64.b64encode(gzip.compress(data, 9, mtime=0)).decode()
    return "\n".join(letters[at:at + WIDTH] for at in range(0, len(letters), WIDTH))


def page(web, programs, worker, version):
    """The page of the folder `web`, with these programs (bytes of WebAssembly, by name), the text of the Worker, and the version."""
    web = pathlib.Path(web)
    script, style = bundle(str(web / "app" / "main.js")), (web / "style.css").read_text(encoding="utf-8")
    blocks = [block("worker", worker), *(block(f"program-{name}", packed(data)) for name, data in programs.items())]
    for text in (script, style):
        need(not re.search(r"</(script|style)|<!--", text, re.IGNORECASE), "the script or the style of the page has a text that would end it")
    parts = {"policy": policy(style, script), "style": style, "script": script, "machine": "\n".join(blocks), "version": version}
    form = (web / "page.html").read_text(encoding="utf-8")
    for place in FORMS:
        need(place in form, f"page.html hasn't {place}")
    places = PLACE.findall(form)
    need(sorted(places) == sorted(parts), f"page.html has the places {' '.join(sorted(places))}, and not {' '.join(sorted(parts))}")
    return PLACE.sub(lambda found: parts[found[1]], form)
