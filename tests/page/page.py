"""The page with both programs, which tools/page makes, in Chromium and in Firefox, from the disk and from a server that counts what is asked of it.
Pictures of the views go to the folder of `--pictures`, where one is given.

- The cases of crates/cases/data, the commands of the guide, and questions about the dumps of examples run through the page's Worker: output,
  messages and status are those of the programs, to the byte. So they are in a memory that is too small, which ends in the status for it.
- What web/machine has, which isn't proved, is tried beside a model: blocks that don't meet, numbers of 128 bits.
- A ruleset of 8,192 rules takes less time and memory than the page promises.
- No request leaves the page, and what tries to send is refused.
- The views are used as a user would: tests/page/browsing/views.py. What reads and splits texts for them is tried by node: web/tests.
- Faults that are planted in web/machine and web/worker.js are found.
- The toolchain's own way to WebAssembly is still closed: when it links a heap, tools/page can take it. What tools/page takes for granted of the
  toolchain is refused where it isn't so: tests/page/browsing/building.py.
"""

import base64
import concurrent.futures
import contextlib
import json
import os
import pathlib
import shutil
import subprocess
import tempfile

import pytest

from tests import ROOT
from tests.drawn.workloads import of_kind, restore
from tests.page.browsing import given, views
from tests.page.browsing.calls import Call, in_page, on_machine
from tests.page.browsing.chromium import Chromium
from tests.page.browsing.browser import BrowserFailure
from tests.page.browsing.firefox import Firefox
from tests.page.browsing.served import SENDING, Server
from tests.shared.rows import same, write
from tools.packing.programs import PROGRAMS, find_version, told
from tools.paging.kit import Kit, call
from tools.paging.made import make_page
from tools.paging.wasm import COMPILING, OWN, linked, machine

WEB = os.path.join(ROOT, "web")
BROWSERS = {"chromium": Chromium, "firefox-esr": Firefox}
STEPS = 3000
# Calls with which planted faults of the Worker are looked for.
FEW = 60
# In milliseconds and bytes: what the page promises of 8,192 rules.
LOAD_TIME, LOAD_MEMORY = 2000, 300 << 20
# The least time of three, since the machine has other work.
LOADING = """(async (text) => {
  const input = new TextEncoder().encode(text), answers = [];
  for (let time = 0; time < 3; time += 1) answers.push(await iptsimPage.runProgram({ program: "iptsim", words: ["restore"], input }));
  return [Math.min(...answers.map((it) => it.milliseconds)), answers[0].memory, answers[0].status];
})(%s)"""
# Programs of this kind are refused by the toolchain, with these words.
OWN_WAY = ("is not an import", "rattle_realloc")
ROOM = """//! Room for bytes.
#![tactic(auto)]

use std::alloc::Global;

/// How many bytes there is room for: those that are asked, or none.
#[unsafe(no_mangle)]
pub extern "C" fn room(alloc: Global, bytes: usize) -> usize {
    let mut list: Vec<u8> = Vec::new(alloc);
    match list.try_reserve(bytes) {
        Ok(()) => bytes,
        Err(_) => 0,
    }
}
"""
# Faults that are planted in what stands between a program and the page: of web/machine the file, a text of it, and the text that takes its place.
MACHINE = {
    "a block is given twice": ("heap.c", "    waiting[size] = block->next;\n", ""),
    "a block has no room": ("heap.c", "return (size % 4 + 5) << (size / 4 + 3);", "return (size % 4 + 4) << (size / 4 + 3);"),
    "bytes are lost where a block moves": ("heap.c", "have < wanted ? have : wanted", "have < wanted ? have / 2 : wanted"),
    "memory is there without end": ("heap.c", "if (!reaches(after)) return 0;\n  block = ", "reaches(after);\n  block = "),
    "a carry is lost": ("wide.c", "(cross >> 32) + (crossed >> 32)", "(cross >> 32)"),
    "bits are lost where a number is shifted": (
        "wide.c", "from(it.low >> count | it.high << (64 - count), it.high >> count)", "from(it.low >> count, it.high >> count)"),
}
WORKER = {
    "a status is lost": ("const status = program.exports.main(0, 0n);", "const status = program.exports.main(0, 0n) & 2;"),
    "a file is read short": ("file.bytes.subarray(file.at, file.at + length)", "file.bytes.subarray(file.at, Math.min(file.at + length, 4000))"),
    "output is told before it is whole": ("parts.push(bytes);", "parts[0] = bytes;"),
    "words are told in another order": ("const word = words[Number(number)];", "const word = words[words.length - Number(number)];"),
    "messages are told as output": ("messages = joined(open.written.get(2))", "messages = joined(open.written.get(1))"),
    "a file that isn't there is empty": ("const bytes = this.named.get(name);", "const bytes = this.named.get(name) ?? new Uint8Array();"),
}


def read(path):
    return pathlib.Path(path).read_text(encoding="utf-8")


@pytest.fixture(scope="module")
def page(proved):
    """The page's text: the same each time that it is made."""
    text = make_page(ROOT, find_version(ROOT))
    assert text == make_page(ROOT, find_version(ROOT))
    return text


@pytest.fixture(scope="module")
def page_path(page, shared_folder):
    write(shared_folder, {"iptsim.html": page.encode()})
    return os.path.join(shared_folder, "iptsim.html")


@pytest.fixture(scope="module")
def programs(iptsim, iptaudit):
    return {"iptsim": iptsim.path, "iptaudit": iptaudit.path}


@pytest.fixture(scope="module")
def asked(programs):
    """All calls, and what comes of them on this machine."""
    examples = pathlib.Path(ROOT, "examples")
    dumps, packets = {path.name: path.read_bytes() for path in sorted(examples.glob("*.rules"))}, (examples / "office.packets").read_bytes()
    every = [*given.of_cases(), *given.of_guide(programs), *given.of_dumps(dumps, packets), *given.of_words()]
    with concurrent.futures.ThreadPoolExecutor(2) as pool:
        return every, list(pool.map(lambda each: on_machine(programs, each), every))


@pytest.fixture(scope="module", params=[pytest.param(name, marks=pytest.mark.xdist_group(f"page in {name}")) for name in BROWSERS])
def started(request):
    if not shutil.which(request.param):
        pytest.skip(f"{request.param} isn't there")
    with tempfile.TemporaryDirectory() as folder, contextlib.closing(BROWSERS[request.param](folder)) as browser:
        yield browser


@pytest.fixture
def browser(started, page_path):
    """The browser, in which the page is opened from the disk."""
    started.open(f"file://{page_path}")
    return started


@pytest.fixture
def chromium(browser):
    """The browser, where it is this one: in one of them is enough."""
    if not isinstance(browser, Chromium):
        pytest.skip("Chromium alone is asked")
    return browser


def test_calls(browser, asked):
    for each, one, other in zip(*asked, in_page(browser, asked[0])):
        same((one.status, one.output, one.messages), (other.status, other.output, other.messages), f"{browser.name}: {each.name}")


RULES = restore(of_kind("mixed", 8192)[0]).encode()


@pytest.mark.parametrize("program, words", [("iptsim", ["session", "--load", "rules"]), ("iptaudit", ["dead", "rules"])], ids=["iptsim", "iptaudit"])
def test_small_memory(program, words, browser):
    """Memory that ends within a call: the status for it, and no trap."""
    (answer,) = in_page(browser, [Call("few pages", program, words, {"rules": RULES}, b"")], {"initial": 256, "maximum": 280})
    assert (answer.status, answer.output) == (4, b"")


def test_full_chain(browser):
    took, memory, status = browser.evaluate(LOADING % json.dumps(RULES.decode()))
    assert status == 0 and took < LOAD_TIME and memory < LOAD_MEMORY


def test_sending(browser, page):
    """The page is asked for once, and nothing else is."""
    with contextlib.closing(Server(page.encode())) as server:
        browser.open(server.address)
        for answer, name in zip(in_page(browser, [Call("version", name, ["--version"], {}, b"") for name in PROGRAMS]), PROGRAMS):
            assert (answer.status, answer.output) == (0, f"{name} {told(find_version(ROOT))}\n".encode())
        passed = browser.evaluate(SENDING % server.root)
        assert (passed, server.asked) == ("", ["/iptsim.html"])


def machine_trial(kit, sources, work):
    """A script that tries a folder's heap and numbers: a list of faults."""
    tried, made = os.path.join(work, "trial.o"), os.path.join(work, "trial.wasm")
    call([kit.part("toolchain", "bin", "clang"), *COMPILING, *OWN, "-c", os.path.join(WEB, "trials", "machine.c"), "-o", tried])
    linked(kit, [tried, *machine(kit, sources, work)[:2]], made)
    data = base64.b64encode(pathlib.Path(made).read_bytes()).decode()
    return f"""(() => {{
        {read(os.path.join(WEB, "trials", "machine.js"))}
        const bytes = Uint8Array.from(atob("{data}"), (letter) => letter.charCodeAt(0));
        return JSON.stringify(tryMachine(new WebAssembly.Module(bytes), {STEPS}).slice(0, 5));
    }})()"""


def test_machine(browser, folder):
    assert browser.evaluate(machine_trial(Kit(), os.path.join(WEB, "machine"), folder)) == "[]"


def test_views(browser, programs, page_path, pytestconfig):
    views.check(browser, programs, page_path, pytestconfig.getoption("pictures"))


def replaced(text, old, new):
    if text.count(old) != 1:
        raise AssertionError(f"a planted fault stands in {text.count(old)} places: {old}")
    return text.replace(old, new)


def planted_machine(sources, name, folder):
    file, old, new = MACHINE[name]
    shutil.copytree(sources, folder, dirs_exist_ok=True)
    path = pathlib.Path(folder, file)
    path.write_text(replaced(path.read_text(encoding="utf-8"), old, new), encoding="utf-8")
    return folder


@pytest.mark.parametrize("name", MACHINE)
def test_planted_in_machine(name, chromium, folder):
    sources = planted_machine(os.path.join(WEB, "machine"), name, os.path.join(folder, "machine"))
    with contextlib.suppress(BrowserFailure):
        assert chromium.evaluate(machine_trial(Kit(), sources, folder)) != "[]"


@pytest.mark.parametrize("name", WORKER)
def test_planted_in_worker(name, chromium, asked, folder):
    path, (calls, due) = pathlib.Path(folder, "planted.html"), few_of(*asked)
    text = make_page(ROOT, find_version(ROOT), worker=replaced(read(os.path.join(WEB, "worker.js")), *WORKER[name]))
    path.write_text(text, encoding="utf-8")
    chromium.open(f"file://{path}")
    assert any(one != other for one, other in zip(due, in_page(chromium, calls)))


def few_of(calls, due):
    """Some of the calls, and what is due of them: each so many, the last ones, and those that write most, which write in several parts."""
    step = max(1, len(calls) // FEW)
    most = sorted(range(len(calls)), key=lambda at: len(due[at].output))[-5:]
    places = sorted({*range(0, len(calls), step), *range(len(calls) - 20, len(calls)), *most})
    return [calls[at] for at in places], [due[at] for at in places]


def test_own_way(folder):
    """The toolchain refuses to link a heap into WebAssembly: when it doesn't, tools/page can take its own way."""
    kit = Kit()
    write(folder, {"src/lib.rt": ROOM.encode()})
    ended = subprocess.run([kit.part("bin", "rattle"), "build", "--crate-name", "room", "--crate-type", "staticlib", "--target",
                            "wasm64-unknown-unknown", "src/lib.rt", "--extern", f"std={kit.part('rlibs', 'std.rlib')}", "-L",
                            f"dependency={kit.part('rlibs')}", "--antt-project", kit.part("rattle", "logic", "antt-project.json"),
                            "--logic-built", kit.part("logic_built"), "--links", "room=", "--toolchain", kit.part("toolchain"), "-o",
                            "libroom.a"], cwd=folder, stdout=subprocess.PIPE, stderr=subprocess.STDOUT, text=True, check=False)
    assert ended.returncode != 0 and [word for word in OWN_WAY if word not in ended.stdout] == []


@pytest.mark.skipif(not shutil.which("node"), reason="node isn't there")
@pytest.mark.parametrize("name", sorted(os.listdir(os.path.join(WEB, "tests"))))
def test_texts(name):
    """The page's reading and splitting of texts, tried without a browser."""
    ended = subprocess.run(["node", "--test", os.path.join(WEB, "tests", name)], stdin=subprocess.DEVNULL, capture_output=True, text=True, check=False)
    assert ended.returncode == 0, ended.stdout + ended.stderr
