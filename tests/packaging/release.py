"""tools/release in a copy of the sources, with stand-ins for rt, ldd and iptaudit: what it writes, its status, and what it makes: the names of the
files, their members, modes, owners, times and bytes. iptsim is the program behind a stand-in. That is also packed with the machine's own ldd,
where it needs the C library alone, and refused where it doesn't.
"""

import hashlib
import io
import os
import pathlib
import re
import shutil
import subprocess
import tarfile

import pytest

from tests import ROOT
from tests.shared.rows import same, script

pytestmark = pytest.mark.xdist_group("packaging/release")
# What is copied of the sources. Crates have their sources, so that the scripts that build programs find them.
COPIED = ("VERSION", "CHANGELOG.md", "LICENSE", "crates.txt", ".gitignore", "bin", "commands", "docs", "examples", "share", "tests", "tools",
          "web", "crates")
# What `rt` makes of a program is a script: iptsim asks PROGRAM, and iptaudit answers one question. Both have the commit's place.
RT = """#!/bin/sh
crate="$(basename "$PWD")"
[ "$crate" != "${BROKEN-}" ] || exit 1
[ "$1" = run ] || exit 0
mkdir -p out
cp "$STAND_INS/$crate" "out/$crate"
chmod +x "out/$crate"
"""
IPTSIM = """#!/bin/sh
said='{version} (not released)'
[ "$1" != --version ] || {{ echo "iptsim $said"; exit; }}
exec '{program}' "$@"
"""
IPTAUDIT = """#!/bin/sh
[ "$2" = /dev/null ] && exit 0
[ "$1" = --version ] && echo 'iptaudit {version} (not released)' && exit 0
echo 'dead INPUT 2 -A INPUT -s 192.0.2.7/32 -j ACCEPT
  taken by INPUT 1 (DROP)
2 rules, 1 dead, 0 unclear
0 redundant, 1 shadowed'
exit 1
"""
LDD = r"""#!/bin/sh
printf '\tlinux-vdso.so.1 (0x00007f31b9335000)\n'
[ -z "${MORE-}" ] || printf "\t$MORE => /lib/x86_64-linux-gnu/$MORE (0x00007f31b9330000)\n"
printf '\tlibc.so.6 => /lib/x86_64-linux-gnu/libc.so.6 (0x00007f31b913c000)\n\t/lib64/ld-linux-x86-64.so.2 (0x00007f31b9337000)\n'
printf '\n\tVersion information:\n\t./iptsim:\n'
case "$2" in *iptaudit) newest=2.17 ;; *) newest=2.34 ;; esac
printf '\t\tlibc.so.6 (GLIBC_%s) => /lib/x86_64-linux-gnu/libc.so.6\n' "$newest" 2.2.5 2.9
printf '\t/lib/x86_64-linux-gnu/libc.so.6:\n\t\tld-linux-x86-64.so.2 (GLIBC_2.35) => /lib64/ld-linux-x86-64.so.2\n'
"""
GIT = {"GIT_AUTHOR_DATE": "2021-02-03T23:30:00-0200", "GIT_COMMITTER_DATE": "2021-02-03T23:30:00-0200", "GIT_AUTHOR_NAME": "a",
       "GIT_AUTHOR_EMAIL": "a@example", "GIT_COMMITTER_NAME": "a", "GIT_COMMITTER_EMAIL": "a@example"}
# The commit's time.
SECONDS = 1612402200


def named(*names):
    return "".join(f"release: the program {name} is the one that {name.upper()} names, whether it is proved or not\n" for name in names)


class Copy:
    """The sources in a folder that lies below a folder of git's, and isn't git's itself, and the runs there."""

    def __init__(self, work, program):
        self.work, self.program = work, program
        self.version = pathlib.Path(ROOT, "VERSION").read_text(encoding="ascii").strip()
        self.top, self.tools, self.stand_ins = (os.path.join(work, *place) for place in (("above", "copy of it"), ("tools",), ("stand ins",)))
        for folder in (self.top, self.tools, self.stand_ins):
            os.makedirs(folder)
        subprocess.run(["git", "init", "-q", os.path.join(work, "above")], check=True)
        # All else of the sources stays out.
        shutil.copytree(ROOT, self.top, symlinks=True, dirs_exist_ok=True, ignore=lambda folder, names: [
            name for name in names if name in ("out", "__pycache__") or folder == ROOT and name not in COPIED])
        script(os.path.join(self.tools, "rt"), RT)
        script(os.path.join(self.tools, "ldd"), LDD)
        for name, text in (("iptsim", IPTSIM), ("iptaudit", IPTAUDIT)):
            script(os.path.join(self.stand_ins, name), text.format(version=self.version, program=self.program))
        self.given = {name: os.path.join(self.stand_ins, name.lower()) for name in ("IPTSIM", "IPTAUDIT")}
        self.page = os.path.join(self.stand_ins, "a page")
        pathlib.Path(self.page).write_text("<!doctype html>\n", encoding="utf-8")
        self.environment = {name: value for name, value in os.environ.items() if name not in ("IPTSIM", "IPTAUDIT")}
        self.environment.update(PATH=f"{self.tools}:{os.environ['PATH']}", STAND_INS=self.stand_ins, IPTSIM_PAGE=self.page)

    def run(self, *words, mask="022", **variables):
        """The status, the output and the messages, but those of the scripts that build."""
        ended = subprocess.run(["/bin/sh", "-c", f'umask {mask}; exec tools/release "$@"', "sh", *words], cwd=self.top, stdin=subprocess.DEVNULL,
                               stdout=subprocess.PIPE, stderr=subprocess.PIPE, check=False, env={**self.environment, **variables})
        passed_over = (b"iptsim: ", b"iptaudit: ", b"release: the page is the one that IPTSIM_PAGE names\n")
        said = b"".join(line for line in ended.stderr.splitlines(True) if not line.startswith(passed_over))
        return ended.returncode, ended.stdout, said

    def refused(self, about, messages, *words, status=1, **variables):
        same((status, b"", messages.encode()), self.run(*words, **variables), about)

    def packs(self, about, folder, name, messages="", **more):
        """A run that makes the files of this version's name in an empty folder. Returns their bytes by name."""
        shutil.rmtree(folder, ignore_errors=True)
        os.mkdir(folder)
        came = self.run(folder, **more)
        made = {file: pathlib.Path(folder, file).read_bytes() for file in sorted(os.listdir(folder))}
        names = [f"iptsim-{name}-x86_64.tar.gz", *([] if messages.startswith("release: dpkg-deb") else [f"iptsim_{name}_amd64.deb"])]
        sums = [(hashlib.sha256(made.get(each, b"")).hexdigest(), each) for each in names]
        same((0, "".join(f"{digest}  {folder}/{each}\n" for digest, each in sums).encode(), messages.encode()), came, about)
        assert sorted(made) == sorted([*names, f"iptsim-{name}.sha256"]), f"{about}: the files"
        same(("".join(f"{digest}  {each}\n" for digest, each in sums).encode(),), (made[f"iptsim-{name}.sha256"],), f"{about}: the checksums")
        assert {os.stat(os.path.join(folder, each)).st_mode & 0o777 for each in made} == {0o644}, f"{about}: the modes"
        return made


def check_members(copy, about, made, name, seconds, told="not released"):
    """What the archive of a version's files holds: its folder, the owners, times, modes, checksums, and the programs, which are told a commit."""
    with tarfile.open(fileobj=io.BytesIO(made[f"iptsim-{name}-x86_64.tar.gz"])) as file:
        held = {member.name.partition("/")[2]: (member, member.isreg() and file.extractfile(member).read()) for member in file.getmembers()}
    assert {member.name.split("/")[0] for member, _ in held.values()} == {f"iptsim-{name}"}, f"{about}: the folder"
    odd = [place for place, (member, _) in held.items() if (member.uid, member.gid, member.mtime) != (0, 0, seconds)]
    assert odd == [], f"{about}: owners and times"
    odd = [f"{place} {member.mode:o}" for place, (member, _) in held.items() if member.mode != due_mode(place, member)]
    assert odd == [], f"{about}: modes"
    sums = "".join(f"{hashlib.sha256(data).hexdigest()}  {place}\n" for place, (member, data) in sorted(held.items())
                   if member.isreg() and place != "SHA256SUMS")
    same((sums.encode(),), (held["SHA256SUMS"][1],), f"{about}: SHA256SUMS")
    for each in ("iptsim", "iptaudit"):
        data = pathlib.Path(copy.stand_ins, each).read_bytes()
        same((data.replace(b"not released", told.encode()),), (held[f"bin/{each}"][1],), f"{about}: {each}")
    return held


def due_mode(place, member):
    if member.issym():
        return 0o777
    runs = member.isdir() or place == "install" or place.startswith("bin/") or re.fullmatch("lib/iptsim/bin/[a-z]+", place)
    return 0o755 if runs else 0o644


# Files of the archive, and of what in the sources they are copies.
SAME = {
    **{f"share/doc/iptsim/{name}": f"docs/{name}" for name in ("GUIDE.md", "RECIPES.md", "DIFFERENCES.md", "differences.tsv", "THEOREM.md", "GLOSSARY.md")},
    **{f"share/doc/iptsim/{name}": name for name in ("CHANGELOG.md", "LICENSE", "examples/office.rules")},
    "install": "share/package/install", "share/zsh/site-functions/_iptsim": "share/zsh/site-functions/_iptsim",
}


def check_layout(copy, held):
    """The files beside the programs. Scripts have the modules that they import, and no others."""
    for place in [place for place, (member, _) in held.items() if member.issym() and place.startswith("bin/")]:
        starter = f"lib/iptsim/bin/{place[len('bin/iptsim-'):]}"
        assert (held[place][0].linkname, starter in held) == (f"../{starter}", True), place
    for place, source in SAME.items():
        same((pathlib.Path(ROOT, source).read_bytes(),), (held[place][1],), place)
    same((pathlib.Path(copy.page).read_bytes(),), (held["share/doc/iptsim/iptsim.html"][1],), "the page")
    assert held["iptsim.html"][0].linkname == "share/doc/iptsim/iptsim.html", "the page at the top"
    documents = [(place, text.decode()) for place, (_, text) in held.items() if place.endswith(".md")]
    links = [(place, target) for place, text in documents for target in re.findall(r"\]\(([^)#]+)", text) if ":" not in target]
    lost = [f"{place}: {target}" for place, target in links if os.path.normpath(os.path.join(os.path.dirname(place), target)) not in held]
    assert lost == [], "each link of a document leads to a file"
    pages = sorted(name for name in os.listdir(os.path.join(ROOT, "docs")) if name.endswith(".1"))
    assert sorted(os.path.basename(place) for place in held if place.startswith("share/man/man1/")) == pages, "the manual pages"
    others = [place for place in held if re.fullmatch(r"lib/iptsim/.*\.py", place)
              and not re.fullmatch(r"lib/iptsim/(commands/\w+|tests/__init__|tests/model/\w+)\.py", place)]
    assert others == [], "no module of tests but the model"


@pytest.fixture(scope="module")
def copy(shared_folder, iptsim):
    return Copy(shared_folder, iptsim.path)


@pytest.fixture
def folder(copy):
    path = os.path.join(copy.work, "a folder")
    os.makedirs(path, exist_ok=True)
    return path


def test_words(copy):
    usage = "usage: tools/release [-h] [FOLDER]\ntools/release: error: unrecognized arguments: more\n"
    copy.refused("too many words", usage, ".", "more", status=2)
    copy.refused("no folder", "release: no folder in which a file can be made: nowhere\n", "nowhere")
    copy.refused("iptsim isn't built", "release: the program iptsim is not built\n", BROKEN="iptsim")
    copy.refused("iptaudit isn't built", "release: the program iptaudit is not built\n", BROKEN="iptaudit")
    assert sorted(os.listdir(copy.top)) == sorted(COPIED), "nothing is left"


def test_unversioned(copy, folder):
    """Outside of git the programs name no commit."""
    name = copy.version + "+unversioned"
    made = copy.packs("outside of git", folder, name)
    held = check_members(copy, "outside of git", made, name, 0)
    check_layout(copy, held)
    text = held["INSTALL"][1].decode()
    for due in (f"iptsim {name}, for Linux on x86-64\n", "\nBoth programs were proved and built from the sources of this version.\n", "(glibc 2.34 or newer;"):
        assert due in text
    for path in (os.path.join(copy.top, "docs", "iptsim.1"), os.path.join(copy.top, "crates", "iptsim", "out", "iptsim")):
        os.utime(path)
    assert made == copy.packs("the same again", folder, name, mask="077", TZ="Asia/Tokyo", GZIP="-1", TAR_OPTIONS="--exclude=INSTALL")


def test_no_commit(copy, folder):
    subprocess.run(["git", "init", "-q", copy.top], check=True)
    ended = copy.run(folder)
    assert (ended[0], ended[2].splitlines()[-1]) == (1, b"release: git names no commit of this repository")


@pytest.fixture(scope="module")
def committed(copy):
    """The hash of the commit that makes the copy git's."""
    environment = {**copy.environment, **GIT}
    for words in (["init", "-q"], ["add", "."], ["commit", "-qm", "all"]):
        subprocess.run(["git", "-C", copy.top, *words], env=environment, check=True)
    return subprocess.run(["git", "-C", copy.top, "rev-parse", "HEAD"], stdout=subprocess.PIPE, text=True, check=True).stdout.strip()


def test_versions(copy, folder, committed):
    """In git the programs name the commit, unless a file isn't as committed."""
    version = copy.version
    made = copy.packs("a commit", folder, version)
    held = check_members(copy, "a commit", made, version, SECONDS, committed[:12])
    assert f"of this version (commit {committed}).\n" in held["INSTALL"][1].decode()
    assert made == copy.packs("the commit again", folder, version, TZ="America/Los_Angeles")
    new = pathlib.Path(copy.top, "crates", "rule_tests", "src", "new.rt")
    new.touch()
    check_members(copy, "a change", copy.packs("a change", folder, version + "+changed"), version + "+changed", SECONDS)
    new.unlink()


def test_places(copy, committed):
    """Programs that have their version in two places, or in none, or don't print what stands there."""
    whole, version = os.path.join(copy.stand_ins, "iptsim"), copy.version
    text = pathlib.Path(whole).read_text(encoding="utf-8")
    place = f"release: the program iptsim has the text '{version} (not released)' in %d places, and not in one\n"
    for other, messages in (
            (text + f"# {version} (not released)\n", place % 2),
            (text.replace(" (not released)", ""), place % 0),
            (text.replace("$said", version), f"release: the program iptsim doesn't print 'iptsim {version} ({committed[:12]})' as its version: iptsim {version}\n")):
        script(whole, other)
        shutil.rmtree(os.path.join(copy.top, "crates", "iptsim", "out"))
        copy.refused(messages.strip(), messages)
    script(whole, text)
    shutil.rmtree(os.path.join(copy.top, "crates", "iptsim", "out"))


def test_given(copy, folder, committed):
    """Programs that the environment names are packed as they are, where they answer as they must and need the C library alone."""
    name, given = copy.version, copy.given
    made = copy.packs("given programs", folder, name, named("iptsim", "iptaudit"), **given)
    held = check_members(copy, "given programs", made, name, SECONDS)
    assert "\nA program was built elsewhere, and put into this archive as it was.\n" in held["INSTALL"][1].decode()
    copy.refused("no file", "release: IPTSIM names no file: nothing\n", IPTSIM="nothing")
    copy.refused("no page", "release: IPTSIM_PAGE names no file: nothing\n", IPTSIM_PAGE="nothing")
    left_out = "release: without a page, which isn't made of a program that IPTSIM or IPTAUDIT names; IPTSIM_PAGE can name one\n"
    made = copy.packs("given programs without a page", folder, name, named("iptsim", "iptaudit") + left_out, IPTSIM_PAGE="", **given)
    held = check_members(copy, "without a page", made, name, SECONDS)
    assert [place for place in held if "html" in place] == [] and "html" not in held["INSTALL"][1].decode()
    more = "release: the program needs more than the C library, so it isn't the proved one: libgcc_s.so.1\n"
    copy.refused("more than the C library", named("iptsim") + more, MORE="libgcc_s.so.1", **given)
    without = {"PATH": os.environ["PATH"], **given}
    no_program = f"release: this is no program for this machine, as ldd says: {given['IPTSIM']}\n"
    copy.refused("no program", named("iptsim") + no_program, **without)


def test_answers(copy, committed):
    """Programs that end with the right status, and say nothing, or say something else."""
    for name, status in (("iptsim", 0), ("iptaudit", 1)):
        given = dict(copy.given)
        for text, ends in ((f"exit {status}", status), ("exit 7", 7), ("echo INPUT 1", 0)):
            given[name.upper()] = script(os.path.join(copy.work, "other one"), f"#!/bin/sh\n{text}\n")
            ended = copy.run(**given)
            said = ended[2].decode()[len(named(*("iptsim", "iptaudit")[:1 + status])):].splitlines()[0]
            due = f"release: this isn't {name}, or it is broken: {given[name.upper()]} ends with status {ends}, where {status} is due, and answers"
            same((1, b"", due.encode()), (ended[0], ended[1], said.encode()), f"{name} with '{text}'")


def test_real(copy, folder, committed):
    """PROGRAM with the machine's own ldd; iptaudit stands for itself there by the same file."""
    needed = subprocess.run(["ldd", copy.program], stdout=subprocess.PIPE, text=True, check=False, env=dict(os.environ, LC_ALL="C")).stdout
    given = {"PATH": os.environ["PATH"], "IPTSIM": copy.program, "IPTAUDIT": copy.program}
    ended = copy.run(folder, **given)
    said = ended[2].decode().splitlines()[-1 if "libgcc_s" in needed else 2]
    due = ("release: the program needs more than the C library, so it isn't the proved one: libm.so.6 libgcc_s.so.1" if "libgcc_s" in needed
           else f"release: this isn't iptaudit, or it is broken: {copy.program} ends with status 2, where 1 is due, and answers")
    same((1, due.encode()), (ended[0], said.encode()), "PROGRAM")


def test_tools(copy, folder, committed):
    """Without dpkg-deb the archive is made alone; where it fails, nothing is."""
    links = os.path.join(copy.work, "links")
    os.mkdir(links)
    # Of commands of the same name the first of PATH.
    found = {name: os.path.join(place, name) for place in os.environ["PATH"].split(":")[::-1] if os.path.isdir(place) for name in os.listdir(place)}
    for name in found.keys() - {"dpkg-deb"}:
        os.symlink(found[name], os.path.join(links, name))
    copy.packs("without dpkg-deb", folder, copy.version, "release: dpkg-deb isn't there, so no package for Debian is made\n", PATH=f"{copy.tools}:{links}")
    script(os.path.join(copy.tools, "dpkg-deb"), "#!/bin/sh\nexit 1\n")
    shutil.rmtree(folder)
    os.mkdir(folder)
    copy.refused("dpkg-deb fails", "release: dpkg-deb makes no package\n", folder)
    assert os.listdir(folder) == [], "nothing is made"
