"""What a user does with the page: looks, clicks, types, presses keys, and waits until the page has answered. And the views of the page, used so, with
what is due: rows of what is shown."""

import json
import os
import pathlib
import struct
import tempfile
import time

from tests import ROOT
from tests.drawn.workloads import of_kind, restore
from tests.page.browsing.browser import BrowserFailure
from tests.page.browsing.calls import Call, on_machine
from tests.shared import rows

EXAMPLES = os.path.join(ROOT, "examples")
OFFICE, HOST = (pathlib.Path(EXAMPLES, f"{name}.rules").read_bytes() for name in ("office", "host"))
MAIL = "packet FORWARD src=203.0.113.25 dst=10.0.2.25 proto=tcp in=eth0 out=eth2 sport=40009 dport=25 flags=SYN ct=NEW,DNAT"
# In seconds.
PATIENCE = 240
# The widths of a narrow window and of a wide one, in pixels.
NARROW, WIDE, HEIGHT = 400, 1280, 900
README = (960, 500)
# In milliseconds: how long the page may be deaf, on a machine that has other work.
DEAF = 1500


class User:
    def __init__(self, browser):
        self.browser = browser

    def see(self, script):
        return self.browser.evaluate(script)

    def wait(self):
        """Waits until no program runs, and all is drawn."""
        until = time.monotonic() + PATIENCE
        time.sleep(0.05)
        while self.see("document.documentElement.dataset.idle") != "true":
            if time.monotonic() > until:
                raise BrowserFailure("the page doesn't come to rest")
            time.sleep(0.02)

    def open(self, address):
        self.browser.open(address)
        self.wait()

    def click(self, selector):
        self.see(f"void document.querySelector({json.dumps(selector)}).click()")
        self.wait()

    def give(self, selector, text):
        self.see(f"""void ((field) => {{
            field.focus();
            field.value = {json.dumps(text)};
            for (const kind of ["input", "change"]) field.dispatchEvent(new Event(kind, {{ bubbles: true }}));
        }})(document.querySelector({json.dumps(selector)}))""")
        time.sleep(0.2)
        self.wait()

    def open_file(self, selector, path):
        self.browser.choose_file(selector, path)
        self.wait()

    def press(self, *keys):
        for key in keys:
            self.browser.press(key)
        self.wait()

    def type(self, text):
        self.browser.type(text)

    def text(self, selector):
        """The text of the first such element as it is shown, with single spaces."""
        return self.see(f"(document.querySelector({json.dumps(selector)})?.innerText ?? 'nothing').replace(/\\s+/g, ' ').trim()")

    def count(self, selector):
        return self.see(f"[...document.querySelectorAll({json.dumps(selector)})].filter((it) => it.getClientRects().length > 0).length")


class Views(User):
    """The views in one browser, of which pictures go to a folder, where one is given."""

    def __init__(self, browser, pictures):
        super().__init__(browser)
        self.pictures = pictures

    def same(self, about, due, came):
        rows.same((0, str(due).encode()), (0, str(came).encode()), f"{self.browser.name}: {about}")

    def has(self, about, part, whole):
        self.same(f"{about}: '{part}' in '{whole[:200]}'", True, part in whole)

    def picture(self, name, whole=True):
        data = self.browser.picture(whole)
        self.same(f"the picture {name} has something", True, len(data) > 5000)
        if self.pictures:
            pathlib.Path(self.pictures, f"{self.browser.name}-{name}.png").write_bytes(data)

    def check_start(self):
        self.has("the start", "Nothing is uploaded", self.text("#view-start"))
        self.same("the other views wait for a dump", 0, self.count("#tab-ruleset, #tab-packet, #tab-change"))
        self.picture("start", whole=False)

    def check_ruleset(self):
        self.click("#load-example")
        self.same("the view", "#ruleset", self.see("location.hash"))
        self.same("rules", 20, self.count("[data-rule]"))
        self.same("the summary", "20 rules: 19 live, 1 dead (0 redundant, 1 shadowed), 0 unclear", self.text("#ruleset-summary .summary"))
        self.same("dead rules", "SERVERS 3", self.see("[...document.querySelectorAll('[data-state=dead]')].map((it) => it.dataset.rule).join()"))
        self.has("why it is dead", "taken by SERVERS 2 (DROP), FORWARD 1 (DROP)", self.text("[data-rule='SERVERS 3']"))
        self.same("chains in the drawing", 6, self.see("document.querySelectorAll('#graph-drawing svg a').length || document.querySelectorAll('#graph-drawing svg rect').length"))
        self.has("the command", "iptaudit dead office.rules", self.see("document.querySelector('#ruleset-commands').textContent"))
        self.picture("ruleset")
        self.give("#rule-filter", "dead")
        self.same("the dead rules alone", 1, self.count("[data-rule]"))
        self.give("#rule-filter", "all")
        self.give("#rule-search", "10.0.2.25")
        self.same("rules with a text", 1, self.count("[data-rule]"))
        self.give("#rule-search", "")

    def check_packet(self):
        self.click("[data-rule='SERVERS 2'] button")
        self.same("the view", "#packet", self.see("location.hash.slice(0, 7)"))
        self.has("the packet of the rule", "SERVERS 2", self.text("#walk"))
        self.give("#packet-line", MAIL)
        self.click("#ask-packet")
        self.same("the rules that it matches", "FORWARD 5\nSERVERS 2", self.see("[...document.querySelectorAll('#walk [data-step]')].map((it) => it.dataset.step).join('\\n')"))
        self.has("the verdict", "DROP", self.text("#walk .outcome"))
        self.click("#ask-why-not")
        reached = self.see("[...document.querySelectorAll('#why-not > li')].map((it) => it.dataset.unmatched "
                           "? `not ${it.dataset.unmatched} ${it.querySelector('code').textContent}` : it.dataset.step).join('\\n')")
        self.same("why other rules don't match", "not FORWARD 1 -s 10.0.0.0/16\nnot FORWARD 2 -m conntrack --ctstate INVALID\n"
                  "not FORWARD 3 -m conntrack --ctstate RELATED,ESTABLISHED\nnot FORWARD 4 -i eth1\nFORWARD 5\nnot SERVERS 1 -d 10.0.2.10/32\nSERVERS 2", reached)
        self.give("#packet-line", MAIL.replace("dport=25", "port=25"))
        self.click("#ask-packet")
        self.has("a line that is refused", "F1", self.text("#walk"))
        self.give("#packet-line", MAIL)
        self.click("#ask-packet")
        self.click("#example-wishes")
        self.click("#run-wishes")
        self.same("results", "passed passed passed passed passed passed passed passed failed passed",
                  self.see("[...document.querySelectorAll('[data-wish]')].map((it) => it.dataset.result).join(' ')"))
        self.has("what came", "came: DROP by SERVERS 2", self.text("#wishes"))
        self.has("rules that no packet matched", "OFFICE 2", self.see("document.querySelector('#wishes-result').textContent"))
        self.picture("packet")

    def check_change(self):
        self.click("#tab-change")
        lines = OFFICE.decode().split("\n")
        self.give("#second-text", "\n".join(line for line in lines if '"mail server"' not in line))
        self.click("#compare")
        answers = "[...document.querySelectorAll('[data-hook]')].map((it) => `${it.dataset.hook} ${it.dataset.answer}`).join()"
        self.same("without the dead rule", "INPUT same,FORWARD same,OUTPUT same", self.see(answers))
        self.give("#second-text", "\n".join(line for line in lines if '"no other mail"' not in line))
        self.click("#compare")
        self.same("without the rule before", "INPUT same,FORWARD differs,OUTPUT same", self.see(answers))
        self.has("a packet that differs", "dport=25", self.text("[data-hook=FORWARD] .packet"))
        self.has("the walk of the first", "SERVERS 2", self.text("[data-side=first]"))
        self.has("the line that went", "no other mail", self.text("#lines"))
        self.picture("change")

    def check_session(self, programs):
        self.click("#tab-session")
        lines = ["iptables -I INPUT -s 192.0.2.7 -j DROP", "iptables -D INPUT 99", MAIL.replace("FORWARD", "INPUT").replace(" out=eth2", ""), "iptables -S INPUT"]
        for line in lines:
            self.see("void document.querySelector('#session-line').focus()")
            self.type(line)
            self.press("Enter")
        given = "".join(f"{line}\n" for line in lines).encode()
        due = on_machine(programs, Call("", "iptsim", ["session", "--load", "office.rules"], {"office.rules": OFFICE}, given))
        self.same("the replies, to the byte", due.output.decode(), self.see("[...document.querySelectorAll('[data-reply]')].map((it) => it.textContent).join('')"))
        self.press("ArrowUp", "ArrowUp")
        self.same("an earlier line", lines[2], self.see("document.querySelector('#session-line').value"))
        self.picture("session")

    def check_conditions(self):
        self.click("#tab-start")
        self.open_file("#open-file", os.path.join(EXAMPLES, "host.rules"))
        self.has("conditions", "5 conditions open: addrtype 2, limit 2, recent 1", self.see("document.querySelector('#conditions summary').textContent"))
        self.see("void (document.querySelector('#conditions').open = true)")
        self.give("[data-condition='addrtype --dst-type LOCAL'] select", "true")
        self.has("one is fixed", "4 conditions open", self.see("document.querySelector('#conditions summary').textContent"))
        self.has("the command", "--when 'addrtype --dst-type LOCAL'", self.see("document.querySelector('#ruleset-commands').textContent"))
        self.picture("conditions")
        self.click("#tab-packet")
        self.give("#packet-line", "packet INPUT src=203.0.113.9 dst=192.0.2.1 proto=tcp in=eth0 sport=40000 dport=22 flags=SYN ct=NEW")
        self.click("#ask-packet")
        self.has("a walk by conditions", "recent --update --seconds 30 --hitcount 6 --name ssh", self.text("#walk"))
        self.click("#ask-why-not")
        why = self.text("#why-not")
        self.has("a condition that fails", "not INPUT 1: -i lo fails: in is eth0", why)
        self.has("a rule that the packet doesn't come to", "not INPUT 7: the packet doesn't come to it: rules before it decide", why)
        self.picture("conditioned-walk")
        self.click("#tab-change")
        self.give("#second-text", HOST.decode().replace("--dport 80 -j ACCEPT", "--dport 81 -j ACCEPT"))
        self.click("#compare")
        self.has("what is fixed in both", "addrtype --dst-type LOCAL holds", self.text("#fixed-here"))
        self.same("answers", "INPUT same,FORWARD same,OUTPUT same",
                  self.see("[...document.querySelectorAll('[data-hook]')].map((it) => `${it.dataset.hook} ${it.dataset.answer}`).join()"))
        self.picture("conditioned-change")

    def check_refused(self):
        self.click("#tab-start")
        self.give("#paste", "*filter\n:INPUT DROP [0:0]\n-A INPUT -m colour --red 5 -j ACCEPT\nCOMMIT\n")
        self.click("#read-paste")
        self.has("a dump that is refused", "D3 unknown match: colour", self.text("#refused"))
        self.same("the word at fault", "colour", self.text("#refused mark"))
        self.picture("refused")
        self.click(".take-unknown")
        self.same("taken as a condition", 1, self.count("[data-rule]"))

    def check_readme(self):
        """The picture of README.md, made again: it shows the ruleset that stands there. Letters differ by the fonts of a machine."""
        self.click("#tab-start")
        self.open_file("#open-file", os.path.join(EXAMPLES, "mail.rules"))
        self.browser.show(*README)
        self.see("void (document.querySelector('#graph').open = false)")
        self.has("the dead rule of README.md", "taken by INPUT 1 (ACCEPT)", self.text("[data-rule='INPUT 2'][data-state=dead]"))
        self.picture("page", whole=False)
        self.browser.show(WIDE, HEIGHT)
        self.same("the size of docs/page.png", README, struct.unpack(">II", pathlib.Path(ROOT, "docs", "page.png").read_bytes()[16:24]))

    def check_keyboard(self, address):
        """From the top of the page by keys alone to an answer."""
        self.open(address)
        self.press("Tab")
        self.has("the first stop", "Skip to the content", self.see("document.activeElement.textContent"))
        for _ in range(12):
            if self.see("document.activeElement.id") == "load-example":
                break
            self.press("Tab")
        self.same("where the keys are is seen", True, self.see("getComputedStyle(document.activeElement).outlineStyle") != "none")
        self.press("Enter")
        self.same("rules by keys alone", 20, self.count("[data-rule]"))

    def check_widths(self):
        """Nothing is wider than a narrow window, and the page has dark colours, and can be printed."""
        for tab in ("start", "ruleset", "packet", "change", "session"):
            self.click(f"#tab-{tab}")
            self.browser.show(NARROW, HEIGHT)
            self.same(f"{tab} in {NARROW} pixels", True, self.see(f"document.documentElement.scrollWidth <= Math.max(innerWidth, {NARROW})"))
            self.picture(f"narrow-{tab}")
            self.browser.show(WIDE, HEIGHT, dark=True)
            dark = self.see("getComputedStyle(document.body).backgroundColor.match(/\\d+/g).slice(0, 3).every((part) => Number(part) < 80)")
            self.same(f"{tab} in the dark", True, dark)
            self.picture(f"dark-{tab}")
        self.click("#tab-ruleset")
        self.browser.show(WIDE, HEIGHT, media="print")
        self.same("all rules in print", 20, self.count("[data-rule]"))
        self.picture("print")
        self.browser.show(WIDE, HEIGHT)

    def check_large(self):
        """The page hears its user while 8,192 rules are read and asked about, and stops where the user wants."""
        self.click("#tab-start")
        self.see("""void (() => {
            const noted = document.documentElement.dataset;
            let last = performance.now();
            noted.deaf = "0";
            setInterval(() => {
                const now = performance.now();
                noted.deaf = String(Math.max(Number(noted.deaf), now - last));
                last = now;
            }, 20);
        })()""")
        with self.file_of("mixed") as file:
            self.browser.choose_file("#open-file", file.name)
            self.check_cancel()
        self.click("#tab-start")
        with self.file_of("generated") as file:
            self.open_file("#open-file", file.name)
        self.same("8,192 rules", 8192, self.see("document.querySelectorAll('[data-rule]').length"))
        self.same("all of their states are known", 0, self.see("document.querySelectorAll('[data-rule]:not([data-state])').length"))
        deaf = self.see("Number(document.documentElement.dataset.deaf)")
        self.same(f"the page is deaf for {deaf:.0f} ms at most", True, deaf < DEAF)

    @staticmethod
    def file_of(kind):
        file = tempfile.NamedTemporaryFile("w", suffix=".rules")
        file.write(restore(of_kind(kind, 8192)[0]))
        file.flush()
        return file

    def check_cancel(self):
        until = time.monotonic() + PATIENCE
        while not (self.count("#cancel") and self.text("#progress")) and time.monotonic() < until:
            time.sleep(0.02)
        self.has("progress", "of 8192", self.text("#progress"))
        self.click("#cancel")
        self.same("what was cancelled can be asked again", 1, self.count("#ask-again"))


def check(browser, programs, path, pictures):
    """All views, in the page that lies at a path."""
    views, address = Views(browser, pictures), f"file://{path}"
    browser.show(WIDE, HEIGHT)
    views.open(address)
    views.check_start()
    views.check_ruleset()
    views.check_packet()
    views.check_change()
    views.check_session(programs)
    views.check_conditions()
    views.check_refused()
    views.check_readme()
    views.check_keyboard(address)
    views.check_widths()
    views.check_large()
