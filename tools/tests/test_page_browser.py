"""The page in a browser without a window: Chromium, or Firefox by NGC_BROWSER=firefox. Skipped where there is none."""
import os
import re
import signal
import sys
import threading
import unittest
from dataclasses import replace
from pathlib import Path
from statistics import median

sys.path.insert(0, str(Path(__file__).resolve().parent))

from browser_support import LONG, processor_s
from firefox_support import IS_FIREFOX, MISSING, PATH, started
from machine_support import SocketMachine
from page_support import OTHER, SHORT, SLOW, Page, Served, slow_by
from session_support import PATIENCE_S, TOOLS, ngc
from out_support import text_of

from ngc_tools.formats.device import Device
from ngc_tools.formats.record import Record

DOCS = TOOLS.parent / "docs"
SHOTS = os.environ.get("NGC_SHOTS")
"""A folder for pictures of sheets, for people to look at."""
SIZES = ((1280, 800), (1024, 768), (1920, 1080))
UPRIGHT = ((820, 1180), (744, 1133), (390, 844), (360, 640))
HOSTILE = "(<img src=x onerror=window.hacked=1>)\n(MSG, <script>window.hacked=1</script>)\nG17 G21 G90 G94\nM0\nM2\n"
SIGHT = """(() => {
    const seen = [...document.querySelectorAll('button, input, summary')].filter(one => one.checkVisibility());
    const over = document.getElementById('over');
    return seen.filter(one => over.hidden || over.contains(one) || !one.closest('main')).map(one => {
        const box = one.getBoundingClientRect(), scrolls = one.closest('.tab, .words');
        const isOut = !scrolls && (box.left < 0 || box.top < 0 || box.right > innerWidth + 0.5
            || box.bottom > innerHeight + 0.5);
        const isSmall = Math.min(box.width, box.height) < 44, isCut = one.scrollWidth > one.clientWidth + 1;
        const says = [one.id, one.textContent, isOut && 'out', isSmall && 'small', isCut && 'cut'];
        return isOut || isSmall || isCut ? [...says, box.width, box.height] : null;
    }).filter(Boolean);
})()"""
"""Buttons and entries out of the window, too small for a finger, or with text over their edge."""
CUT = """[...document.querySelectorAll('.axis output, .axis div, #word, #risk, #left, nav button, h1, h2, dt, dd')]
    .filter(one => one.checkVisibility() && one.scrollWidth > one.clientWidth + 1).map(one => one.textContent)"""
"""What a person reads from afar, and that is cut."""
OVER = """(() => {
    const out = [], far = document.getElementById('hold').getBoundingClientRect();
    if (far.left < 0 || far.top < 0 || far.right > innerWidth || far.bottom > innerHeight) out.push('Hold is off');
    if (document.documentElement.scrollWidth > innerWidth) out.push('too wide');
    for (const one of document.querySelectorAll('button, input')) {
        if (!one.checkVisibility() || !one.offsetWidth) continue;
        one.scrollIntoView({ block: 'center' });
        const box = one.getBoundingClientRect(), x = box.left + box.width / 2, y = box.top + box.height / 2;
        const inert = one.closest('[inert]');
        const found = document.elementFromPoint(x, y);
        const isUnder = document.getElementById('over').checkVisibility() && one.closest('main');
        if (!inert && !isUnder && found !== one && !one.contains(found)) {
            const over = found && `${found.id || found.className || found.tagName}: ${found.textContent.slice(0, 99)}`;
            out.push(`${one.id || one.textContent} under ${over}`);
        }
        if (!isUnder && (box.left < 0 || box.right > innerWidth + 0.5)) out.push(`${one.id || one.textContent} is out`);
        const isCut = one.scrollWidth > one.clientWidth + 1 || one.scrollHeight > one.clientHeight + 1;
        if (!isUnder && isCut) out.push(`${one.id || one.textContent} is cut`);
    }
    document.querySelector('main').scrollTop = 0;
    for (const [x, y] of [[far.left + 9, far.top + 9], [far.right - 9, far.top + 9], [far.left + 9, far.bottom - 9],
      [far.right - 9, far.bottom - 9]]) {
      if (!document.elementFromPoint(x, y)?.closest('#hold')) out.push('something lies over Hold');
    }
    const panels = [...document.querySelectorAll('#state, footer, main > section')].filter(one => one.checkVisibility())
      .map(one => [one.className || one.id || one.tagName, one.getBoundingClientRect()]);
    const inMain = name => ['place', 'path', 'side'].includes(name);
    for (const [a, p] of panels) for (const [b, q] of panels) {
      const isApart = p.right <= q.left + 1 || q.right <= p.left + 1 || p.bottom <= q.top + 1 || q.bottom <= p.top + 1;
      if (a < b && inMain(a) === inMain(b) && !isApart) out.push(`${a} and ${b} overlap`);
    }
    const scale = document.getElementById('scale').getBoundingClientRect();
    for (const one of document.querySelectorAll('.path .views button, #legend')) {
        const box = one.getBoundingClientRect();
        const isApart = box.right < scale.left || box.left > scale.right || box.bottom < scale.top
            || box.top > scale.bottom;
        if (!isApart) out.push(`the scale lies over ${one.id || one.textContent}`);
    }
    document.querySelector('main').scrollTop = 0;
    return out;
})()"""
"""What lies over a button, an entry or Hold, or is out of the window to the side; panels that overlap; whether Hold
isn't on the screen."""
LOW = """Math.max(...['.place', '#modes'].map(name => document.querySelector(name))
    .map(one => one.scrollHeight - one.clientHeight))"""
"""By how much what stands on the left, or its last line, goes below its edge."""
FAR = """(() => {
    document.querySelectorAll('.axis output').forEach(one => { one.textContent = '\\u22121000.000'; });
    ngc.readout.fit();
    return %s;
})()""" % CUT
"""The same with the longest numbers."""
CONTRAST = """(() => {
    const canvas = document.createElement('canvas').getContext('2d', { willReadFrequently: true });
    const parts = colour => {
        canvas.clearRect(0, 0, 1, 1);
        canvas.fillStyle = colour;
        canvas.fillRect(0, 0, 1, 1);
        const [r, g, b, a] = canvas.getImageData(0, 0, 1, 1).data;
        return [r, g, b, a / 255];
    };
    const over = (a, b) => [0, 1, 2].map(i => a[i] * a[3] + b[i] * (1 - a[3])).concat(1);
    const ground = one => {
        const own = parts(getComputedStyle(one).backgroundColor);
        return own[3] === 1 ? own : over(own, one.parentElement ? ground(one.parentElement) : [255, 255, 255, 1]);
    };
    const part = v => v <= 0.04045 ? v / 12.92 : ((v + 0.055) / 1.055) ** 2.4, shares = [0.2126, 0.7152, 0.0722];
    const light = colour => shares.reduce((sum, share, i) => sum + share * part(colour[i] / 255), 0);
    const walker = document.createTreeWalker(document.body, NodeFilter.SHOW_TEXT), poor = new Set();
    while (walker.nextNode()) {
        const one = walker.currentNode.parentElement, style = getComputedStyle(one);
        if (!walker.currentNode.data.trim() || !one.checkVisibility()) continue;
        if (one.closest(':disabled, .blind, script')) continue;
        const back = ground(one), [a, b] = [light(over(parts(style.color), back)), light(back)];
        const ratio = (Math.max(a, b) + 0.05) / (Math.min(a, b) + 0.05), px = parseFloat(style.fontSize);
        const isLarge = px >= 24 || px >= 18.66 && Number(style.fontWeight) >= 700;
        if (ratio < (isLarge ? 3 : 4.5)) poor.add(`${walker.currentNode.data} ${style.color} ${ratio.toFixed(2)}`);
    }
    return [...poor];
})()"""
"""Text that has less contrast than WCAG 2 asks for at its level AA; what is disabled needn't have it."""

FRAME = "const frame = () => new Promise(done => requestAnimationFrame(() => requestAnimationFrame(done)));"
DRAW_LONG = """(async () => {
    FRAME
    const { Job } = await import(new URL('job.js', document.baseURI));
    const count = 65000, steps = [], segments = {}, lines = [];
    for (let i = 0; i < count; i++) {
        const at = n => [n % 1009 * 30, n % 997 * 30, -(n % 89) * 40];
        steps.push({ n: i + 1, k: i % 7 ? 'c' : 't', us: 1000, p: [...at(i), ...at(i + 1)] });
        segments[i + 1] = [i];
        lines.push(`G1 X${i % 1009} Y${i % 997}`);
    }
    ngc.program.show('long.ngc', lines.join('\\n'));
    ngc.picture.show(new Job(JSON.parse(JSON.stringify({ steps, segments, exact: true, refused: null }))), ngc.travel);
    await frame();
})()""".replace("FRAME", FRAME)
SCROLL_LONG = """(async () => {
    FRAME
    const box = document.getElementById('program');
    box.dispatchEvent(new Event('wheel'));
    for (let i = 0; i < 60; i++) { box.scrollTop = i / 60 * box.scrollHeight; await frame(); }
})()""".replace("FRAME", FRAME)
PAN_LONG = """(async () => {
    FRAME
    for (let i = 0; i < 30; i++) { ngc.picture.view.pan(3, 2); ngc.picture.moved(); await frame(); }
})()""".replace("FRAME", FRAME)

LATE = """void (window.fetched = window.fetch, window.late = new Promise(done => { window.comes = done; }),
    window.fetch = async (what, ...more) => {
        const answer = await fetched(what, ...more);
        if (what === 'rehearse') {
            window.heard = answer.ok;
            await late;
        }
        return answer;
    })"""
"""What is rehearsed comes once `comes` is called."""
RUN = """fetch('run', { method: 'POST', body: '{}', headers: { 'Content-Type': 'application/json', 'X-Page':
    sessionStorage.page, 'X-Stamp': ngc.state.stamp } }).then(answer => answer.ok || null)"""
"""Asks for it as a touch does that was made before."""
BUTTONS = "[...document.querySelectorAll('#over %s button')].map(one => one.textContent)"
"""What the buttons of a part of the sheet say."""


def keep_checking(page: Page, over: threading.Event) -> None:
    """Has programs checked, one after the other."""
    while not over.is_set():
        page.post("check", b"G1 X1 F60\n" * 2000, X_Name="long.ngc", Content_Type="application/octet-stream")


@unittest.skipUnless(PATH, MISSING)
class InBrowser(Served):
    """The page of a session of its own for each test."""

    def setUp(self) -> None:
        """Opens the page."""
        super().setUp()
        self.browser = started()
        self.addCleanup(self.browser.open, "about:blank")
        self.browser.forget()
        self.browser.size(*SIZES[0])
        self.browser.open(self.address)
        self.browser.wait("window.ngc?.state?.yours && ngc.jobId !== null")
        self.browser.hurry()

    def shoot(self, name: str) -> None:
        """Makes pictures, where somebody wants some."""
        for size in ((1280, 800), (820, 1180), (390, 844)) if SHOTS else ():
            self.browser.size(*size)
            self.browser.frame()
            self.browser.shoot(Path(SHOTS, f"{name}-{size[0]}.png"))
        self.browser.size(1280, 800)

    def choose(self, text: str, name: str = "part.ngc") -> None:
        """Chooses a program, and waits until it is looked at."""
        Path(name).write_text(text)
        self.browser.choose_file(self.folder / name)
        self.browser.wait("document.querySelectorAll('#over .foot button').length > 1")

    def load(self, text: str, count: int) -> None:
        """Loads a program of so many lines, and waits until it is drawn."""
        self.choose(text)
        self.browser.wait("ngc.preview?.count")  # it is drawn before
        self.browser.press("Load", "#over button")
        self.browser.wait(f"ngc.state.program.lines === {count} && ngc.job && !ngc.state.busy")

    def speaks(self, language: str) -> None:
        """The page speaks a language, as chosen in Setup."""
        self.browser.wait(f"document.querySelector('#tab-setup [lang={language}]')")
        self.browser.js(f"document.querySelector('#tab-setup [lang={language}]').click()")
        self.browser.wait(f"document.documentElement.lang === '{language}'")
        self.browser.frame()

    def look(self, what: str) -> None:
        """In each size, dark and light, all is in the window, large enough, whole, and has contrast; no step after a
        loss of power scrolls. Upright, as tablets and phones are, nothing lies over anything, and Hold is in sight."""
        for width, height in SIZES:
            self.browser.size(width, height)
            self.assertEqual(self.browser.js(SIGHT), [], (what, width))
            self.assertEqual(self.browser.js(CUT), [], (what, width))
            self.assertLessEqual(self.browser.js(LOW), 0, (what, width))
            self.assertLessEqual(self.browser.js(LONG), 0, (what, width))
        for width, height in UPRIGHT:
            self.browser.size(width, height)
            self.assertEqual(self.browser.js(OVER), [], (what, width))
        for _ in range(2):
            self.assertEqual(self.browser.js(CONTRAST), [], what)
            self.browser.js("document.getElementById('theme').click()")
        self.browser.size(*SIZES[0])

    def agree_to_look(self) -> None:
        """Answers each question by a yes, up to the one before which one has to look, and ticks what is seen."""
        browser, last = self.browser, 0
        while True:
            question = browser.wait(f"ngc.state.question?.id > {last} && ngc.state.question")
            last = question["id"]
            if question["purpose"] == "look":
                break
            self.assertNotIn("Do they stand there?", question["text"])  # each axis is confirmed
            browser.press("Yes", "#over .go")
        browser.wait("document.querySelectorAll('#over .look button').length === 3")
        self.assertTrue(browser.js("document.querySelector('#over .foot .go').disabled"))
        self.look("switched on")
        self.tick_all()

    def tick_all(self) -> None:
        """Ticks what is seen: the ticks stay while news come."""
        browser = self.browser
        browser.js("document.querySelectorAll('#over .look button').forEach(one => one.click())")
        seen = browser.js("ngc.state.now")
        browser.wait(f"ngc.state.now > {seen} + 1")
        self.assertEqual(browser.js("document.querySelectorAll('#over .look [aria-pressed=true]').length"), 3)
        self.assertFalse(browser.js("document.querySelector('#over .foot .go').disabled"))

    def begin_again(self) -> None:
        """Power comes back: the page is served at the same address."""
        port, key = re.fullmatch(r"http://127\.0\.0\.1:(\d+)/(.*)/", self.address).groups()
        os.environ["NGC_PAGE_KEY"] = key
        self.addCleanup(os.environ.pop, "NGC_PAGE_KEY")
        self.begin_player()
        words = ["--machine", "motion.toml"] if self.MACHINE else []
        self.server = self.start("ngc-page", "mill.dev", "first.toml", self.OUT, "--player", "progress", "--ngc", ngc(),
                                 "--listen", f"127.0.0.1:{port}", *words)
        self.assertEqual(self.server.stdout.readline().strip(), self.address)

    def power_comes_back(self) -> None:
        """Power is lost, and the page shows the session that begins then."""
        before = self.browser.js("ngc.state.session")
        self.pull()
        self.begin_again()
        self.browser.wait(f"ngc.state?.session && ngc.state.session !== '{before}'")

    def gives_line_up(self, says: str = "") -> None:
        """From the step in which the place was confirmed: the way back says so much, and the line is given up."""
        browser = self.browser
        browser.press("Next", "#over button")
        browser.wait("document.querySelector('#over details')")
        self.assertIn(says, browser.js("document.querySelector('#over .words').textContent"))
        browser.press("Next", "#over button")
        browser.press("Give up", "#over button")
        browser.press("Yes, give it up", "#over button")

    def no_complaints(self) -> None:
        """The page logged nothing, and asked nobody else; a server that is gone may be missed."""
        missed = [one for one in self.browser.complaints if "ERR_CONNECTION_REFUSED" not in one]
        self.assertEqual(missed, [])
        others = [one for one in self.browser.asked if not one.startswith((self.address, "data:"))]
        self.assertEqual(others, [])


class Pictures(unittest.TestCase):
    """The pictures of docs/PAGE.md."""

    def test_pictures(self) -> None:
        """Each is there and is shown; together they are below 1.5 MB."""
        shown = re.findall(r"!\[[^\]]+\]\(page/([a-z]+\.png)\)", (DOCS / "PAGE.md").read_text())
        found = {path.name: path.stat().st_size for path in (DOCS / "page").iterdir()}
        self.assertEqual(sorted(shown), sorted(found))
        self.assertLess(sum(found.values()), 1_500_000)


class Looks(InBrowser):
    """How it looks."""

    def test_sizes(self) -> None:
        """Each tab, findings, a question and a stop: in the window, large enough, whole, with contrast."""
        browser = self.browser
        for tab in ("setup", "tools", "log", "program"):
            browser.js(f"document.querySelector('[data-tab={tab}]').click()")
            self.look(tab)
        self.assertEqual(browser.js("document.getElementById('version').textContent"), "built from a checkout")
        for size in SIZES:
            browser.size(*size)
            self.assertEqual(browser.js(FAR), [], size)
            digits = browser.js("parseFloat(getComputedStyle(document.querySelector('.axis output')).fontSize)")
            self.assertGreater(digits, 36, size)
        self.choose("G1 X1 Q2 F10 G41\nM0\nX1\n" + "(a very long comment without an end)" * 6 + "\n")
        self.look("findings")
        count, says = browser.js("""[document.querySelectorAll('#over .finding').length,
            document.querySelector('#over .warn').textContent]""")
        self.assertEqual((count, says.partition(".")[0]), (2, "Adapted, still 1 line refused"))  # G41 is left out
        browser.press("Adapt and load all the same", "#over button")
        browser.wait("ngc.state.question && document.querySelector('#over .asked')")
        self.look("a question")
        browser.press("No", "#over button")
        browser.wait("!ngc.state.question && document.getElementById('over').hidden")
        self.no_complaints()

    def test_hostile(self) -> None:
        """What a program, its name and its messages say stays text."""
        browser = self.browser
        self.choose(HOSTILE, "<b>&.ngc")
        self.assertEqual(browser.js("document.querySelector('#over h1').textContent"), "Load <b>&.ngc")
        browser.press("Load", "#over button")
        browser.wait("ngc.state.program.lines === 5 && document.querySelectorAll('.row').length === 5")
        browser.press("Run", "#run")
        browser.wait("ngc.state.does === 'stopped' && !ngc.state.busy")
        said = browser.js("document.getElementById('detail').textContent")
        self.assertEqual(said, "<script>window.hacked=1</script>")
        self.assertIsNone(browser.js("window.hacked ?? document.querySelector('main img, main b b, main script')"))
        self.look("a stop")
        self.no_complaints()

    def test_adapt(self) -> None:
        """What `ngc` refuses and `ngc-adapt` cures is shown line by line, once what it needs is said; it is loaded as
        it is written then."""
        browser = self.browser
        self.choose("G21 G90 G17 G94 G91.1\nG0 X1 ; <b>\nG91 G28 Z0\nM30\n")
        self.look("what a text needs")
        self.assertTrue(browser.js("[...document.querySelectorAll('#over .foot button')].pop().disabled"))
        browser.fill("#over .entry-row input", "-0.5")
        browser.press("Adapt", "#over .foot button")
        changes = browser.wait("[...document.querySelectorAll('#over .change pre')].map(one => one.textContent)"
                               ".join('|')")
        self.assertEqual(changes, "\u2212 G21 G90 G17 G94 G91.1\n+ G21 G90 G17 G94|\u2212 G0 X1 ; <b>\n+ G0 X1 (<b>)|"
                         "\u2212 G91 G28 Z0\n+ G91 G53 G0 Z-0.5")
        self.look("what is adapted")
        browser.wait("ngc.preview?.count === 2")
        browser.press("Adapt and load", "#over button")
        browser.wait("ngc.state.program.lines === 4 && !ngc.state.busy")
        self.assertIn("G53 G0 Z-0.5", Device.read("mill.dev").program.decode())
        self.no_complaints()

    def test_tools(self) -> None:
        """A tool of any number gets a length; the slots below it have 0. What is no number can't be given."""
        browser = self.browser
        browser.press("Tools", "nav button")
        for number, length in (("0", "62.5"), ("3", "six"), ("3", "")):
            browser.fill("#tab-tools input[aria-label='Number of a new tool']", number)
            browser.fill("#tab-tools input[aria-label='Length of tool 1']", length)
            self.assertEqual(browser.js("[document.querySelectorAll('#tab-tools input.wrong').length,"
                                        " document.querySelector('#tab-tools button').disabled]"),
                             [int(length != ""), True], (number, length))
        browser.fill("#tab-tools input[aria-label='Length of tool 1']", "62.5")
        browser.fill("#tab-tools input[aria-label='Number of a new tool']", "T3")
        browser.press("Add", "#tab-tools button")
        browser.wait("String(ngc.state.tools) === '0.000000,0.000000,62.500000'")
        self.look("tools")
        self.no_complaints()

    def test_cancel(self) -> None:
        """A check tells how far it is, and is ended by its button; what is far too long is refused at once."""
        browser = self.browser
        Path("long.ngc").write_text("G17 G21 G90 G94\n" + "G1 X1 F600\nG1 X0\n" * 40_000 + "M2\n")
        browser.choose_file(self.folder / "long.ngc")
        browser.wait("parseFloat(document.querySelector('#over .track i')?.style.width) >= 0")
        browser.press("Cancel", "#over button")
        browser.wait("document.getElementById('over').hidden")
        with open("huge.ngc", "wb") as file:
            file.truncate(100_000_000)
        browser.js("""void new MutationObserver(() => { window.told ??= document.querySelector('#over .warn')
            && performance.now(); }).observe(document.body, { childList: true, subtree: true })""")
        browser.js("""void document.getElementById('file').addEventListener('change', () => {
            window.chosen = performance.now(); }, { capture: true })""")
        browser.choose_file(self.folder / "huge.ngc")
        said = browser.wait("document.querySelector('#over .warn')?.textContent")
        self.assertLess(browser.js("told - chosen"), 1000)
        self.assertEqual(said, "100,000,000 bytes: a program has at most 131,072, on a large device 1,048,576."
                         " ngc-split parts it.")
        browser.press("Back", "#over button")
        self.choose("G0 X1\nM2\n")
        self.assertEqual(browser.js("document.querySelectorAll('#over .track').length"), 0)
        self.no_complaints()

    @unittest.skipIf(IS_FIREFOX, "Firefox doesn't tell its processor time")
    def test_long(self) -> None:
        """A program of a mebibyte is shown within two seconds of processor time, and moves at 30 frames a second."""
        browser = self.browser
        browser.call("Performance.enable", timeDomain="threadTicks")
        self.assertLess(self.seconds(DRAW_LONG), 2)
        self.assertLess(self.seconds(SCROLL_LONG), 60 / 30)
        self.assertLess(self.seconds(PAN_LONG), 30 / 30)
        self.assertGreater(browser.js("Number(document.querySelector('.row span').textContent)"), 30_000)
        self.no_complaints()

    def seconds(self, does: str) -> float:
        """The processor time of the page while it does something."""
        before = processor_s(self.browser)
        self.browser.js(does)
        return processor_s(self.browser) - before


class Work(InBrowser):
    """What is done by touch."""

    def test_hold(self) -> None:
        """Hold by the space bar, and by the button, and on again."""
        browser = self.browser
        self.load(SLOW, 4)
        browser.press("Run", "#run")
        browser.wait("ngc.state.line === 3 && ngc.state.half === 'program'")
        browser.space()
        browser.wait("ngc.state.does === 'held' && !ngc.state.busy && ngc.holdMs")
        browser.press("Continue", "#run")
        browser.wait("ngc.state.does === 'running'")
        browser.press("Hold", "#hold")
        browser.wait("ngc.state.does === 'held' && !ngc.state.busy")
        self.assertEqual(browser.js("document.getElementById('word').textContent"), "Held")
        self.look("held")
        self.no_complaints()

    def test_second_run(self) -> None:
        """A program that ran to its end is done, and isn't any more once it runs again; then it begins at line 1, and
        the time that is left is that of the second run."""
        browser, shown = self.browser, "[document.getElementById('share').textContent, document.getElementById('bar')" \
            ".style.width, document.getElementById('left').textContent]"
        self.load("G17 G21 G90 G94\nG1 X0.3 F6\nX0\nM2\n", 4)
        browser.press("Run", "#run")
        browser.wait("ngc.state.finished && !ngc.state.busy")
        *done, whole = browser.js(shown)
        self.assertEqual(done, ["Done", "100%"])
        self.assertRegex(whole, r"^6\.\d s$")
        browser.hurry()
        browser.press("Run", "#run")
        browser.wait("ngc.state.busy && ngc.state.line === 2 && ngc.state.motors[0] > 0.05")
        share, width, left = browser.js(shown)
        self.assertRegex(share, r"^\d+ % of 6\.\d s$")
        self.assertLess(float(width.removesuffix("%")), 50)
        self.assertRegex(left, r"^(about )?[3-5]\.\d s left$")
        self.no_complaints()

    def test_typed_ahead(self) -> None:
        """A line that is typed before the one before it is answered stays."""
        browser = self.browser
        browser.js("""void (window.fetched = window.fetch, window.fetch = async (what, ...more) => {
            const answer = await fetched(what, ...more);
            if (what === 'mdi') await new Promise(done => { window.answers = done; });
            return answer;
        })""")
        for line, more in (("G0 X0.01", "G0 X0.02"), ("G0 X0.02", "G0 X0.02")):
            browser.fill("#line", line)
            browser.press("Do", "#do")
            browser.wait(f"window.answers && !ngc.state.busy && Number(ngc.state.at[0]) === {line[4:]}")
            browser.fill("#line", more)
            browser.js("void (answers(), window.answers = null)")
            browser.wait(f"document.getElementById('line').value === '{more if line != more else ''}'")
            browser.frame()
            self.assertEqual(browser.js("document.getElementById('line').value"), more if line != more else "")
        self.no_complaints()

    def test_fetched_again(self) -> None:
        """A path whose fetch fails is fetched again."""
        self.browser.js("""(() => {
            const fetched = window.fetch;
            window.failed = 0;
            window.fetch = (what, ...more) => what === 'job' && window.failed < 5 && (window.failed += 1)
                ? Promise.reject(new Error('no answer')) : fetched(what, ...more);
        })()""")
        self.load(SLOW, 4)
        self.assertEqual(self.browser.js("window.failed"), 5)
        self.no_complaints()

    def test_ended(self) -> None:
        """Once `ngc` has ended nobody asks the player, which goes on for a while: what turns and flows isn't known."""
        browser = self.browser
        browser.wait("ngc.state.spindle === 0")
        for pid in self.children():
            os.kill(pid, signal.SIGKILL)
        browser.press("Hold", "#hold")
        browser.wait("ngc.state.ended")
        shown = browser.js("[...document.querySelectorAll('#gauges dd')].map(one => one.textContent)")
        self.assertEqual(shown[1:3], ["not known", "not known"])

    def test_asked_meanwhile(self) -> None:
        """What `Continue` looks at first comes late, once something else is asked: that stays on the page as long as it
        is asked, whatever closes its sheet, and can be answered."""
        browser, asked = self.browser, "document.querySelector('#over .asked') !== null"
        self.load("M3 S100\nG1 X0.01 F600\nM0\nG1 X0.02\nM2\n", 5)
        browser.press("Run", "#run")
        browser.wait("ngc.state.does === 'stopped' && !ngc.state.busy")
        browser.fill("#line", "G91")
        browser.press("Do", "#do")
        browser.wait("ngc.state.distance === 91 && !ngc.state.busy")
        browser.js(LATE)
        browser.press("Continue", "#run")
        browser.wait("window.heard")
        browser.wait(f"ngc.state.question && {asked} || {RUN}")
        browser.wait(f"ngc.state.question && {asked}")
        browser.js("comes()")
        seen = browser.js("ngc.state.now")
        browser.wait(f"ngc.state.now > {seen} + 1")
        self.assertEqual(browser.js("document.querySelector('#over h1').textContent"), "A question")
        browser.js("document.getElementById('over').replaceChildren()")
        browser.press("Yes", "#over .go")
        browser.wait("ngc.state.finished && document.getElementById('over').hidden")
        self.no_complaints()

    def test_drawn_anew(self) -> None:
        """While another program is looked at the one that is stored can't be run; once it is loaded nothing is shown
        that was drawn of the one before."""
        browser, is_dead = self.browser, "document.getElementById('run').disabled"
        self.load(SLOW, 4)
        self.assertFalse(browser.js(is_dead))
        self.choose("M30\n", "other.ngc")
        self.assertTrue(browser.js(is_dead))
        browser.press("Back", "#over button")
        browser.wait(f"!{is_dead}")
        browser.js("""void (window.fetched = window.fetch,
            window.fetch = (what, ...more) => what === 'job' ? new Promise(() => {}) : fetched(what, ...more))""")
        self.choose("M2\n", "other.ngc")
        browser.press("Load", "#over button")
        browser.wait("ngc.state.program.lines === 1 && !ngc.state.busy")
        shown = browser.js("[ngc.job, ngc.picture.job, document.getElementById('share').textContent]")
        self.assertEqual(shown, [None, None, "The path is being drawn\u2026"])
        self.no_complaints()

    def test_hold_at_once(self) -> None:
        """From the touch to the word Held, while programs are checked: by the median less than 50 ms of a machine that
        has time for it."""
        browser, other = self.browser, self.page(OTHER)
        self.load(SLOW, 4)
        browser.press("Run", "#run")
        over = threading.Event()
        checks = threading.Thread(target=keep_checking, args=[other, over])
        checks.start()
        self.addCleanup(checks.join)
        self.addCleanup(over.set)
        took_ms, slowness = [], [1.0]
        for _ in range(7):
            browser.wait("ngc.state.does === 'running' && ngc.state.behind > 0 && !(ngc.holdMs = 0)")
            slowness.append(slow_by())
            browser.press("Hold", "#hold")
            took_ms.append(browser.wait("ngc.state.does === 'held' && !ngc.state.busy && ngc.holdMs"))
            browser.press("Continue", "#run")
        self.assertLess(median(took_ms), 50 * max(slowness), took_ms)

    def test_again(self) -> None:
        """Where ngc ended, it is started again from the page, which begins anew."""
        browser = self.browser
        before = browser.js("ngc.state.session")
        for pid in self.children():
            os.kill(pid, signal.SIGKILL)
        self.assertEqual(self.player.wait(PATIENCE_S), 1)  # its pipe has ended
        browser.wait("ngc.state.word === 'Ended'")
        self.look("ngc has ended")
        self.begin_player()
        browser.press("Start ngc again", "#restart")
        browser.wait(f"ngc.state?.session && ngc.state.session !== '{before}' && ngc.state.word === 'Idle'")
        self.no_complaints()

    def test_two_pages(self) -> None:
        """Where another page took over, this one watches, holds, and takes over again."""
        browser, other = self.browser, self.page(OTHER)
        self.load(SLOW, 4)
        self.assertEqual(other.post("takeover")[0], 200)
        browser.wait("!ngc.state.yours && document.getElementById('takeover').checkVisibility()")
        enabled = browser.js("[...document.querySelectorAll('footer button:not(:disabled)')].map(one => one.id)")
        self.assertEqual(enabled, ["hold"])
        self.assertEqual(other.post("run")[0], 200)
        browser.wait("ngc.state.line === 3")
        browser.press("Hold", "#hold")
        browser.wait("ngc.state.does === 'held' && !ngc.state.busy")
        browser.press("Take over", "#takeover")
        browser.press("Continue", "#run")
        browser.wait("ngc.state.does === 'running'")
        self.no_complaints()


class WithRamps(SocketMachine):
    """A player with a machine's file. It says how old its record may be, so that nobody waits for that as a session
    begins."""

    wants = 340

    def _answer(self, question: bytes, sender: str | bytes | None) -> None:
        if question.startswith(b"kept "):
            self.listener.answer(question + b" lines 0 bytes 0 age 20", sender)
            return
        super()._answer(question, sender)


class Moves(InBrowser):
    """Home, jog, work zero and an alarm, by a player in this process."""

    def begin_player(self) -> None:
        """A player that makes moves by itself, and a reader of OUT."""
        pipe = os.open("axis", os.O_RDONLY | os.O_NONBLOCK)
        self.addCleanup(os.close, pipe)
        self.machine = WithRamps(os.path.abspath("axis"))
        self.addCleanup(self.machine.close)

    def jogs(self) -> int:
        """How often the player was told to jog, or to jog on."""
        return len([word for word in self.machine.axes.words if " X+ 600" in word])

    def test_setup(self) -> None:
        """Home, jog for as long as a finger is down, the work's zero there, undo; after an alarm home comes first."""
        browser = self.browser
        browser.press("Setup", "nav button")
        browser.press("Home all", "#tab-setup button")
        browser.wait("ngc.state.homed === 'XYZ' && !ngc.state.busy")
        self.look("setup of a machine that homes")
        x, y = browser.place("X+", ".pad button")
        browser.down(x, y)
        self.wait_for("it goes on while the finger is down", lambda: self.jogs() > 3)
        self.assertEqual(browser.js("[ngc.state.command?.word, ngc.state.busy]"), ["jog", True])
        browser.up(x, y)
        browser.wait("!ngc.state.busy && Number(ngc.state.at[0]) > -298")
        stopped = self.jogs()
        self.assertIn("Takes machine X \u2212", browser.js("document.querySelector('#tab-setup').innerText"))
        browser.press("Set XY", "#tab-setup button")
        browser.press("Yes: moves it", "#over button")
        browser.wait("ngc.state.work[0] === '0.000000' && ngc.state.work[1] === '0.000000'")
        browser.press("Undo: G10", "#tab-setup button")
        browser.wait("ngc.state.work[1] === ngc.state.at[1]")
        self.assertEqual(self.jogs(), stopped)
        self.machine.axes.alarm("emergency_stop")
        browser.wait("ngc.state.word === 'ALARM'")
        self.look("an alarm")
        browser.wait("!document.getElementById('over').hidden && document.getElementById('run').disabled")
        browser.press("Back", "#over button")
        browser.press("Home all", "#run")
        browser.wait("document.getElementById('run').disabled")  # what it opens is open
        self.assertTrue(browser.js("document.querySelector('#over .go').disabled"))
        self.machine.axes.release()
        browser.wait("!ngc.state.inputs.length && !document.querySelector('#over .go').disabled")
        self.assertEqual(browser.js("ngc.state.alarm"), "emergency_stop")
        browser.press("Home", "#over button")
        browser.wait("ngc.state.alarm === '' && ngc.state.word === 'Idle'")
        self.no_complaints()

    def test_ended_in_an_alarm(self) -> None:
        """Where `ngc` is gone nothing is asked that nobody could take: what is enabled begins another session."""
        browser = self.browser
        self.machine.axes.alarm("limits")
        browser.wait("ngc.state.alarm && !document.getElementById('over').hidden")
        for pid in self.children():
            os.kill(pid, signal.SIGKILL)
        browser.wait("ngc.state.word === 'Ended' && document.getElementById('over').hidden")
        self.assertTrue(browser.js("document.getElementById('run').disabled"))
        self.assertFalse(browser.js("document.getElementById('restart').hidden"))
        browser.press("Quit", "#quit")
        browser.wait("!document.getElementById('over').hidden && document.getElementById('quit').disabled")
        browser.press("Back", "#over button")
        browser.wait("document.getElementById('over').hidden && !document.getElementById('quit').disabled")

    def test_axis_without_home(self) -> None:
        """Of an axis that can't be homed after an alarm a person writes where it stands: the entry is empty."""
        browser, axes = self.browser, self.machine.axes
        axes.switches, axes.at_nm, axes.home_at[1] = "XZ", [0, 7_000_000, 0], 7_000_000
        axes.alarm("limits")
        browser.wait("ngc.state.word === 'ALARM'")
        browser.press("Home", "#over button")
        browser.wait("ngc.state.left === 'Y' && !ngc.state.busy")
        browser.press("Where is Y?", "#run")
        self.look("where an axis is")
        entry, give = "input[aria-label='Machine Y']", "document.querySelector('#over .go')"
        shown = browser.js(f"""[document.querySelector("{entry}").value, {give}.disabled, {give}.parentElement
            .parentElement.querySelector('small').textContent]""")
        self.assertEqual(shown, ["", True, "not homed; the player counts 7.000"])
        browser.fill(entry, "8,5")
        browser.press("It stands there", "#over button")
        browser.wait("ngc.state.alarm === '' && ngc.state.word === 'Idle' && ngc.state.at[1] === '8.500000'")
        self.assertTrue(browser.js("document.getElementById('over').hidden"))
        self.no_complaints()


GREY = """(() => {
    const faint = document.body.appendChild(document.createElement('i'));
    faint.style.color = 'var(--faint)';
    const shown = [faint, ...document.querySelectorAll('.axis output')].map(one => getComputedStyle(one).color);
    faint.remove();
    return shown.every(color => color === shown[0]);
})()"""
"""Whether the place is shown as one of before."""


class Power(InBrowser):
    """Power is lost, and comes back."""

    OUT = "out"

    def test_recovery(self) -> None:
        """The page says that it is lost, begins anew with the new session, and leads through four steps to the cut."""
        browser = self.browser
        self.load("M3 S100 M8\n" + SLOW, 5)
        browser.press("Optional stop", ".switches button")
        browser.wait("ngc.state.optional")
        browser.press("Run", "#run")
        browser.wait("ngc.state.line === 4 && ngc.state.motors[0] > 0.02")
        before = browser.js("ngc.state.session")
        self.pull()
        browser.wait("document.getElementById('lost').checkVisibility()")
        self.begin_again()
        browser.wait(f"ngc.state?.session && ngc.state.session !== '{before}'")
        browser.goes_on()
        browser.wait("document.querySelector('#over .facts')?.textContent.includes('It begins at')")
        self.look("what was stored")
        self.assertRegex(browser.js("document.getElementById('risk').textContent"),
                         r"^By the record of the player; the device was written [\d.:]+ \w+ ago$")
        self.assertTrue(browser.js(GREY))
        self.assertIn("Given back, as it was: optional stop.", browser.js("document.querySelector('#over .words')"
                                                                          ".textContent"))
        self.assertTrue(browser.js("ngc.state.optional"))
        self.another_sheet()
        self.not_rehearsed()
        self.press_amid_news("Next")
        self.assertTrue(browser.js("document.querySelector('#over .foot .go').disabled"))
        said = browser.js("document.querySelector('#over .words').textContent")
        off = re.search(r"they make at most .* lines?(?: of OUT)?, ([0-9.]+) mm", said)[1]
        shown = "[...document.querySelectorAll('#over .confirm button')].map(one => one.textContent).join()"
        self.assertEqual(browser.js(shown), ",".join([f"Confirm, \u00b1\u00a0{off}\u00a0mm"] * 3))
        self.moved_meanwhile()
        for _ in range(3):
            browser.press("Confirm", "#over button")
        self.look("where it stands")
        browser.press("Next", "#over button")
        browser.wait("document.querySelector('#over details')")
        self.assertIn("Back through what was cut", browser.js("document.querySelector('#over h2').textContent"))
        self.look("a rehearsal")
        self.press_amid_news("Next")
        self.look("the choice")
        stands = browser.js("ngc.state.motors.join()")
        browser.press("Go along the path", "#over button")
        self.agree_to_look()
        self.assertEqual(browser.js("ngc.state.motors.join()"), stands)
        browser.open(self.address)
        browser.wait("window.ngc?.state?.question && document.querySelectorAll('#over .look button').length === 3")
        self.assertTrue(browser.js("document.querySelector('#over .foot .go').disabled"))
        self.assertEqual(browser.js("document.querySelectorAll('#over .look [aria-pressed=true]').length"), 0)
        self.assertEqual(browser.js("ngc.state.motors.join()"), stands)
        self.tick_all()
        browser.press("Yes", "#over .go")
        browser.wait("ngc.state.question?.text.includes('goes on with the cut')")
        self.assertEqual(browser.js("ngc.state.motors.join()"), "0.000000,0.000000,0.000000")
        browser.press("Yes: goes on with the cut", "#over .go")
        browser.wait("ngc.state.does === 'running' && ngc.state.motors[0] > 0.02 && ngc.state.spindle === 1")
        self.assertFalse(browser.js("document.getElementById('over').checkVisibility()"))
        self.no_complaints()

    def another_sheet(self) -> None:
        """Another sheet in place of these steps: they are put off, and come again."""
        browser = self.browser
        browser.js("document.getElementById('runs').click()")
        browser.wait("document.querySelector('#over h1')?.textContent === 'Record of runs'")
        browser.press("Back", "#over .foot button")
        browser.wait("!document.getElementById('over').checkVisibility()")
        browser.press("Recover", "#run")
        browser.wait("document.querySelector('#over .facts')?.textContent.includes('It begins at')")

    def moved_meanwhile(self) -> None:
        """Motors that come to rest only now: what was confirmed before isn't any more, and what nobody wrote goes with
        them."""
        shown = ("[...document.querySelectorAll('#over .confirm')].map(one => [one.querySelector('input').value,"
                 " one.querySelector('button').getAttribute('aria-pressed')])")
        self.browser.js("[0, 1].forEach(i => document.querySelectorAll('#over .confirm button')[i].click())")
        before = self.browser.js(shown)
        self.assertEqual([pressed for _, pressed in before], ["true", "true", "false"])
        moved = self.browser.js("(() => { ngc.recovery.show({ ...ngc.state, motors: ['9.500000', ...ngc.state.motors"
                                f".slice(1)] }}); return {shown} }})()")
        self.assertEqual(moved, [["9.500", "false"], before[1], before[2]])
        self.browser.wait(f"{shown}[0][0] === '{before[0][0]}'")
        self.browser.js("document.querySelectorAll('#over .confirm button')[1].click()")

    def test_two_places(self) -> None:
        """After a loss of power within a jog the large button asks where the machine stands, with how far the record
        may be off, in place of a run that does nothing."""
        browser = self.browser
        self.load(SLOW, 4)
        self.wait_for("the record is kept", lambda: Path("position").exists())
        self.pull()
        record = Record.of_text(Path("position").read_bytes(), "position")
        Path("position").write_bytes(text_of(replace(record, at_nm=(3_000_000, 0, 4_000_000))))
        self.begin_again()
        browser.wait("document.getElementById('run').textContent === 'Where is it?'")
        self.assertEqual(browser.js("[ngc.state.motors[0], ngc.state.at[0]].join()"), "3.000000,0.000000")
        browser.press("Where is it?", "#run")
        browser.wait("document.getElementById('run').disabled")  # what it opens is open
        self.look("where the machine stands")
        # in 20 ms 401 lines of 50 us at most: so many steps of each axis, 1.7321 um, rounded up
        browser.press("Where the player counts, \u00b1 0.695 mm", "#over button")
        browser.wait("ngc.state.at[0] === '3.000000' && ngc.state.at[2] === '4.000000'")
        browser.wait("document.getElementById('run').textContent === 'Run' && !document.getElementById('run').disabled")
        self.no_complaints()

    def half_done(self) -> None:
        """Power is lost in a cut, and comes back: the page asks where the machine stands."""
        browser = self.browser
        self.load(SLOW, 4)
        browser.press("Run", "#run")
        browser.wait("ngc.state.motors[0] > 0.02")
        self.power_comes_back()
        browser.goes_on()
        browser.press("Next", "#over button")

    def gives_up(self, y: str) -> None:
        """Writes where the machine stands, confirms it, and gives the line up."""
        browser = self.browser
        browser.fill("input[aria-label='Machine Y']", y)
        for _ in range(3):
            browser.press("Confirm", "#over button")
        self.gives_line_up("Legs alone lead back")
        browser.wait("ngc.state.half === 'none' && !ngc.state.busy")

    def test_measured(self) -> None:
        """A place that somebody measured, other than the record's, is the machine's once the line is given up."""
        browser = self.browser
        self.half_done()
        self.gives_up("0.25")
        browser.wait("ngc.state.known && ngc.state.motors[1] === '0.250000'")
        self.assertEqual(browser.js("ngc.state.at.join()"), browser.js("ngc.state.motors.join()"))
        browser.press("Recover", "#run")  # lines are left in OUT
        browser.wait("document.getElementById('run').disabled")  # what it opens is open
        self.no_complaints()

    def test_older_place(self) -> None:
        """What was confirmed on a page that doesn't know yet that the motors moved isn't taken: why stands where the
        finger was, and the line isn't given up."""
        browser = self.browser
        self.half_done()
        browser.js("void (ngc.recovery.show = () => {})")  # the steps know no newer state
        self.link.at("0.5 0.25 0")
        browser.wait("ngc.state.motors[1] === '0.250000'")
        for _ in range(3):
            browser.press("Confirm", "#over button")
        self.gives_line_up()
        says = browser.wait("document.getElementById('toast').checkVisibility() && document.getElementById('toast')"
                            ".textContent")
        self.assertTrue(says.startswith("the motors aren't where this page showed them"), says)
        browser.wait("!ngc.state.busy")
        self.assertEqual(browser.js("[ngc.state.half, ngc.state.motors[1]]"), ["program", "0.250000"])

    def test_outside(self) -> None:
        """From outside of the travel, as where home was held at a switch, a line can be given up too: nobody knows
        then where the machine is, and why its place isn't taken is told."""
        browser = self.browser
        self.half_done()
        self.gives_up("1001")
        self.assertFalse(browser.js("ngc.state.known"))
        self.assertIn("X2 OutsideTravel", browser.js("document.getElementById('toast').textContent"))

    def not_rehearsed(self) -> None:
        """Where step 1 isn't rehearsed it says why, and what can be done: on a page that watches, where it fails."""
        browser, words = self.browser, "document.querySelector('#over .words').textContent"
        self.assertEqual(self.page(OTHER).post("takeover")[0], 200)
        browser.wait(f"!ngc.state.yours && {words}.includes('It begins at')")  # it was rehearsed before
        browser.open(self.address)
        browser.wait(f"window.ngc?.state && {words}.includes('This page watches. Take over, and ngc rehearses it.')")
        browser.press("Take over", "#takeover")
        browser.wait(f"{words}.includes('It begins at')")
        browser.js("""void (window.fetched = window.fetch, window.fetch = (what, ...more) =>
            what === 'rehearse' ? Promise.reject(new Error('something runs')) : fetched(what, ...more))""")
        browser.press("Later", "#over button")
        browser.press("Recover", "#run")
        browser.wait(f"{words}.includes('It isn\u2019t rehearsed: something runs. Rehearse it again, or go on')")
        self.look("what isn't rehearsed")
        browser.js("void (window.fetch = window.fetched)")
        browser.press("Rehearse again", "#over button")
        browser.wait(f"{words}.includes('It begins at') && !document.querySelector('#over .bad')")

    def press_amid_news(self, says: str) -> None:
        """Touches a button; while the finger is on it the path is drawn anew, of which the sheet tells."""
        x, y = self.browser.place(says, "#over button")
        self.browser.down(x, y)
        self.browser.js("ngc.job = ngc.jobId = null")
        self.browser.wait("ngc.job")
        self.browser.up(x, y)


class Held(InBrowser):
    """The page's server is lost while the motors are held in a cut, and comes back."""

    OUT = "out"
    MACHINE = "[motion]\naccel_mm_s2 = [500, 500, 500]\n"

    def begin_player(self) -> None:
        """There is one as long as it isn't killed."""
        if not os.path.exists("progress"):
            super().begin_player()

    def test_stop(self) -> None:
        """What Stop asks is seen, though the steps after a loss of power are on the screen, and can be answered."""
        browser = self.browser
        self.load(SLOW, 4)
        browser.press("Run", "#run")
        browser.wait("ngc.state.motors[0] > 0.02")
        browser.press("Hold", "#hold")
        browser.wait("ngc.state.held_motors && ngc.state.behind > 0")
        before = browser.js("ngc.state.session")
        for pid in (*self.children(), self.server.pid):
            os.kill(pid, signal.SIGKILL)
        self.server.wait()
        self.begin_again()
        browser.wait(f"ngc.state?.session && ngc.state.session !== '{before}'")
        browser.wait("document.querySelector('#over .facts') && !document.getElementById('stop').disabled")
        browser.press("Stop", "#stop")
        browser.wait("ngc.state.question")
        browser.wait("document.querySelector('#over h1')?.textContent === 'A question'")
        browser.press("Yes", "#over .foot button")
        browser.wait("!ngc.state.question")


class OnTheWay(InBrowser):
    """The way back after a loss of power is stopped, with motors that have ramps."""

    OUT = "out"
    MACHINE = Held.MACHINE

    def goes(self) -> str:
        """Rehearses, goes along the path, and stops on the way, with the line half-done; X as it stood before."""
        browser = self.browser
        browser.press("Next", "#over button")
        browser.wait("document.querySelector('#over details')")
        browser.press("Next", "#over button")
        before = browser.js("ngc.state.motors[0]")
        browser.press("Go along the path", "#over button")
        self.agree_to_look()
        browser.press("Yes", "#over .go")
        browser.wait(f"ngc.state.motors[0] < {before} - 0.05")
        browser.press("Stop", "#stop")
        browser.wait("ngc.state.question && document.querySelector('#over .asked')")
        browser.press("No", "#over .foot button")
        browser.wait("!ngc.state.busy && ngc.state.does === 'idle' && ngc.state.half === 'program'"
                     " && !ngc.state.held_motors")
        return before

    def test_stopped(self) -> None:
        """No place is taken from before the way: the steps lead back to where the machine stands, and the axis that
        moved is confirmed anew. So it goes on from there, and the cut is where it was."""
        browser = self.browser
        self.load("G17 G21 G90 G94\nG0 X0 Y0 Z0\nG1 X2 F12\nM2\n", 4)
        browser.press("Run", "#run")
        browser.wait("ngc.state.motors[0] > 0.6")
        self.wait_for("the record has it", lambda: self.recorded().at_nm[0] > 500_000)
        self.power_comes_back()
        browser.goes_on()
        browser.press("Next", "#over button")
        for _ in range(3):
            browser.press("Confirm", "#over button")
        stood = self.goes()
        browser.wait("document.querySelector('#over .steps .now b').textContent === '2'")
        shown = browser.js("[...document.querySelectorAll('#over .confirm')].map(one =>"
                           " [one.querySelector('input').value,"
                           " one.querySelector('button').getAttribute('aria-pressed')])")
        x = browser.js("ngc.state.motors[0]")
        self.assertLess(float(x), float(stood))
        self.assertEqual((float(shown[0][0]), [pressed for _, pressed in shown]), (float(x), ["false", "true", "true"]))
        browser.press("Confirm", "#over button")
        self.goes()
        browser.wait("document.querySelector('#over .steps .now b').textContent === '2'")
        browser.press("Confirm", "#over button")
        self.gives_line_up()
        browser.wait("ngc.state.half === 'none' && !ngc.state.busy")
        self.assertEqual(browser.js("ngc.state.at.join()"), browser.js("ngc.state.motors.join()"))
        self.no_complaints()


class WithoutSwitches(InBrowser):
    """Power is lost in a cut of a machine whose file has no [home]."""

    OUT = "out"
    MACHINE = Held.MACHINE

    def test_where(self) -> None:
        """Home isn't proposed where nothing is to be homed at. How far the motors may be past the record stands on each
        button, as long as the axis is said to be where that has it: it was 50 ms old, and a pulse of 1 um takes 20 ms,
        so three of them began by then."""
        browser = self.browser
        self.load(SLOW, 4)
        browser.press("Run", "#run")
        browser.wait("ngc.state.motors[0] > 0.1")
        self.wait_for("the record has it", lambda: self.recorded().at_nm[0] > 50_000)
        before = browser.js("ngc.state.session")
        self.pull()
        Path("position").write_bytes(text_of(replace(self.recorded(), age_ms=50)))
        self.begin_again()
        browser.wait(f"ngc.state?.session && ngc.state.session !== '{before}'")
        browser.goes_on()
        browser.press("Next", "#over button")
        browser.wait("document.querySelectorAll('#over .confirm').length === 3")
        self.assertEqual(browser.js(BUTTONS % ".foot"), ["Back", "Next: rehearsal"])
        self.assertNotIn("Home first", browser.js("document.querySelector('#over').textContent"))
        self.assertEqual(browser.js(BUTTONS % ".confirm"), ["Confirm, \u00b1\u00a00.003\u00a0mm"] * 3)
        browser.fill("input[aria-label='Machine Y']", "0.25")
        self.assertEqual(browser.js(BUTTONS % ".confirm")[1], "Confirm")
        beside = "document.querySelectorAll('#over .confirm small')[1].textContent"
        self.assertRegex(browser.js(beside), r"^the record says 0\.000; before the line 0\.000$")
        browser.fill("input[aria-label='Machine Y']", "-1000,001")
        self.assertEqual(browser.js(beside),
                         "outside the travel, which ends at \u22121000.000: the line isn\u2019t taken up from there")
        browser.fill("input[aria-label='Machine Y']", "1000")
        self.assertIn("before the line", browser.js(beside))
        self.no_complaints()


class ToolOnTheWay(InBrowser):
    """Power is lost before a tool change that was handed out, with motors that have ramps."""

    OUT = "out"
    MACHINE = Held.MACHINE

    def test_put_in(self) -> None:
        """The way leads on past the change: there the sheet's large button puts it in, and nothing goes on before that.
        That of the page says, as long as something is asked, that it is answered first."""
        browser = self.browser
        browser.press("Tools", "nav button")
        browser.fill("#tab-tools input[aria-label='Length of tool 1']", "50")
        browser.press("Add", "#tab-tools button")
        browser.wait("ngc.state.tools.length === 1 && !ngc.state.busy")
        self.load("G17 G21 G90 G94\nG0 X0 Y0 Z0\nG1 X0.1 F3\nT1 M6\nG1 X2 F3\nM2\n", 6)
        browser.press("Run", "#run")
        browser.wait("ngc.state.line === 5 && ngc.state.half === 'program' && ngc.state.motors[0] > 0")
        self.power_comes_back()
        browser.goes_on()
        browser.press("Next", "#over button")
        for _ in range(3):
            browser.press("Confirm", "#over button")
        browser.press("Next", "#over button")
        browser.wait("document.querySelector('#over details')")
        browser.press("Next", "#over button")
        browser.press("Go along the path", "#over button")
        browser.wait("document.querySelectorAll('#over .look button').length === 3")
        self.answers_first()
        browser.js("document.querySelectorAll('#over .look button').forEach(one => one.click())")
        browser.press("Yes: goes there", "#over .go")
        browser.wait("document.querySelector('#over .asked')?.textContent === 'tool 1 comes on the way: put it in'")
        self.answers_first()
        self.assertEqual(browser.js("[ngc.state.motors[0], ngc.state.slot]"), ["0.100000", 0])
        browser.press("It is done", "#over .go")
        browser.wait("ngc.state.question?.text.includes('goes on with the cut')")
        self.answers_first()
        self.assertEqual(browser.js("[ngc.state.motors[0], ngc.state.slot]"), ["0.100000", 1])
        browser.press("Yes: goes on with the cut", "#over .go")
        browser.wait("ngc.state.does === 'running' && ngc.state.motors[0] > 0.12")
        self.no_complaints()

    def answers_first(self) -> None:
        """Something is asked, and stays so: the large button is dead, and says why."""
        browser = self.browser
        seen = browser.js("ngc.state.now")
        browser.wait(f"ngc.state.now > {seen} + 0.5 && ngc.state.question")
        run = browser.js("(run => [run.textContent, run.disabled])(document.getElementById('run'))")
        self.assertEqual(run, ["Answer first", True])


class LinesLeft(InBrowser):
    """Power is lost behind the last line of a job, with motors that have ramps."""

    OUT = "out"
    MACHINE = Held.MACHINE

    def test_given_back(self) -> None:
        """Where lines alone are left, the sheet that leads on says what is given back to them."""
        browser = self.browser
        self.load("G17 G21 G90 G94\nG0 X0 Y0 Z0\nG1 X2 F12\nM2\n", 4)
        browser.press("\u2212", "#override button")
        browser.wait("ngc.state.percent === 90")
        browser.press("Run", "#run")
        browser.wait("ngc.state.half === 'none' && ngc.state.motors[0] > 0.1 && ngc.state.behind > 0")
        self.wait_for("the record has it", lambda: self.recorded().at_nm[0] > 100_000)
        self.power_comes_back()
        browser.wait("ngc.state.recover?.left")
        self.assertEqual(browser.js("ngc.state.half"), "none")
        browser.press("Recover", "#run")
        self.assertIn("Given back, as it was: feed 90 %.", browser.js("document.querySelector('#over .words')"
                                                                      ".textContent"))
        self.no_complaints()


class PowerOverPipe(InBrowser):
    """Power is lost with a pipe as OUT: what no motor carried out is never cut."""

    def test_never_cut(self) -> None:
        """It is red in both pictures, and said where the way is rehearsed."""
        browser = self.browser
        self.load(SHORT, SHORT.count("\n"))
        browser.press("Run", "#run")
        browser.wait("ngc.state.motors[0] > 0.05 && ngc.state.behind > 60")
        risk = browser.js("document.getElementById('risk').textContent")
        self.assertRegex(risk, r"^A loss of power costs [0-9]+ lines, 0\.[0-9]{3} mm$")
        self.power_comes_back()
        browser.wait("ngc.neverCut")
        browser.wait("document.querySelector('#over .bad')?.textContent.includes('NEVER CUT')")
        self.assertTrue(browser.js("ngc.picture.lost[0].length > 1 && !document.getElementById('never-cut').hidden"))
        log = "document.querySelector('#log .uncut')"
        browser.wait(f"{log}?.textContent.includes('NEVER CUT')")
        self.assertTrue(browser.js("document.getElementById('toast').hidden"))  # the sheet shows it
        self.look("what was never cut")
        browser.press("Next", "#over button")
        for _ in range(3):
            browser.press("Confirm", "#over button")
        browser.press("Next", "#over button")
        browser.wait("document.querySelector('#over details')")
        self.assertIn("Red in the picture. NEVER CUT", browser.js("document.querySelector('#over .bad').textContent"))
        self.look("a rehearsal of what was never cut")
        if os.environ.get("NGC_SHOT"):
            browser.shoot(os.environ["NGC_SHOT"])
        self.no_complaints()


if __name__ == "__main__":
    unittest.main()
