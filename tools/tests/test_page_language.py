"""The page in German: no English word is left where people read, what is touched does the same, and back in English all
is as it was. In Chromium, or in Firefox where NGC_BROWSER says so."""
import json
import re
import sys
import unittest
from functools import cache
from pathlib import Path
from statistics import median

sys.path.insert(0, str(Path(__file__).resolve().parent))

import test_page_browser
from firefox_support import MISSING, PATH
from language_cases import CASES
from page_support import SLOW, slow_by

from ngc_tools.language import texts_of

SAID = """(() => {
    const out = [], walker = document.createTreeWalker(document.body, NodeFilter.SHOW_ELEMENT | NodeFilter.SHOW_TEXT,
        one => one.nodeType === 1 && (one.translate === false || one.matches('script'))
            ? NodeFilter.FILTER_REJECT : NodeFilter.FILTER_ACCEPT);
    while (walker.nextNode()) {
        const one = walker.currentNode;
        if (one.nodeType === 3) out.push(one.data);
        else for (const name of ['aria-label', 'title', 'placeholder', 'alt']) out.push(one.getAttribute(name) ?? '');
    }
    return out.map(one => one.trim()).filter(Boolean);
})()"""
"""All that people read on the page, but for what they wrote themselves."""
SAYS = """(async () => {
    const { say } = await import(new URL('language.js', document.baseURI));
    return %s.map(say);
})()"""
WIZARD = """(async () => {
    const { Recovery } = await import(new URL('recovery.js', document.baseURI));
    const state = { ...ngc.state, half: 'program', half_opened: 1, half_text: 'G1 X1 F100 (done)', segment: 3,
      given_back: ['block delete'], not_given_back: ['feed 80 %'], past: 'It may be 20 ms and a sync old: they make at'
        + ' most 3 lines of OUT, 0.1 mm, in 25 ms', past_mm: '0.1', left_at: ngc.state.now - 60 };
    const approach = { from: ['0', '0', '0'], to: ['1', '0', '-1'], length: '1.4', lowest: '-1', time: '1.0 s',
      rate: 'the traverse rate', warnings: ['It goes DOWN 1.000 mm, to Z -1.000, at the traverse rate.'] };
    const plan = { lines: ['half-done: line 3: G1 X1', 'segment 3, counted from 0: X 1.000 Y 0.000 Z 0.000'], approach,
      comes_on: 'the spindle, clockwise at 1000', rest_us: 1e6, begins: ['1', '0', '-1'], refused: '' };
    window.wizard = new Recovery({ ...ngc, state }, async () => plan, { since: () => [] });
    wizard.begin();
})()"""
"""The steps after a loss of power, as of a session in which a line is half-done."""
TIMED = """void (window.took = [], (parse => {
    JSON.parse = text => {
        const begun = performance.now(), found = parse(text);
        const over = () => took.push(performance.now() - begun);
        if (found?.stamp) queueMicrotask(() => queueMicrotask(over)); // behind observers of what changed
        return found;
    };
})(JSON.parse))"""
"""Takes down how long each state takes until it is shown, in ms."""
CHANGE_AND_STOP = """G17 G21 G90 G94
G0 X0.1
T1 M6
G0 X0
M0 (MSG, turn the part, and clamp it as deep as the drawing says)
M2
"""
OWN = {"ngc", "split", "adapt", "out", "arc", "yes", "run", "load", "recover"}
"""Names and commands, which are the same in each language."""


def words_of(text: str) -> set[str]:
    """The words of a text, written small; those of one letter or in large letters are codes."""
    return {one.lower() for one in re.findall(r"(?<![A-Za-z.'\u2019-])[A-Za-z][a-z]+(?![A-Za-z-]|\.\w)", text)}


@cache
def english_words() -> set[str]:
    """The words that English texts have, and German ones don't."""
    texts = texts_of("de")
    return set().union(*map(words_of, texts)) - set().union(*map(words_of, texts.values())) - OWN


class InGerman(test_page_browser.InBrowser):
    """The page in German."""

    def setUp(self) -> None:
        """It is chosen there."""
        super().setUp()
        self.addCleanup(lambda: self.browser.js("void localStorage.removeItem('language')"))
        self.english = english_words()
        self.browser.press("Setup", "nav button")
        self.before = self.browser.wait(f"document.querySelector('#tab-setup [lang]') && {SAID}")
        self.browser.press("Deutsch", "#tab-setup button")
        self.browser.wait("document.documentElement.lang === 'de'")

    def is_german(self, where: str) -> None:
        """No word that people read there is English."""
        self.browser.frame()
        left = [(text, found) for text in self.browser.js(SAID) if (found := words_of(text) & self.english)]
        self.assertEqual(left, [], where)


@unittest.skipUnless(PATH, MISSING)
class Runs(InGerman):
    """A program runs: what is touched does the same, the band says it in German, and as quickly."""

    def load(self, text: str, count: int) -> None:
        """By the German button."""
        self.choose(text)
        self.browser.wait("ngc.preview?.count")
        self.browser.press("Laden", "#over .go")
        self.browser.wait(f"ngc.state.program.lines === {count} && ngc.job && !ngc.state.busy")

    def says(self, word: str) -> None:
        """What the band says, in one word; all else is German too."""
        self.is_german(word)
        self.assertEqual(self.browser.js("document.getElementById('word').textContent"), word)

    def test_run(self) -> None:
        """Run, Hold, Continue, Stop; each state of a job that runs is shown as quickly as in English."""
        browser = self.browser
        self.load(SLOW, 4)
        self.is_german("a program")
        browser.press("Start", "#run")
        browser.wait("ngc.state.line === 3 && ngc.state.half === 'program'")
        self.is_quick()
        self.says("L\u00e4uft")
        browser.press("Halt", "#hold")
        browser.wait("ngc.state.does === 'held' && !ngc.state.busy")
        self.says("Angehalten")
        browser.press("Weiter", "#run")
        browser.wait("ngc.state.does === 'running'")
        self.says("L\u00e4uft")
        browser.press("Stopp", "#stop")
        browser.wait("ngc.state.question")
        self.says("Frage")
        browser.press("Ja", "#over .foot button")
        browser.wait("!ngc.state.question && !ngc.state.busy")
        self.is_german("it is stopped")
        self.no_complaints()

    def test_change(self) -> None:
        """A change of tools, a message of the program, and its end."""
        browser = self.browser
        browser.press("Werkzeuge", "nav button")
        browser.fill("#tab-tools input[aria-label='L\u00e4nge von Werkzeug 1']", "50")
        browser.press("Neu", "#tab-tools button")
        browser.wait("ngc.state.tools.length === 1 && !ngc.state.busy")
        self.is_german("a tool")
        self.load("G17 G21 G90 G94\nT1 M6\nG0 X0.1\nM0 (MSG, turn the part)\nG0 X0\nM2\n", 6)
        browser.press("Start", "#run")
        browser.wait("ngc.state.waits && ngc.state.waits_tool === 1")
        self.says("Werkzeugwechsel")
        browser.press("Werkzeug 1 eingesetzt", "#run")
        browser.wait("ngc.state.does === 'stopped' && !ngc.state.busy && !ngc.state.behind")
        self.says("Gestoppt")
        self.assertEqual(browser.js("document.getElementById('detail').textContent"), "turn the part")
        browser.press("Weiter", "#run")
        browser.wait("ngc.state.finished && !ngc.state.busy")
        self.is_german("its end")
        self.no_complaints()

    def is_quick(self) -> None:
        """To show a state takes less than 3 ms of a machine that has time for it, by the median, while numbers change
        in each of them."""
        browser, slowness = self.browser, [1.0]
        browser.js(TIMED)
        while (count := browser.js("took.length")) < 30:
            slowness.append(slow_by())
            browser.wait(f"took.length > {count + 5}")
        took_ms = browser.js("took")
        self.assertLess(median(took_ms), 3 * max(slowness), took_ms)


class Whole(test_page_browser.InBrowser):
    """In both languages: whatever the machine does, the text of each button is whole, and on a tablet and a phone,
    upright, Hold is on the screen and nothing lies over anything."""

    OUT = "out"
    MACHINE = test_page_browser.Held.MACHINE

    def setUp(self) -> None:
        """The page is left in English, and as large as it was."""
        super().setUp()
        self.addCleanup(self.speaks, "en")
        self.addCleanup(self.browser.size, *test_page_browser.SIZES[0])

    def fits(self, what: str) -> None:
        """It does so now; what is told beside the last touch goes first, as by another touch."""
        self.browser.js("void (document.getElementById('toast').hidden = true)")
        for language in ("de", "en"):
            self.speaks(language)
            for width, height in test_page_browser.UPRIGHT:
                self.browser.size(width, height)
                self.assertEqual(self.browser.js(test_page_browser.OVER), [], (what, language, width))
            for width, height in test_page_browser.SIZES:
                self.browser.size(width, height)
                self.assertEqual(self.browser.js(test_page_browser.SIGHT), [], (what, language, width))
        self.browser.size(*test_page_browser.SIZES[0])

    def test_job(self) -> None:
        """At rest, in a cut with all on, held, where Stop asks, at a tool change, at a stop with a long message,
        through, and setting up with a tool in the spindle."""
        browser = self.browser
        self.fits("idle")
        self.load("M3 S1000 M8\n" + SLOW, 5)
        self.fits("loaded")
        browser.press("Run", "#run")
        browser.wait("ngc.state.line === 4 && ngc.state.half === 'program' && ngc.state.spindle && ngc.state.flood")
        self.fits("running")
        browser.press("Hold", "#hold")
        browser.wait("ngc.state.held_motors && !ngc.state.busy")
        self.fits("held")
        browser.press("Stop", "#stop")
        browser.wait("ngc.state.question && document.querySelector('#over .asked')")
        self.fits("Stop asks")
        browser.press("Yes: gives it up", "#over .go")
        browser.wait("!ngc.state.busy && ngc.state.half === 'none' && document.getElementById('over').hidden")
        self.fits("stopped")
        browser.press("Tools", "nav button")
        browser.fill("#tab-tools input[aria-label='Length of tool 1']", "50")
        browser.press("Add", "#tab-tools button")
        browser.wait("ngc.state.tools.length === 1 && !ngc.state.busy")
        self.load(CHANGE_AND_STOP, CHANGE_AND_STOP.count("\n"))
        browser.press("Run", "#run")
        browser.wait("ngc.state.waits && ngc.state.waits_tool === 1")
        self.fits("a tool change")
        browser.press("Tool 1 is in", "#run")
        browser.wait("ngc.state.does === 'stopped' && !ngc.state.busy && ngc.state.message")
        self.fits("a message")
        browser.press("Continue", "#run")
        browser.wait("ngc.state.finished && !ngc.state.busy")
        self.fits("through")
        browser.press("Setup", "nav button")
        self.fits("a tool is in the spindle")

    def test_loss(self) -> None:
        """The four steps after a loss of power, what is to be seen before it goes there, and a player that is gone."""
        browser = self.browser
        self.load("M3 S1000 M8\n" + SLOW, 5)
        browser.press("Run", "#run")
        browser.wait("ngc.state.line === 4 && ngc.state.motors[0] > 0.05")
        self.wait_for("the record has it", lambda: self.recorded().at_nm[0] > 0)
        self.power_comes_back()
        browser.goes_on()
        browser.wait("document.querySelector('#over .facts')?.textContent.includes('It begins at')")
        self.fits("what was stored")
        browser.press("Next", "#over button")
        for _ in "XYZ":
            browser.press("Confirm", "#over button")
        self.fits("where it stands")
        browser.press("Next", "#over button")
        browser.wait("document.querySelector('#over details')")
        self.fits("the rehearsal")
        browser.press("Next", "#over button")
        self.fits("the choice")
        browser.press("Go along the path", "#over button")
        browser.wait("ngc.state.question && document.querySelector('#over .asked')")
        self.fits("what comes on")
        browser.press("Yes", "#over .go")
        browser.wait("document.querySelectorAll('#over .look button').length === 3")
        self.fits("the look")
        browser.press("No", "#over .foot button")
        browser.wait("!ngc.state.busy && !ngc.state.question")
        self.player.kill()
        browser.wait("ngc.state.word === 'Player gone'")
        self.fits("the player is gone")


class WholeAlarm(Whole, test_page_browser.Moves):
    """The player is in this process."""

    OUT = "axis"
    MACHINE = ""
    test_job = test_loss = test_setup = test_axis_without_home = test_ended_in_an_alarm = None

    def test_alarm(self) -> None:
        """The way back, with what has to be free; the same put off; an axis that isn't homed; homed, and each tab."""
        browser, axes = self.browser, self.machine.axes
        axes.switches, axes.home_at[1] = "XZ", 0
        axes.alarm("limits")
        browser.wait("ngc.state.word === 'ALARM' && document.querySelector('#over .go')")
        self.fits("an alarm")
        browser.press("Back", "#over .foot button")
        self.fits("an alarm that is put off")
        browser.press("Home all", "#run")
        browser.press("Home", "#over .go")
        browser.wait("ngc.state.left === 'Y' && !ngc.state.busy")
        browser.press("Where is Y?", "#run")
        self.fits("an axis that isn't homed")
        browser.fill("input[aria-label='Machine Y']", "0")
        browser.press("It stands there", "#over button")
        browser.wait("ngc.state.alarm === '' && ngc.state.word === 'Idle'")
        for tab in ("setup", "tools", "log", "program"):
            browser.js(f"document.querySelector('[data-tab={tab}]').click()")
            self.fits(tab)


@unittest.skipUnless(PATH, MISSING)
class German(InGerman, test_page_browser.Moves):
    """The player is in this process."""

    JOBS = "programs"
    test_setup = test_axis_without_home = test_ended_in_an_alarm = None

    def begin_player(self) -> None:
        """A folder of programs is there too."""
        Path("programs").mkdir(exist_ok=True)
        Path("programs", "left.ngc").write_text("G17 G21 G90 G94\nG0 X1\nM2\n")
        super().begin_player()

    def test_tabs(self) -> None:
        """Each tab, and what stands beside them."""
        for name in ("R\u00fcsten", "Werkzeuge", "Log", "Programm"):
            self.browser.press(name, "nav button")
            self.is_german(name)
        self.no_complaints()

    def test_sizes(self) -> None:
        """In each size all is in the window, large enough and whole, as in English."""
        for name in ("R\u00fcsten", "Werkzeuge", "Log", "Programm"):
            self.browser.press(name, "nav button")
            self.look(name)

    def test_offsets(self) -> None:
        """The offsets, each of them chosen."""
        browser = self.browser
        browser.press("Nullpunktverschiebungen", "#tab-setup button")
        for name in ("G54", "G92", "L\u00e4nge"):
            browser.press(name, "#over .offsets button")
            self.is_german(name)
        browser.press("Zur\u00fcck", "#over button")
        self.no_complaints()

    def test_alarm(self) -> None:
        """An alarm, and the way back."""
        browser = self.browser
        self.machine.axes.alarm("emergency_stop")
        browser.wait("ngc.state.word === 'ALARM' && !document.getElementById('over').hidden")
        self.is_german("an alarm")
        self.machine.axes.release()
        browser.press("Referenzfahrt", "#over .go")
        browser.wait("ngc.state.alarm === '' && ngc.state.word === 'Idle'")
        self.is_german("after it")
        self.no_complaints()

    def test_findings(self) -> None:
        """What is refused, what is warned of, what is adapted; a question; a line that is refused."""
        browser = self.browser
        self.choose("G1 X1 Q2 F10 G41\nM0\nX1\n(left)\n")
        self.is_german("findings")
        self.assertIn("Q2", browser.js("document.querySelector('#over pre').textContent"))
        browser.press("Trotzdem", "#over button")
        browser.wait("ngc.state.question && document.querySelector('#over .asked')")
        self.is_german("a question")
        browser.press("Nein", "#over button")
        browser.wait("!ngc.state.question && document.getElementById('over').hidden")
        browser.fill("#line", "G1 Q1")
        browser.press("Ausf\u00fchren", "#do")
        browser.wait("document.querySelector('#toast p')")
        self.is_german("a refusal")
        browser.press("Log", "nav button")
        self.is_german("what was said")
        self.no_complaints()

    def test_jobs(self) -> None:
        """The folder of programs, a program of it, the stock, the record of runs."""
        browser = self.browser
        browser.press("Laden", "#load")
        browser.wait("document.querySelector('.jobs button')")
        self.assertIn("left.ngc", browser.js("document.querySelector('.jobs b').textContent"))
        self.is_german("the folder")
        browser.press("left.ngc", ".jobs button")
        browser.wait("ngc.preview?.count && document.querySelectorAll('#over .foot button').length > 1")
        self.is_german("a program")
        browser.press("Laden", "#over .go")
        browser.wait("ngc.state.program.lines === 3 && ngc.job && !ngc.state.busy")
        browser.press("Rohteil", "#stock")
        browser.wait("document.querySelector('#over .warn')")
        self.is_german("the stock")
        browser.press("Zur\u00fcck", "#over button")
        browser.press("Log", "nav button")
        browser.press("Liste der L\u00e4ufe", "#runs")
        browser.wait("document.querySelector('#over pre')")
        self.is_german("the record")
        self.no_complaints()

    def test_recovery(self) -> None:
        """The steps after a loss of power."""
        browser = self.browser
        browser.js(WIZARD)
        browser.wait("wizard.stored")
        self.is_german("what was stored")
        self.assertEqual(browser.js("document.querySelector('#over .lead').textContent"), "G1 X1 F100 (done)")
        browser.press("Weiter: wo sie steht", "#over button")
        for _ in range(3):
            browser.press("Best\u00e4tigen", "#over .confirm button")
        self.is_german("where it stands")
        browser.press("Weiter: Probelauf", "#over button")
        browser.wait("wizard.plan")
        self.is_german("a rehearsal")
        browser.press("Weiter: Schritt f\u00fcr Schritt", "#over button")
        self.is_german("step by step")
        browser.press("Aufgeben", "#over button")
        self.is_german("giving up")
        browser.js("wizard.close()")
        self.no_complaints()

    def test_jog(self) -> None:
        """A jog, and a hold of it: what is touched does the same; the band says it in German."""
        browser = self.browser
        browser.press("Ref. alle", "#tab-setup button")
        browser.wait("ngc.state.homed === 'XYZ' && !ngc.state.busy")
        self.is_german("homed")
        browser.wait("ngc.state.can.jog && !document.querySelector('.pad .right').matches(':disabled, [inert] *')")
        x, y = browser.place("X+", ".pad button")
        browser.down(x, y)
        self.wait_for("it goes on while the finger is down", lambda: self.jogs() > 3)
        self.is_german("a jog")
        self.assertEqual(browser.js("document.getElementById('word').textContent"), "Handfahrt")
        browser.space()
        browser.wait("!ngc.state.busy")
        browser.up(x, y)
        self.is_german("after a hold")
        self.no_complaints()

    def test_back(self) -> None:
        """In English all is as it was; a page that is loaded anew is in the language that was chosen."""
        browser = self.browser
        browser.press("English", "#tab-setup button")
        browser.wait("document.documentElement.lang === 'en'")
        browser.frame()
        self.assertEqual(browser.js(SAID), self.before)
        browser.press("Deutsch", "#tab-setup button")
        browser.wait("document.documentElement.lang === 'de'")
        browser.open(self.address)
        browser.wait("window.ngc?.state?.yours")
        self.assertEqual(browser.js("document.documentElement.lang"), "de")
        self.is_german("loaded anew")
        self.no_complaints()

    def test_says(self) -> None:
        """Both engines say the same."""
        self.assertEqual(dict(zip(CASES, self.browser.js(SAYS % json.dumps(list(CASES))))), CASES)

    def test_asked(self) -> None:
        """What is answered to a page that asks for texts: the first of its languages, else English; nobody without the
        key."""
        page = self.page("another-page")
        for wishes, name in (("de", "de"), ("de-DE,en", "de"), ("fr,de", "de"), ("en-GB,de", "en"), ("xx", "en"),
                             ("", "en"), ("../de", "en"), ("%00", "en")):
            status, body, headers = page.get(f"texts?language={wishes}")
            answer = json.loads(body)
            self.assertEqual((status, answer["language"], answer["languages"]), (200, name, {
                "en": "English", "de": "Deutsch"}), wishes)
            self.assertEqual(answer["texts"], texts_of("de") if name == "de" else {})
            self.assertEqual((headers["Cache-Control"], headers["Content-Type"]), ("no-store", "application/json"))
        page.key = "x" * len(page.key)
        self.assertEqual(page.get("texts?language=de")[0], 404)


if __name__ == "__main__":
    unittest.main()
