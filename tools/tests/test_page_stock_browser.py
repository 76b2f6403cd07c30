"""The picture of the stock on the page: its sheet in each size, what it says and what a touch tells, before a job and
after a loss of power."""
import json
import sys
import unittest
from pathlib import Path

sys.path.insert(0, str(Path(__file__).resolve().parent))

import test_page_browser
from page_support import within_seconds
from test_page_units import INCHES

CROSSES = """G17 G21 G90 G94
G0 X10 Y10 Z5
G1 Z-2 F600
G1 X50
G0 Y30
G0 Z5
M2
"""
"""Its line 5 is a traverse 2 mm deep."""
HALF = "G17 G21 G90 G94\nG0 X0 Y0 Z0\nG1 Z-1 F600\nG1 X2 F3\nG1 Y2\nM2\n"
"""Its line 4 is a cut of 40 s, after one that is done at once, and before another one."""
VERDICT = "[...document.querySelectorAll('#over .words > div:first-child .warn')].map(one => one.textContent).join('|')"
TOUCHED = "document.querySelector('#over .stock-sight > p').textContent"
SPOT = """(() => {
    const { canvas, view } = ngc.stock.picture, m = view.map(canvas.clientWidth, canvas.clientHeight);
    const box = canvas.getBoundingClientRect(), [x, y] = %s;
    return [box.x + m[0] * x + m[3], box.y + m[5] * y + m[7]];
})()"""
COLOUR = """(() => {
    const { canvas, view } = ngc.stock.picture, m = view.map(canvas.clientWidth, canvas.clientHeight), [x, y] = %s;
    const at = [m[0] * x + m[3], m[5] * y + m[7]].map(px => -Math.round(px * devicePixelRatio));
    const one = document.createElement('canvas').getContext('2d');
    one.drawImage(canvas, ...at);
    return [...one.getImageData(0, 0, 1, 1).data].slice(0, 3);
})()"""
LONG = """(async () => {
    const { Job } = await import(new URL('job.js', document.baseURI));
    const steps = [], at = i => [i % 300 * 333, Math.floor(i / 300) * 1000, -1000 - i % 7 * 100];
    for (let i = 0; i < 30000; i++) steps.push({ n: i + 1, k: 'c', us: 1, p: [...at(i), ...at(i + 1)] });
    ngc.job = new Job({ steps, exact: true, refused: null });
})()"""
"""The job of a program of a mebibyte, 35 bytes a line."""
ASKED = """(async () => {
    const worker = () => ngc.stock.worker instanceof Worker;
    document.getElementById('stock').click();
    while (!worker()) await new Promise(done => setTimeout(done));
    while (worker() || !ngc.stock.picture.found) await new Promise(done => setTimeout(done, 10));
    return ngc.stock.picture.found.after.reduce((a, b) => Math.min(a, b));
})()"""
"""Asks for the picture, and waits until it is there: the lowest height in it."""
NEVER = """void (window.Worker = class {
    postMessage() {}
    terminate() { window.ended = true; }
})"""
"""A worker that doesn't get done."""
BLOB = """new Promise(done => {
    try {
        const worker = new Worker(URL.createObjectURL(new Blob(['postMessage(1)'])));
        Object.assign(worker, { onmessage: () => done('done'), onerror: () => done('refused') });
    } catch { done('refused'); }
})"""
"""Whether a worker of a page's own making is started."""


class InSheet(test_page_browser.InBrowser):
    """The page with the sheet of the stock."""

    def opened(self) -> None:
        """Opens the sheet, and waits for its picture."""
        self.browser.press("Stock", "#stock")
        self.drawn("document.querySelector('#over .facts')")

    def drawn(self, holds: str) -> None:
        """Waits until the stock is drawn, and something holds of it."""
        self.browser.wait(f"!ngc.stock.worker && ngc.stock.picture?.found && {holds}")

    def touch(self, x_mm: float, y_mm: float) -> str:
        """What is told where a finger comes down."""
        x, y = self.browser.js(SPOT % json.dumps([1000 * x_mm, 1000 * y_mm]))
        self.browser.down(x, y)
        self.browser.up(x, y)
        return str(self.browser.js(TOUCHED))

    def stock(self) -> str:
        """The corner, the size and the top in the entries, in mm."""
        return str(self.browser.js("[...document.querySelectorAll('#over .extents input')].map(one => one.value)"
                                   ".join()"))

    def keep(self, name: str, diameter: str) -> None:
        """Types a diameter, and keeps it."""
        self.browser.fill(f"input[aria-label='Diameter of {name}, in mm']", diameter)
        self.browser.press("Keep", "#over .shape button")


class Sheets(InSheet):
    """What there is to see of the stock."""

    def test_sheet(self) -> None:
        """A tool's diameter is asked once and kept; heights are told by touch, in the readout's unit too, and so is the
        line of a traverse that comes through."""
        browser = self.browser
        self.load(CROSSES, 7)
        self.opened()
        self.assertIn("No diameter is known of: T0.", browser.js(VERDICT))
        self.assertRegex(self.touch(30, 10), r"^X (30|29)\.\d{3}  Y (10|9)\.\d{3}  Z 0\.000 mm: not cut$")
        self.shoot("without")
        self.look("a tool without a diameter")
        self.assertGreater(min(browser.js(COLOUR % "[20000, 10000]")), 180)  # the path's line, over grey
        self.keep("T0", "6")
        browser.wait(f"{VERDICT}.startsWith('Red:')")
        self.assertEqual(browser.js(VERDICT), "Red: traverses come through the assumed stock, at line 5.")
        self.assertIn("[T0]\ndiameter_nm = 6000000\n", Path("first.shapes").read_text())
        # the cuts, 40 by 0 mm, and 3 mm around them, and 2.3: from 4.7, and from 4.7 to 15.3
        self.assertEqual(self.stock(), "4,4,52,12,0")
        for entry, number in (("Corner Y", "5"), ("Size Y", "30"), ("Top Z", "-0.5")):
            browser.fill(f"input[aria-label='{entry} of the stock, in mm']", number)
            browser.js("document.activeElement.blur()")
        self.drawn("document.querySelector('#over .facts')?.textContent.includes('typed')")
        said = browser.js("[...document.querySelectorAll('#over .facts dd')].map(one => one.textContent).join('|')")
        self.assertIn("X 4.000 to 56.000   Y 5.000 to 35.000   top Z \u22120.500 mm|as it was typed|Z \u22122.000 mm",
                      said)
        self.assertRegex(self.touch(30, 10), r"^X 30\.\d+  Y \d+\.\d+  Z \u22122\.000 mm: cut$")
        self.assertRegex(self.touch(50, 22), r"Z \u22122\.000 mm: the traverse of line 5 comes through$")
        self.assertRegex(self.touch(30, 22), r"Z \u22120\.500 mm: not cut$")
        red, green, blue = browser.js(COLOUR % "[50000, 25000]")
        self.assertGreater(red, 2 * max(green, blue))
        self.look("a stock")
        self.shoot("crosses")
        browser.press("Back", "#over button")
        browser.js(INCHES)
        self.opened()
        self.assertEqual(self.stock(), "4,5,52,30,-0.5")
        self.assertRegex(self.touch(30, 10), r"Z \u22120\.0787 in: cut$")
        self.assertIn("\u22120.0197", browser.js("document.querySelector('#over .kinds').textContent"))
        browser.press("As assumed", "#over button")
        self.drawn("document.querySelector('#over .facts')?.textContent.includes('assumed')")
        self.assertEqual(self.stock(), "4,4,52,12,0")
        self.no_complaints()

    def test_zero(self) -> None:
        """A stock that was typed is where the program's zero is, which may be told after it."""
        browser = self.browser
        self.load(CROSSES, 7)
        self.opened()
        browser.fill("input[aria-label='Top Z of the stock, in mm']", "0.25")
        browser.js("document.activeElement.blur()")
        self.drawn("document.querySelector('#over .facts')?.textContent.includes('typed')")
        stock = {"low": [8000, 8000], "size": [44_000, 4000], "top": 250}
        self.assertEqual(browser.js("ngc.stock.entries.stock"), stock)
        browser.press("Back", "#over button")
        browser.fill("#line", "G10 L2 P1 X5 Z1")
        browser.press("Do", "#do")
        browser.wait("ngc.job?.inForce[0].origin[0] === 5000")
        self.opened()
        self.assertEqual(self.stock(), "8,8,44,4,0.25")
        self.assertEqual(browser.js("ngc.stock.entries.stock"), stock | {"low": [13_000, 8000], "top": 1250})
        self.no_complaints()

    def test_typed(self) -> None:
        """What is no number, or no shape, is marked and not taken; a V asks for its angle."""
        browser = self.browser
        self.load(CROSSES, 7)
        self.opened()
        keeps = "!document.querySelector('#over .shape button:not(.choices button)').disabled"
        self.assertFalse(browser.js(keeps))
        for diameter, is_right in (("six", False), ("0", False), ("1001", False), ("6", True)):
            browser.fill("input[aria-label='Diameter of T0, in mm']", diameter)
            self.assertEqual(browser.js(f"[document.querySelectorAll('#over .shape input.wrong').length, {keeps}]"),
                             [int(not is_right), is_right], diameter)
        browser.press("V", "#over .choices button")
        self.assertFalse(browser.js(keeps))
        browser.fill("input[aria-label='Angle of T0, in degrees']", "60")
        self.look("a V")
        browser.press("Keep", "#over .shape button")
        browser.wait(f"{VERDICT}.startsWith('Red:')")
        self.assertIn('tip = "v"\nangle_deg = 60\n', Path("first.shapes").read_text())
        for number in ("", "wide", "-3"):
            browser.fill("input[aria-label='Size X of the stock, in mm']", number) if number else browser.js(
                "document.querySelector(\"input[aria-label='Size X of the stock, in mm']\").value = ''")
            browser.js("document.activeElement.blur()")
            browser.js("document.querySelector(\"input[aria-label='Size X of the stock, in mm']\")"
                       ".dispatchEvent(new Event('change'))")
            self.assertEqual(browser.js("[document.querySelectorAll('#over .extents .wrong').length,"
                                        " ngc.stock.entries.typed]"), [1, None], number)
        self.no_complaints()

    def test_cancel(self) -> None:
        """It is ended by its button, and by another sheet; then it can be drawn anew."""
        browser = self.browser
        self.load(CROSSES, 7)
        browser.js(f"window.real = Worker; {NEVER}")
        browser.press("Stock", "#stock")
        browser.press("Cancel", "#over .foot button")
        self.assertEqual(browser.js(f"[window.ended, {VERDICT}, ngc.stock.picture.found]"),
                         [True, "Cancelled. Draw anew begins again.", None])
        browser.js("window.ended = false")
        browser.press("Draw anew", "#over .foot button")
        self.assertFalse(browser.js("window.ended"))
        browser.press("Back", "#over .foot button")
        self.assertEqual(browser.js("[window.ended, ngc.stock.isOpen]"), [True, False])
        browser.js("window.Worker = real")
        self.opened()
        self.no_complaints()

    def test_long(self) -> None:
        """Of a program of a mebibyte the picture is there within five seconds after it was asked for."""
        browser = self.browser
        Path("first.shapes").write_text('[T0]\ndiameter_nm = 6000000\ntip = "flat"\n')
        self.load(CROSSES, 7)
        browser.wait("ngc.job?.exact")
        browser.js(LONG)
        with within_seconds(5):
            lowest_um = browser.js(ASKED)
        self.assertAlmostEqual(lowest_um, -1600)
        self.no_complaints()

    def test_policy(self) -> None:
        """No worker comes from anywhere but the server's own files."""
        self.assertEqual(self.browser.js(BLOB), "refused")

    def test_no_cut(self) -> None:
        """Of a program that cuts nothing no stock is shown, nor of none."""
        browser = self.browser
        self.assertTrue(browser.js("document.getElementById('stock').disabled"))
        self.load("G21 G90\nG0 X1\nM2\n", 3)
        browser.press("Stock", "#stock")
        browser.wait("document.querySelector('#over .warn')?.textContent === 'No line of this program cuts.'")
        self.assertIsNone(browser.js("ngc.stock.picture.found"))
        self.no_complaints()


class Power(InSheet):
    """Power is lost in a cut, with a file as OUT."""

    OUT = "out"
    TEXT = HALF

    def setUp(self) -> None:
        """Loses it, and opens the sheet of the stock in the session after that."""
        super().setUp()
        Path("first.shapes").write_text('[T0]\ndiameter_nm = 20000\ntip = "flat"\n')
        browser = self.browser
        self.load(self.TEXT, self.TEXT.count("\n"))
        browser.press("Run", "#run")
        browser.wait("ngc.state.motors[0] > 0.3")
        before = browser.js("ngc.state.session")
        self.pull()
        self.begin_again()
        browser.wait(f"ngc.state?.session && ngc.state.session !== '{before}' && ngc.job")
        browser.hurry()
        browser.press("Later", "#over button")
        self.opened()

    def said(self, *at_mm: float) -> list[str]:
        """What is told along the cut. What is told goes where it is drawn anew meanwhile: then it is touched again."""
        for x in at_mm:
            self.wait_for("a touch is told of", lambda x=x: "its height there" not in self.touch(x, 0))
        return [self.touch(x, 0).partition(": ")[2] for x in at_mm]

    def test_amid(self) -> None:
        """What is cut up to the place of the record, and what is still to be cut, in two colours; the stock so far, and
        after the job."""
        browser = self.browser
        self.assertRegex(browser.js("document.querySelector('#over .facts').textContent"), r"Cut so farat [\d:]{8} to"
                         r" line 4, as far in it as the motors are, by the player.s record, \u00b1 [\d.]+ mm$")
        self.assertEqual(self.said(0.1, 1.5, -0.5), ["cut", "still to be cut", "not cut"])
        self.assertRegex(self.touch(1.5, 0), r"Z \u22121\.000 mm: still to be cut$")
        self.assertRegex(self.touch(2, 1.5), r"Z \u22121\.000 mm: still to be cut$")
        self.touch(-0.5, -0.5)  # no ring lies on what is looked at
        cut, left = (browser.js(COLOUR % f"[{x}, 0]") for x in (150, 1600))
        self.assertEqual((cut[2] > cut[0], left[0] > left[2]), (True, True), (cut, left))  # blue, and amber
        self.look("a stock after a loss of power")
        self.shoot("amid")
        browser.press("So far", "#over .views button")
        self.assertRegex(self.touch(0.1, 0), r"Z \u22121\.000 mm: cut$")
        self.assertRegex(self.touch(1.5, 0), r"Z 0\.000 mm: still to be cut$")
        self.no_complaints()


class PowerOverPipe(Power):
    """The same with a pipe: some of it is never cut."""

    OUT = "axis"
    TEXT = "G17 G21 G90 G94\nG0 X0 Y0 Z0\nG1 Z-1 F600\n" + "".join(
        f"G1 X{hundredths / 100:.2f} F3\n" for hundredths in range(2, 120, 4)) + "M2\n"

    def test_amid(self) -> None:
        """That is shown as not cut, and said."""
        browser = self.browser
        browser.wait("ngc.neverCut && ngc.picture.lost.length")
        browser.press("Draw anew", "#over .foot button")
        self.drawn(f"{VERDICT}.includes('were handed out and never cut')")
        middle = browser.js("(points => points.reduce((sum, [x]) => sum + x, 0) / points.length / 1000)"
                            "(ngc.picture.lost.flat())")
        self.assertEqual(self.said(0.1, middle, 1.1), ["cut", "not cut", "still to be cut"])
        self.look("a stock of which some was never cut")
        self.shoot("pipe")
        self.no_complaints()


if __name__ == "__main__":
    unittest.main()
