"""The pages of the walk by chance: tabs of one Chromium, what a person sees in them, and what comes of a touch."""
import time
from contextlib import suppress
from dataclasses import dataclass, field

from browser_support import Chromium, Failed
from session_support import PATIENCE_S

_WATCH = """(() => {
    window.walked = { posts: [], clicks: [] };
    const fetched = window.fetch;
    window.fetch = async (what, how) => {
        if (how?.method !== 'POST') return fetched(what, how);
        const post = { what, at: performance.now(), body: typeof how.body === 'string' ? how.body : '', ok: null,
            stamp: how.headers['X-Stamp'] ?? '' };
        window.walked.posts.push(post);
        try {
            const answer = await fetched(what, how);
            post.said = await answer.clone().text();
            post.heard = answer.headers.get('X-Stamp') ?? '';
            post.ok = answer.ok;
            return answer;
        } catch (error) { post.ok = false; post.said = String(error); throw error;
        } finally { post.answered = Date.now() / 1000; }
    };
    for (const kind of ['click', 'pointerdown']) {
        document.addEventListener(kind, event => {
            const button = event.target.closest?.('button, summary');
            window.walked.clicks.push({ kind, text: button?.textContent ?? '', at: event.timeStamp,
                id: button?.id ?? '' });
        }, true);
    }
})()"""
"""Notes what a page posts, what is answered, and what was touched. It changes nothing."""
_SEE = """(() => {
    if (!window.ngc?.state) return null;
    const s = ngc.state, shown = id => document.getElementById(id);
    const isSeen = one => one && one.checkVisibility();
    const text = one => isSeen(one) ? one.innerText.trim() : '';
    const over = shown('over');
    const buttons = [...document.querySelectorAll('button, summary')].filter(one => isSeen(one) && !one.disabled);
    const isFree = one => over.hidden || over.contains(one) || !one.closest('main');
    const entries = [...document.querySelectorAll('input:not([type=file])')].filter(one => isSeen(one)
        && !one.disabled && isFree(one));
    window.walked ??= { posts: [], clicks: [] };
    window.walked.buttons = buttons.filter(isFree);
    window.walked.rows = [...document.querySelectorAll('#program .row')].filter(one => isSeen(one) && isFree(one)
        && Number(one.dataset.number));
    window.walked.entries = entries;
    const group = one => one.closest('section.part')?.querySelector('h2')?.firstChild?.textContent ?? '';
    const isChosen = one => one.getAttribute('aria-selected') === 'true'
        || one.getAttribute('aria-pressed') === 'true' && !one.closest('.look, .confirm')
        || one.closest('.override') && one.textContent.trim().endsWith(' 100 %');
    const named = one => ({ text: one.textContent.trim() + (group(one) && ` @${group(one)}`), id: one.id,
        chosen: isChosen(one) || ['Fit', 'Top', '3-D', 'Read the macros'].includes(
            one.textContent), says: one.textContent.trim(),
        part: one.closest('.tab, nav, header, footer, '
        + '.path, .place, #over')?.id || one.closest('nav, header, footer, .path, .place')?.className || '',
        look: one.closest('.look') !== null, pressed: one.getAttribute('aria-pressed') ?? one.getAttribute(
        'aria-checked') ?? '', label: one.getAttribute('aria-label') ?? '' });
    const axes = [...document.querySelectorAll('.axis')];
    const gauge = i => text(document.querySelectorAll('#gauges dd')[i]);
    return {
        word: text(shown('word')), detail: text(shown('detail')), tone: document.body.dataset.tone,
        blind: document.body.classList.contains('blind'), place: text(shown('axes')),
        work: axes.map(one => text(one.querySelector('output'))),
        motors: axes.map(one => [...one.querySelectorAll('b')].slice(1).map(text).filter(Boolean).pop() ?? ''),
        units: axes.map(one => text(one.querySelector('small'))), risk: text(shown('risk')),
        feed: gauge(0), spindle: gauge(1), coolant: gauge(2), tool: gauge(3), modes: text(shown('modes')),
        share: text(shown('share')), left: text(shown('left')), toast: text(shown('toast')), sheet: text(over),
        isLost: isSeen(shown('lost')), header: text(document.querySelector('header')),
        looks: [...over.querySelectorAll('.look button')].map(one => one.getAttribute('aria-pressed')),
        goes: [...over.querySelectorAll('.foot button.go')].filter(isSeen).map(one => [one.textContent, !one.disabled]),
        log: [...document.querySelectorAll('#log li')].slice(0, 12).map(one => [one.className, one.textContent]),
        logs: document.querySelectorAll('#log li').length, wrong: document.querySelectorAll('input.wrong').length,
        buttons: window.walked.buttons.map(named), entries: entries.map(one => ({ ...named(one), value: one.value })),
        switches: Object.fromEntries(['single', 'optional', 'delete'].map(name => [name,
            shown(name).getAttribute('aria-checked')])),
        keys: document.body.classList.contains('keys'), wheel: ngc.keys.axis, steps: ngc.keys.jog.length !== null,
        rows: window.walked.rows.map(one => one.dataset.number),
        overrides: [...document.querySelectorAll('.override button:not(.tens)')].filter(isSeen).map(text),
        now: s.now, session: s.session, busy: s.busy, does: s.does, half: s.half, known: s.known, line: s.line,
        alarm: s.alarm ?? '', waits: Boolean(s.waits), waitsTool: s.waits_tool ?? 0, yours: s.yours, ended: s.ended,
        gone: s.player_gone, question: s.question, held: Boolean(s.held_motors), behind: s.behind ?? 0,
        broken: Boolean(s.broken), machine: s.machine ?? '', tools: s.tools, command: s.command?.word ?? '',
        inputs: s.inputs ?? [],
        touched: s.touched, past: s.past_mm, begun: s.place > 0 || s.half !== 'none',
        facts: { session: s.session, yours: s.yours, gone: s.player_gone, ended: s.ended, broken: s.broken,
            alarm: s.alarm, inputs: (s.inputs ?? []).join(), question: s.question?.id ?? 0, does: s.does, half: s.half,
            waits: s.waits ? s.waits_tool : '', known: s.known, busy: s.busy, held: Boolean(s.held_motors),
            behind: s.behind > 0, door: s.door_open, on: [s.spindle, s.mist, s.flood].join(), slot: s.slot,
            apart: [...s.apart, s.unsure].join(), program: s.program.id, stored: s.entries, can: s.can,
            left: Boolean(s.recover?.left), at: (s.motors ?? s.at).join(), holds: s.stamp.split('-')[1] },
        asks: window.walked.posts.some(post => post.ok === null),
        answered: Math.max(0, ...window.walked.posts.map(post => post.answered ?? 0)),
        posts: window.walked.posts.length, clicks: window.walked.clicks.length,
        clock: performance.now(),
    };
})()"""
"""What a person sees, and a little of what the server said, by which the walk decides where to go next."""
_DEAD_S = 2.0
"""A button may be dead for a second, after it came to mean something else."""
_FIND = """(() => {
    const one = window.walked?.%s?.[%d];
    if (!one?.isConnected || one.disabled || !one.checkVisibility()) return null;
    if (one.closest('[inert]')) return 'dead';
    one.scrollIntoView({ block: 'nearest' });
    const box = one.getBoundingClientRect(), x = box.x + box.width / 2, y = box.y + box.height / 2;
    const top = document.elementFromPoint(x, y);
    return one.contains(top) ? [x, y] : null;
})()"""


@dataclass
class Seen:
    """What a page showed at a moment of the monotonic clock."""

    at: float
    said: dict = field(repr=False)

    def __getattr__(self, name: str) -> object:
        try:
            return self.said[name]
        except KeyError:
            raise AttributeError(name) from None

    @property
    def runs(self) -> bool:
        """Whether the band says that the machine moves."""
        return self.said["tone"] == "run"

    @property
    def is_at_work(self) -> bool:
        """Whether a sheet says that somebody is at work on what it shows. A button that opens something says no such
        thing, though it ends in the same dots."""
        opening = {one["says"] for one in self.buttons}
        return any("\u2026" in line and line not in opening for line in self.sheet.split("\n"))

    @property
    def all_words(self) -> str:
        """All that stands where the person works: not what Log has alone."""
        return "\n".join(str(self.said[name]) for name in ("header", "toast", "sheet", "place", "share"))


class Tabs(Chromium):
    """One Chromium with several pages, one of which is used."""

    def __init__(self, path: str) -> None:
        super().__init__(path)
        self.sessions: list[tuple[str, str]] = []
        self._address = ""

    def add(self, address: str) -> None:
        """Opens one more page, and uses it."""
        self._address = address
        before, self._session = self._session, ""
        try:
            target = self.call("Target.createTarget", url="about:blank", newWindow=True)["targetId"]
            session = self.call("Target.attachToTarget", targetId=target, flatten=True)["sessionId"]
        except BaseException:
            self._session = before
            raise
        self._session = session
        self.sessions.append((target, session))
        for domain in ("Page", "Runtime", "Log", "DOM"):
            self.call(f"{domain}.enable")
        self.call("Page.addScriptToEvaluateOnNewDocument", source=_WATCH)
        self.size(1280, 800)
        self.open(address)

    def use(self, number: int) -> None:
        """Uses one of the pages."""
        self._session = self.sessions[number][1]
        self.call("Page.bringToFront")

    def drop(self, number: int) -> None:
        """Closes a page; another one is used."""
        target, _ = self.sessions.pop(number)
        self._session = ""
        self.call("Target.closeTarget", targetId=target)
        if self.sessions:
            self.use(0)

    def drop_all(self) -> None:
        """Closes all of them."""
        while self.sessions:
            self.drop(0)

    # what a person sees and touches

    def see(self) -> Seen:
        """What the page shows now. Raises Failed where it shows nothing."""
        until = time.monotonic() + PATIENCE_S
        while time.monotonic() < until:
            if (said := self._there(_SEE)) is not None:
                return Seen(time.monotonic(), said)
            self._load_again()
            time.sleep(0.02)
        raise Failed("the page shows nothing")

    def _there(self, expression: str) -> object:
        """The value of an expression; None while the page is loaded anew."""
        try:
            return self.js(expression)
        except Failed as error:
            if "navigat" not in str(error) and "context" not in str(error):
                raise
            return None

    def _load_again(self) -> None:
        """Where the server was gone as the page was loaded, the browser says so, and the person loads it again."""
        with suppress(Failed):  # as while it is loaded anew
            if self.js("location.protocol") == "chrome-error:":
                time.sleep(0.5)
                self.open(self._address)

    def find(self, kind: str, number: int) -> tuple[float, float] | None:
        """Where the middle of a button or an entry is, if it can be touched."""
        until = time.monotonic() + _DEAD_S
        while (found := self._there(_FIND % (kind, number))) == "dead" and time.monotonic() < until:
            time.sleep(0.1)
        return (found[0], found[1]) if found and found != "dead" else None

    def clock_offset(self) -> float:
        """What a time of the page's clock, in ms, is behind the monotonic clock, in s."""
        best = (9.0, 0.0)
        for _ in range(3):
            before = time.monotonic()
            said = self.js("performance.now()")
            after = time.monotonic()
            best = min(best, (after - before, (before + after) / 2 - said / 1000))
        return best[1]

    def posts(self, since: int) -> list[dict]:
        """What the page posted since so many."""
        return self._there(f"(window.walked?.posts ?? []).slice({since})") or []

    def clicks(self, since: int) -> list[dict]:
        """What was touched since so many."""
        return self._there(f"(window.walked?.clicks ?? []).slice({since})") or []
