#!/usr/bin/env python3
"""Finds the texts that page and console show, in the code: `texts.py --write` brings ngc_tools/texts/en.toml up to
date, puts the other languages into its order, and says what they miss.

In Python those are strings that read as words, in the modules that page and console import; in JavaScript the same, and
what index.html says. What is put into a string is a place, {1}, {2}; a choice between two strings within one gives two
texts. What no person reads is left out by where it stands, or by name below."""
import ast
import re
import sys
from collections.abc import Iterable, Iterator
from html.parser import HTMLParser
from itertools import product
from pathlib import Path

sys.path.insert(0, str(Path(__file__).resolve().parent.parent))
# pylint: disable=wrong-import-position
from ngc_tools.language import ENGLISH, TEXTS, languages, texts_of
from ngc_tools.page.words import page_words
from tests.texts_js import texts_of_script

TOOLS = Path(__file__).resolve().parent.parent / "ngc_tools"
STATIC = TOOLS / "page" / "static"
PLACE = "\0"
MOST = 24  # choices within one string

BEGINNINGS = ("cli/operate.py", "cli/page.py")
NOT_SHOWN = {
    "cli/machine.py", "cli/run.py", "disk/records.py", "files.py", "formats/canonical.py", "formats/kept_device.py",
    "formats/machine.py", "formats/out_note.py", "formats/record.py", "job/marks.py", "job/parts_compared.py",
    "job/picture.py", "job/split.py", "job/svg.py", "job/thumbnail.py", "job/timing.py", "language.py",
    "link/machine.py", "ngc/copies.py", "ngc/machine_report.py", "ngc/pacing.py", "ngc/settings_report.py",
    "ngc/worlds.py", "page/http.py", "page/start_player.py", "page/websocket.py", "scratch.py", "version.py"}
"""Modules of which no person reads a string here, or at the start of a program alone."""
UNREAD_CALLS = {
    "startswith", "endswith", "removeprefix", "removesuffix", "compile", "encode", "decode", "replace", "split", "get",
    "partition", "rpartition", "getattr", "fullmatch", "match", "sub", "search", "console.ask", "_go", "_read", "taken",
    "give", "tell", "scratch_file", "zip", "open", "add_argument", "new_parser", "import_module", "busy", "hasattr",
    "_stored", "begins", "_line_done", "enumerate", "forbids", "resolve", "_command", "readlink", "Path", "post",
    "namedtuple", "head_of", "told", "get_extra_info"}
"""What a string is given to there isn't for people."""
UNREAD_NAMES = {"ABOUT", "EXAMPLE", "__all__", "_LIMITS_TEXT", "description", "epilog", "help", "metavar", "prog"}
WORDS = {"stands", "clockwise", "counter-clockwise", "mist", "flood", "held", "moving", "moves", "alarm", "limits",
         "longer", "shorter", "inches", "millimetres", "cut", "cuts", "done", "about", "yes", "no", "this"}
"""Words that stand alone, and are shown."""
UNREAD_WORDS = {"Operator", "Connection", "Server", "Setter", "Touches", "Typed", "Loss", "Stamp", "Recorded"}
_WORD = re.compile(r"[A-Za-z][a-z'\u2019-]+")
_CODE = re.compile(r"\\[dSwsn]|=\"|\(\?|\[\^|^<|'self'|^\s*\{\"|\\r|^[a-z_]+/[a-z]+|^\W*$|max-age|rw[-x]")
_FIELD = re.compile(r"\{[a-z_]*(?::[^{}]*)?\}|\\[1-9]")
_YES = re.compile(r"\s*\byes ([^:;,.]+)(?:, Enter holds)?(?:[,;] anything else ([^:]+))?:\s*$", re.IGNORECASE)
_GO = re.compile(r", and type go; anything else ([^:]+):\s*$")


def modules() -> list[str]:
    """The modules that page and console import, each as `operator/face.py`."""
    found, todo = set(), list(BEGINNINGS)
    while todo:
        name = todo.pop()
        if name in found:
            continue
        found.add(name)
        todo += _imported(ast.parse((TOOLS / name).read_text()))
    return sorted(found)


def _imported(tree: ast.Module) -> Iterator[str]:
    for node in ast.walk(tree):
        if not isinstance(node, ast.ImportFrom) or not (node.module or "").startswith("ngc_tools"):
            continue
        path = "/".join(node.module.split(".")[1:])
        for one in (path, *(f"{path}/{alias.name}" for alias in node.names)):
            if (TOOLS / f"{one}.py").is_file():
                yield f"{one}.py".lstrip("/")


class PythonTexts(ast.NodeVisitor):
    """Gathers the strings of a module that read as words."""

    def __init__(self) -> None:
        self.found: list[str] = []

    # pylint: disable=invalid-name

    def visit_Expr(self, node: ast.Expr) -> None:
        """Not a docstring."""
        if not isinstance(node.value, ast.Constant):
            self.visit(node.value)

    def visit_Constant(self, node: ast.Constant) -> None:
        """A string."""
        if isinstance(node.value, str):
            self._add(node)

    def visit_JoinedStr(self, node: ast.JoinedStr) -> None:
        """One with places."""
        self._add(node)

    def visit_BinOp(self, node: ast.BinOp) -> None:
        """Strings that are put together."""
        if isinstance(node.op, ast.Add) and _is_string(node):
            self._add(node)
        else:
            self.generic_visit(node)

    def visit_Compare(self, node: ast.Compare) -> None:
        """What is compared with isn't shown."""
        self._within(node.left, *node.comparators)

    def visit_Subscript(self, node: ast.Subscript) -> None:
        """A key isn't shown."""
        self.visit(node.value)
        self._within(node.slice)

    def visit_Dict(self, node: ast.Dict) -> None:
        """Nor are those of a dictionary."""
        self._within(*(key for key in node.keys if key))
        for value in node.values:
            self.visit(value)

    def visit_MatchValue(self, node: ast.MatchValue) -> None:
        """Nor is what is matched."""

    def visit_arg(self, node: ast.arg) -> None:
        """Nor are annotations."""

    def visit_AnnAssign(self, node: ast.AnnAssign) -> None:
        """The same."""
        if node.value:
            self.visit(node.value)

    def visit_FunctionDef(self, node: ast.FunctionDef) -> None:
        """The same."""
        for one in (*node.args.defaults, *(one for one in node.args.kw_defaults if one), *node.body):
            self.visit(one)

    visit_AsyncFunctionDef = visit_FunctionDef

    def visit_Assign(self, node: ast.Assign) -> None:
        """The help of the command line is in English."""
        names = {one.id for one in node.targets if isinstance(one, ast.Name)}
        if not names & UNREAD_NAMES:
            self.visit(node.value)

    def visit_Call(self, node: ast.Call) -> None:
        """Strings that are given to somebody."""
        called = ast.unparse(node.func)
        is_unread = called.split(".")[-1] in UNREAD_CALLS or ".".join(called.split(".")[-2:]) in UNREAD_CALLS
        self.visit(node.func)
        for one in node.args:
            self._within(one) if is_unread else self.visit(one)
        for one in node.keywords:
            self._within(one.value) if is_unread or one.arg in UNREAD_NAMES else self.visit(one.value)

    def _within(self, *nodes: ast.expr) -> None:
        """Looks into what isn't shown itself."""
        for node in nodes:
            if isinstance(node, ast.JoinedStr):
                for value in node.values:
                    self._inner(value)
            elif not isinstance(node, ast.Constant):
                self.generic_visit(node) if isinstance(node, ast.Tuple | ast.List | ast.Set) else self.visit(node)

    def _inner(self, value: ast.expr) -> None:
        if isinstance(value, ast.FormattedValue):
            self.visit(value.value)

    def _add(self, node: ast.expr) -> None:
        self.found += templates(node, self)


def _is_string(node: ast.expr) -> bool:
    if isinstance(node, ast.BinOp):
        return _is_string(node.left) or _is_string(node.right)
    return isinstance(node, ast.JoinedStr) or isinstance(node, ast.Constant) and isinstance(node.value, str)


def templates(node: ast.expr, visitor: PythonTexts) -> list[str]:
    """What a string may be, with PLACE for what is put in; `visitor` is shown that."""
    if isinstance(node, ast.Constant) and isinstance(node.value, str):
        return [_FIELD.sub(PLACE, node.value)]
    if isinstance(node, ast.JoinedStr):
        return _together([_part(value, visitor) for value in node.values])
    if isinstance(node, ast.BinOp) and isinstance(node.op, ast.Add):
        return _together([templates(node.left, visitor), templates(node.right, visitor)])
    if isinstance(node, ast.IfExp) and _is_string(node.body) and _is_string(node.orelse):
        visitor.visit(node.test)
        return templates(node.body, visitor) + templates(node.orelse, visitor)
    visitor.visit(node)
    return [PLACE]


def _part(value: ast.expr, visitor: PythonTexts) -> list[str]:
    if isinstance(value, ast.FormattedValue):
        return templates(value.value, visitor)
    return [_FIELD.sub(PLACE, value.value)]


def _together(parts: list[list[str]]) -> list[str]:
    count = 1
    for part in parts:
        count *= len(part)
    if count > MOST:
        parts = [part if len(part) == 1 else [PLACE] for part in parts]
    return ["".join(one) for one in product(*parts)]


def numbered(text: str) -> str:
    """The same with {1}, {2} for its places; places side by side are one."""
    count = 0

    def number(_: re.Match[str]) -> str:
        nonlocal count
        count += 1
        return f"{{{count}}}"

    return re.sub(f"{PLACE}+", number, text.strip())


def is_text(text: str) -> bool:
    """Whether it reads as words."""
    plain = text.replace(PLACE, " ").strip()
    if _CODE.search(text) or not _WORD.search(plain):
        return False
    return re.search(r"\s", text.strip()) is not None or PLACE in text and len(plain) > 3 or plain in WORDS


def _texts_of_module(name: str) -> Iterator[str]:
    visitor = PythonTexts()
    visitor.visit(ast.parse((TOOLS / name).read_text()))
    is_page = name.startswith("page/")
    is_core = name.startswith(("operator/", "ngc/", "link/")) and name != "operator/commands.py"
    for text in visitor.found:
        if name == "page/words.py" and text.count(PLACE) < 2:
            continue  # they stand in the texts that they change
        is_word = is_page and re.fullmatch(r"[A-Z][a-z]+(-[a-z]+)?", text) and text not in UNREAD_WORDS
        if is_word or is_text(text):
            yield text
            yield from _parts_of_question(text)
            if is_core and page_words(text) != text:
                yield page_words(text)
                yield from _parts_of_question(page_words(text))


def _parts_of_question(text: str) -> Iterator[str]:
    """What the page says of a question beside its text: what its answers do, as question.js reads it."""
    whole = text.replace("\n", " ")
    tool = _GO.search(whole)
    found = tool or _YES.search(whole)
    if not found:
        return
    parts = (whole[:found.start()], *(tool.groups() if tool else found.groups()))
    yield from (part for part in parts if part and _WORD.search(part))


class _Words(HTMLParser):
    """The words of a page."""

    def __init__(self) -> None:
        super().__init__()
        self.found: list[str] = []
        self.is_script = False

    def handle_starttag(self, tag: str, attrs: list[tuple[str, str | None]]) -> None:
        """Those of attributes."""
        read = ("aria-label", "title", "placeholder", "alt")
        self.found += [value for name, value in attrs if value and name in read]

    def handle_data(self, data: str) -> None:
        """Those of elements."""
        if _WORD.search(data):
            self.found.append(data.strip())


def texts() -> dict[str, list[str]]:
    """All texts, by the file in which each stands first."""
    seen: set[str] = set()
    found: dict[str, list[str]] = {}
    for name, all_of_it in _all():
        for one in map(numbered, all_of_it):
            plain = " ".join(one.split())
            if plain in seen or NOT_TEXTS.fullmatch(one) or not _WORD.search(re.sub(r"\{\d+\}", " ", one)):
                continue
            seen.add(plain)
            found.setdefault(name, []).append(one)
    return found


def _all() -> Iterator[tuple[str, Iterable[str]]]:
    yield "language.py", ["and", *ALSO]
    words = _Words()
    words.feed((STATIC / "index.html").read_text())
    yield "page/static/index.html", words.found
    for path in sorted(STATIC.glob("*.js")):
        yield f"page/static/{path.name}", texts_of_script(path.read_text())
    for name in modules():
        if name not in NOT_SHOWN:
            yield name, _texts_of_module(name)


_UNREAD = (
    # of the page's own working
    r"ngc", r"(button|input), .*", r"rgb.*", r"translate.*", r"@ (scale|rotate).*", r"(beat|hold|held) @", r"http:.*",
    r"import sys;.*", r"%Y.*", r"@\.@\..*", r"@:@ (min|mm).*", r"/proc/.*", r"texts\?.*", r"script, style",
    # commands, of ngc, the player and the console
    r"(mdi|anyway mdi|refused|tick|reference|single|units|resume|percent|switch|along|measures|jog|zero|touch) @",
    r"delete on", r"waits spindle", r"ticks \d+", r"restore types: @", r"mdi [GT].*", r"tick \d+", r"zero X Y Z",
    r".*refused [A-Z]\d.*", r"ngc-.* arc", r"(load|mdi|tool|tick|reference) ([A-Z]|LINE|G0 X1|X Y Z|[-\d. ]+)",
    r"(along|straight|legs|jog|@) @ (@ )?(@ )?(feed|within|for|anyway) @", r"(legs|tool) @ @( @)?",
    r"reference (@ anyway|player)", r"(optional|delete) (on|off)", r"(measures|single|optional|delete) on, off",
    r"(load FILE|percent N|from N|tool N LENGTH|macro NAME|units in|touch tool N|probe edge X\+|spindle percent N)",
    r"(jog X\+ 600 for 10|seek Z- 60 within 10|offset G55 X 12.5|home, home X Z|run, start|where, status)",
    r"resume, abandon", r"G54 at .*", r"REFUSED line.*",
    # lines of G-code, of files
    r"M0 \(look.*", r"\(ngc: .*", r"ngc begins here", r"angle_deg.*", r"\[T@\]\n.*", r"# The shapes.*", r"[TFGS]?@",
    r"works\|.*", r".*(\[ \\t|\)\?\[).*")
NOT_TEXTS = re.compile("|".join(_UNREAD).replace("@", r"\{\d+\}"), re.DOTALL)
"""What isn't for people though it reads so; @ is a place."""
ALSO = (
    "idle", "stopped", "running", "segment", "there", "limit", f"limit {PLACE} low", f"limit {PLACE} high",
    f"feed {PLACE} %", f"done {PLACE}", f"message, {PLACE}", f"comment, {PLACE}", f"Adapted, still {PLACE}",
    f"{PLACE} hold", f"{PLACE} holds", f"{PLACE} stop", f"{PLACE} stops", f"Clockwise {PLACE}", f"Reverse {PLACE}",
    f"Off {PLACE}", f"Flood {PLACE}", f"Mist {PLACE}")
"""What ngc answers, and what is put together of strings that are no texts by themselves."""


def quoted(text: str) -> str:
    """A string of TOML."""
    return '"' + text.replace("\\", "\\\\").replace('"', '\\"').replace("\n", "\\n") + '"'


def written(found: dict[str, list[str]], name: str, said: dict[str, str]) -> str:
    """The file of a language: its name, and what it says for each text that it has."""
    lines = ["# The texts of page and console: each in English, and what is shown for it. A new language begins as a",
             "# copy of en.toml. {1}, {2} stand for what is put in: a translation has the same ones, in any order.",
             f"name = {quoted(name)}", "", "[texts]"]
    for module, mine in found.items():
        lines += ["", f"# {module}", *(f"{quoted(one)} = {quoted(said[one])}" for one in mine if one in said)]
    return "\n".join(lines) + "\n"


def main() -> int:
    """Writes en.toml, and the others in its order; or prints it."""
    found = texts()
    english = {one: one for mine in found.values() for one in mine}
    if "--write" not in sys.argv[1:]:
        print(written(found, "English", english), end="")
        return 0
    TEXTS.mkdir(exist_ok=True)
    for path in {TEXTS / f"{ENGLISH}.toml", *TEXTS.glob("*.toml")}:
        name, said = (("English", english) if path.stem == ENGLISH
                      else (languages()[path.stem], texts_of(path.stem)))
        path.write_text(written(found, name, said), encoding="utf-8")
        print(*(f"{path.name}: missing: {one}" for one in english if one not in said), sep="\n", end="")
    return 0


if __name__ == "__main__":
    sys.exit(main())
