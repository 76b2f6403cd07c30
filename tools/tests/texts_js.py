"""The strings of a script that read as words, with a place for what is put in; for texts.py."""
import re
from collections.abc import Iterator
from itertools import product

PLACE = "\0"
MOST = 24
_TOKEN = re.compile(
    r"""//[^\n]*|/\*.*?\*/|\s+|'(?:[^'\\\n]|\\.)*'|"(?:[^"\\\n]|\\.)*"|[A-Za-z_$][\w$]*|[0-9][\w.]*"""
    r"""|===|!==|=>|&&|\|\||\?\?|\?\.|\.\.\.|[-+*/%&|^!<>=]=|.""", re.DOTALL)
_REGEX = re.compile(r"/(?:[^/\\\n\[]|\\.|\[(?:[^\]\\\n]|\\.)*\])+/[a-z]*")
_BEFORE_REGEX = set("(,=:[!&|?{};+-*%<>") | {"return", "=>", "&&", "||", "===", "!==", "??"}
UNREAD_KEYS = {
    "class", "role", "inputMode", "type", "d", "viewBox", "transform", "id", "fill", "autocomplete", "colour",
    "name", "kind", "mode", "method", "tag", "key", "what", "how", "spellcheck", "step", "translate", "passive",
    "stroke", "axis", "tip"}
UNREAD_CALLS = {
    "$", "querySelector", "querySelectorAll", "closest", "matches", "addEventListener", "setAttribute", "el",
    "made", "get", "removeEventListener", "getAttribute", "asks", "fetch", "post", "startsWith", "endsWith",
    "includes", "split", "join", "replace", "replaceAll", "padStart", "getContext", "createElement",
    "createElementNS", "Worker", "URL", "request", "toLocaleString", "hasAttribute", "removeAttribute",
    "getPropertyValue"}
UNREAD_METHODS = {
    "add", "remove", "toggle", "contains", "get", "has", "set"}
UNREAD_PROPERTIES = {
    "className", "href", "src", "type", "font", "fillStyle", "strokeStyle", "textAlign", "method", "textBaseline",
    "lineCap", "lineJoin", "cursor", "left", "top", "width", "height", "binaryType", "TYPED"}
WORDS = {"done", "left", "cut", "stands", "machine", "motors", "none", "off", "less", "more", "spindle", "coolant",
         "mist", "flood"}
_WORD = re.compile(r"[A-Za-z][a-z'\u2019-]+")
_CODE = re.compile(r"^[.#\[]|^\W*$|\d(px|em|vh)\b|^[a-z]+\[|[<>]|^M\d|^\w+\?\w+=|var\(--|^--")


class Template(list):
    """The parts of a template literal: strings, and lists of tokens."""


def tokens_of(script: str) -> list:
    """The tokens of a script, without blanks and comments: strings as ('s', value), template literals as Template."""
    found, _ = _read(script, 0, "")
    return found


def _read(script: str, at: int, end: str) -> tuple[list, int]:
    found: list = []
    depth = 0
    while at < len(script):
        if script[at] == "`":
            template, at = _template(script, at + 1)
            found.append(template)
            continue
        is_regex = script[at] == "/" and script[at + 1] not in "/*" and (not found or found[-1] in _BEFORE_REGEX)
        match = (_REGEX if is_regex else _TOKEN).match(script, at)
        word, at = match[0], match.end()
        depth += (word == "{") - (word == "}")
        if word == "}" and end and depth < 0:
            return found, at
        if is_regex:
            found.append(("r", word))
        elif word[0] in "'\"":
            found.append(("s", _value(word[1:-1])))
        elif not word.isspace() and not word.startswith(("//", "/*")):
            found.append(word)
    return found, at


def _template(script: str, at: int) -> tuple[Template, int]:
    parts, text = Template(), ""
    while script[at] != "`":
        if script.startswith("${", at):
            inner, at = _read(script, at + 2, "}")
            parts += [_value(text), inner]
            text = ""
        else:
            step = 2 if script[at] == "\\" else 1
            text += script[at:at + step]
            at += step
    parts.append(_value(text))
    return parts, at + 1


def _value(text: str) -> str:
    text = re.sub(r"\\u([0-9a-fA-F]{4})", lambda found: chr(int(found[1], 16)), text)
    return text.replace("\\n", "\n").replace("\\'", "'").replace("\\\\", "\\")


def is_string(token: object) -> bool:
    """Whether a token is a string."""
    return isinstance(token, Template) or isinstance(token, tuple) and token[0] == "s"


def texts_of_script(script: str) -> Iterator[str]:
    """Its texts, with PLACE for what is put in."""
    for text in _scan(tokens_of(script)):
        if _is_text(text):
            yield text


def _is_text(text: str) -> bool:
    plain = text.replace(PLACE, " ").strip()
    if _CODE.search(text) or not _WORD.search(plain):
        return False
    if re.search(r"\s", text.strip()) or PLACE in text and len(plain) > 2:
        return True
    return re.fullmatch(r"[A-Z][a-z]+[a-z\u2026-]*|[A-Z][a-z]+\.", plain) is not None or plain in WORDS


def _scan(tokens: list) -> Iterator[str]:
    at = 0
    while at < len(tokens):
        token = tokens[at]
        if is_string(token):
            is_unread = _is_unread(tokens, at)
            found, inner, at = _sum(tokens, at)
            for one in inner:
                yield from _scan(one)
            if not is_unread:
                yield from found
            continue
        if token == "counted" and at + 1 < len(tokens) and tokens[at + 1] == "(":
            yield from _counted(tokens, at + 1)
        at += 1


def _counted(tokens: list, at: int) -> Iterator[str]:
    """What `counted` says: one, and more of something."""
    end = _closing(tokens, at)
    if isinstance(tokens[end - 1], tuple):
        yield from (PLACE + " " + tokens[end - 1][1], PLACE + " " + tokens[end - 1][1] + "s")


def _closing(tokens: list, at: int) -> int:
    depth = 0
    for i in range(at, len(tokens)):
        if isinstance(tokens[i], str):
            depth += (tokens[i] in "([{") - (tokens[i] in ")]}")
        if depth == 0:
            return i
    return len(tokens) - 1


def _is_unread(tokens: list, at: int) -> bool:
    before3, before2, before, after = (_plain(tokens[i]) if 0 <= i < len(tokens) else ""
                                       for i in (at - 3, at - 2, at - 1, at + 1))
    if before in ("from", "import", "===", "!==", "case", "in") or after in ("===", "!==", "in"):
        return True
    if before in ("{", ",") and after == ":":
        return True
    if before == "(" and (before2 in UNREAD_CALLS or before3 == "." and before2 in UNREAD_METHODS):
        return True
    return before == ":" and before2 in UNREAD_KEYS or before == "=" and before2 in UNREAD_PROPERTIES


def _plain(token: object) -> str:
    return token if isinstance(token, str) else ""


def _sum(tokens: list, at: int) -> tuple[list[str], list[list], int]:
    """The texts of strings that are put together, what stands in their places, and where they end."""
    parts: list[list[str]] = [[PLACE]] if at and tokens[at - 1] == "+" else []
    inner: list[list] = []
    while True:
        end = _operand(tokens, at)
        operand = tokens[at:end]
        found, within = _choices(operand)
        parts.append(found)
        inner += within
        if end + 1 >= len(tokens) or tokens[end] != "+":
            return _together(parts), inner, end
        at = end + 1


def _operand(tokens: list, at: int) -> int:
    """Where an operand of a sum ends."""
    if is_string(tokens[at]):
        return at + 1
    while at < len(tokens):
        if tokens[at] in ("(", "["):
            at = _closing(tokens, at) + 1
        elif isinstance(tokens[at], str) and (re.match(r"[\w$.]", tokens[at]) or tokens[at] == "?."):
            at += 1
        else:
            break
    return at


def _choices(tokens: list) -> tuple[list[str], list[list]]:
    """What an expression may be: a string, one of two, or something that is put in."""
    if len(tokens) == 1 and isinstance(tokens[0], Template):
        return _parts(tokens[0])
    if len(tokens) == 1 and is_string(tokens[0]):
        return [tokens[0][1]], []
    if tokens and tokens[0] == "(" and _closing(tokens, 0) == len(tokens) - 1:
        return _choices(tokens[1:-1])
    question, colon = _conditional(tokens)
    if question and is_choice(tokens[question + 1:colon]) and is_choice(tokens[colon + 1:]):
        (yes, inner), (no, other) = _choices(tokens[question + 1:colon]), _choices(tokens[colon + 1:])
        return yes + no, [tokens[:question], *inner, *other]
    return [PLACE], [tokens]


def is_choice(tokens: list) -> bool:
    """Whether it is a string, or a choice of strings."""
    question, colon = _conditional(tokens)
    if question:
        return is_choice(tokens[question + 1:colon]) and is_choice(tokens[colon + 1:])
    return len(tokens) == 1 and is_string(tokens[0])


def _conditional(tokens: list) -> tuple[int, int]:
    """Where the question mark and the colon of a conditional are; zeros if it is none."""
    depth, question, nested = 0, 0, 0
    for i, token in enumerate(tokens):
        if not isinstance(token, str):
            continue
        depth += (token in "([{") - (token in ")]}")
        if depth == 0 and token == "?":
            nested += question > 0
            question = question or i
        elif depth == 0 and token == ":" and question:
            if not nested:
                return question, i
            nested -= 1
    return 0, 0


def _parts(template: Template) -> tuple[list[str], list[list]]:
    parts, inner = [], []
    for part in template:
        if isinstance(part, str):
            parts.append([part])
            continue
        found, within = _choices(part)
        parts.append(found)
        inner += within
    return _together(parts), inner


def _together(parts: list[list[str]]) -> list[str]:
    count = 1
    for part in parts:
        count *= len(part)
    if count > MOST:
        parts = [part if len(part) == 1 else [PLACE] for part in parts]
    return ["".join(one) for one in product(*parts)]
