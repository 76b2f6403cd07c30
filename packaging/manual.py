"""Pages of a manual, made of what programs print for `--help`, which is their one source."""
import re
from dataclasses import dataclass
from typing import NamedTuple

_HEAD = re.compile(r"(\S.*):")  # of a part: a line of its own, with indented lines below it
_ENTRY = re.compile(r"( +)(\S.*?)(?: {2,}(\S.*))?")
_READ = str.maketrans({"\\": "\\e", "-": "\\-", "`": "\\(ga", "'": "\\(aq", "~": "\\(ti"})  # what roff reads
_AS_TYPED = ("example", "examples")


class Text(NamedTuple):
    """What a program prints for `--help`, and the words by which it is called."""

    words: str
    text: str


@dataclass
class Part:
    """Lines below a head, which is `` of what comes before the first one."""

    head: str
    lines: list[str]


def page(name: str, section: str, about: str, texts: list[Text], stamp: str) -> str:
    """The page of a program in roff. `about` is a line of what it is; of the texts the first is the program's own, each
    other one that of a command of it. `stamp` stands below: the version."""
    head = [f'.TH {_plain(name).upper()} {section} "" "ngc {_plain(stamp)}"', ".ad l", ".nh", ".SH NAME",
            f"{_plain(name)} \\- {_plain(about)}"]
    first, *others = texts
    said = _typeset(first, ".SH", True)
    for text in others:
        said += [f".SH {_plain(text.words).upper()}", *_typeset(text, ".SS", False)]
    return "\n".join([*head, *said]) + "\n"


def parts(text: str) -> list[Part]:
    """The parts of a help in their order."""
    found = [Part("", [])]
    lines = text.rstrip("\n").split("\n")
    for line, below in zip(lines, [*lines[1:], ""]):
        if (head := _HEAD.fullmatch(line)) and below.startswith("  "):
            found.append(Part(head[1], []))
        elif found[-1].head and line and not line.startswith(" "):
            found.append(Part("", [line]))  # a text behind a part
        else:
            found[-1].lines.append(line)
    return found


def _typeset(text: Text, mark: str, is_first: bool) -> list[str]:
    """The lines of a help in roff, each part behind a mark."""
    said: list[str] = []
    for part in parts(text.text):
        if not part.head:
            said += _paragraphs(part.lines, mark)
        elif part.head.lower() in _AS_TYPED:
            said += [_head(mark, part.head), ".nf", *map(_line, _stripped(part.lines)), ".fi"]
        else:
            said += [_head(mark, part.head), *_entries(part.lines)]
    if is_first and (first := next((place for place, line in enumerate(said) if line == ".PP"), None)) is not None:
        said.insert(first, ".SH DESCRIPTION")
    return said


def _head(mark: str, text: str) -> str:
    """A head; those of sections are in capitals."""
    return f"{mark} {_plain(text.upper() if mark == '.SH' else text)}"


def _stripped(lines: list[str]) -> list[str]:
    """The lines without blank ones at the end."""
    last = max((place for place, line in enumerate(lines, 1) if line.strip()), default=0)
    return lines[:last]


def _paragraphs(lines: list[str], mark: str) -> list[str]:
    """Lines between blank ones are paragraphs. That of the use, with what is indented below it, is bold."""
    said: list[str] = []
    for paragraph in re.split(r"\n\s*\n", "\n".join(lines)):
        joined = " ".join(paragraph.split())
        if re.match("(?i)usage: ", joined):
            said += [_head(mark, "Synopsis"), ".B", _line(joined.partition(": ")[2])]
        elif joined:
            said += [".PP", _line(joined)]
    return said


def _entries(lines: list[str]) -> list[str]:
    """What an option, a word or a status is, each with its text, which may go on in deeper lines."""
    said: list[str] = []
    depth = min((len(line) - len(line.lstrip()) for line in lines if line.strip()), default=0)
    for line in lines:
        entry = _ENTRY.fullmatch(line)
        if entry is None:
            continue
        is_new = len(entry[1]) == depth or entry[2].startswith("--") and entry[3]
        if is_new:
            said += [".TP", ".B", _line(entry[2]), *([_line(entry[3])] if entry[3] else [])]
        else:
            said.append(_line(" ".join(line.split())))
    return said


def _line(text: str) -> str:
    """A line of text in roff."""
    plain = _plain(text)
    return f"\\&{plain}" if plain[:1] in (".", "'") else plain


def _plain(text: str) -> str:
    """Text in which roff reads nothing."""
    return text.translate(_READ)
