"""What is shown in another language than English. The code speaks English; what it says is translated as it is shown,
by a catalogue of texts with places for what is put in. page/static/language.js does the same by the same rules."""
import os
import re
import tomllib
from collections.abc import Iterator, Mapping, Sequence
from functools import cached_property
from pathlib import Path

TEXTS = Path(__file__).resolve().parent / "texts"
ENGLISH = "en"

_MOST = 4096  # answers that are kept
_LOOKS = 8  # so many parts of a text are looked for as one at most
_WEAK = 8  # a template of one word with fewer letters isn't told from others by that alone
_PLACE = re.compile(r"\{(\d+)\}")
_SENTENCES = re.compile(r"(?<=[.?!])\s+(?=[A-Z{(])")
_SEPARATORS = tuple(map(re.compile, (r"\n", r"\s{2,}", r"(?<=[.?!])\s+", r"(?<=;)\s+", r"(?<=:)\s+")))
_LISTED = tuple(map(re.compile, (r",\s+", r"\s+and\s+")))
_MANY = re.compile(r", |\n")
_WORD = re.compile(r"[A-Za-z]{2,}")
_OWN_WORD = re.compile(r"(?<![A-Za-z0-9\0])[A-Za-z]{2,}(?![A-Za-z0-9\0])")
_PROSE = re.compile(r"(?:^|\s)[A-Za-z][a-z]{2,}[,;:.]?\s+(?:\S+\s+)*[A-Za-z][a-z]{2,}[.,;:?!]?(?:\s|$)")
_AROUND = re.compile(r"(\s*)(.*?)(\s*)", re.DOTALL)
_DATED = re.compile(r"(\d{4}-\d\d-\d\d \d\d:\d\d(?::\d\d [-+]\d{4})? )(.*)")
_HEAD = re.compile(r"([^A-Za-z]+)([A-Za-z].*)", re.DOTALL)


class Template:
    """A text with places, and its translation."""

    def __init__(self, english: str, translated: str) -> None:
        pieces = _PLACE.split(english)
        self.places = list(map(int, pieces[1::2]))
        self.translated = _PLACE.split(translated)
        own = "".join(pieces[::2])
        self.is_weak = sum(char.isalpha() for char in own) < _WEAK and len(_WORD.findall("\0".join(pieces[::2]))) < 2
        self.size = len(re.sub(r"\s", "", own))
        self.gaps = [not gap.strip() for gap in pieces[2:-1:2]]  # between its places: whether it is a blank
        words = _OWN_WORD.findall("\0".join(pieces[::2]))
        self.word = max(words, key=len, default="")
        first, *between, last = map(_loose, pieces[::2])
        self.literals = [re.compile(pattern) for pattern in (rf"\A{first}", *between, rf"{last}\Z")]

    def values(self, text: str) -> list[str] | None:
        """What stands in its places in a text, each as little as can be; None where it is another text."""
        found, at = [], 0
        for literal in self.literals:
            match = literal.search(text, at)
            if match is None:
                return None
            found.append(text[at:match.start()])
            at = match.end()
        return found[1:]

    def parts_prose(self, values: Sequence[str]) -> bool:
        """Whether words that belong together stand in two places with a blank between them."""
        pairs = zip(self.gaps, values, values[1:])
        return any(is_blank and _PROSE.search(f"{one} {other}") for is_blank, one, other in pairs)

    def filled(self, values: Mapping[int, str]) -> str:
        """Its translation with what stands in its places."""
        return "".join(values[int(piece)] if i % 2 else piece for i, piece in enumerate(self.translated))


def _loose(literal: str) -> str:
    """A pattern for words however they are parted into lines."""
    return r"\s+".join(map(re.escape, re.split(r"\s+", literal)))


class Language:
    """A language, by its texts: English ones, and what is said for each."""

    def __init__(self, texts: Mapping[str, str] | None = None, name: str = ENGLISH) -> None:
        self.texts, self.name = dict(texts or {}), name
        self._kept: dict[str, str] = {}
        self._wholes: dict[tuple[str, bool], str | None] = {}

    @cached_property
    def _exact(self) -> dict[str, str]:
        """What has no places; sentences of longer texts too, where these don't stand for themselves."""
        own = {_line(english): said for english, said in self.texts.items() if not _PLACE.search(english)}
        parts = {english: said for english, said in self._sentences() if not _PLACE.search(english)}
        return parts | own

    @cached_property
    def _templates(self) -> dict[str, list[tuple[int, int, Template]]]:
        """Those with places, by their longest word; those that count most come first. What begins as `, and` does goes
        behind anything."""
        own = {english: said for english, said in self.texts.items() if _PLACE.search(english)}
        own |= {f"{{0}}{english}": f"{{0}}{said}" for english, said in self.texts.items() if english[:1] in ",;:."}
        parts = {english: said for english, said in self._sentences() if _PLACE.search(english) and english not in own}
        found: dict[str, list[tuple[int, int, Template]]] = {}
        for order, (english, said) in enumerate((own | parts).items()):
            template = Template(english, said)
            found.setdefault(template.word, []).append((-template.size, order, template))
        return found

    def _sentences(self) -> Iterator[tuple[str, str]]:
        """Sentences of texts that have the same number of them in both languages, without a full stop."""
        for english, said in self.texts.items():
            before, after = _SENTENCES.split(english), _SENTENCES.split(said)
            if len(before) == len(after) and (len(before) > 1 or english.endswith(".")):
                yield from ((_line(_bare(one)), _bare(other)) for one, other in zip(before, after)
                            if _WORD.search(one) and sorted(_PLACE.findall(one)) == sorted(_PLACE.findall(other)))

    def say(self, text: str) -> str:
        """The text in this language; what has no translation stays as it is."""
        if not self.texts or not _WORD.search(text):
            return text
        if text not in self._kept:
            if len(self._kept) >= _MOST:
                self._kept.clear()
            before, core, after = _AROUND.fullmatch(text).groups()
            self._kept[text] = before + self._said(core) + after
        return self._kept[text]

    def _said(self, text: str) -> str:
        whole = self._whole(text)
        if whole is not None:
            return whole if "\n" in text else re.sub(r"\s*\n\s*", " ", whole)
        for separator in _SEPARATORS:
            if separator.search(text):
                return self._by_parts(text, separator)
        listed, head = self._listed(text), _HEAD.fullmatch(text)
        return head[1] + self.say(head[2]) if head and listed == text else listed

    def _whole(self, text: str, is_sure: bool = False) -> str | None:
        """The translation of a text as one; None where there is none, or, if it has to be sure, by few words alone."""
        if (text, is_sure) not in self._wholes:
            said = self._found(text, is_sure)
            if len(self._wholes) >= _MOST:
                self._wholes.clear()
            self._wholes[text, is_sure] = said
        return self._wholes[text, is_sure]

    def _found(self, text: str, is_sure: bool) -> str | None:
        dated = _DATED.fullmatch(text)
        if dated:
            said = self._whole(dated[2], is_sure)
            return said and dated[1] + said
        finders = (lambda one: self._exact.get(_line(one)), lambda one: self._by_template(one, is_sure))
        for find in finders:
            for written, end, off in _variants(text):
                said = find(written)
                if said is not None and said.endswith(off):
                    return _as_written(said.removesuffix(off), written[:1] != text[:1], end)
        return None

    def _by_template(self, text: str, is_sure: bool) -> str | None:
        words = {"", *_WORD.findall(text)}
        found = sorted(one for word in words for one in self._templates.get(word, ()))
        for template in (one for _, _, one in found if not (is_sure and one.is_weak)):
            values = template.values(text)
            if values is not None and not (template.is_weak and self._parts(template, values)):
                return template.filled({place: self.say(value) for place, value in zip(template.places, values)})
        return None

    def _parts(self, template: Template, values: Sequence[str]) -> bool:
        """Whether a template with few words of its own would part what isn't known."""
        is_list = any(_MANY.search(value) and self._whole(value, is_sure=True) is None for value in values)
        return is_list or template.parts_prose(values) or not all(map(self._is_known, values))

    def _is_known(self, text: str) -> bool:
        if not _PROSE.search(text) or self._whole(text.strip(), is_sure=True) is not None:
            return True
        parts = _LISTED[0].split(text)
        return len(parts) > 1 and all(map(self._is_known, parts))

    def _by_parts(self, text: str, separator: re.Pattern[str]) -> str:
        """The longest beginning that is known, and the rest; or the first part alone, and the rest."""
        gaps = list(separator.finditer(text))
        for gap in reversed(gaps[:_LOOKS]):
            known = self._whole(text[:gap.start()])
            if known is not None:
                return known + gap[0] + self.say(text[gap.end():])
        gap = gaps[0]
        return self.say(text[:gap.start()]) + gap[0] + self.say(text[gap.end():])

    def _listed(self, text: str) -> str:
        """A list, where each of what it lists is known; else the text as it is."""
        for separator in filter(lambda one: one.search(text), _LISTED):
            gaps = [gap[0] for gap in separator.finditer(text)]
            parts = separator.split(text)
            said = [self.say(part) for part in parts]
            if said != parts and all(not _PROSE.search(one) or self._whole(one) is not None for one in parts):
                return said[0] + "".join(self._gap(gap) + one for gap, one in zip(gaps, said[1:]))
        return text

    def _gap(self, gap: str) -> str:
        return gap.replace("and", self.texts.get("and", "and"))


def _line(text: str) -> str:
    """The same in one line."""
    return re.sub(r"\s+", " ", text)


def _bare(text: str) -> str:
    return text[:-1] if text.endswith(".") else text


def _variants(text: str) -> list[tuple[str, str, str]]:
    """How a text may stand in the catalogue: with what is added to its translation, and what is taken off."""
    forms = [(text, "", "")]
    if text[-1:] in (".", ":", ";") and not text.endswith(".."):
        forms.append((text[:-1], text[-1], ""))
    else:
        forms.append((text + ":", "", ":"))
    if text[:1].isupper() and text[1:2].islower():
        forms += [(one[:1].lower() + one[1:], end, off) for one, end, off in forms]
    return forms


def _as_written(said: str, is_capital: bool, end: str) -> str:
    return (said[:1].upper() + said[1:] if is_capital else said) + end


def texts_of(name: str) -> dict[str, str]:
    """What it says for each text. Raises OSError."""
    return tomllib.loads(_file(name))["texts"]


def languages() -> dict[str, str]:
    """All that there are, by the name of the file, with what each is called in itself, English first. Of a file no more
    is read than stands before its texts. Raises OSError."""
    return {name: tomllib.loads(_file(name).partition("\n[")[0])["name"]
            for name in sorted(names(), key=lambda name: (name != ENGLISH, name))}


def language(name: str) -> Language:
    """One of them; of English nothing is read. Raises OSError."""
    return Language() if name == ENGLISH else Language(texts_of(name), name)


def _file(name: str) -> str:
    return (TEXTS / f"{name}.toml").read_text(encoding="utf-8")


def names() -> list[str]:
    """The names of all."""
    return sorted(path.stem for path in TEXTS.glob("*.toml"))


def of_environment(environment: Mapping[str, str] = os.environ) -> str:
    """The language that LC_ALL, LC_MESSAGES or LANG names, the first that is set; else English."""
    told = next((value for name in ("LC_ALL", "LC_MESSAGES", "LANG") if (value := environment.get(name))), "")
    short = re.split(r"[_.@]", told)[0].lower()
    return short if short in names() else ENGLISH
