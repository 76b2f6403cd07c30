"""Text of programs, devices, settings and paths as a terminal may show it."""


def shown(text: bytes | str) -> str:
    """The text without anything that a terminal would obey: UTF-8 as what it is, a tab as a blank. What isn't printable
    is escaped, as `\\x1b`: control characters, marks that turn the direction of writing, bytes that are no text."""
    if isinstance(text, bytes):
        text = text.decode("utf-8", "surrogateescape")
    if text.isprintable():
        return text
    return "".join(letter if letter.isprintable() else " " if letter == "\t" else _escaped(letter) for letter in text)


def shown_line(line: bytes | str) -> str:
    """The same of a line, without the end that it may have."""
    return shown(line.rstrip(b"\r\n") if isinstance(line, bytes) else line.rstrip("\r\n"))


def shown_lines(text: bytes | str) -> str:
    """The same of lines, as many as there are."""
    lines = text.split(b"\n") if isinstance(text, bytes) else text.split("\n")
    return "\n".join(map(shown_line, lines))


def _escaped(letter: str) -> str:
    """A letter as Python writes it; a byte that is no text as `\\xff`."""
    code = ord(letter)
    return f"\\x{code - 0xdc00:02x}" if 0xdc80 <= code <= 0xdcff else letter.encode("unicode_escape").decode()
