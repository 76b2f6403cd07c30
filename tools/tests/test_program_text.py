"""The text of a program: encodings and the ends of lines, by hand."""
import sys
import unittest
from pathlib import Path

sys.path.insert(0, str(Path(__file__).resolve().parents[1]))

from ngc_tools.formats.program_text import NotText, ProgramText, beginning

UTF_16 = "it is UTF-16, and is written in UTF-8"
MARK = "the byte order mark before line 1 is left out"
WINDOWS = "letters beyond ASCII are read as Windows-1252, and written in UTF-8"
RETURNS = "the lines end in carriage returns alone; each gets a newline in its place"
DOS = "the end mark of DOS, byte 1A, is left out"


class Texts(unittest.TestCase):
    """What is read of bytes."""

    def test_encodings(self) -> None:
        """With and without marks; bytes of none of them are those of Windows-1252, and five of Latin-1."""
        for data, encoding, line, changes in (
                (b"G21\n", "ASCII", "G21", ()),
                (b"\xef\xbb\xbfG21\n", "ASCII", "G21", (MARK,)),
                (b"(\xc3\x9cber)\n", "UTF-8", "(\xdcber)", ()),
                (b"\xef\xbb\xbf(\xc3\x9c)\n", "UTF-8", "(\xdc)", (MARK,)),
                (b"\xff\xfe(\x00\xdc\x00)\x00\n\x00", "UTF-16", "(\xdc)", (UTF_16,)),
                (b"\xfe\xff\x00(\x20\xac\x00)\x00\n", "UTF-16", "(\u20ac)", (UTF_16,)),
                (b"(\xdc \x96 \x80 \x81)\n", "Windows-1252", "(\xdc \u2013 \u20ac \x81)", (WINDOWS,)),
                (b"\xef\xbb\xbf(\xdc)\n", "Windows-1252", "(\xdc)", (MARK, WINDOWS))):
            text = ProgramText.read(data)
            self.assertEqual((text.encoding, text.lines, text.ends), (encoding, (line,), ("\n",)))
            self.assertEqual((text.changes, text.data), (changes, f"{line}\n".encode()))

    def test_lines(self) -> None:
        """Where lines end."""
        for data, lines, ends, changes in (
                (b"", (), (), ()),
                (b"\n", ("",), ("\n",), ()),
                (b"a\n\nb", ("a", "", "b"), ("\n", "\n", ""), ()),
                (b"a\r\nb\nc\r\n", ("a", "b", "c"), ("\r\n", "\n", "\r\n"), ()),
                (b"a\r\rb\r", ("a", "", "b"), ("\n", "\n", "\n"), (RETURNS,)),
                (b"a\rb\n", ("a\rb",), ("\n",), ()),
                (b"a\nM2\r", ("a", "M2"), ("\n", "\r\n"), ("a newline is put after the carriage return at the end",)),
                (b"a\r\r\nb\r\r\n", ("a", "b"), ("\r\n", "\r\n"), (
                    "line 1 ends in more than one carriage return, of which one is kept; so do 1 more",)),
                (b"a\nb\n\x1a", ("a", "b"), ("\n", "\n"), (DOS,)),
                (b"a\rb\x1a\x1a", ("a", "b"), ("\n", ""), (DOS, RETURNS))):
            text = ProgramText.read(data)
            self.assertEqual((text.lines, text.ends, text.changes), (lines, ends, changes), data)
            self.assertEqual(text.data == data, not changes, data)

    def test_beginning(self) -> None:
        """The first lines of a long text, whole ones, of 64 KiB at most, whatever its encoding and its lines' ends."""
        for encoding, mark, end in (("ascii", b"", "\n"), ("ascii", b"", "\r\n"), ("ascii", b"", "\r"),
                                    ("utf-8", b"", "\n"), ("utf-16-le", b"\xff\xfe", "\n"),
                                    ("utf-16-be", b"\xfe\xff", "\r")):
            line = f"G0 X1{'' if encoding == 'ascii' else chr(0x20ac)}{end}"
            size = len(line.encode(encoding))
            count = (65_536 - len(mark)) // size
            data = mark + (9 * count * line).encode(encoding)
            self.assertEqual(beginning(data), data[:len(mark) + count * size], (encoding, end))
            self.assertEqual(beginning(data[:60_000]), data[:60_000])

    def test_not_text(self) -> None:
        """Half of a letter, and half of a pair, in UTF-16."""
        for data, byte in ((b"\xff\xfeG\x00\n", 4), (b"\xfe\xff\xd8\x00\x00G", 2)):
            with self.assertRaisesRegex(NotText, f"begins as UTF-16 does, and byte {byte} isn't UTF-16"):
                ProgramText.read(data)

    def test_changed_alone_where_told(self) -> None:
        """Every text of two bytes out of nine: its data are its bytes where nothing is said to change."""
        some = b"a\r\n\x1a\x00\x80\xc3\xef("
        for data in (bytes([first, second, third]) for first in some for second in some for third in some):
            text = ProgramText.read(data)
            self.assertEqual(text.data == data, not text.changes, data)


if __name__ == "__main__":
    unittest.main()
