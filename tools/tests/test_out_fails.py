"""OUT that can't be read any more: the player says so, comes to rest, switches off, and ends with status 2."""
import os
import sys
import unittest
from pathlib import Path

sys.path.insert(0, str(Path(__file__).resolve().parent))

from player_support import PlayerTest, preloaded

from ngc_tools.formats.record import Record

# A disk from which OUT can't be read any more: from byte NGC_BROKEN on, once the file `broken` is there.
BROKEN = r"""#define _GNU_SOURCE
#include <dlfcn.h>
#include <errno.h>
#include <stdlib.h>
#include <sys/stat.h>
#include <unistd.h>
static int is_broken(int file, off_t end) {
    struct stat what, out;
    int error = errno;
    int is_out = fstat(file, &what) == 0 && stat("out", &out) == 0 && what.st_ino == out.st_ino
        && what.st_dev == out.st_dev && access("broken", F_OK) == 0 && end > atol(getenv("NGC_BROKEN"));
    errno = is_out ? EIO : error;
    return is_out;
}
ssize_t read(int file, void *to, size_t size) {
    ssize_t (*real)(int, void *, size_t) = dlsym(RTLD_NEXT, "read");
    off_t at = lseek(file, 0, SEEK_CUR);
    return at >= 0 && is_broken(file, at + 1) ? -1 : real(file, to, size);
}
ssize_t pread(int file, void *to, size_t size, off_t at) {
    ssize_t (*real)(int, void *, size_t, off_t) = dlsym(RTLD_NEXT, "pread");
    return is_broken(file, at + (off_t)size) ? -1 : real(file, to, size, at);
}
ssize_t pread64(int file, void *to, size_t size, off_t at) { return pread(file, to, size, at); }
"""
LINE = "P 1 0 0 50\n"
NOT_READ = "it can't be read: Input/output error; spindle and coolant off\n"


class OutFails(PlayerTest):
    """A disk from which OUT can't be read."""

    def setUp(self) -> None:
        """300 pulses with the spindle on, and a disk that fails behind 1,280 bytes of them."""
        super().setUp()
        Path("out").write_text("S 1 1000.000000 0 0 0 0\n" + 300 * LINE)
        Path("broken").touch()
        self.env = {**preloaded("disk", BROKEN), "NGC_BROKEN": "1280"}

    def test_named(self) -> None:
        """It isn't taken for OUT's end, which is 301 lines. Read are 20 times 64 bytes: 114 whole pulses."""
        done = self.play("--untimed", env=self.env)
        self.assertEqual((done.returncode, done.stderr), (2, f"out: stopped after line 115: {NOT_READ}"))
        made = Path("pins").read_text().splitlines()
        self.assertEqual(made, ["S 1 1000.000000 0 0 0 0", *["P 1 0 0 50"] * 114, "off"])
        found = Record.read("position")
        self.assertEqual((found.lines, found.stopped, found.mark), (115, "out", None))
        os.unlink("broken")  # the disk is well again
        done = self.play("--untimed", env=self.env)
        self.assertEqual((done.returncode, Record.read("position").lines), (0, 301))

    def test_ramps(self) -> None:
        """With ramps it comes to rest by one: its last pulses are the slower the later."""
        Path("motion.toml").write_text("[motion]\naccel_mm_s2 = [500, 500, 500]\n[window]\nlines = 100\n")
        Path("out").write_text(12_000 * LINE)
        self.env["NGC_BROKEN"] = "110000"  # 8,192 lines are read ahead, and more as it goes
        done = self.play("--untimed", "--machine", "motion.toml", "--times", "times", env=self.env)
        found = Record.read("position")
        self.assertEqual((done.returncode, found.stopped), (2, "out"), done.stderr)
        self.assertIn(f"out: stopped after line {found.lines}: {NOT_READ}", done.stderr)
        self.assertTrue(400 < found.lines < 10_000, found.lines)
        due = [int(line.split()[0]) for line in Path("times").read_text().splitlines()]
        last = [later - earlier for earlier, later in zip(due[-8:], due[-7:])]
        self.assertEqual(last, sorted(last))
        self.assertGreater(last[-1], 3 * min(later - earlier for earlier, later in zip(due, due[1:])))

    def test_followed(self) -> None:
        """A file that is followed fails while its player waits for more: it ends, with what it has carried out."""
        os.unlink("broken")
        child = self.begin("--no-ask-tool", "--untimed", "--follow", "out", "first.toml", "position", env=self.env)
        self.wait_for("all is carried out", lambda: os.path.exists("position") and Record.read("position").lines == 301)
        Path("broken").touch()
        said = child.communicate()[1]
        self.assertEqual((child.returncode, said), (2, f"out: stopped after line 301: {NOT_READ}"))
        self.assertEqual(Record.read("position").stopped, "out")

    def test_begin(self) -> None:
        """A player that begins where OUT can't be read moves nothing, and leaves the record."""
        os.unlink("broken")
        self.play("--untimed", env=self.env)
        before = Path("position").read_bytes()
        with open("out", "a") as out:
            out.write(LINE)
        Path("broken").touch()
        done = self.play("--untimed", env=self.env)
        self.assertEqual(done.returncode, 2)
        self.assertIn("out: Input/output error\n", done.stderr)
        self.assertEqual(Path("position").read_bytes(), before)


if __name__ == "__main__":
    unittest.main()
