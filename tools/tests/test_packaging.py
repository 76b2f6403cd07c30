"""What packaging/ makes of the helps of programs, and what it installs beside them: pages of the manual, completion,
scripts, units. The packages themselves are tried by packaging/try."""
import gzip
import os
import re
import shutil
import subprocess
import sys
import tempfile
import time
import unittest
from pathlib import Path

sys.path.insert(0, str(Path(__file__).resolve().parent))

from chip_parts import BOARDS
from player_support import SANITIZERS, has_sanitizers
from session_support import TOOLS, InFolder, ngc

PACKAGING = TOOLS.parent / "packaging"
sys.path.insert(0, str(PACKAGING))

import completion
import deb
import manual
import source
import tree

from ngc_tools.cli import setup
from ngc_tools.formats.machine import read_tables
from ngc_tools.formats.settings import Settings

SCRIPTS = ("files/start-player", "files/start-page", "files/ngc-address", "files/profile.sh", "files/default",
           "debian/postinst", "debian/prerm", "debian/postrm")


class Helps(InFolder):
    """Of what each program prints."""

    helps: dict[str, str] = {}

    def setUp(self) -> None:
        """Asks them, once."""
        super().setUp()
        if not self.helps:
            os.symlink(ngc(), "ngc")
            self.helps.update(tree.helps_of(self.folder))

    def shown(self, name: str) -> str:
        """A page of the manual, as man shows it, in lines that aren't broken."""
        section, about, texts = tree.pages(self.helps)[name]
        Path("page").write_text(manual.page(name, section, about, texts, "1.0~x"))
        done = subprocess.run(["man", "--warnings", "-E", "ascii", "-l", "page"], capture_output=True, text=True,
                              env={**os.environ, "MANWIDTH": "2000", "LC_ALL": "C.UTF-8", "MAN_KEEP_FORMATTING": ""})
        self.assertEqual((done.returncode, done.stderr), (0, ""), name)
        return done.stdout

    @unittest.skipUnless(shutil.which("man") and shutil.which("groff"), "no man here")
    def test_pages(self) -> None:
        """Each word of a help stands on the page, in its order, and no word beside those of heads and edges."""
        for name, (_, about, texts) in tree.pages(self.helps).items():
            found = [line for line in self.shown(name).splitlines() if line.strip()][1:-1]  # without the edges
            words = " ".join(found).split()
            wanted = ["NAME", name, "-", *about.split()]
            for place, text in enumerate(texts):
                wanted += ([] if place == 0 else text.words.split()) + text.text.split()
            self.assertEqual(self.plain(words), self.plain(wanted), name)

    @staticmethod
    def plain(words: list[str]) -> list[str]:
        """Words without those that are heads: of the page in capitals, of the help with a colon or as `usage:`."""
        heads = {"synopsis", "description", "usage"}
        return [plain for word in words if (plain := word.lower().rstrip(":")) not in heads]

    def test_about(self) -> None:
        """Each tool has a page, and a line of what it is."""
        pages = tree.pages(self.helps)
        self.assertEqual({path.name for path in TOOLS.glob("ngc-*")} | {"ngc", "ngc-address", "player"}, set(pages))
        for name, (_, about, _) in pages.items():
            self.assertRegex(about, r"^[a-z].{10,}[^.]$", name)

    def test_completion(self) -> None:
        """Options, commands and files in bash, as somebody types them."""
        Path("words").write_text(completion.script(self.helps))
        Path("part.ngc").touch()
        for typed, wanted in ((("ngc-check", "--set"), ["--settings", "--settings-only"]),
                              (("ngc", "d"), ["dry"]), (("ngc", "dry", "--b"), ["--block-delete"]),
                              (("ngc", "run", "--b"), []), (("/usr/bin/ngc-page", "--ad"), ["--address"]),
                              (("ngc-check-disk", "--until"), ["--until-pulled"]), (("ngc-check", "pa"), [])):
            name = typed[0].rpartition("/")[2]
            script = (f'. ./words; complete -p {name} >/dev/null || exit 1; COMP_WORDS=("$@"); COMP_CWORD=$(($# - 1));'
                      ' _ngc; printf "%s\\n" "${COMPREPLY[@]}"')
            done = subprocess.run(["bash", "-c", script, "bash", *typed], capture_output=True, text=True)
            self.assertEqual((done.stdout.split(), done.stderr), (sorted(wanted), ""), typed)

    def test_each_option(self) -> None:
        """Those of the completion are those that the parsers have."""
        for name in ("ngc-check", "ngc-setup", "ngc-page"):
            known = re.findall(r"--[a-z-]+", self.helps[name].partition("\n\n")[0])
            self.assertEqual(set(completion.options_of(self.helps[name])), {*known, "--help"}, name)


class Files(InFolder):
    """What is installed as it stands."""

    def test_scripts(self) -> None:
        """Shells take them."""
        for name in SCRIPTS:
            subprocess.run(["sh", "-n", PACKAGING / name], check=True)

    def test_services(self) -> None:
        """Each runs as its own user with no other rights, begins again, and needs what ngc-setup makes; only the
        player has the group of serial lines, and only the page a network."""
        texts = {name: (PACKAGING / f"files/{name}.service").read_text() for name in ("ngc-player", "ngc-page")}
        made = setup.MachineFiles.of(setup.CONFIG, setup.STATE)
        for name, text in texts.items():
            keys = re.findall(r"^(\w+)=(.*)$", text, re.MULTILINE)
            for key in (("User", "ngc"), ("NoNewPrivileges", "yes"), ("CapabilityBoundingSet", ""),
                        ("ProtectSystem", "strict"), ("DevicePolicy", "closed"), ("Restart", "always"),
                        ("StartLimitIntervalSec", "0"), ("WantedBy", "multi-user.target"),
                        *(("ConditionPathExists", str(path)) for path in (made.settings, made.machine, made.device))):
                self.assertIn(key, keys, name)
        self.assertEqual([("dialout" in text, "AF_INET" in text) for text in texts.values()],
                         [(True, False), (False, True)])
        self.assertIn("After=ngc-player.service", texts["ngc-page"])
        for text in texts.values():  # the page's socket has a name of its network namespace alone
            self.assertNotRegex(text, "(?m)^PrivateNetwork=")

    def test_same_places(self) -> None:
        """The scripts of the services name the files that ngc-setup makes."""
        made = setup.MachineFiles.of(setup.CONFIG, setup.STATE)
        player = (PACKAGING / "files/start-player").read_text()
        page = (PACKAGING / "files/start-page").read_text()
        for text, paths in ((player, (made.machine, made.out, made.settings, made.position)),
                            (page, (made.device, made.settings, made.out, made.machine, made.key))):
            for path in paths:
                self.assertRegex(text, rf"(?<!\S)\(?{re.escape(str(path))}\)?(?!\S)")

    def test_machine_to_begin_with(self) -> None:
        """It is valid."""
        made = tree.Tree(self.folder, tree.AMD64, tree.Given(self.folder, self.folder, "1"))
        made._machine()
        self.assertEqual(Settings.read("etc/ngc/example/settings.toml"), tree.MILL)
        self.assertIn("sink", read_tables("etc/ngc/example/machine.toml"))

    def test_boards(self) -> None:
        """There is firmware for each board that docs/SINK.md has."""
        self.assertEqual(set(tree.BOARDS), set(BOARDS))

    def test_address(self) -> None:
        """Its help is that of a tool, and wrong words are told."""
        script = PACKAGING / "files/ngc-address"
        done = subprocess.run([script, "--nothing"], capture_output=True, text=True)
        self.assertEqual((done.returncode, done.stdout), (2, ""))
        self.assertTrue(done.stderr.endswith("ngc-address: error: unrecognized arguments: --nothing\n"))
        said = subprocess.run([script, "--help"], capture_output=True, text=True, check=True).stdout
        self.assertRegex(said, r"(?s)^usage: .*\nexample:\n  ngc-address\n\nexit status:\n  0  ")

    def test_address_to_come(self) -> None:
        """A page that is about to begin is waited for, and one that doesn't run isn't."""
        script = (PACKAGING / "files/ngc-address").read_text()
        self.assertEqual(script.count("/run/ngc-page/address"), 1)
        place = Path(self.folder, "page")
        words = ["sh", "-c", script.replace("/run/ngc-page/address", f"{place}/address")]
        self.assertEqual(subprocess.run(words, capture_output=True).returncode, 1)
        place.mkdir()
        child = subprocess.Popen(words, stdout=subprocess.PIPE, text=True)
        time.sleep(1)
        (place / "to come").write_text("http://127.0.0.1:1/key/\n")
        (place / "to come").rename(place / "address")
        self.assertEqual((child.communicate(timeout=60)[0], child.returncode), ("http://127.0.0.1:1/key/\n", 0))

    def test_runtime(self) -> None:
        """What stands in for the kit's C parts on 64-bit ARM, at its edges: 0 bytes, refusals, words that fit exactly.
        """
        sources = [PACKAGING / "arm" / name for name in ("runtime.c", "try_runtime.c")]
        flags = ["-std=c11", "-O1", "-Wall", "-Wextra", "-Wconversion", "-Werror"]
        subprocess.run(["cc", *flags, *(SANITIZERS if has_sanitizers() else ()), *sources, "-o", "runtime"], check=True)
        done = subprocess.run(["./runtime", "", "abc", "x"], capture_output=True, text=True,
                              env={**os.environ, "ASAN_OPTIONS": "allocator_may_return_null=1"})
        self.assertEqual((done.returncode, done.stdout), (0, "the runtime's functions: as they should be\n"))

    def test_version(self) -> None:
        """The copy of the crates that a package's ngc is built of says of which commit and kit it is. It has the crates
        that are needed, without edits that are to fail, and differs in nothing else."""
        names = [source.VERSION, "crates/ngc/src/main.rt", "crates.txt"]
        others = ["crates/ng_console/must-fail/one.edit", "crates/ng_tests/src/lib.rt"]
        for name in names + others:
            Path("here", name).parent.mkdir(parents=True, exist_ok=True)
            Path("here", name).write_text("other\n" if name in others else (TOOLS.parent / name).read_text())
        commit, kit = "c" * 40 + "+changed", "rattle-kit-13f logic dac8208d650f15bf"
        source.make(Path("here"), names + others, Path("copy"), commit, kit)
        self.assertEqual([name for name in names + others if Path("copy", name).exists()], names)
        crates = [line.split()[0].rstrip(":") for line in Path("copy/crates.txt").read_text().splitlines()]
        self.assertEqual(set(crates) & {"ngc", "ng_pace_c", "ng_lines_c", "ng_num", "ng_tests", "ngc_cases"},
                         {"ngc", "ng_pace_c", "ng_lines_c", "ng_num"})
        self.assertEqual(Path("copy", names[1]).read_text(), Path("here", names[1]).read_text())
        here, copy = (Path(folder, source.VERSION).read_text() for folder in ("here", "copy"))
        number = re.search(r"^ngc ([\d.]+)$", (TOOLS.parent / "crates/ngc_cases/data/command_lines.words").read_text(),
                           re.MULTILINE)[1]
        told = f'const VERSION: &str =\n    "{number}\\ncommit: {commit}\\nkit: {kit}";\n'
        self.assertIn(told, copy)
        self.assertEqual(copy.replace(told, f'const VERSION: &str = "{number}";\n'), here)
        for commit, kit in (('c"', "kit"), ("c", "kit\n"), ("c", "")):
            with self.assertRaises(ValueError):
                source.told(here, commit, kit)
        with self.assertRaises(ValueError):
            source.told(copy, "c", "kit")

    @unittest.skipUnless(shutil.which("dpkg-deb"), "no dpkg-deb here")
    def test_same_bytes(self) -> None:
        """A package of the same files, whose times and owners' modes differ, has the same bytes; one of others not."""
        facts = deb.Facts("1.0~x", "A B <a@b.example>", 1_700_000_000, "c" * 40, "kit", "given")
        packages = []
        for mode, text in ((0o644, "a"), (0o600, "a"), (0o644, "b")):
            root = Path(tempfile.mkdtemp(dir=self.folder))
            for name in ("usr/bin/ngc", "usr/libexec/ngc/player"):
                (root / name).parent.mkdir(parents=True)
                shutil.copy("/bin/true", root / name)
            (root / "etc").mkdir()
            (root / "etc/words").write_text("a")
            (root / "usr/share/doc/ngc").mkdir(parents=True)
            (root / "usr/share/doc/ngc/page").write_text(text)
            (root / "usr/share/doc/ngc/page").chmod(mode)
            deb.tell(root, facts)
            deb.pack(root, "objdump", "amd64", facts, Path(f"{root}.deb"))
            packages.append(Path(f"{root}.deb").read_bytes())
            said = subprocess.run(["dpkg-deb", "-f", f"{root}.deb"], capture_output=True, text=True, check=True).stdout
            self.assertIn("Version: 1.0~x\n", said)
            sums = (root / "usr/share/doc/ngc/SHA256SUMS").read_text()
            self.assertEqual(sorted(re.findall("  (.*)", sums)), [
                "etc/words", "usr/bin/ngc", "usr/libexec/ngc/player", "usr/share/doc/ngc/changelog.gz",
                "usr/share/doc/ngc/page", "usr/share/ngc/BUILD"])
            changes = gzip.decompress((root / "usr/share/doc/ngc/changelog.gz").read_bytes())
            self.assertIn(b"commit " + b"c" * 40, changes)
        self.assertEqual((packages[0] == packages[1], packages[0] == packages[2]), (True, False))


if __name__ == "__main__":
    unittest.main()
