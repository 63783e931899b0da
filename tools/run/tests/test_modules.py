"""Haskell modules in place of scripts: what is translated, what is kept, what is refused. A small program stands for the translator."""

from __future__ import annotations

import os
import signal
import unittest

from tools.run.tests.standins import PYTHON, WrapperTest, is_running, wait_until, write_executable

# Does what the lines of the module say, and tells the words that it gets. Its script has the same lines.
TRANSLATOR = f"""#!{PYTHON} -IS
import os, signal, sys, time
signal.signal(signal.SIGTERM, signal.SIG_DFL)
words = sys.argv[1:]
with open(os.environ["STAND_IN_MODULES"], "a", errors="surrogateescape") as calls:
    print(*(it for it in words if "conc_run." not in it and it != "--files"), file=calls)
name = words[-1]
with open(name, encoding="utf-8", errors="surrogateescape", newline="") as file:
    text = file.read()

def said(key):
    head = "-- " + key + ": "
    return [it[len(head):] for it in text.split("\\n") if it.startswith(head)]

def told(line):
    os.write(2, line.encode("utf-8", "surrogateescape") + b"\\n")

for it in said("waits"):
    with open(it + ".part", "w") as file:
        file.write(str(os.getpid()))
    os.rename(it + ".part", it)
    time.sleep(20)
for it in said("note"):
    told(name + ":1:1: note: " + it)
for it in said("wrong"):
    told(name + ":2:3: error: " + it)
    sys.exit(3)
if "--files" in words:
    with open(words[words.index("--files") + 1], "wb") as file:
        for it in [name, *said("imports")]:
            file.write(os.fsencode(it) + b"\\0")
sys.stdout.buffer.write(text.encode("utf-8", "surrogateescape"))
"""
BUILD = """#!/bin/sh
[ -z "$STAND_IN_NO_GHC" ] || { echo 'from-haskell needs ghc 9.0.2, and there is none; apt-get install ghc' >&2; exit 70; }
echo "$(dirname "$0")/translator"
"""


class ModuleTest(WrapperTest):
    """A test whose copy of the wrapper has a translator."""

    def setUp(self) -> None:
        super().setUp()
        self.environment["XDG_CACHE_HOME"] = os.path.join(self.room, "cache")
        self.environment["STAND_IN_MODULES"] = os.path.join(self.room, "modules")
        self.copy_with("proved")
        for folder in ("src", "app", "prelude"):
            os.makedirs(self.path(f"from-haskell/{folder}"))
        self.write("from-haskell/src/Translator.hs", "module Translator where\n")
        write_executable(self.path("from-haskell/build"), BUILD)
        write_executable(self.path("from-haskell/translator"), TRANSLATOR)
        self.write("Main.hs", "-- prints: from a module\n")

    def translations(self) -> list[str]:
        """The words of the translations since this was asked."""
        path = self.environment["STAND_IN_MODULES"]
        if not os.path.exists(path):
            return []
        with open(path, encoding="utf-8") as file:
            found = file.read().splitlines()
        os.remove(path)
        return found

    @property
    def kept(self) -> list[str]:
        folder = os.path.join(self.room, "cache", "conc-run", "scripts")
        return os.listdir(folder) if os.path.isdir(folder) else []


class Modules(ModuleTest):
    def test_each_command_takes_a_module(self) -> None:
        for command in ("run", "check", "trace", "outcomes"):
            with self.subTest(command):
                self.assertEqual(self.call(command, "Main.hs", more=self.counting).all, ("from a module\n", "", 0))
                self.assertEqual(self.calls(), [command])
        self.write("Text.lhs", "-- prints: literate\n")
        self.assertEqual(self.call("run", "Text.lhs").out, "literate\n")

    def test_the_words_are_parted(self) -> None:
        self.call("outcomes", "-iother:more", "--fuel", "9", "--main", "f", "Main.hs", "--strict", "--states=5", more=self.counting)
        self.assertEqual(self.calls(), ["outcomes --fuel 9 --states=5"])
        self.assertEqual(self.translations(), ["-iother:more --main f --strict -- Main.hs"])
        self.call("run", "--main=g", "Main.hs")
        self.assertEqual(self.translations(), ["--main=g -- Main.hs"])

    def test_script_prints_it(self) -> None:
        self.assertEqual(self.call("script", "Main.hs").all, ("-- prints: from a module\n", "", 0))
        for words in (["script"], ["script", "hello.conc"], ["script", "-"]):
            self.assert_line(self.call(*words), "script takes a Haskell module", 2)
        with open("/dev/full", "wb") as full:
            self.assertEqual(self.call("script", "Main.hs", stdout=full).status, 8)

    def test_claims_have_the_lines_of_the_module(self) -> None:
        self.set_coming()
        os.makedirs(self.path("more"))
        claims = ["-- Main.hs:12", "-- ! never stuck", "-- Main.hs:3", "-- ! always done", "-- Other.hs:4", "-- ! terminates"]
        says = [f"-- prints: line {number}: holds" for number in (6, 8, 10)]
        self.write("more/Main.hs", "\n".join([*says, "--", *claims]) + "\n")
        self.assertEqual(self.call("claims", "more/Main.hs").out.splitlines()[:3], ["more/Main.hs:12: holds", "more/Main.hs:3: holds", "more/Main.hs:10: holds"])
        self.write("Main.hs", "-- refused: Claim at 3:5\n-- Main.hs:7\n-- ! sometime\n")
        self.assertEqual(self.call("claims", "Main.hs").all, ("", "Main.hs:7:5: refused: Claim at 3:5\n", 3))

    def test_a_picture_of_a_module(self) -> None:
        self.call("picture", "Main.hs", more=self.counting)
        self.assertEqual(self.calls()[0], "trace")

    def test_several_files(self) -> None:
        self.write("wrong.hs", "-- wrong: [type] a function is kept\n")
        self.write("good.hs", "-- prints: accepted\n")
        answer = self.call("check", "good.hs", "wrong.hs", "hello.conc")
        self.assertEqual(answer.out, "good.hs: accepted\nhello.conc: hello\n")
        self.assertEqual((answer.err, answer.status), ("wrong.hs:2:3: error: [type] a function is kept\n", 3))

    def test_refusals_are_those_of_the_translator(self) -> None:
        self.write("wrong.hs", "-- note: n\n-- wrong: w\n")
        for words in (["run"], ["outcomes", "--explain"]):
            answer = self.call(*words, "wrong.hs", more=self.counting)
            self.assertEqual(answer.all, ("", "wrong.hs:1:1: note: n\nwrong.hs:2:3: error: w\n", 3))
            self.assertEqual(self.calls(), [], "nothing is run")

    def test_without_ghc(self) -> None:
        answer = self.call("run", "Main.hs", more={"STAND_IN_NO_GHC": "1"})
        self.assert_line(answer, "from-haskell needs ghc 9.0.2", 70)
        os.remove(self.path("from-haskell/build"))
        self.assert_line(self.call("run", "Main.hs"), "the translator of Haskell modules is not here", 70)

    def test_words_that_fit_no_file(self) -> None:
        for words in (["run", "hello.conc", "--main", "f"], ["run", "--strict"], ["outcomes", "-ifolder", "hello.conc"]):
            self.assert_line(self.call(*words), "is for Haskell modules", 2)
        self.assert_line(self.call("verify", "Main.hs"), "verify reads a written history", 66)
        self.assert_line(self.call("report", "Main.hs"), "./conc_run trace Main.hs writes one", 66)
        self.assert_line(self.call("run", "none.hs"), "there is no file 'none.hs'", 66)

    def test_names(self) -> None:
        os.mkdir(self.path("a b"))
        for name in ("a b/it's.hs", "-x.hs", "\udcff.hs"):
            self.write(name, "-- prints: odd\n")
            for _ in ("made", "kept"):
                self.assertEqual(self.call("run", "--", os.fsencode(name)).all, ("odd\n", "", 0))

    def test_an_interrupted_translation(self) -> None:
        self.write("waits.hs", f"-- waits: {self.path('waiting')}\n")
        with self.start("run", "waits.hs") as child:
            self.assertTrue(wait_until(lambda: os.path.exists(self.path("waiting"))))
            child.send_signal(signal.SIGINT)
            self.assertEqual(child.wait(), 130)
        with open(self.path("waiting"), encoding="ascii") as file:
            process = int(file.read())
        self.assertTrue(wait_until(lambda: not is_running(process)))
        self.assertEqual(os.listdir(self.temporary), [], "no file is left behind")


class Kept(ModuleTest):
    def setUp(self) -> None:
        super().setUp()
        # A file that is as new as its translation isn't kept.
        for name in ("Main.hs", "Imported.hs"):
            os.utime(self.write(name, "-- prints: 1\n-- imports: Imported.hs\n-- imports: Absent.hs\n-- note: n\n"), (1, 1))

    def assert_made(self, times: int, *words: str, name: str = "Main.hs") -> None:
        self.assertEqual(self.call("run", *words, name).err, f"{name}:1:1: note: n\n")
        self.assertEqual(len(self.translations()), times)

    def test_a_script_is_kept(self) -> None:
        self.assert_made(1)
        self.assert_made(0)
        self.assert_made(1, "--main", "f")
        self.assert_made(0, "--main", "f")
        self.assert_made(0)
        self.assertEqual(len(self.kept), 2)

    def test_what_changed_is_made_anew(self) -> None:
        self.assert_made(1)
        os.utime(self.write("Imported.hs", "-- another\n"), (1, 1))
        self.assert_made(1)
        self.assert_made(0)
        os.utime(self.write("Absent.hs", "-- it comes before another one\n"), (1, 1))
        self.assert_made(1)
        self.assert_made(0)
        os.remove(self.path("Absent.hs"))
        self.assert_made(1)
        self.write("from-haskell/src/Translator.hs", "module Translator where\nx = 1\n")
        self.assert_made(1)
        os.utime(self.path("Main.hs"), (2, 2))
        self.assert_made(0)

    def test_what_is_new_is_not_kept(self) -> None:
        os.utime(self.path("Imported.hs"), (1 << 32, 1 << 32))
        self.assert_made(1)
        self.assert_made(1)

    def test_trust_is_not_kept(self) -> None:
        self.assert_made(1, "--trust")
        self.assert_made(1, "--trust")
        self.assertEqual(self.kept, [])

    def test_a_refusal_is_not_kept(self) -> None:
        os.utime(self.write("wrong.hs", "-- wrong: w\n"), (1, 1))
        for _ in (1, 2):
            self.assertEqual(self.call("run", "wrong.hs").status, 3)
        self.assertEqual(len(self.translations()), 2)

    def test_a_broken_entry(self) -> None:
        self.assert_made(1)
        for text in ("", "{}", "[]", "\0", '{"files": 1, "script": "", "notes": ""}'):
            with open(os.path.join(self.room, "cache", "conc-run", "scripts", self.kept[0]), "w", encoding="utf-8") as file:
                file.write(text)
            self.assert_made(1)

    def test_without_a_place_for_the_cache(self) -> None:
        with open(os.path.join(self.room, "file"), "w", encoding="utf-8"):
            pass
        self.environment["XDG_CACHE_HOME"] = os.path.join(self.room, "file")
        self.assert_made(1)
        self.assert_made(1)

    def test_old_ones_are_dropped(self) -> None:
        folder = os.path.join(self.room, "cache", "conc-run", "scripts")
        os.makedirs(folder)
        for number in range(300):
            path = os.path.join(folder, str(number))
            with open(path, "w", encoding="utf-8"):
                pass
            os.utime(path, (number, number))
        self.assert_made(1)
        self.assertEqual(len(self.kept), 256)
        self.assertNotIn("0", self.kept)
        self.assert_made(0)

    def test_cleaned(self) -> None:
        folder = os.path.join(self.room, "cache", "conc-run")
        self.assert_made(1)
        self.assertEqual(self.call("--clean").all, (f"removed {folder}\n", "", 0))
        self.assertEqual(os.listdir(os.path.dirname(folder)), [])
        self.assertEqual(self.call("--clean").all, (f"nothing is kept in {folder}\n", "", 0))
        self.assert_made(1)

    def test_a_link_is_removed_and_not_what_it_leads_to(self) -> None:
        folder, other = os.path.join(self.room, "cache", "conc-run"), os.path.join(self.room, "other")
        os.makedirs(os.path.dirname(folder))
        os.mkdir(other)
        os.symlink(other, folder)
        self.assertEqual(self.call("--clean").status, 0)
        self.assertFalse(os.path.lexists(folder))
        self.assertTrue(os.path.isdir(other))


if __name__ == "__main__":
    unittest.main()
