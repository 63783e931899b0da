"""What stands below the line of a refusal."""

from __future__ import annotations

import os
import re
import unittest

from tools.run import refusals
from tools.run.input import script_of
from tools.run.tests.standins import TOP, WrapperTest

EXPLAINED = """refused: Mismatch at 2:19
main :: IO () = { putStrLn 3 };
                  ^
Mismatch: a part of this form has another type than the form needs, or this definition's body another than is declared.
What to do: change the part, or the declared type; show makes a Text of a number.
"""
CARET = " " * 18 + "^"


class Refusals(WrapperTest):
    def test_a_refusal(self) -> None:
        self.copy_with("proved")
        self.assertEqual(self.call("run", "wrong.conc").all, ("", "refused: Mismatch at 2:19\n", 3))
        self.assertEqual(self.call("run", "wrong.conc", "--explain").all, ("", EXPLAINED, 3))
        self.assertEqual(self.call("outcomes", "wrong.conc", "--explain").all, ("", EXPLAINED, 3))

    def test_a_refusal_from_standard_input(self) -> None:
        self.copy_with("proved")
        with open(self.path("wrong.conc"), "rb") as file:
            self.assertEqual(self.call("run", "--explain", stdin=file).err, EXPLAINED)
        with open(self.path("wrong.conc"), "rb") as file:
            self.assertEqual(self.call("--explain", "check", given=file.read()).err, EXPLAINED)

    def test_a_file_that_was_read_in_part(self) -> None:
        self.copy_with("proved")
        self.write("part.conc", "a first line\n-- refused: Mismatch at 2:19\nmain :: IO () = { putStrLn 3 };\n")
        answer = self.call(command=["bash", "-c", "{ read -r _; ./conc_run run --explain; } < part.conc"])
        self.assertEqual(answer.err, EXPLAINED)

    def test_a_refusal_without_a_place(self) -> None:
        self.copy_with("proved")
        self.write("place.conc", "-- refused: TooLong\n")
        self.assertIn("refused: TooLong\nTooLong: the script has more than 1,048,576 bytes.", self.call("run", "place.conc", "--explain").err)

    def test_the_empty_script(self) -> None:
        self.copy_with("proved")
        self.assertIn("What to do: define it", self.call("--explain", "run").err)

    def test_lines_that_the_table_lacks(self) -> None:
        self.copy_with("proved")
        self.write("place.conc", "-- refused: Other at 1:1\n")
        answer = self.call("run", "place.conc", "--explain")
        self.assertEqual((answer.err, answer.status), ("refused: Other at 1:1\n-- refused: Other at 1:1\n^\n", 3))
        self.write("place.conc", "-- refused: nothing of this form\n")
        answer = self.call("run", "place.conc", "--explain")
        self.assertEqual((answer.err, answer.status), ("refused: nothing of this form\n", 3))

    def test_in_the_c_locale(self) -> None:
        self.copy_with("proved")
        self.write("place.conc", "-- refused: Unknown at 2:6\nαβ 中 x;")
        for locale in ("C", "POSIX", "en_US.ISO-8859-1"):
            self.assertIn("\nαβ 中 x;\n     ^\n", self.call("run", "place.conc", "--explain", more={"LC_ALL": locale}).err)


class Place(unittest.TestCase):
    def check(self, script: str | bytes, refusal: str, line: str, caret: str) -> None:
        """That a line and a caret stand below such a refusal of what stands on line 2."""
        found = re.fullmatch(r"(\w+) at (\d+):(\d+)", refusal)
        assert found
        text = script if isinstance(script, bytes) else script.encode()
        self.assertEqual(refusals.place(b"-- first\n" + text, int(found[2]), int(found[3]), found[1]), f"{line}\n{caret}\n")

    def test_columns(self) -> None:
        self.check("\tx\ty = 1", "Unknown at 2:4", "\tx\ty = 1", "\t \t^")
        self.check("αβ 中 x;", "Unknown at 2:6", "αβ 中 x;", "     ^")
        self.check("𝄞𝄞 x", "BadChar at 2:2", "𝄞𝄞 x", " ^")

    def test_ends(self) -> None:
        self.check("main = {", "Unexpected at 2:9", "main = {", "        ^")
        self.check("main = {\n", "Unexpected at 3:1", "", "^")
        self.check("main x\r\n", "Unknown at 2:6", "main x", "     ^")

    def test_control_characters_do_not_reach_the_terminal(self) -> None:
        self.check("a\033[31m\rb c", "Unknown at 2:9", "a?[31m?b c", "        ^")
        self.check("a\x9bb c", "Unknown at 2:5", "a?b c", "    ^")
        self.check("a\0b c", "Unknown at 2:5", "a?b c", "    ^")

    def test_bytes_that_are_no_character(self) -> None:
        self.check(b"ab \377\033xyz", "NotUtf8 at 2:4", "ab ?", "   ^")
        self.check(b"ab \200xyz", "NotUtf8 at 2:4", "ab ?", "   ^")
        self.check("中 ".encode() + b"\xe4\xb8 x", "NotUtf8 at 2:3", "中 ?", "  ^")

    def test_a_long_line(self) -> None:
        self.check("0" * 200 + "x" + "0" * 199 + "1", "Unknown at 2:201", ".. " + "0" * 60 + "x" + "0" * 67 + " ..", " " * 63 + "^")
        self.check("0" * 128, "Unknown at 2:100", "0" * 128, " " * 99 + "^")


class Table(unittest.TestCase):
    def test_each_refusal_of_the_program_has_its_texts(self) -> None:
        with open(os.path.join(TOP, "crates", "conc_top", "src", "ending.rt"), encoding="utf-8") as file:
            known = set(re.findall(r'(?:line_at\(alloc, "|"refused: )([A-Za-z0-9]+)', file.read()))
        self.assertEqual(set(refusals.BROKEN), known)
        self.assertEqual(set(refusals.REMEDIES), known)
        self.assertTrue(all([*refusals.BROKEN.values(), *refusals.REMEDIES.values()]))

    def test_the_script_of_a_document(self) -> None:
        self.assertEqual(script_of("verify", b"conc-trace 1\nscript\nmain\nscript\n"), b"main\nscript\n")
        self.assertEqual(script_of("verify", b"script\nmain"), b"main")
        self.assertEqual(script_of("report", b"no line of it is this"), b"")
        self.assertEqual(script_of("run", b"a\nscript\nb"), b"a\nscript\nb")
