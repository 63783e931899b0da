"""Files and standard input: what is read, what is refused before anything runs, and several files."""

from __future__ import annotations

import os
import subprocess
import unittest

from tools.run.several import worst
from tools.run.tests.standins import WrapperTest, as_other
from tools.run.words import STATUS_ORDER


class Files(WrapperTest):
    def test_each_command_reads_its_file(self) -> None:
        self.copy_with("proved")
        for words in ("run hello.conc", "run ./hello.conc", "check hello.conc", "trace hello.conc", "outcomes hello.conc", "verify hello.conc",
                      "report hello.conc", "run -- hello.conc"):
            with self.subTest(words):
                self.assertEqual(self.call(*words.split(), more=self.counting).all, ("hello\n", "", 0))
                self.assertEqual(self.calls(), [words.split()[0]], "the file is none of the words of the program")

    def test_options_before_and_behind_the_file(self) -> None:
        self.copy_with("proved")
        for words in ("--caps 4 hello.conc --fuel=10", "hello.conc --caps 4 --fuel=10", "--caps 4 --fuel=10 hello.conc",
                      "--memory 300 --caps 4 hello.conc --fuel=10", "--caps 4 --fuel=10 -- hello.conc"):
            with self.subTest(words):
                self.assertEqual(self.call("run", *words.split(), more=self.counting).out, "hello\n")
                self.assertEqual(self.calls(), ["run --caps 4 --fuel=10"])

    def test_standard_input(self) -> None:
        self.copy_with("proved")
        with open(self.path("hello.conc"), "rb") as file:
            self.assertEqual(self.call("run", stdin=file).all, ("hello\n", "", 0))
        with open(self.path("hello.conc"), "rb") as file:
            self.assertEqual(self.call("run", "-", "--caps", "2", stdin=file).all, ("hello\n", "", 0))
        self.assertEqual(self.call("run", given="-- prints: piped\n").out, "piped\n")

    def test_a_file_that_is_a_pipe(self) -> None:
        self.copy_with("proved")
        os.mkfifo(self.path("pipe"))
        with subprocess.Popen(["sh", "-c", 'echo "-- prints: piped" > "$1"', "-", self.path("pipe")]):
            self.assertEqual(self.call("run", "pipe").out, "piped\n")

    def test_streams_and_status_are_those_of_the_program(self) -> None:
        self.copy_with("proved")
        self.write("ends.conc", "-- prints: out\n-- error: err\n-- ends: 4\n")
        for words in (["run", "ends.conc"], ["run", "--explain", "ends.conc"]):
            self.assertEqual(self.call(*words).all, ("out\n", "err\n", 4))

    def test_a_command_that_reads_no_script(self) -> None:
        self.copy_with("proved")
        self.assertEqual(self.call("bench", "10", "--caps", "4").out, "bench 10 --caps 4\n")

    def test_nothing_is_left_for_the_rest_of_a_pipe(self) -> None:
        self.copy_with("proved")
        rest = self.call(command=["sh", "-c", "read -r _; ./conc_run check > check.out 2>&1; cat"], given="a\nb\n")
        self.assertEqual(rest.out, "")

    def test_a_name_that_is_no_utf8(self) -> None:
        self.copy_with("proved")
        name = b"\xff.conc"
        with open(os.path.join(self.copy.encode(), name), "w", encoding="utf-8") as file:
            file.write("-- prints: odd\n")
        self.assertEqual(self.call("run", name).out, "odd\n")
        self.assertEqual(self.call("run", b"\xfe.conc").err.encode("utf-8", "surrogateescape"), b"conc_run: there is no file '\xfe.conc'\n")


class BadInput(WrapperTest):
    def test_no_file(self) -> None:
        self.copy_with("proved")
        os.mkdir(self.path("folder"))
        self.assert_line(self.call("run", "none.conc"), "there is no file 'none.conc'", 66)
        self.assert_line(self.call("run", ""), "there is no file ''", 66)
        self.assert_line(self.call("run", "it's\n.conc"), "there is no file $'it\\'s\\n.conc'", 66)
        self.assert_line(self.call("check", "folder"), "'folder' is a folder", 66)

    def test_two_files(self) -> None:
        self.copy_with("proved")
        self.assert_line(self.call("run", "hello.conc", "wrong.conc"), "one script at a time, and these are 2: 'hello.conc' 'wrong.conc'", 66)
        self.assert_line(self.call("run", "hello.conc", "-"), "one script at a time", 66)

    def test_names_like_options(self) -> None:
        self.copy_with("proved")
        self.write("-x.conc", "-- prints: dash\n")
        self.assert_line(self.call("run", "-x.conc"), "'-x.conc' is read as an option", 66)
        self.assertEqual(self.call("run", "--", "-x.conc").all, ("dash\n", "", 0))
        self.assertEqual(self.call("run", "./-x.conc").all, ("dash\n", "", 0))
        self.write("--caps", "")
        self.assertEqual(self.call("run", "--caps", "4", "hello.conc").all, ("hello\n", "", 0))
        self.assert_line(self.call("run", "--", "--help"), "there is no file '--help'", 66)

    def test_rights(self) -> None:
        self.copy_with("proved")
        os.chmod(self.write("locked.conc", ""), 0)
        os.mkdir(self.path("closed"))
        self.write("closed/ends.conc", "")
        os.chmod(self.path("closed"), 0o644)
        self.assert_line(self.call("run", "locked.conc", **as_other()), "no right to read 'locked.conc'", 66)
        self.assert_line(self.call("run", "closed/ends.conc", **as_other()), "no right to enter the folder of 'closed/ends.conc'", 66)

    def test_it_is_told_before_a_build(self) -> None:
        self.copy_with("none")
        self.assert_line(self.call("run", "none.conc"), "there is no file", 66)

    @unittest.skipUnless(os.path.exists("/dev/tty"), "no /dev/tty here")
    def test_what_exists_and_opens_for_nobody(self) -> None:
        self.copy_with("none")
        self.assert_line(self.call("run", "/dev/tty", start_new_session=True), "'/dev/tty' can't be opened", 66)


class SeveralFiles(WrapperTest):
    def test_each_line_begins_with_the_name(self) -> None:
        self.copy_with("proved")
        self.write("accepted.conc", "-- prints: accepted\n")
        answer = self.call("check", "accepted.conc", "wrong.conc", "-", "none.conc", given="-- prints: accepted\n")
        self.assertEqual(answer.out, "accepted.conc: accepted\n-: accepted\n")
        self.assertEqual(answer.err, "wrong.conc: refused: Mismatch at 2:19\nconc_run: there is no file 'none.conc'\n")
        self.assertEqual(answer.status, 66)
        self.assertEqual(self.call("check", "accepted.conc", "wrong.conc").status, 3)
        self.assertEqual(self.call("check", "accepted.conc", "accepted.conc").all, ("accepted.conc: accepted\n" * 2, "", 0))

    def test_a_refusal_is_explained_below_its_line(self) -> None:
        self.copy_with("proved")
        err = self.call("check", "hello.conc", "wrong.conc", "--explain").err.splitlines()
        self.assertEqual(err[:3], ["wrong.conc: refused: Mismatch at 2:19", "main :: IO () = { putStrLn 3 };", " " * 18 + "^"])

    def test_one_file_is_as_before(self) -> None:
        self.copy_with("proved")
        self.assertEqual(self.call("check", "hello.conc").out, "hello\n")

    def test_full_output(self) -> None:
        self.copy_with("proved")
        with open("/dev/full", "wb") as full:
            self.assertEqual(self.call("check", "hello.conc", "hello.conc", stdout=full).status, 8)

    def test_the_order_of_statuses(self) -> None:
        self.assertEqual(worst([0, 12, 11, 3, 66], STATUS_ORDER), 66)
        self.assertEqual(worst([0, 12, 11, 15], STATUS_ORDER), 15)
        self.assertEqual(worst([0, 12, 11], STATUS_ORDER), 11)
        self.assertEqual(worst([0, 0], STATUS_ORDER), 0)
        self.assertEqual(worst([66, 139, 0], STATUS_ORDER), 139, "what nobody expects is told first")
        self.assertEqual(list(STATUS_ORDER), [66, 70, 71, 2, 3, 6, 7, 8, 9, 14, 15, 11, 12, 0])
