"""Streams that are closed, full, broken or no file, and folders that hold nothing more."""

from __future__ import annotations

import glob
import os
import resource

from tools.run.tests.standins import Answer, WrapperTest
from tools.run.tests.test_refusals import EXPLAINED

FULL = "/dev/full"


def no_file_grows() -> None:
    resource.setrlimit(resource.RLIMIT_FSIZE, (1024, 1024))


class StandardError(WrapperTest):
    def with_closed(self, words: str) -> Answer:
        return self.call(command=["sh", "-c", f"./conc_run {words} 2>&-"])

    def with_full(self, words: str) -> Answer:
        with open(FULL, "wb") as full:
            return self.call(*words.split(), stderr=full)

    def with_broken(self, words: str) -> Answer:
        reader, writer = os.pipe()
        os.close(reader)
        try:
            return self.call(*words.split(), stderr=writer)
        finally:
            os.close(writer)

    def test_a_run_goes_on(self) -> None:
        self.copy_with("checked")
        for call in (self.with_closed, self.with_full, self.with_broken):
            with self.subTest(call.__name__):
                self.assertEqual(call("run hello.conc").all, ("hello\n", "", 0))
                self.assertEqual(call("run hello.conc --explain").all, ("hello\n", "", 0))
                self.assertEqual(call("run wrong.conc --explain").all, ("", "", 3))
                self.assertEqual(call("check hello.conc wrong.conc").all, ("hello.conc: hello\n", "", 3))

    def test_a_build_goes_on(self) -> None:
        for call in (self.with_closed, self.with_full, self.with_broken):
            with self.subTest(call.__name__):
                self.copy_with("none")
                self.assertEqual(call("run hello.conc").all, ("hello\n", "", 0))

    def test_the_status_of_bad_input_stays(self) -> None:
        self.copy_with("proved")
        for call in (self.with_closed, self.with_full, self.with_broken):
            with self.subTest(call.__name__):
                self.assertEqual(call("run none.conc").all, ("", "", 66))


class StandardInput(WrapperTest):
    def test_a_folder_is_a_fault_of_reading(self) -> None:
        self.copy_with("proved")
        for words in (["run"], ["run", "--explain"], ["check", "hello.conc", "-"]):
            with self.subTest(words):
                folder = os.open(self.copy, os.O_RDONLY)
                try:
                    answer = self.call(*words, stdin=folder)
                finally:
                    os.close(folder)
                self.assertEqual((answer.err.rpartition(": ")[2], answer.status), ("read fault\n", 7))

    def test_closed(self) -> None:
        self.copy_with("proved")
        for words in ("run", "run --explain", "outcomes --explain", "picture"):
            with self.subTest(words):
                self.assertEqual(self.call(command=["sh", "-c", f"./conc_run {words} <&-"]).all, ("", "read fault\n", 7))
        self.assertEqual(self.call(command=["sh", "-c", "./conc_run run hello.conc <&-"]).all, ("hello\n", "", 0))

    def test_all_are_closed(self) -> None:
        self.copy_with("proved")
        self.assertEqual(self.call(command=["sh", "-c", "./conc_run run hello.conc <&- 2>&-"]).all, ("hello\n", "", 0))
        self.assertEqual(self.call(command=["sh", "-c", "./conc_run run wrong.conc --explain <&- >&- 2>&-"]).status, 3)


class StandardOutput(WrapperTest):
    def test_pages_that_can_not_be_written(self) -> None:
        self.copy_with("proved")
        for words in ("help", "--help", "-h", "--version"):
            with self.subTest(words):
                with open(FULL, "wb") as full:
                    self.assertEqual(self.call(words, stdout=full).all, ("", "", 8))
                self.assertEqual(self.call(command=["sh", "-c", f"./conc_run {words} >&-"]).all, ("", "", 8))

    def test_a_reader_that_has_gone(self) -> None:
        self.copy_with("proved")
        reader, writer = os.pipe()
        os.close(reader)
        self.assertEqual(self.call("help", stdout=writer).all, ("", "", 8))
        os.close(writer)


class NoRoom(WrapperTest):
    """A script is kept for its line. Where it can't be, the program reads it itself, and nothing of it is lost in silence."""

    def test_no_folder_to_keep_a_script_in(self) -> None:
        self.copy_with("proved")
        nowhere = {"TMPDIR": self.path("nowhere")}
        self.assertEqual(self.call("--explain", "run", "hello.conc", more=nowhere).all, ("hello\n", "", 0))
        self.assertEqual(self.call("--explain", "run", given="-- prints: piped\n", more=nowhere).all, ("piped\n", "", 0))

    def test_a_file_is_read_where_none_may_grow(self) -> None:
        self.copy_with("proved")
        self.write("long.conc", "-- prints: hello\n" + "-- a comment\n" * 3000)
        self.write("wrong.conc", "-- refused: Mismatch at 2:19\nmain :: IO () = { putStrLn 3 };\n" + "-- a comment\n" * 3000)
        for words in (["run", "long.conc"], ["--explain", "run", "long.conc"]):
            self.assertEqual(self.call(*words, limits=no_file_grows).all, ("hello\n", "", 0))
        self.assertEqual(self.call("--explain", "run", "wrong.conc", limits=no_file_grows).all, ("", EXPLAINED, 3))
        self.assertEqual(glob.glob(self.path("tools/**/__pycache__"), recursive=True), [], "and no module of Python is kept cut off")

    def test_a_pipe_that_can_not_be_kept_is_told(self) -> None:
        self.copy_with("proved")
        given = "-- prints: hello\n" + "-- a comment\n" * 3000
        answer = self.call("--explain", "run", given=given, limits=no_file_grows)
        self.assert_line(answer, f"no room in {self.temporary} to keep the script; for one in a file none is needed", 70)
        self.assertEqual(self.call("run", given=given, limits=no_file_grows).out, "hello\n")

    def test_what_python_keeps_cut_off_is_told(self) -> None:
        self.copy_with("proved")
        self.call("run", "hello.conc")
        kept = glob.glob(self.path("tools/run/__pycache__/running.*.pyc"))[0]
        os.truncate(kept, 100)
        self.assert_line(self.call("run", "hello.conc"), f"what Python keeps in {os.path.dirname(kept)} is cut off, as a full disk leaves it", 70)
