"""The memory and the stack that a run may take, and what is refused since the program could not begin with it."""

from __future__ import annotations

import re
import resource
from typing import Callable

from tools.run.running import STACK
from tools.run.tests.standins import WrapperTest, write_executable

MB = 1 << 20
ASAN = "abort_on_error=1:allocator_may_return_null=1:symbolize=0"
# A program that starts without a limit on addresses alone, as a build under the address sanitizer does.
UNLIMITED = '#!/bin/sh\n[ "$(ulimit -v)" = unlimited ] || exit 139\nexit 2\n'


def limit_of(kind: int, soft: int, hard: int = resource.RLIM_INFINITY) -> Callable[[], None]:
    """What sets a limit before the wrapper begins."""
    return lambda: resource.setrlimit(kind, (soft, hard))


class Memory(WrapperTest):
    def test_what_the_program_gets(self) -> None:
        self.copy_with("proved")
        self.write("limits.conc", "-- limits: yes\n")
        for words, megabytes in (("run limits.conc", 2048), ("--memory 512 run limits.conc", 512), ("run limits.conc --memory=512 --explain", 512),
                                 ("run limits.conc --memory 0900", 900)):
            with self.subTest(words):
                self.assertEqual(self.call(*words.split()).all, (f"{megabytes * 1024} 1 none\n", "", 0))

    def test_the_environment(self) -> None:
        self.copy_with("proved")
        self.write("limits.conc", "-- limits: yes\n")
        self.assertEqual(self.call("run", "limits.conc", more={"CONC_RUN_MEMORY": "600"}).out, f"{600 * 1024} 1 none\n")
        self.assertEqual(self.call("run", "limits.conc", more={"CONC_RUN_MEMORY": ""}).out, f"{2048 * 1024} 1 none\n")
        self.assertEqual(self.call("--memory", "0", "run", "limits.conc", more={"MALLOC_ARENA_MAX": "4"}).out, "unlimited 4 none\n")

    def test_no_number(self) -> None:
        self.copy_with("proved")
        for wrong in ("x", "-1", "", "12345678", "+1", "1 2", "٣"):
            with self.subTest(wrong):
                self.assert_line(self.call("--memory", wrong, "run", "hello.conc"), "--memory and CONC_RUN_MEMORY take a number of MB, 0 for no limit", 2)
        self.assert_line(self.call("run", "hello.conc", more={"CONC_RUN_MEMORY": "much"}), "--memory and CONC_RUN_MEMORY take a number of MB", 2)

    def test_the_checked_build_is_held_by_its_sanitizer(self) -> None:
        self.copy_with("checked")
        self.write("limits.conc", "-- limits: yes\n")
        told = f"unlimited none {ASAN}:quarantine_size_mb=16:soft_rss_limit_mb=900\n"
        self.assertEqual(self.call("--memory", "900", "run", "limits.conc").out, told)
        self.assertEqual(self.call("--memory", "0", "run", "limits.conc").out, f"unlimited none {ASAN}\n")


class TooLittle(WrapperTest):
    def least(self) -> int:
        """The MB that the program takes, by the refusal of fewer."""
        answer = self.call("--memory", "1", "run", "hello.conc")
        self.assert_line(answer, "conc_run: 1 MB of memory are too little: the program with its 8 MB of stack takes ", 2)
        told = re.search(r"takes (\d+) MB; 0 is no limit\n", answer.err)
        assert told, answer.err
        return int(told[1])

    def test_memory_below_the_program_is_refused_in_words(self) -> None:
        self.copy_with("proved")
        least = self.least()
        for megabytes in (1, 5, STACK // 1024, least - 1):
            with self.subTest(megabytes):
                answer = self.call("--memory", str(megabytes), "run", "hello.conc")
                self.assert_line(answer, f"{megabytes} MB of memory are too little: the program with its 8 MB of stack takes {least} MB", 2)
        for words in (["run", "hello.conc", "--explain"], ["check", "hello.conc", "hello.conc"], ["picture", "hello.conc"]):
            with self.subTest(words):
                self.assert_line(self.call("--memory", "3", *words), "3 MB of memory are too little", 2)
        self.assertEqual(self.call("--memory", str(least), "run", "hello.conc").all, ("hello\n", "", 0))

    def test_what_the_system_holds(self) -> None:
        self.copy_with("proved")
        held = self.least() - 1
        answer = self.call("run", "hello.conc", limits=limit_of(resource.RLIMIT_AS, held * MB, held * MB))
        self.assert_line(answer, f"the system holds the memory to {held} MB, and the program with its 8 MB of stack takes {held + 1} MB", 71)
        answer = self.call("run", "hello.conc", "--memory", "0", limits=limit_of(resource.RLIMIT_AS, held * MB))
        self.assert_line(answer, f"the system holds the memory to {held} MB", 71)
        self.assertEqual(self.call("run", "hello.conc", limits=limit_of(resource.RLIMIT_AS, (held + 2) * MB)).out, "hello\n")

    def test_the_checked_build(self) -> None:
        self.copy_with("checked")
        # It takes its own size and the stack: here the stand-in is smaller than a megabyte.
        self.assertIn("8 MB of memory are too little: the program with its 8 MB of stack takes 9 MB", self.call("--memory", "8", "run", "hello.conc").err)
        self.assertEqual(self.call("--memory", "8", "run", "hello.conc").status, 2)
        self.assertEqual(self.call("--memory", "9", "run", "hello.conc").out, "hello\n")

    def test_the_checked_build_where_the_system_holds_addresses(self) -> None:
        self.copy_with("checked")
        write_executable(self.path("out/conc_run"), UNLIMITED)
        answer = self.call("run", "hello.conc", limits=limit_of(resource.RLIMIT_AS, 4096 * MB))
        self.assertIn("the system holds the memory (ulimit -v), and the checked build starts with no such limit; ./conc_run --prove", answer.err)
        self.assertEqual((answer.out, answer.status), ("", 71))


class Stack(WrapperTest):
    def test_the_program_has_the_stack_of_a_deep_script(self) -> None:
        self.copy_with("proved")
        self.write("stack.conc", "-- stack: yes\n")
        for kilobytes in (1024, STACK - 1, STACK):
            with self.subTest(kilobytes):
                self.assertEqual(self.call("run", "stack.conc", limits=limit_of(resource.RLIMIT_STACK, kilobytes * 1024)).all, ("8192\n", "", 0))
        self.assertEqual(self.call("run", "stack.conc", limits=limit_of(resource.RLIMIT_STACK, resource.RLIM_INFINITY)).out, "8192\n")
        self.assertEqual(self.call("run", "stack.conc", limits=limit_of(resource.RLIMIT_STACK, 9000 * 1024)).out, "9000\n", "a larger one stays")

    def test_a_stack_that_is_held(self) -> None:
        self.copy_with("proved")
        answer = self.call("run", "hello.conc", limits=limit_of(resource.RLIMIT_STACK, 1 * MB, 2 * MB))
        self.assert_line(answer, "the stack is held to 1024 KB, and a deep script takes up to 8192 KB", 71)


class Handles(WrapperTest):
    def test_few_file_handles_end_in_words(self) -> None:
        self.copy_with("proved")
        calls = {"run hello.conc": "hello\n", "run hello.conc --explain": "hello\n", "check hello.conc hello.conc": "hello.conc: hello\n" * 2}
        for count in range(4, 9):
            for words, out in calls.items():
                with self.subTest(count=count, words=words):
                    answer = self.call(*words.split(), limits=limit_of(resource.RLIMIT_NOFILE, count, count))
                    if answer.status:
                        self.assertIn("conc_run: the system allows too few open files (ulimit -n): Too many open files\n", answer.err)
                        self.assertEqual(answer.status, 71)
                    else:
                        self.assertEqual(answer.all, (out, "", 0))

    def test_eight_are_enough(self) -> None:
        self.copy_with("proved")
        for words in (["run", "hello.conc"], ["run", "hello.conc", "--explain"], ["picture", "hello.conc"], ["check", "hello.conc", "hello.conc"]):
            with self.subTest(words):
                self.assertEqual(self.call(*words, limits=limit_of(resource.RLIMIT_NOFILE, 8, 8)).err, "")
