"""Signals: what runs is ended, the status says which signal it was, and nothing is left."""

from __future__ import annotations

import os
import signal
import subprocess

from tools.run.tests.standins import WrapperTest, is_running, wait_until
from tools.run.tests.terminals import Terminal

# Where the wrapper becomes the program, where the program runs below it, and where that runs twice or on several files.
CALLS = (["run", "sleeps.conc"], ["run", "sleeps.conc", "--explain"], ["outcomes", "sleeps.conc", "--explain"], ["picture", "sleeps.conc"],
         ["picture", "sleeps.conc", "--explain"], ["picture", "written.trace", "--explain"], ["story", "written.trace"],
         ["check", "sleeps.conc", "hello.conc"])


class Signals(WrapperTest):
    def sleeping(self) -> None:
        """Makes scripts that sleep, and say in a file which process does."""
        self.copy_with("proved")
        self.child = os.path.join(self.room, "child")
        self.write("sleeps.conc", f"-- sleeps: {self.child}\n")
        self.write("written.trace", f"conc-trace 1\n-- sleeps: {self.child}\n")

    def is_asleep(self) -> bool:
        return os.path.exists(self.child)

    def assert_nothing_left(self) -> None:
        with open(self.child, encoding="ascii") as file:
            child = int(file.read())
        self.assertTrue(wait_until(lambda: not is_running(child)), "the program is still running")
        self.assertEqual(os.listdir(self.temporary), [])
        os.remove(self.child)


class Sent(Signals):
    def check(self, number: int, status: int, words: list[str], **streams: int) -> None:
        """That a signal to the wrapper alone ends this call with the status."""
        with self.subTest(words=words, number=number):
            with self.start(*words, more=None, **streams) as wrapper:
                self.assertTrue(wait_until(self.is_asleep))
                wrapper.send_signal(number)
                told = wrapper.communicate()
            ended = wrapper.returncode
            self.assertEqual(ended if ended >= 0 else 128 - ended, status)
            self.assertEqual([it or b"" for it in told], [b"", b""])
            self.assert_nothing_left()

    def test_term(self) -> None:
        self.sleeping()
        for words in CALLS:
            self.check(signal.SIGTERM, 143, words)

    def test_interrupt(self) -> None:
        self.sleeping()
        for words in CALLS:
            self.check(signal.SIGINT, 130, words)

    def test_hang_up(self) -> None:
        self.sleeping()
        self.check(signal.SIGHUP, 129, CALLS[1])

    def test_a_script_from_a_pipe(self) -> None:
        self.sleeping()
        for words in (["run", "--explain"], ["picture"], ["outcomes", "--explain"]):
            given, script = os.pipe()
            os.write(script, f"-- sleeps: {self.child}\n".encode())
            os.close(script)
            self.check(signal.SIGTERM, 143, words, stdin=given)
            os.close(given)

    def test_a_program_that_is_ended_alone(self) -> None:
        self.sleeping()
        with self.start("run", "sleeps.conc", "--explain") as wrapper:
            self.assertTrue(wait_until(self.is_asleep))
            with open(self.child, encoding="ascii") as file:
                os.kill(int(file.read()), signal.SIGTERM)
            told = wrapper.communicate()
        self.assertEqual((wrapper.returncode, told), (143, (b"", b"")))

    def test_an_interrupt_that_the_caller_ignores(self) -> None:
        self.sleeping()
        # So has a shell those that it starts in the background of a script.
        with self.start("run", "sleeps.conc", "--explain", preexec_fn=lambda: signal.signal(signal.SIGINT, signal.SIG_IGN)) as wrapper:
            self.assertTrue(wait_until(self.is_asleep))
            wrapper.send_signal(signal.SIGINT)
            with self.assertRaises(subprocess.TimeoutExpired):
                wrapper.wait(0.3)
            wrapper.terminate()
            wrapper.communicate()
        self.assertEqual(wrapper.returncode, 143)


class OnTerminal(Signals):
    def check(self, key: bytes, status: int, words: list[str], times: int = 1) -> None:
        """That a key on the terminal ends this call with the status, each time, and that no line is told of it."""
        for number in range(times):
            with self.subTest(words=words, number=number):
                terminal = Terminal(self, words)
                self.assertTrue(terminal.until(self.is_asleep), terminal.said)
                terminal.type(key)
                answer = terminal.end()
                self.assertEqual(answer.status, status)
                self.assertIn(answer.err, ("", "^C", "^\\"))
                self.assert_nothing_left()

    def test_interrupt(self) -> None:
        self.sleeping()
        for words in CALLS:
            self.check(b"\x03", 130, words)

    def test_interrupt_always(self) -> None:
        self.sleeping()
        self.check(b"\x03", 130, ["run", "sleeps.conc"], times=5)
        self.check(b"\x03", 130, ["picture", "sleeps.conc"], times=5)

    def test_quit_prints_no_line(self) -> None:
        self.sleeping()
        for words in CALLS:
            self.check(b"\x1c", 131, words)
