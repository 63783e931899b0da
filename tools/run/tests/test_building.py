"""How a program is built on first use, proved on demand, and what is told where that can't be."""

from __future__ import annotations

import glob
import os
import subprocess
import tempfile

from tools.run.tests.standins import WrapperTest, as_other, wait_until
from tools.run.tests.terminals import Terminal

WITHOUT_KIT = {"PATH": "/usr/bin:/bin"}


class Checked(WrapperTest):
    def test_the_first_run_builds(self) -> None:
        self.copy_with("none")
        answer = self.call("run", "hello.conc", limits=lambda: os.umask(0o022))
        self.assertEqual((answer.out, answer.status), ("hello\n", 0))
        self.assertIn("building without proof", answer.err)
        self.assertIn("this is the checked build without proof", answer.err)
        self.assertEqual(os.stat(self.path("out/conc_run")).st_mode & 0o777, 0o755)
        self.assertEqual(sorted(os.listdir(self.path("out"))), ["conc_run", "lock"], "nothing else is left")
        self.assertEqual(os.listdir(self.temporary), [])
        self.assertNotIn("building", self.call("run", "hello.conc").err, "the second run builds nothing")

    def test_another_user_runs_what_is_built(self) -> None:
        self.copy_with("none")
        self.call("run", "hello.conc", limits=lambda: os.umask(0o022))
        answer = self.call("run", "hello.conc", **as_other())
        self.assertEqual((answer.out, answer.status), ("hello\n", 0))

    def test_a_newer_source_is_built_and_neither_edit_nor_proof_is_one(self) -> None:
        self.copy_with("none")
        self.call("run", "hello.conc")
        self.touch("crates/low/src/lib.rt")
        self.assertIn("building without proof", self.call("run", "hello.conc").err)
        self.touch("crates/low/must-fail/one.edit")
        os.makedirs(self.path("crates/low/proofs"))
        self.write("crates/low/proofs/One.antt", "")
        self.assertNotIn("building", self.call("run", "hello.conc").err)

    def test_a_build_that_fails_says_why(self) -> None:
        self.copy_with("none")
        answer = self.call("run", "hello.conc", more={"STAND_IN_FAILS": "yes"})
        self.assertIn("what rt says\nconc_run: no program was built (status 1)\n", answer.err)
        self.assertEqual((answer.out, answer.status), ("", 70))
        self.assertEqual(os.listdir(self.path("out")), ["lock"])

    def test_no_kit(self) -> None:
        self.copy_with("none")
        self.assert_line(self.call("run", "hello.conc", more=WITHOUT_KIT), "no command rt here: the kit is needed to build the program", 70)
        self.assert_line(self.call("--prove", more=WITHOUT_KIT), "no command rt here: the kit is needed to prove the program", 70)

    def test_a_program_that_can_not_be_started(self) -> None:
        self.copy_with("none")
        os.mkdir(self.path("out"))
        self.write("out/conc_run", "no program")
        os.chmod(self.path("out/conc_run"), 0o755)
        answer = self.call("run", "hello.conc", "--memory", "0")
        self.assertIn(f"{self.path('out/conc_run')} can't be started: Exec format error", answer.err)
        self.assertEqual((answer.out, answer.status), ("", 70))


class Proved(WrapperTest):
    def test_prove_and_run(self) -> None:
        self.copy_with("none")
        answer = self.call("--prove", "run", "hello.conc")
        self.assertEqual((answer.out, answer.status), ("hello\n", 0))
        self.assertIn("conc_run: proved and built, in 0 s\n", answer.err)
        self.assertEqual(self.call("run", "hello.conc").all, ("hello\n", "", 0))

    def test_prove_alone(self) -> None:
        self.copy_with("none")
        answer = self.call("--prove")
        self.assertEqual((answer.out, answer.status), ("", 0))
        self.assertTrue(os.access(self.path("crates/conc_run/out/conc_run"), os.X_OK))

    def test_an_old_proved_program_does_not_run(self) -> None:
        self.copy_with("proved")
        self.touch("crates/low/src/lib.rt")
        answer = self.call("run", "hello.conc")
        self.assertIn("a source is newer than the proved program, so this is the checked build", answer.err)
        self.assertEqual(answer.out, "hello\n")

    def test_a_source_that_changes_while_it_is_proved(self) -> None:
        self.copy_with("none")
        with self.start("--prove", more={"STAND_IN_SECONDS": "0.5"}) as wrapper:
            self.assertTrue(wait_until(lambda: os.path.exists(self.path("out/prove.log"))))
            self.touch("crates/low/src/lib.rt")
            wrapper.communicate()
        self.assertEqual(wrapper.returncode, 0)
        self.assertIn("build: none yet", self.call("--version").out, "what was proved is of older sources")

    def test_a_proof_that_fails_says_where(self) -> None:
        self.copy_with("none")
        answer = self.call("--prove", more={"STAND_IN_FAILS": "yes"})
        self.assertIn(f"what rt says\nconc_run: not proved (status 1); the whole of it is in {self.path('out/prove.log')}\n", answer.err)
        self.assertEqual((answer.out, answer.status), ("", 70))


class NoRoom(WrapperTest):
    def test_out_is_no_folder(self) -> None:
        self.copy_with("none")
        self.write("out", "")
        for words in (["run", "hello.conc"], ["--prove"], ["test"]):
            self.assert_line(self.call(*words), f"no right to write to {self.path('out')}, where what is built is kept", 70)

    def test_a_log_is_no_file(self) -> None:
        self.copy_with("none")
        for name in ("prove", "test"):
            os.makedirs(self.path(f"out/{name}.log"))
        for words, name in ((["--prove"], "prove"), (["test"], "test")):
            self.assert_line(self.call(*words), f"no right to write to {self.path(f'out/{name}.log')}", 70)

    def test_the_lock_is_no_file(self) -> None:
        self.copy_with("none")
        os.makedirs(self.path("out/lock"))
        self.assert_line(self.call("run", "hello.conc"), f"no right to write to {self.path('out/lock')}", 70)

    def test_a_checkout_that_can_not_be_written(self) -> None:
        self.copy_with("none")
        for folders in (["."], [".", "out"]):
            for folder in folders:
                os.makedirs(self.path(folder), exist_ok=True)
                os.chmod(self.path(folder), 0o555)
            self.assert_line(self.call("run", "hello.conc", **as_other()), "no right to write to", 70)
            os.chmod(self.path("."), 0o755)


class Stopped(WrapperTest):
    def assert_unbuilt(self) -> None:
        self.assertEqual(os.listdir(self.path("out")), ["lock"], "nothing half made is left")
        answer = self.call("run", "hello.conc")
        self.assertEqual((answer.out, answer.status), ("hello\n", 0), "and the next run builds")

    @property
    def slow(self) -> dict[str, str]:
        """What has a build take long."""
        return {"STAND_IN_SECONDS": "120", "STAND_IN_RT": os.path.join(self.room, "built")}

    def is_building(self) -> bool:
        return bool(glob.glob(self.path("out/try.*/log"))) and os.path.exists(os.path.join(self.room, "built"))

    def test_a_key_on_the_terminal(self) -> None:
        for key, status in ((b"\x03", 130), (b"\x1c", 131)):
            self.copy_with("none")
            terminal = Terminal(self, ["run", "hello.conc"], more=self.slow)
            self.assertTrue(terminal.until(self.is_building), terminal.said)
            terminal.type(key)
            self.assertEqual(terminal.end().status, status)
            self.assertEqual(self.kits(), [], "nothing is left running")
            self.assert_unbuilt()
            os.remove(os.path.join(self.room, "built"))

    def test_a_build_that_is_stopped(self) -> None:
        self.copy_with("none")
        with self.start("run", "hello.conc", more=self.slow) as wrapper:
            self.assertTrue(wait_until(self.is_building))
            wrapper.terminate()
            wrapper.communicate()
        self.assertEqual(wrapper.returncode, 143)
        self.assertEqual(self.kits(), [], "nothing is left running")
        self.assert_unbuilt()

    def kits(self) -> list[str]:
        """The processes that stand for the kit."""
        found = []
        for process in filter(str.isdigit, os.listdir("/proc")):
            try:
                with open(f"/proc/{process}/cmdline", "rb") as file:
                    words = file.read().decode(errors="replace").split("\0")
            except OSError:
                continue
            if os.path.join(self.bin, "rt") in words:
                found.append(process)
        return found

    def test_a_file_that_a_dead_run_left_is_no_lock(self) -> None:
        self.copy_with("none")
        os.mkdir(self.path("out"))
        self.write("out/lock", "1\n")
        self.assertEqual(self.call("run", "hello.conc").out, "hello\n", "the lock ends with who holds it")


class TwoAtOnce(WrapperTest):
    def test_the_second_first_run_waits_for_the_first(self) -> None:
        self.copy_with("none")
        built = os.path.join(self.room, "built")
        slow = {"STAND_IN_SECONDS": "2", "STAND_IN_RT": built}
        with tempfile.TemporaryFile() as out:
            with self.start("run", "hello.conc", more=slow, stdout=out, stderr=subprocess.DEVNULL) as first:
                self.assertTrue(wait_until(lambda: os.path.exists(self.path("out/lock")) and os.path.getsize(self.path("out/lock"))))
                answer = self.call("run", "hello.conc", more=slow)
                first.wait()
            out.seek(0)
            self.assertEqual((out.read(), first.returncode), (b"hello\n", 0))
        self.assertRegex(answer.err, r"another run builds the program, for \d+ s by now; waiting, ")
        self.assertEqual((answer.out, answer.status), ("hello\n", 0))
        with open(built, encoding="ascii") as file:
            self.assertEqual([it.split()[0] for it in file], ["try"], "one build for both")
