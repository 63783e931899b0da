"""./conc_run itself: how it is called, which Python it starts, and how little that loads."""

from __future__ import annotations

import io
import os
import sys
import unittest
from contextlib import redirect_stderr
from unittest import mock

from tools.run import __main__ as beginning
from tools.run.tests.standins import PYTHON, TOP, WrapperTest, write_executable

# What takes longer to load than all that a run needs.
HEAVY = {"argparse", "ast", "contextlib", "dataclasses", "enum", "functools", "inspect", "pathlib", "re", "shutil", "signal", "subprocess", "tempfile",
         "typing"}


class Called(WrapperTest):
    def test_by_other_shells(self) -> None:
        self.copy_with("proved")
        for command in (["sh", "./conc_run"], ["sh", "conc_run"], ["bash", "conc_run"], ["bash", "--posix", "conc_run"], ["sh", self.path("conc_run")]):
            with self.subTest(command):
                self.assertEqual(self.call("run", "hello.conc", command=command).all, ("hello\n", "", 0))

    def test_by_links(self) -> None:
        self.copy_with("proved")
        links = os.path.join(self.room, "links")
        os.makedirs(os.path.join(links, "more"))
        os.symlink(self.path("conc_run"), os.path.join(links, "conc_run"))
        os.symlink("../conc_run", os.path.join(links, "more", "again"))
        for name in ("conc_run", "more/again"):
            for command in ([os.path.join(links, name)], ["sh", os.path.join(links, name)]):
                with self.subTest(command):
                    self.assertEqual(self.call("run", "hello.conc", command=command).all, ("hello\n", "", 0))
        self.assertEqual(sorted(os.listdir(links)), ["conc_run", "more"], "nothing is made beside a link")
        self.assertEqual(os.listdir(os.path.join(links, "more")), ["again"])

    def test_a_build_by_a_link(self) -> None:
        self.copy_with("none")
        links = os.path.join(self.room, "links")
        os.mkdir(links)
        os.symlink(self.path("conc_run"), os.path.join(links, "conc_run"))
        answer = self.call("run", self.path("hello.conc"), command=[os.path.join(links, "conc_run")], cwd=links)
        self.assertEqual((answer.out, answer.status), ("hello\n", 0))
        self.assertEqual(os.listdir(links), ["conc_run"])

    def test_by_path(self) -> None:
        self.copy_with("proved")
        answer = self.call(command=["sh", "-c", "conc_run run hello.conc"], more={"PATH": f"{self.copy}:{self.environment['PATH']}"})
        self.assertEqual(answer.all, ("hello\n", "", 0))

    def test_from_another_folder(self) -> None:
        self.copy_with("proved")
        name, file = f"{os.path.basename(self.copy)}/conc_run", self.path("hello.conc")
        environments: list[dict[str, str]] = [{}, {"CDPATH": f"{self.room}:/"}]
        for more in environments:
            with self.subTest(more):
                self.assertEqual(self.call("run", file, command=[name], cwd=self.room, more=more).all, ("hello\n", "", 0))
        for shell in ("sh", "bash"):
            self.assertEqual(self.call("run", "hello.conc", command=[shell, "conc_run"], more={"CDPATH": f"{self.room}:.:/"}).all, ("hello\n", "", 0))

    def test_a_folder_with_an_odd_name(self) -> None:
        self.copy_with("proved")
        odd = os.path.join(self.room, "it's a\nfolder -x")
        os.rename(self.copy, odd)
        self.copy = odd
        self.assertEqual(self.call("run", "hello.conc").all, ("hello\n", "", 0))
        self.assertEqual(self.call("run", "hello.conc", command=["sh", "conc_run"]).all, ("hello\n", "", 0))

    def test_what_a_user_has_beside_python_is_not_loaded(self) -> None:
        self.copy_with("proved")
        for name in ("os.py", "sitecustomize.py", "tools.py"):
            self.write(name, "raise SystemExit(99)\n")
        self.assertEqual(self.call("run", "hello.conc", more={"PYTHONPATH": self.copy, "PYTHONSTARTUP": self.path("os.py")}).all, ("hello\n", "", 0))


class NoPython(WrapperTest):
    def copy_without(self) -> None:
        """A copy whose stub finds no Python of the system."""
        self.copy_with("proved")
        with open(self.path("conc_run"), encoding="utf-8") as file:
            text = file.read()
        self.assertEqual(text.count("/usr/bin/python3"), 2)
        self.write("conc_run", text.replace("/usr/bin/python3", "/nowhere/python3"))

    def test_what_to_install_is_told(self) -> None:
        self.copy_without()
        for shell in ("/bin/sh", "/bin/bash"):
            answer = self.call("run", "hello.conc", command=[shell, "conc_run"], more={"PATH": self.bin})
            self.assert_line(answer, "conc_run: no command python3 here: it needs Python 3.9 or newer; install it, for example by: apt-get install python3", 70)

    def test_another_python_of_the_path(self) -> None:
        self.copy_without()
        os.symlink(PYTHON, os.path.join(self.bin, "python3"))
        self.assertEqual(self.call("run", "hello.conc", command=["/bin/sh", "conc_run"], more={"PATH": self.bin}).all, ("hello\n", "", 0))


class OldPython(unittest.TestCase):
    def test_a_newer_one_is_taken(self) -> None:
        with mock.patch.object(sys, "version_info", (3, 8, 1)), mock.patch.object(beginning, "find_newer", lambda: "/opt/python3.11"), \
                mock.patch("os.execv", side_effect=SystemExit(0)) as become, self.assertRaises(SystemExit):
            beginning.begin()
        self.assertEqual(become.call_args[0], ("/opt/python3.11", ["/opt/python3.11", "-I", "-S", *sys.argv]))

    def test_where_there_is_none_it_is_told(self) -> None:
        told = io.StringIO()
        with mock.patch.object(sys, "version_info", (3, 8, 1)), mock.patch.object(beginning, "find_newer", lambda: None), \
                redirect_stderr(told), self.assertRaises(SystemExit) as ended:
            beginning.begin()
        self.assertEqual(ended.exception.code, 70)
        self.assertRegex(told.getvalue(), r"^conc_run: it needs Python 3\.9 or newer, and \S+ is 3\.8; install a newer one, .*\n$")

    def found_among(self, *there: str, broken: str = "") -> str | None:
        """The newer one that is found where these are there, of which one doesn't work."""
        with mock.patch.dict(os.environ, {"PATH": "/a:/b"}), mock.patch("os.access", lambda path, _: path in there), \
                mock.patch.object(beginning, "works", lambda path: path != broken):
            return beginning.find_newer()

    def test_the_newest_that_works_is_found(self) -> None:
        self.assertEqual(self.found_among("/a/python3.9", "/b/python3.11", "/a/python3.8"), "/b/python3.11")
        self.assertEqual(self.found_among("/a/python3.9", "/b/python3.11", broken="/b/python3.11"), "/a/python3.9")
        self.assertIsNone(self.found_among("/a/python3.8"))
        self.assertTrue(beginning.works(sys.executable))
        self.assertFalse(beginning.works("/bin/false"))


class Loaded(WrapperTest):
    def test_a_plain_run_loads_little(self) -> None:
        self.copy_with("proved")
        with open(os.path.join(TOP, "conc_run"), encoding="utf-8") as file:
            self.assertEqual(file.read().count("-I -S"), 2)
        # What has been loaded is told where the wrapper becomes the program.
        write_executable(self.path("begins"), f"""#!{PYTHON} -IS
import os, sys
sys.path.insert(0, os.getcwd())
from tools.run.main import main
os.execve = lambda *_: os.write(1, " ".join(sorted(it for it in sys.modules if not it.startswith("_"))).encode()) and os._exit(0)
main(sys.argv[1:])
""")
        loaded = set(self.call("run", "hello.conc", command=["./begins"]).out.split())
        self.assertIn("tools.run.running", loaded)
        self.assertEqual(loaded & HEAVY, set())
