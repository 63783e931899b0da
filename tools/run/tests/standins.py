"""What stands for the program and for the kit's `rt`, and a copy of the wrapper that calls them."""

from __future__ import annotations

import os
import re
import shutil
import signal
import subprocess
import sys
import tempfile
import time
import unittest
from typing import Any, Callable

TOP = os.path.dirname(os.path.dirname(os.path.dirname(os.path.dirname(os.path.abspath(__file__)))))
# One that another user may run too.
PYTHON = "/usr/bin/python3" if os.access("/usr/bin/python3", os.X_OK) else sys.executable
# A machine that proves meanwhile may take long.
PATIENCE = 300

# Takes the words that the program takes, and does what the lines of the script say, as '-- prints: TEXT'.
PROGRAM = f"""#!{PYTHON} -IS
import os, resource, signal, sys, time
signal.signal(signal.SIGINT, signal.SIG_DFL)
words = sys.argv[1:]
if os.environ.get("STAND_IN_CALLS"):
    with open(os.environ["STAND_IN_CALLS"], "a") as calls:
        print(*words, file=calls)

def end(status, line=""):
    if line:
        try:
            os.write(2, line.encode("utf-8", "surrogateescape") + b"\\n")
        except OSError:
            pass
    os._exit(status)

def say(line):
    try:
        os.write(1, line.encode("utf-8", "surrogateescape") + b"\\n")
    except OSError:
        end(8)

if not words or words[0] not in "run check trace outcomes claims verify report picture haskell bench".split():
    end(2, "words not understood")
if words[0] == "bench":
    say(" ".join(words))
    end(0)
rest = words[1:]
while rest:
    word = rest.pop(0)
    if word in ("--caps", "--fuel", "--clock", "--states", "--witness"):
        if not rest or rest.pop(0) == "17":
            end(2, "words not understood")
    elif not word.startswith(("--caps=", "--fuel=", "--states=")):
        end(2, "words not understood")
script = b""
try:
    while True:
        piece = os.read(0, 1 << 16)
        if not piece:
            break
        script += piece
except OSError:
    end(7, "read fault")
script = script.decode("utf-8", "surrogateescape").replace("\\0", "?")

def said(key):
    head = "-- " + key + ": "
    return [it[len(head):] for it in script.split("\\n") if it.startswith(head)]

for it in said("sleeps"):
    with open(it + ".part", "w") as file:
        file.write(str(os.getpid()))
    os.rename(it + ".part", it)
    time.sleep(120)
for it in said("takes"):
    time.sleep(float(it))
for it in said("refused"):
    end(3, "refused: " + it)
if not script:
    end(3, "refused: NoMain at 1:1")
if said("stack"):
    say(str(resource.getrlimit(resource.RLIMIT_STACK)[0] // 1024))
if said("limits"):
    addresses = resource.getrlimit(resource.RLIMIT_AS)[0]
    kilobytes = "unlimited" if addresses == resource.RLIM_INFINITY else str(addresses // 1024)
    say(" ".join([kilobytes, os.environ.get("MALLOC_ARENA_MAX", "none"), os.environ.get("ASAN_OPTIONS", "none")]))
for it in said("prints"):
    say(it)
status = int((said("ends") or ["0"])[0])
if status == 11 and words[0] not in ("outcomes", "claims"):
    # Only a search may lack something.
    status = 0
for it in said("error"):
    end(status, it)
end(status)
"""

# `try` and `run` make the program, after STAND_IN_SECONDS; `ci` says what STAND_IN_CI has.
RT = f"""#!{PYTHON} -IS
import os, shutil, sys, tempfile, time
words, here = sys.argv[1:], os.path.dirname(os.path.realpath(sys.argv[0]))
if os.environ.get("STAND_IN_RT"):
    with open(os.environ["STAND_IN_RT"], "a") as calls:
        print(*words, file=calls)
if words[0] in ("try", "run") and os.environ.get("STAND_IN_FAILS"):
    print("what rt says")
    sys.exit(1)
if words[0] == "version":
    print("rattle-kit-0 logic 0\\nstatements")
elif words[0] == "try":
    time.sleep(float(os.environ.get("STAND_IN_SECONDS", "0")))
    folder = tempfile.mkdtemp(prefix="rt-try.", dir=os.environ["TMPDIR"])
    shutil.copy(os.path.join(here, "program"), os.path.join(folder, "program"))
    open(os.path.join(folder, "stdout"), "w").close()
    time.sleep(120)
elif words[0] == "run":
    time.sleep(float(os.environ.get("STAND_IN_SECONDS", "0")))
    os.makedirs("out", exist_ok=True)
    shutil.copy(os.path.join(here, "program"), "out/conc_run")
elif words[0] == "ci":
    with open(os.environ["STAND_IN_CI"]) as lines:
        sys.stdout.write(lines.read())
    sys.stdout.flush()
    time.sleep(0.5)
    sys.exit(int(os.environ.get("STAND_IN_STATUS", "0")))
"""

# Makes a program that prints the file STAND_IN_COUNTS; with STAND_IN_ASLEEP it says there which process it is, and sleeps.
GHC = f"""#!{PYTHON} -IS
import os, sys, time
words = sys.argv[1:]
if words == ["--numeric-version"]:
    print("9.0.2")
elif "-e" not in words:
    if os.environ.get("STAND_IN_ASLEEP"):
        open(os.environ["TMPDIR"] + "/left", "w").close()
        with open(os.environ["STAND_IN_ASLEEP"] + ".part", "w") as file:
            file.write(str(os.getpid()))
        os.rename(os.environ["STAND_IN_ASLEEP"] + ".part", os.environ["STAND_IN_ASLEEP"])
        time.sleep(120)
    program = words[words.index("-o") + 1]
    with open(program, "w") as file:
        file.write("#!/bin/sh\\ncat " + os.environ["STAND_IN_COUNTS"] + "\\n")
    os.chmod(program, 0o755)
"""


class Answer:
    """What a call came to."""

    def __init__(self, out: bytes, err: bytes, status: int) -> None:
        self.out, self.err = out.decode("utf-8", "surrogateescape"), err.decode("utf-8", "surrogateescape")
        self.status = status if status >= 0 else 128 - status

    @property
    def all(self) -> tuple[str, str, int]:
        return self.out, self.err, self.status


def write_executable(path: str, text: str) -> None:
    with open(path, "w", encoding="utf-8") as file:
        file.write(text)
    os.chmod(path, 0o755)


def wait_until(holds: Callable[[], object], seconds: float = PATIENCE) -> bool:
    until = time.monotonic() + seconds
    while not holds():
        if time.monotonic() > until:
            return False
        time.sleep(0.02)
    return True


def heed_signals() -> None:
    """In a process that is to be started: tests that run in the background of a shell are among those that ignore these."""
    for it in (signal.SIGINT, signal.SIGQUIT):
        signal.signal(it, signal.SIG_DFL)


def is_running(process: int) -> bool:
    try:
        os.kill(process, 0)
    except ProcessLookupError:
        return False
    with open(f"/proc/{process}/stat", encoding="ascii") as file:
        # One that has ended and that nobody has waited for yet runs no more.
        return file.read().rpartition(")")[2].split()[0] != "Z"


class WrapperTest(unittest.TestCase):
    """A test with a room of its own, in which it makes copies of the wrapper."""

    def setUp(self) -> None:
        self.room = tempfile.mkdtemp(prefix="test-conc_run.")
        os.chmod(self.room, 0o755)
        self.addCleanup(self.remove)
        self.copies = 0
        self.bin = os.path.join(self.room, "bin")
        self.temporary = os.path.join(self.room, "tmp")
        for folder in (self.bin, self.temporary):
            os.mkdir(folder)
        write_executable(os.path.join(self.room, "program"), PROGRAM)
        write_executable(os.path.join(self.room, "rt"), RT)
        os.symlink(os.path.join(self.room, "rt"), os.path.join(self.bin, "rt"))
        self.environment = {it: text for it, text in os.environ.items()
                            if it not in ("CDPATH", "CONC_RUN_MEMORY", "MALLOC_ARENA_MAX", "ASAN_OPTIONS")}
        self.environment.update(PATH=f"{self.bin}:{os.environ['PATH']}", TMPDIR=self.temporary)

    def remove(self) -> None:
        for path, folders, _ in os.walk(self.room):
            for folder in folders:
                os.chmod(os.path.join(path, folder), 0o755)
        shutil.rmtree(self.room)

    def copy_with(self, build: str) -> str:
        """Makes a copy of the wrapper: with the program 'proved', 'checked', or 'none'."""
        self.copies += 1
        self.copy = os.path.join(self.room, f"copy{self.copies}")
        os.makedirs(os.path.join(self.copy, "tools"))
        shutil.copy2(os.path.join(TOP, "conc_run"), self.copy)
        shutil.copytree(os.path.join(TOP, "tools", "run"), os.path.join(self.copy, "tools", "run"), ignore=shutil.ignore_patterns("tests", "__pycache__"))
        for name in ("__init__.py", "crates.py", "sources.py"):
            shutil.copy2(os.path.join(TOP, "tools", name), os.path.join(self.copy, "tools"))
        for folder in ("conc_run/src", "low/src", "low/must-fail"):
            os.makedirs(os.path.join(self.copy, "crates", folder))
        self.write("VERSION", "1.2.3\n")
        self.write("crates.txt", "# the crates\nlow:\nconc_run: low\n")
        self.write("crates/low/src/lib.rt", "#[test]\n")
        self.write("crates/conc_run/src/main.rt", "\n")
        self.write("crates/conc_run/stdin", "main\n")
        self.write("crates/low/must-fail/one.edit", "")
        self.write("crates/low/must-fail/two.edit", "")
        self.write("hello.conc", "-- prints: hello\n")
        self.write("wrong.conc", "-- refused: Mismatch at 2:19\nmain :: IO () = { putStrLn 3 };\n")
        folders = {"proved": "crates/conc_run/out", "checked": "out"}
        if build in folders:
            os.makedirs(os.path.join(self.copy, folders[build]))
            shutil.copy(os.path.join(self.room, "program"), os.path.join(self.copy, folders[build], "conc_run"))
        return self.copy

    def set_coming(self, *names: str) -> None:
        """In the copy these are the commands that the program is still to get."""
        with open(self.path("tools/run/words.py"), encoding="utf-8") as file:
            text, count = re.subn(r"^(COMING\b.*) = .*$", rf"\1 = {names}", file.read(), flags=re.M)
        self.assertEqual(count, 1)
        self.write("tools/run/words.py", text)

    def with_litmus(self) -> None:
        """The copy has `litmus`, with what stands for GHC."""
        for folder in ("tools/litmus", "litmus"):
            shutil.copytree(os.path.join(TOP, folder), self.path(folder), ignore=shutil.ignore_patterns("*.conc"))
        write_executable(os.path.join(self.bin, "ghc"), GHC)

    def path(self, name: str) -> str:
        return os.path.join(self.copy, name)

    def write(self, name: str, text: str | bytes) -> str:
        with open(self.path(name), "wb") as file:
            file.write(text if isinstance(text, bytes) else text.encode("utf-8", "surrogateescape"))
        return self.path(name)

    def touch(self, name: str) -> None:
        # The clock of files goes by larger steps.
        time.sleep(0.02)
        os.utime(self.path(name))

    def call(self, *words: str | bytes, given: str | bytes = b"", command: list[str] | None = None, more: dict[str, str] | None = None,
             limits: Callable[[], object] | None = None, **streams: Any) -> Answer:
        """Calls the wrapper of the copy, which reads `given`."""
        if "stdin" not in streams:
            streams["input"] = given if isinstance(given, bytes) else given.encode("utf-8", "surrogateescape")
        streams = {"stdout": subprocess.PIPE, "stderr": subprocess.PIPE, "cwd": self.copy, **streams}
        ran = subprocess.run([*(command or ["./conc_run"]), *words], env={**self.environment, **(more or {})}, preexec_fn=limits,
                             timeout=PATIENCE, check=False, **streams)
        return Answer(ran.stdout or b"", ran.stderr or b"", ran.returncode)

    def start(self, *words: str, more: dict[str, str] | None = None, **streams: Any) -> subprocess.Popen[bytes]:
        """Starts the wrapper of the copy."""
        streams = {"stdin": subprocess.DEVNULL, "stdout": subprocess.PIPE, "stderr": subprocess.PIPE, "cwd": self.copy,
                   "preexec_fn": heed_signals, **streams}
        return subprocess.Popen(["./conc_run", *words], env={**self.environment, **(more or {})}, **streams)

    def calls(self) -> list[str]:
        """The words of the calls of the program since this was asked, where `more=self.counting` had them counted."""
        path = os.path.join(self.room, "calls")
        if not os.path.exists(path):
            return []
        with open(path, encoding="utf-8") as file:
            found = file.read().splitlines()
        os.remove(path)
        return found

    @property
    def counting(self) -> dict[str, str]:
        return {"STAND_IN_CALLS": os.path.join(self.room, "calls")}

    def assert_line(self, answer: Answer, part: str, status: int) -> None:
        """One line on standard error that has this part, and the status."""
        self.assertEqual(answer.err.count("\n"), 1, answer.err)
        self.assertIn(part, answer.err)
        self.assertEqual((answer.out, answer.status), ("", status))


def as_other() -> dict[str, Any]:
    """Runs something as a user whose rights count."""
    return {"user": 65534, "group": 65534, "extra_groups": []} if os.getuid() == 0 else {}
