"""How a program is built: proved by `rt run`, or checked and without proof by `rt try`."""

from __future__ import annotations

import contextlib
import fcntl
import os
import shutil
import subprocess
import tempfile
import time

from tools.crates import TOP
from tools.run.background import Work, open_log
from tools.run.programs import CHECKED, KEPT, PROGRAM, PROVED, crates, find_command, is_new
from tools.run.saying import Progress, cannot_build, say, tell

TYPE_CHECKING = False
if TYPE_CHECKING:
    from typing import Callable, Iterator

CRATE = os.path.join(TOP, "crates", PROGRAM)
# `rt try` keeps no program, so it is made to run a script that waits, and the program is taken while it runs.
WAITING = "main :: IO () = { threadDelay 30000000 };\n"
RETURNING = b"main :: IO () = { return () };\n"
BEAT = 0.5
TOLD_LINES = 40


def need_rt(purpose: str) -> str:
    rt = find_command("rt")
    if rt is None:
        raise cannot_build(f"no command rt here: the kit is needed to {purpose}")
    return rt


def need_kept() -> None:
    try:
        os.makedirs(KEPT, exist_ok=True)
    except OSError:
        pass
    if not os.path.isdir(KEPT) or not os.access(KEPT, os.W_OK):
        raise cannot_build(f"no right to write to {KEPT}, where what is built is kept")


def last_lines(path: str, count: int) -> str:
    with open(path, encoding="utf-8", errors="replace") as file:
        return "".join(file.readlines()[-count:])


def _proving_at() -> str:
    """Which crate a proof is at."""
    done, current = 0, ""
    for crate in crates():
        library = os.path.join(TOP, "crates", crate, "out", "rlib")
        if os.path.exists(os.path.join(library, "stamp")):
            done += 1
        elif os.path.isdir(library):
            current = f" {crate}"
    return f"proving{current}, {done} of {len(crates())} crates are done"


def prove() -> None:
    """Proves and builds the program, and shows which crate it is at."""
    log = os.path.join(KEPT, "prove.log")
    rt = need_rt("prove the program")
    need_kept()
    progress = Progress()
    began = time.time_ns()
    told = open_log(log)
    given = os.open(os.path.join(CRATE, "stdin"), os.O_RDONLY)
    with Work([rt, "run", "--", "run"], CRATE, given, told) as work:
        while work.is_running():
            progress.show(_proving_at())
            time.sleep(1 if progress.seconds > 2 else 0.1)
    progress.over()
    if work.status or not os.access(PROVED, os.X_OK):
        tell(last_lines(log, TOLD_LINES))
        raise cannot_build(f"not proved (status {work.status}); the whole of it is in {log}")
    # The sources may have changed since it was begun.
    os.utime(PROVED, ns=(began, began))
    say(f"proved and built, in {progress.seconds} s")


def _built_for(lock: str) -> str:
    """For how long the run that has the lock builds."""
    try:
        with open(lock, encoding="utf-8", errors="replace") as file:
            begun = file.read().strip()
    except OSError:
        return ""
    return f", for {int(time.time()) - int(begun)} s by now" if begun.isdigit() else ""


@contextlib.contextmanager
def _only_one() -> Iterator[None]:
    """Only one run builds here at a time; another waits for it, and then finds its program. The lock is the file's."""
    lock = os.path.join(KEPT, "lock")
    progress = Progress()
    try:
        file = os.open(lock, os.O_RDWR | os.O_CREAT | os.O_APPEND, 0o644)
    except OSError:
        raise cannot_build(f"no right to write to {lock}, by which one build waits for another") from None
    try:
        while not _locks(file, lock):
            progress.show(f"another run builds the program{_built_for(lock)}; waiting")
            time.sleep(BEAT)
        progress.over()
        os.ftruncate(file, 0)
        os.write(file, f"{int(time.time())}\n".encode())
        yield
    finally:
        os.close(file)


def _locks(file: int, name: str) -> bool:
    try:
        fcntl.flock(file, fcntl.LOCK_EX | fcntl.LOCK_NB)
    except BlockingIOError:
        return False
    except OSError as fault:
        raise cannot_build(f"the file {name} can't be locked ({fault.strerror}), so that no build knows of another") from None
    return True


@contextlib.contextmanager
def _workroom() -> Iterator[str]:
    try:
        folder = tempfile.mkdtemp(prefix="try.", dir=KEPT)
    except OSError:
        raise cannot_build(f"no folder can be made in {KEPT}") from None
    try:
        yield folder
    finally:
        shutil.rmtree(folder, ignore_errors=True)


def make_checked() -> None:
    """Makes the checked build without proof, if no other run has made it meanwhile."""
    rt = need_rt("build the program")
    need_kept()
    with _only_one():
        if is_new(CHECKED):
            return
        with _workroom() as folder:
            began = time.time_ns()
            _try_program(rt, folder)
            _take_program(folder, began)


def _try_program(rt: str, folder: str) -> None:
    progress, log = Progress(), os.path.join(folder, "log")
    told = open_log(log)
    with tempfile.TemporaryFile(dir=folder) as given:
        given.write(WAITING.encode())
        given.seek(0)
        stage = f"reading {len(crates())} crates (1 of 2)"
        with Work([rt, "try", "--steps", "1", "--", "run"], CRATE, given.fileno(), told, temporary=folder) as work:
            while work.is_running():
                progress.show(f"building without proof: {stage}")
                if _copy_running(folder):
                    progress.over()
                    return
                if _found(folder, lambda name: name.endswith(".bc")):
                    stage = "compiling them (2 of 2)"
                time.sleep(BEAT)
    progress.over()
    tell(last_lines(log, 1 << 16))
    raise cannot_build(f"no program was built (status {work.status})")


def _found(folder: str, is_meant: Callable[[str], bool]) -> str | None:
    """A file below the folder whose name is meant, or None."""
    for path, _, names in os.walk(folder):
        for name in names:
            if is_meant(name):
                return os.path.join(path, name)
    return None


def _copy_running(folder: str) -> bool:
    """Takes the program, once it is whole: then it runs, and beside it stands what it prints."""
    made = os.path.join(folder, PROGRAM)
    found = _found(folder, lambda name: name == "program")
    if found is None or not os.path.exists(os.path.join(os.path.dirname(found), "stdout")):
        return False
    try:
        shutil.copy(found, made)
        return subprocess.run([made, "run"], input=RETURNING, stdout=subprocess.DEVNULL, stderr=subprocess.DEVNULL, check=False).returncode == 0
    except OSError:
        return False


def _take_program(folder: str, began: int) -> None:
    """`rt try` leaves it to its own user alone, and the sources may have changed since it was begun."""
    made = os.path.join(folder, PROGRAM)
    try:
        os.chmod(made, 0o755)
        os.utime(made, ns=(began, began))
        os.replace(made, CHECKED)
    except OSError:
        raise cannot_build(f"the program was built, and can't be moved to {CHECKED}") from None
