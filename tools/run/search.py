"""`outcomes`: a terminal shows for how long it has searched; and what it means that there may be others, or that one isn't there.

The program tells nothing before its search is over. What would go to the terminal is held, so that nothing comes behind the
line that is rewritten; what goes to a file or a pipe it writes there itself.
"""

from __future__ import annotations

import os
import re
import signal

from tools.run import running
from tools.run.input import unnamed_file
from tools.run.running import Run
from tools.run.saying import Progress, is_terminal, say, tell, write_all

# For each cause that a list names what to do.
OTHERS = {
    "states": "--states N keeps more of them, up to 4000000, and --memory MB allows the memory; else ask by a smaller script",
    "fuel": "--fuel N allows longer runs, up to 4000000 steps",
    "clock": "the script reads the clock, which may show any time; --clock virtual goes by the virtual clock, which a search knows",
    "limit": "some run uses more than any run may, and no option allows more",
}
STATES = "1000000"
HEAD = re.compile(r"([0-9]+) outcomes?, and there may be others: ([a-z]*)")
# More than the first line of a list has.
MOST_HEAD = 1 << 10


def states_of(words: list[str]) -> str:
    """The most states that the words allow."""
    states = STATES
    for word, following in zip(words, [*words[1:], ""]):
        if word.startswith("--states="):
            states = word.split("=", 1)[1]
        elif word == "--states":
            states = following or states
    return states


class Head:
    """The first line of a list, where the wrapper saw it: how many outcomes it has, and why there may be others."""

    def __init__(self, line: str = "") -> None:
        found = HEAD.match(line)
        self.outcomes, self.cause = (int(found[1]), found[2]) if found else (None, "")


def run_shown(run: Run, streams: tuple[int, int, int], name: str = "") -> int:
    """Runs the program below, and on a terminal rewrites a line each second."""
    if not is_terminal(2):
        return running.run_below(run, streams)
    states, progress = states_of(run.words), Progress()
    signal.signal(signal.SIGALRM, lambda _number, _frame: progress.show(f"{name}searches, up to {states} states"))
    signal.setitimer(signal.ITIMER_REAL, 1, 1)
    try:
        return running.run_below(run, streams)
    finally:
        signal.setitimer(signal.ITIMER_REAL, 0)
        progress.over()


def _copy(file: int, stream: int) -> None:
    """Hands on what was held, a piece at a time."""
    at = 0
    while True:
        piece = os.pread(file, 1 << 16, at)
        if not piece:
            return
        write_all(stream, piece)
        at += len(piece)


def run_search(run: Run, script: int) -> tuple[int, Head]:
    """Runs the search below the wrapper, and answers its status and the first line of its list, where that goes to the terminal."""
    try:
        told = unnamed_file()
        listed = unnamed_file() if is_terminal(1) else 1
    except OSError:
        return running.run_below(run, (script, 1, 2)), Head()
    status = run_shown(run, (script, listed, told))
    head = Head()
    try:
        if listed != 1:
            head = Head(os.pread(listed, MOST_HEAD, 0).decode("utf-8", "replace"))
            _copy(listed, 1)
        _copy(told, 2)
    except OSError:
        pass
    return status, head


def explain_cause(cause: str) -> None:
    """What to do where a search met this cause."""
    if cause in OTHERS:
        say(f"{cause}: {OTHERS[cause]}")


def explain_others(head: Head) -> None:
    """What stands below a list that may lack outcomes: of the cause that it names, or where that isn't seen of each."""
    if head.outcomes == 0:
        say("no outcome found yet")
    if head.cause in OTHERS:
        explain_cause(head.cause)
        return
    say("there may be other outcomes; the first line of the list names the cause")
    for cause, remedy in OTHERS.items():
        tell(f"{cause}: {remedy}\n")


def explain_none() -> None:
    say("outcomes have the numbers of the list, from 1; without --witness it is printed")
