"""`claims`: which claims of each script hold, each as FILE:LINE, so that an editor jumps there; and at the end how many hold."""

from __future__ import annotations

import os
import re

from tools.run import refusals, search
from tools.run.input import Kept, is_module
from tools.run.reading import Call
from tools.run.refusals import LINE as REFUSAL
from tools.run.running import Run
from tools.run.saying import as_word, encoded, say, tell
from tools.run.several import REFUSED, Answers, lines_of, put_all

NO_CLAIM = 12
# A line of the program: of which line of the script, and what is so.
VERDICT = re.compile(rb"line ([0-9]+): (holds|fails|open)(?:: (.*))?")
OUTCOME = re.compile(rb"outcome ([0-9]+)")
# A comment that would be a claim if nothing stood before it but blanks: texts hold no comments, and comments no further ones.
BEHIND_CODE = re.compile(rb'((?:[^"\n-]|"(?:[^"\\\n]|\\[^\n])*"|-(?!-))*)--[ \t]*!')
BLANKS = b" \t\r"
# What a script of a Haskell module says above a claim: where that stands.
PLACE = re.compile(rb"-- (.+):([0-9]+)")


def behind_code(script: bytes) -> list[int]:
    """The numbers of the lines on which a claim stands behind code, where it is a comment alone."""
    found = ((number, BEHIND_CODE.match(line)) for number, line in enumerate(script.split(b"\n"), 1))
    return [number for number, it in found if it and it[1].strip(BLANKS)]


def place_above(lines: list[bytes], number: int, name: str) -> int:
    """The line of the module that the script's line of this number comes of, or that number where the script doesn't say."""
    place = PLACE.fullmatch(lines[number - 2]) if 1 < number <= len(lines) else None
    return int(place[2]) if place and place[1] == encoded(os.path.basename(name)) else number


def count_text(holds: int, fails: int, opens: int) -> str:
    """How many claims hold, fail and are open."""
    return f"{holds} {'claim holds' if holds == 1 else 'claims hold'}, {fails} {'fails' if fails == 1 else 'fail'}, {opens} open"


class Claims(Answers):
    """What the program says of the claims of each file."""

    looks_at_script = True

    def __init__(self, run: Run, call: Call, explains: bool) -> None:
        super().__init__(run, call, explains)
        self.counts = {b"holds": 0, b"fails": 0, b"open": 0}
        # The lines of the script that a Haskell module became.
        self.lines: list[bytes] = []

    def run_on(self, name: str, file: int) -> int:
        self.lines = self.kept.bytes(self.call.document).split(b"\n") if self.kept and is_module(name) else []
        return search.run_shown(self.run, (file, self.output, self.errors), f"{name}: ")

    def named(self, name: str, line: bytes) -> bytes:
        verdict = VERDICT.fullmatch(line)
        if verdict:
            return encoded(f"{name}:{place_above(self.lines, int(verdict[1]), name)}") + line[verdict.end(1):]
        refusal = REFUSAL.fullmatch(line.decode("utf-8", "replace"))
        place = f":{place_above(self.lines, int(refusal[2]), name)}:{refusal[3]}" if refusal and refusal[2] else ""
        return encoded(f"{name}{place}: ") + line

    def explain(self, name: str, status: int, said: bytes, told: bytes, kept: Kept | None) -> None:
        verdicts = [it for it in map(VERDICT.fullmatch, lines_of(said)) if it]
        for it in verdicts:
            self.counts[it[2]] += 1
        script = kept.bytes(self.call.document) if kept else b""
        if status != REFUSED:
            for number in behind_code(script):
                tell(f"{name}:{number}: warning: a claim behind code is a comment alone; it needs a line of its own\n")
        self._tell_history(name, [it[3] or b"" for it in verdicts if it[2] == b"fails"])
        if self.explains:
            self._help(status, [it[3] or b"" for it in verdicts if it[2] == b"open"], told, script)

    def _tell_history(self, name: str, shown: list[bytes]) -> None:
        """How to see the history of the first claim that fails by an outcome."""
        number = next((it[1].decode() for it in map(OUTCOME.fullmatch, shown) if it), None)
        if number:
            files = ["--", name] if name.startswith("-") and name != "-" else [] if name == "-" else [name]
            words = " ".join(as_word(it) for it in ["outcomes", *self.run.words[1:], "--witness", number, *files])
            say(f"outcome {number} of {name} as a picture: ./conc_run {words} | ./conc_run picture > outcome.svg")

    def _help(self, status: int, causes: list[bytes], told: bytes, script: bytes) -> None:
        if status == REFUSED:
            refusals.explain(refusals.refusal_in(told), script)
        elif status == NO_CLAIM:
            say("a claim is a line of the script such as --! never stuck")
        for cause in dict.fromkeys(it.decode("utf-8", "replace").partition(":")[0] for it in causes):
            search.explain_cause(cause)

    def end(self) -> bool:
        return not any(self.counts.values()) or put_all(encoded(count_text(*self.counts.values()) + "\n"))
