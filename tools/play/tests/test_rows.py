"""The scripts of the rows, in each of their cases, by their own words and by check, run and outcomes."""

from __future__ import annotations

from typing import Iterator

from tools.play.tests import native, settings
from tools.play.tests.browser import PageTest, Result
from tools.play.tests.scripts import of_rows

BUNCH = 25
SHORT = 60000
OUT_OF_MEMORY = 6
# Who needs more of the 2,048 MB that the page gives than this may be told there that memory is out, since it keeps freed blocks apart.
ENOUGH = 1536
# A part of a script is asked by fewer commands.
PART = "part-of-"
OF_SCRIPTS = ("run", "check", "trace", "outcomes")


def without_threads(words: list[str]) -> list[str]:
    """The words without a number of capabilities, which the page has one of."""
    if "--caps" not in words:
        return [it for it in words if not it.startswith("--caps=")]
    at = words.index("--caps")
    return words[:at] + words[at + 2:]


def own_words(words: list[str]) -> list[str]:
    """The row's own words, by a clock for which each run is like every other."""
    own = without_threads(words)
    return [*own, "--clock", "virtual"] if own[:1] in (["run"], ["trace"]) and not any("--clock" in it for it in own) else own


def calls() -> Iterator[tuple[str, list[str], bytes]]:
    for number, (name, words, script) in enumerate(of_rows()):
        if number % settings.every:
            continue
        if not name.startswith(PART):
            yield name, own_words(words), script
        if words[:1] and words[0] in OF_SCRIPTS:
            yield name, ["check"], script
            yield name, ["run", "--clock", "virtual", "--fuel", "100000"], script
            if len(script) < SHORT and not name.startswith(PART):
                yield name, ["outcomes", "--states", "2000", "--fuel", "20000"], script


def is_same(result: Result, words: list[str], script: bytes) -> bool:
    """Whether the page answers what the program does. Memory may be out where the program itself needs nearly as much as the page has."""
    if result.failure is None and result.answer.status == OUT_OF_MEMORY:
        return native.call_within(ENOUGH, words, script) == result.answer
    return result.failure is None and native.call(words, script) == result.answer


class Rows(PageTest):
    def test_calls(self) -> None:
        every, tried, wrong = list(calls()), 0, []
        for at in range(0, len(every), BUNCH):
            bunch = every[at:at + BUNCH]
            for (name, words, script), result in zip(bunch, self.page.calls([(words, script) for _, words, script in bunch])):
                tried += 1
                if not is_same(result, words, script):
                    wrong.append((name, words, result.failure, result.answer.status))
        print(f"{tried} calls of rows, {len(wrong)} differ")
        self.assertEqual([], wrong)
