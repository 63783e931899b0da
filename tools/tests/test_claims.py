"""tools/test-claims: what it wants of a claim, and that it sees a program that judges wrongly."""

from __future__ import annotations

import random
from unittest import mock

from tools.litmus.outcomes import Listed, Outcome
from tools.run.tests.standins import PYTHON
from tools.tests.repository import RepositoryTest, said_by, tool

# Lists outcomes by the script's forks, and judges claims by them. What stands for RULE is how a wrong one differs.
PROGRAM = f"#!{PYTHON} -IS\n" + r'''import re, sys
words, script = sys.argv[1:], sys.stdin.buffer.read().decode()
BLOCKED = "uncaught exception in main: thread blocked indefinitely in an MVar operation\n"
LISTS = [([("done", "a\nb", ""), ("uncaught", "", BLOCKED), ("deadlock", "a", "")], "there are no others", "every schedule ends"),
         ([("done", "", "x\n")], "there may be others: limit: cells", "whether every schedule ends is not known"),
         ([], "there are no others", "a schedule may run for ever")]
outcomes, others, endless = LISTS[script.count("forkIO") % 3]
complete, cause, strict, ordered = others == "there are no others", others.partition(": ")[2], True, True
#RULE
def block(name, text):
    if not text:
        return ["   output: none"] if name == "output" else []
    whole = text.split("\n")
    last = [] if whole[-1] == "" else ["     : " + whole[-1]]
    return ["   " + name + ":"] + ["     | " + it for it in whole[:-1]] + last
if words[0] == "outcomes":
    print(len(outcomes), "outcomes, and", others)
    print("9 states;", endless)
    for number, (end, out, err) in enumerate(outcomes, 1):
        print("\n" * (number == 1) + str(number) + ". " + end + ", after 3 entries")
        print("\n".join(block("output", out) + block("errors", err)))
    sys.exit(0 if complete else 11)
TOKEN = re.compile(r'"((?:[^"\\]|\\.)*)"|[a-z]+')
def text_of(raw):
    return re.sub(r"\\(.)", lambda it: {"n": "\n", "t": "\t"}.get(it[1], it[1]), raw)
def meets(tokens, outcome):
    end, out, err = outcome
    rest = list(tokens)
    while rest:
        word = rest.pop(0)[0]
        if word in ("output", "errors"):
            said, has = (out if word == "output" else err), rest[0][0] == "has"
            if has:
                rest.pop(0)
            wanted = text_of(rest.pop(0)[1])
            holds = wanted in said if has else said == wanted if strict else said.startswith(wanted)
        elif word == "stuck":
            holds = end == "deadlock" or end == "uncaught" and err.endswith(BLOCKED)
        else:
            holds = end == word
        if not holds:
            return False
        if rest:
            rest.pop(0)
    return True
def judged(kind, rest):
    gap = "open: " + cause
    if kind == "terminates":
        return "holds" if endless.startswith("every") else "fails: " + endless if endless.startswith("a ") else gap
    met = [meets(rest, it) for it in outcomes]
    if kind == "sometimes":
        return "holds" if any(met) else "fails" if complete else gap
    wrong = [it == (kind == "never") for it in met]
    if any(wrong):
        at = wrong.index(True) if ordered else len(wrong) - 1 - wrong[::-1].index(True)
        return "fails: outcome " + str(at + 1)
    return "holds" if complete else gap
answers = []
for number, line in enumerate(script.split("\n"), 1):
    claim = re.match(r"[ \t\r]*--[ \t]*!(.*)", line)
    if claim:
        tokens = [(it[0], it[1]) for it in TOKEN.finditer(claim[1])]
        answers.append("line %d: %s" % (number, judged(tokens[0][0], tokens[1:])))
print("\n".join(answers))
kinds = {it.split(": ")[1] for it in answers}
sys.exit(14 if "fails" in kinds else 11 if "open" in kinds else 0)
'''
WRONG = {"no gap": "complete = True", "a text by its begin": "strict = False", "the last outcome": "ordered = False",
         "another cause": "cause = cause and 'states'", "all schedules end": "endless = endless if words[0] == 'outcomes' else 'every schedule ends'"}


class Judge(RepositoryTest):
    def test_what_a_list_says_of_a_claim(self) -> None:
        tests = tool("tools/test-claims")
        part, claim = tests.Part, tests.Claim
        one, two = Outcome("done", b"ab\n", b""), Outcome("uncaught", b"", tests.BLOCKED)
        whole = tests.Found(Listed((one, two), "there are no others"), tests.ENDS)
        bound = tests.Found(Listed((one,), "there may be others: states"), "whether every schedule ends is not known")
        for parts, kind, of_whole, of_bound in (
                ((part("done"),), "always", "fails: outcome 2", "open: states"), ((part("done"),), "never", "fails: outcome 1", "fails: outcome 1"),
                ((part("done"),), "sometimes", "holds", "holds"), ((part("stuck"),), "never", "fails: outcome 2", "open: states"),
                ((part("", "output", b"ab"),), "sometimes", "fails", "open: states"), ((part("has", "output", b"b"),), "sometimes", "holds", "holds"),
                ((part("done"), part("has", "errors", b"x")), "never", "holds", "open: states"), ((part("deadlock"),), "always", "fails: outcome 1", "fails: outcome 1")):
            with self.subTest(parts=parts, kind=kind):
                self.assertEqual(tests.judge(claim(kind, parts), whole), of_whole)
                self.assertEqual(tests.judge(claim(kind, parts), bound), of_bound)
        self.assertEqual([tests.judge(claim("terminates", ()), it) for it in (whole, bound)], ["holds", "open: states"])
        self.assertEqual([tests.status_of(it) for it in ([], ["holds"], ["holds", "open: fuel"], ["open: fuel", "fails"])], [0, 0, 11, 14])

    def test_how_a_claim_is_written(self) -> None:
        tests = tool("tools/test-claims")
        claim = tests.Claim("never", (tests.Part("done"), tests.Part("has", "output", b'a"\\\n\tb'), tests.Part("", "errors", b"")))
        self.assertEqual(claim.spelled(), 'never done and output has "a\\"\\\\\\n\\tb" and errors ""')
        text, claims = tests.written(random.Random(1), "main\nend\n", [claim, tests.Claim("terminates", ())])
        for number, it in claims:
            self.assertIn(it.spelled(), text.split("\n")[number - 1])
        self.assertEqual([number for number, _ in claims], sorted(number for number, _ in claims))


class Seen(RepositoryTest):
    def ran(self, rule: str) -> tuple[str, object]:
        program = self.write_executable("program", PROGRAM.replace("#RULE", rule))
        out, _, status = said_by(lambda: tool("tools/test-claims").main(["--count", "12", "--program", program]))
        return out, status

    def test_a_right_program(self) -> None:
        out, status = self.ran("")
        self.assertEqual(status, 0, out)
        self.assertRegex(out, r"^12 scripts, \d+ claims: [1-9]\d* hold, [1-9]\d* fail, [1-9]\d* are open; another answer for 0 scripts\n$")

    def test_wrong_programs(self) -> None:
        for name, rule in WRONG.items():
            with self.subTest(name):
                self.assertEqual(self.ran(rule)[1], 1)

    def test_a_program_that_lists_nothing(self) -> None:
        program = self.write_executable("program", "#!/bin/sh\nexit 2\n")
        with mock.patch("sys.argv", ["test-claims"]):
            self.assertIn("lists the outcomes of hardly any script", str(said_by(lambda: tool("tools/test-claims").main(["--count", "1", "--program", program]))[2]))
