"""The bench: its words, scripts by their size, and what its rows say."""

from __future__ import annotations

from tools import bench
from tools.tests.repository import RepositoryTest, said_by


class Words(RepositoryTest):
    def test_words(self) -> None:
        asked = bench.read_words(["count", "--runs", "3", "ring"])
        self.assertEqual((asked.shapes, asked.runs, asked.program), (["count", "ring"], 3, None))
        self.assertEqual(bench.read_words([]).runs, 5)
        for words, part in ((["nothing"], "no shape nothing; there are count build"), (["--runs", "0"], "not a number above 0: 0"), (["--runs"], "expected one argument"),
                            (["--run", "3"], "unrecognized arguments: --run"), (["--program"], "expected one argument")):
            _, err, status = said_by(lambda words=words: bench.read_words(words))  # type: ignore[misc]
            self.assertEqual(status, 2)
            self.assertIn(part, err)


class Shapes(RepositoryTest):
    def test_scripts_by_their_size(self) -> None:
        known = {it.name: it for it in bench.SHAPES}
        self.assertIn("if n == 7 then", known["count"].text(7))
        self.assertEqual(known["shared"].text(2).count("let l"), 3)
        for it in bench.SHAPES:
            self.assertNotRegex(it.text(3), r"\{[nip]\}|\{\{", it.name)

    def test_calls(self) -> None:
        known = {it.name: it for it in bench.SHAPES}
        self.assertEqual([(label, words) for label, words, _ in known["ring"].calls(9)],
                         [(", 1 capabilities", ["bench", "9", "--fuel", "4000000", "--caps", "1"]), (", 4 capabilities", ["bench", "9", "--fuel", "4000000", "--caps", "4"])])
        self.assertEqual([(label, words) for label, words, _ in known["count"].calls(9)], [("", ["run", "--fuel", "4000000"])])


class Figures(RepositoryTest):
    def took(self, *clocks: float) -> list[bench.Took]:
        found = []
        for clock in clocks:
            it = bench.Took("true", [], b"")
            it.clock, it.processor, it.memory = clock, 2 * clock, 8.0
            found.append(it)
        return found

    def test_a_row(self) -> None:
        self.assertEqual(bench.line("a", self.took(0.01, 0.02, 0.05), [2.0, 2.5]).split(), ["a", "10", "20", "50", "100", "8", "2.00", "2.50"])
        self.assertEqual(said_by(lambda: bench.tell("a", self.took(0.01, 0.02, 0.05)))[0].split()[-2:], ["2.00", "2.50"])

    def test_the_median(self) -> None:
        program = self.write_executable("program", "#!/bin/sh\ncat\n")
        self.assertEqual(bench.median(program, [], b"text", 3).told, b"text")
        counter = self.write_executable("counter", f"#!/bin/sh\n[ -e {self.top}/was ] && exit 1\ntouch {self.top}/was\n")
        self.assertIn("end with different statuses", str(said_by(lambda: bench.median(counter, ["run"], b"", 2))[2]))

    def test_states_of_a_list(self) -> None:
        self.assertEqual(bench.states_of(b"1 outcome, and there are no others\n150 states; every schedule ends\n"), 150)
        self.assertEqual(said_by(lambda: bench.states_of(b"refused\n"))[2], "bench: this is no list of outcomes")
