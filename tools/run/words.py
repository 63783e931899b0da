"""The words of the command line, as data: the commands, the options, what each takes, and a line of help for each.

The page of --help, the hints and the reading of the words are made from these tables, and so can be whatever else is to know
the words: completions, a page of the manual, the syntax files of editors.
"""

from __future__ import annotations

# One more than is accepted, so that the program sees what is too long.
SCRIPT_BYTES = 1_048_576 + 1
DOCUMENT_BYTES = 100_663_296 + 1

# Of several files the status that comes first here is that of all.
STATUS_ORDER = (66, 70, 71, 2, 3, 6, 7, 8, 9, 14, 15, 11, 12, 0)

# Commands of this table that the program is still to get: nobody is told of them. The name of one that it has is taken away here.
COMING: tuple[str, ...] = ()


class Option:
    """An option: what stands behind it, what that may be, and its line of help."""

    def __init__(self, name: str, value: str, help: str, least: int = 0, most: int = 0, choices: tuple[str, ...] = ()) -> None:
        self.name, self.value, self.help = name, value, help
        self.least, self.most, self.choices = least, most, choices

    @property
    def usage(self) -> str:
        return f"{self.name} {self.value}".rstrip()


class Command:
    """A command: its operand, its options, its line of help, and what it reads."""

    def __init__(self, name: str, operand: str, options: tuple[str, ...], help: str, document: int = 0,
                 status_order: tuple[int, ...] = (), options_usage: str = "") -> None:
        self.name, self.operand, self.options, self.help = name, operand, options, help
        # The most bytes that are handed to it of a script or another document; 0 where it reads none.
        self.document = document
        # Where it takes several files, which of their statuses is that of all.
        self.status_order = status_order
        self.options_usage = options_usage

    @property
    def usage(self) -> str:
        options = self.options_usage or " ".join(f"[{OPTIONS[it].usage}]" for it in self.options)
        return " ".join(it for it in (self.name, self.operand, options) if it)


def _by_name(*options: Option) -> dict[str, Option]:
    return {it.name: it for it in options}


# Those of the program, each with one value.
PROGRAM_OPTIONS = _by_name(
    Option("--caps", "N", "threads that evaluate at the same time, 1 to 16 (1)", 1, 16),
    Option("--fuel", "N", "the most steps of a run, 1 to 4000000 (1000000)", 1, 4_000_000),
    Option("--clock", "C", "real, or virtual: it stands until all threads wait, and then jumps (real)", choices=("real", "virtual")),
    Option("--states", "N", "the most states that a search keeps, 1 to 4000000 (1000000)", 1, 4_000_000),
    Option("--witness", "K", "prints a history that comes to the K-th outcome, in place of the list", 1, 4_294_967_295),
)
# Those of `litmus`.
LITMUS_OPTIONS = _by_name(
    Option("--runs", "N", "the most runs of a script by GHC (20000), or rounds of audit --confirm (1000)", 1),
    Option("--seconds", "S", "the most seconds that a script is run for (20), or of a search of an audit (60)"),
    Option("--seed", "N", "where the rows of random numbers begin (1)"),
    Option("--forks", "F", "reported, or plain: as GHC forks, where no line tells what hits a thread before its first step (reported)", choices=("reported", "plain")),
    Option("--where", "", "prints the folder of the support module, which each Haskell module imports"),
)
# Those of `audit`, besides --states, --runs and --seconds.
AUDIT_OPTIONS = _by_name(
    Option("--all", "", "a line for every question of an audit"),
    Option("--confirm", "", "runs a program for each finding of an audit by GHC, over the unchanged module"),
    Option("--jobs", "N", "how many programs of an audit go on at the same time (one for each processor)", 1),
    Option("--skip", "F", "asks nothing of this function"),
    Option("--pair", "F/G", "G takes back what F does"),
    Option("--also", "KIND", "further questions: limit, throw or beside", choices=("limit", "throw", "beside")),
    Option("--keep", "DIR", "where the programs of the findings go (audit-NAME)"),
)
# Those of the script around it.
OWN_OPTIONS = _by_name(
    Option("--memory", "MB", "the most memory of the run, 0 for no limit (2048, or what CONC_RUN_MEMORY says)", 0, 9_999_999),
    Option("--explain", "", "shows the line of a refusal and what to do, as on a terminal"),
    Option("--prove", "", "proves and builds the program first; until then the checked build without proof runs"),
    Option("--version", "", "the version, the kit, and which build there is"),
    Option("--clean", "", "removes what is kept in $XDG_CACHE_HOME/conc-run (~/.cache/conc-run): translators, and scripts of modules"),
)
# Those for the translator of Haskell modules.
MODULE_OPTIONS = _by_name(
    Option("--main", "NAME", "of a Haskell module the action that is asked, of type IO () (main)"),
    Option("-iDIR", "", "looks for modules that it imports in this folder too"),
    Option("--strict", "", "takes what is evaluated here and Haskell may leave out, with a note"),
    Option("--trust", "", "loads modules without a look at what they make GHC run"),
)
# Those that the page has no line for.
OTHER_OPTIONS = _by_name(
    Option("--help", "", "the page of commands and options"),
    Option("--quick", "", "the rows alone"),
)
OPTIONS = {**PROGRAM_OPTIONS, **LITMUS_OPTIONS, **AUDIT_OPTIONS, **OWN_OPTIONS, **MODULE_OPTIONS, **OTHER_OPTIONS}
# What stands behind a command.
COMMAND_OPTIONS = {**PROGRAM_OPTIONS, **LITMUS_OPTIONS, **AUDIT_OPTIONS}

RUN_OPTIONS = ("--caps", "--fuel", "--clock")
SEARCH_OPTIONS = ("--clock", "--states", "--fuel")
COMMANDS = {it.name: it for it in (
    Command("run", "[FILE]", RUN_OPTIONS, "checks a script and runs it", SCRIPT_BYTES),
    Command("check", "[FILE..]", (), "says whether it is accepted", SCRIPT_BYTES, STATUS_ORDER),
    Command("bench", "N", ("--caps", "--fuel"), "runs a ring of N threads (1 to 4000)"),
    Command("trace", "[FILE]", RUN_OPTIONS, "runs it and writes its history, in place of what it prints", SCRIPT_BYTES),
    Command("outcomes", "[FILE]", (*SEARCH_OPTIONS, "--witness"), "lists all that it may come to, over all schedules", SCRIPT_BYTES),
    Command("claims", "[FILE..]", SEARCH_OPTIONS, "says which of its claims hold: lines of it such as --! never stuck", SCRIPT_BYTES, STATUS_ORDER),
    Command("verify", "[FILE]", (), "says whether a written history is a run of its script", DOCUMENT_BYTES),
    Command("report", "[FILE]", (), "says what each thread and each cell of such a history did", DOCUMENT_BYTES),
    Command("picture", "[FILE]", RUN_OPTIONS, "draws such a history as SVG, or that of a script that it runs first", DOCUMENT_BYTES,
            options_usage="[options of trace]"),
    Command("story", "[FILE]", RUN_OPTIONS, "tells such a history, or that of a script, in a line for each entry", DOCUMENT_BYTES,
            options_usage="[options of trace]"),
    Command("haskell", "[FILE]", (), "prints it as a Haskell module", SCRIPT_BYTES),
    Command("litmus", "FILE..", tuple(LITMUS_OPTIONS), "runs it many times by GHC, and shows that beside its outcomes",
            options_usage="[--runs N] [--seconds S] [--seed N] [--forks F]"),
    Command("audit", "MODULE", ("--states", "--seconds", *AUDIT_OPTIONS), "what a kill in each function of a Haskell module leaves behind",
            options_usage="[--confirm] [--all] [--seconds S] [--states N] [--jobs N]"),
    Command("script", "FILE.hs", (), "prints the script that a Haskell module becomes", SCRIPT_BYTES),
    Command("test", "", ("--quick",), "proves and tries everything; --quick: the rows alone"),
) if it.name not in COMING}
# These read a history with its script in one document.
HISTORY_COMMANDS = ("verify", "report", "picture", "story")

# How a call ended.
STATUSES = {
    0: "done, accepted, a run,\nno other outcomes, or an\naudit found nothing",
    1: "main ended by an exception",
    2: "words not understood",
    3: "the script is refused",
    4: "deadlock",
    5: "out of fuel",
    6: "out of memory",
    7: "a read failed",
    8: "a write failed",
    9: "a limit",
    10: "not a run",
    11: "there may be other outcomes,\nor a question is open",
    12: "no outcome of this number",
    13: "too long to be drawn",
    14: "an audit found something",
    15: "GHC showed another outcome",
    66: "the file can't be read",
    70: "the program could not be built",
    71: "too little stack",
}
if "claims" in COMMANDS:
    STATUSES = dict(sorted({
        **STATUSES,
        0: "done, accepted, a run, no\nother outcomes, each claim\nholds, or an audit found\nnothing",
        11: "there may be other outcomes,\nor a claim or question is\nopen",
        12: "no outcome of this number,\nor no claim",
        14: "a claim fails, or an audit\nfound something",
    }.items()))
