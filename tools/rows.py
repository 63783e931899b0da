"""Rows: that examples are theirs, that the counts of a run are right; and `./check --rows`, which tries them without proof."""

from __future__ import annotations

import concurrent.futures
import glob
import os
import re
import resource
import shutil
import subprocess
import sys
import tempfile
import textwrap
import time
from collections.abc import Iterator
from typing import NamedTuple

from tools.crates import below
from tools.sources import TOP, blocks, documents, here, lines, read

# The most processor seconds of a row, among all and in one file.
SHORT, LONG = 1, 20
# The programs of rows, and how the last line of their runs reads.
PROGRAMS = ("conc_rows", "stack_rows")
WORD = re.compile(r"^# ([a-z0-9-]+): ")
# A comment that has words of a page, which the rows there show.
QUOTE = re.compile(r"-- ([A-Z]+\.md): (.+)")


class Row(NamedTuple):
    """A row: its name, the number of its first line in the file, and its lines."""

    name: str
    number: int
    lines: list[str]


def rows_of(path: str) -> list[Row]:
    """The rows of a file."""
    found: list[Row] = []
    for number, line in enumerate(lines(path), 1):
        name = WORD.match(line)
        if name:
            found.append(Row(name[1], number, []))
        if found:
            found[-1].lines.append(line)
    return found


def script_of(row: list[str]) -> str:
    """The script of a row, which stands in its lines."""
    return "\n".join(it[1:].removeprefix(" ") for it in row if it.startswith("|"))


def examples() -> Iterator[str]:
    """Each example is the script of its row, and each row of one has its file; the tour has all of them."""
    path, tour = "crates/conc_rows/data/tour.rows", read("docs/TOUR.md")
    rows = {it.name.removeprefix("example-"): script_of(it.lines) for it in rows_of(path) if it.name.startswith("example-")}
    there = {os.path.basename(it).removesuffix(".conc"): it for it in here("examples/*.conc")}
    for name in sorted(set(there) - set(rows)):
        yield f"{there[name]}: {path} has no row example-{name}"
    for name in sorted(set(rows) - set(there)):
        yield f"{path}: there is no examples/{name}.conc"
    for name in sorted(set(rows) & set(there)):
        for number, (one, other) in enumerate(zip(lines(there[name]), rows[name].split("\n") + [""]), 1):
            if one != other:
                yield f"{there[name]}:{number}: the row example-{name} of {path} has another line"
                break
        if len(lines(there[name])) != len(rows[name].split("\n")) + 1:
            yield f"{there[name]}: it and the row example-{name} have different lengths"
        if f"`{name}.conc`" not in tour:
            yield f"docs/TOUR.md: it has no paragraph on {name}.conc"


def claims() -> Iterator[str]:
    """Each example, also of a mistake, is the script of a row that says what its claims come to."""
    path = "crates/conc_rows/data/examples.rows"
    rows = {it.name.removeprefix("claims-of-"): script_of(it.lines) for it in rows_of(path)}
    for file in here("examples/*.conc") + here("examples/mistakes/*.conc"):
        name = os.path.basename(file).removesuffix(".conc")
        if name not in rows:
            yield f"{file}: {path} has no row claims-of-{name}"
        elif rows[name].rstrip("\n") != read(file).rstrip("\n"):
            yield f"{file}: the row claims-of-{name} of {path} has another script"


def words_in(script: str) -> str:
    """A script without comments, in one line."""
    return " ".join(re.sub(r"--.*", "", script).split())


def readme() -> Iterator[str]:
    """Each script of README is that of a row, so what README says of it is tried."""
    scripts = {words_in(script_of(it.lines)) for path in here("crates/conc_rows/data/*.rows") for it in rows_of(path)}
    for block in blocks("README.md"):
        script = "\n".join(block.lines[1:-1])
        if block.kind == "code" and script.startswith("main ::") and words_in(script) not in scripts:
            yield f"{block.at(0)}: no row of crates/conc_rows/data has this script"


def pictures() -> Iterator[str]:
    """Each picture of the documents is what a row has the program draw."""
    drawn = {it.name: [line.removeprefix("out: ") for line in it.lines if line.startswith("out: ")]
             for path in here("crates/conc_rows/data/*.rows") for it in rows_of(path)}
    for path in here("docs/pictures/*.svg"):
        name = f"picture-of-{os.path.basename(path).removesuffix('.svg')}"
        if drawn.get(name) != read(path).removesuffix("\n").split("\n"):
            yield f"{path}: the row {name} of crates/conc_rows/data doesn't have the program draw it"


def lists() -> Iterator[str]:
    """Each list of outcomes in the documents is what a row has the program print."""
    printed = {tuple(re.sub(r"^out: ?", "", line) for line in it.lines if line.startswith("out:"))
               for path in here("crates/conc_rows/data/*.rows") for it in rows_of(path)}
    for path in documents():
        for block in blocks(path):
            told = textwrap.dedent("\n".join(it for it in block.lines if not it.lstrip().startswith("```"))).split("\n")
            if block.kind == "code" and re.match(r"\d+ outcomes?, and there ", told[0]) and tuple(told) not in printed:
                yield f"{block.at(0)}: no row of crates/conc_rows/data has the program print this list"


def comments() -> Iterator[str]:
    """Words of pages that rows show and the page doesn't have; and comments that say more than a title and are no such words."""
    for path in here("crates/*/data/*.rows"):
        head = True
        for number, line in enumerate(lines(path), 1):
            head, quote = head and bool(line), QUOTE.fullmatch(line)
            page = f"docs/{quote[1]}" if quote else ""
            if quote and not (os.path.isfile(os.path.join(TOP, page)) and quote[2] in " ".join(read(page).split())):
                yield f"{page}: it doesn't say `{quote[2]}`, which {path}:{number} shows"
            elif not quote and not head and re.match(r"--.*[.:;]( |$)", line):
                yield f"{path}:{number}: a comment behind the head is a title, or words of a page (`-- PAGE.md: WORDS`)"


def count_of(crate: str) -> tuple[int, int]:
    """How many rows a program has, and how many of them can't run yet."""
    rows = [it for path in here(f"crates/{crate}/data/*.rows") for it in rows_of(path)]
    return len(rows), sum("later" in it.lines for it in rows)


def last_lines() -> Iterator[str]:
    """The counts that the programs of rows are to print."""
    for crate in PROGRAMS:
        rows, later = count_of(crate)
        wanted = f"{rows} rows, 0 failed" + (f", {later} later" if crate == "conc_rows" else "")
        if read(f"crates/{crate}/stdout").strip() != wanted:
            yield f"crates/{crate}/stdout: it has to be `{wanted}`"
        twice = [it.name for path in here(f"crates/{crate}/data/*.rows") for it in rows_of(path)]
        for name in sorted({it for it in twice if twice.count(it) > 1}):
            yield f"crates/{crate}/data: two rows are called {name}"


def say(text: str) -> None:
    print(f"check: {text}", file=sys.stderr, flush=True)


def is_new(program: str, crate: str, may: int = os.X_OK) -> bool:
    """Whether the program is there and no source of it is newer."""
    if not os.access(program, may):
        return False
    made = os.path.getmtime(program)
    folders = [f"crates/{it}/{part}" for it in below(crate) | {crate} for part in ("src", "specs", "proofs")]
    return all(os.path.getmtime(os.path.join(at, it)) <= made for folder in folders for at, _, names in os.walk(os.path.join(TOP, folder)) for it in names)


def built(crate: str) -> str:
    """The program of the rows, without proof, which is kept in out/. `rt try` keeps none, so it is taken while it runs."""
    program = os.path.join(TOP, "out", crate)
    if is_new(program, crate):
        return program
    if not shutil.which("rt"):
        sys.exit("check: no command rt here: the kit is needed to build the program of the rows")
    os.makedirs(os.path.dirname(program), exist_ok=True)
    begun = time.time()
    data = [word for it in here(f"crates/{crate}/data/*.rows") for word in ("--data", f"{os.path.basename(it)}={os.path.join(TOP, it)}")]
    with tempfile.TemporaryDirectory(prefix="rows-", dir=os.path.dirname(program)) as work:
        with open(f"{work}/log", "wb") as log:
            ran = subprocess.Popen(["rt", "try", "--steps", "1", *data], cwd=os.path.join(TOP, "crates", crate), stdin=subprocess.DEVNULL,
                                   stdout=log, stderr=log, env={**os.environ, "TMPDIR": work})
        made = None
        try:
            while made is None and ran.poll() is None:
                time.sleep(0.1)
                made = taken(work)
                if int(time.time() - begun) % 20 == 0:
                    say(f"building {crate} without proof, {int(time.time() - begun)} s")
                    time.sleep(1)
        finally:
            ran.terminate()
            ran.wait()
        if made is None:
            with open(f"{work}/log", errors="replace") as log:
                sys.exit(f"{log.read()}check: {crate} was not built")
        os.utime(made, (begun, begun))
        os.replace(made, program)
    return program


def taken(work: str) -> str | None:
    """A copy of the program that runs, once it does: its output stands beside it then."""
    for found in glob.glob(f"{work}/**/program", recursive=True):
        if os.path.exists(f"{os.path.dirname(found)}/stdout"):
            try:
                shutil.copy(found, f"{work}/taken")
                if "0 rows" in run_on(f"{work}/taken", {})[1]:
                    return f"{work}/taken"
            except OSError:
                pass
    return None


def run_on(program: str, data: dict[str, str], seconds: int = LONG) -> tuple[int, str]:
    """Runs a program of rows on files with these texts. Files that aren't named are empty."""
    with tempfile.TemporaryDirectory(prefix="row-") as folder:
        for crate in PROGRAMS:
            for it in here(f"crates/{crate}/data/*.rows"):
                with open(f"{folder}/{os.path.basename(it)}", "w", encoding="utf-8") as file:
                    file.write(data.get(os.path.basename(it), ""))
        limit = lambda: resource.setrlimit(resource.RLIMIT_CPU, (seconds, seconds + 1))  # noqa: E731
        ran = subprocess.run([program], cwd=folder, stdin=subprocess.DEVNULL, stdout=subprocess.PIPE, stderr=subprocess.STDOUT,
                             env={**os.environ, "ASAN_OPTIONS": "symbolize=0"}, preexec_fn=limit, check=False)
        return ran.returncode, ran.stdout.decode(errors="replace")


def try_row(program: str, path: str, row: Row, seconds: int) -> str | None:
    """What the program says of a row, or None where it takes longer. Empty lines before it keep the numbers of its lines."""
    status, said = run_on(program, {os.path.basename(path): "\n" * (row.number - 1) + "\n".join(row.lines) + "\n"}, seconds)
    if status < 0:
        return None
    if status == 0 and re.search(r"^1 rows, 0 failed", said, re.M):
        return ""
    return "\n".join(it for it in said.split("\n") if it and not re.match(r"\d+ rows, ", it)) or f"{row.name}: status {status}"


def files_of(name: str) -> list[str]:
    """The files of rows that are meant: those of this name, or where it is empty all that ./check tries."""
    if not name:
        return here("crates/conc_rows/data/*.rows")
    file = os.path.basename(name).removesuffix(".rows") + ".rows"
    paths = here(f"crates/*/data/{file}")
    if not paths:
        sys.exit(f"check: --rows takes one file of crates/*/data, such as tour.rows, and none is called {file}")
    return paths


def try_rows(name: str) -> int:
    """`./check --rows [FILE]`: the rows of a file, or of all files, that end within so much processor time."""
    paths, seconds = files_of(name), LONG if name else SHORT
    program = built(paths[0].split("/")[1])
    rows = [(path, row) for path in paths for row in rows_of(path) if "later" not in row.lines]
    failed = 0
    longer: list[str] = []
    with concurrent.futures.ThreadPoolExecutor(os.cpu_count()) as pool:
        tried = pool.map(lambda it: try_row(program, it[0], it[1], seconds), rows)
        for (path, row), said in zip(rows, tried):
            if said is None:
                longer.append(row.name)
            elif said:
                failed += 1
                print(f"{path}:{row.number}: {said}", flush=True)
    if longer:
        print(f"not tried, since they take over {seconds} s: {' '.join(longer)}")
    print(f"{len(rows) - len(longer)} rows were tried by a build without proof, {failed} failed")
    return 1 if failed else 0
