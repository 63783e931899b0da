"""What the page takes from the documents: the words of the language, what each refusal and each cause of a list means, the examples."""

from __future__ import annotations

import os
import re
import sys
from typing import Iterator

from tools.run.words import COMMANDS
from tools.sources import TOP, here, read

# What no row of the documents' tables has, since these faults are explained in paragraphs.
PARAGRAPHS = {
    "Unexpected": ("up to this token some script begins so, and with it none does: all before it is fine, and what stands here can't. "
                   "At the end of the script it means that something is missing",
                   "an argument that is a call needs parentheses; a definition ends with `;`; a block is never empty, and ends with an "
                   "action; a reserved word is no name"),
    "Deep": ("this is the first opener (`(`, `[`, `{`, `if`, `case`, `let`) that stands in 200 others", "name a part in a definition or by `let`"),
    "TooLong": ("a script has at most 1,048,576 bytes", "make it shorter"),
}
# What the tables of lexical faults don't say.
REMEDIES = {
    "NotUtf8": "save the file as UTF-8",
    "BadChar": r'take the character away, or put it into a text; the escapes of a text are `\"`, `\\`, `\n` and `\t`',
    "OpenText": r"write its closing `\"`; a line feed in a text is `\n`".replace(r"\"", '"'),
    "BigNumber": "take a smaller one; numbers have 64 bits",
}
# How the page calls what the documents say by an option of the command line.
OPTIONS = {"states": "**States of a search**, under Options", "fuel": "**Fuel**, under Options", "memory": "**Memory**, under Options",
           "clock": "the **virtual clock**, under Options"}


def cells(line: str) -> list[str]:
    """The cells of a table's row. A bar behind a backslash, or within backquotes, is none between two cells."""
    inside = re.sub(r"`[^`]*`", lambda it: it[0].replace("|", "\0").replace("\\\0", "\0"), line.strip().strip("|"))
    return [it.strip().replace("\\|", "|").replace("\0", "|") for it in re.split(r"(?<!\\)\|", inside)]


def table(path: str, *head: str) -> Iterator[list[str]]:
    """The rows of the table of a document whose head begins with these cells."""
    lines = read(path).split("\n")
    for number, line in enumerate(lines):
        if line.startswith("|") and cells(line)[:len(head)] == list(head):
            for row in lines[number + 2:]:
                if not row.startswith("|"):
                    return
                yield cells(row)
    sys.exit(f"play: {path} has no table with the head {' | '.join(head)}")


def sentence(text: str) -> str:
    text = text.strip()
    return text[:1].upper() + text[1:] + ("" if text.endswith((".", "?")) else ".")


def faults() -> dict[str, dict[str, str]]:
    """Of each refusal where it comes and what to do."""
    page = "docs/LANGUAGE.md"
    found = {row[0].strip("`"): (row[1], REMEDIES.get(row[0].strip("`"), "")) for row in table(page, "fault", "where it comes")}
    found.update({row[0].strip("`"): (row[1], row[2]) for row in table(page, "fault", "broken where", "what to do")})
    return {name: {"where": sentence(where), **({"cure": sentence(cure)} if cure else {})} for name, (where, cure) in {**found, **PARAGRAPHS}.items()}


def for_the_page(text: str) -> str:
    """The text with the page's own names in place of options and of other documents."""
    text = re.sub(r" \(`[A-Z]+\.md`\)", "", text)
    text = re.sub(r"`--(states|fuel|memory|clock)(?: \w+)?`", lambda it: OPTIONS[it[1]], text)
    return text


def causes() -> dict[str, dict[str, str]]:
    """Of each cause for which there may be other outcomes what was met and what to do."""
    found: dict[str, dict[str, str]] = {}
    for names, met, cure in table("docs/OUTCOMES.md", "cause", "what was met", "what to do"):
        for name in re.findall(r"`(\w+)(?::[^`]*)?`", names):
            found.setdefault(name, {"met": sentence(for_the_page(met)), "cure": sentence(for_the_page(cure))})
    return found


def reserved_words() -> list[str]:
    paragraph = re.search(r"\*\*Reserved words\*\*.*?: `(.*?)`", read("docs/LANGUAGE.md"), re.S)
    if not paragraph:
        sys.exit("play: docs/LANGUAGE.md has no paragraph of reserved words")
    return paragraph[1].split()


def commands() -> list[str]:
    """The words of the command line that the program knows."""
    return [name for row in table("docs/LANGUAGE.md", "command", "options, each with one value") for name in re.findall(r"`([a-z]+)[^`]*`", row[0])]


def about(script: str) -> str:
    """The first sentence of the comment at a script's head."""
    head = re.match(r"(?:--.*\n)*", script)
    comment = " ".join(it[2:].strip() for it in (head[0] if head else "").split("\n") if it and not re.match(r"--\s*!", it))
    first = re.match(r".*?[.?](?= |$)", comment)
    return first[0] if first else comment


def scripts(pattern: str) -> dict[str, dict[str, str]]:
    found = {}
    for path in here(pattern):
        with open(os.path.join(TOP, path), encoding="utf-8", newline="") as file:
            script = file.read()
        found[path.removeprefix("examples/").removesuffix(".conc")] = {"script": script, "about": about(script)}
    return found


def tour(known: dict[str, dict[str, str]]) -> list[dict[str, object]]:
    """The examples in groups, as the tour leads through them, each once."""
    groups: list[dict[str, object]] = []
    seen: set[str] = set()
    for part in re.split(r"^## ", read("docs/TOUR.md"), flags=re.M)[1:]:
        names: list[str] = []
        for item in re.findall(r"^- (.*(?:\n  .*)*)", part, flags=re.M):
            for name in re.findall(r"(?:^|[,;] )`(\w+)\.conc`(?=[,:])", " ".join(item.split())):
                if name in known and name not in seen:
                    names.append(name)
                    seen.add(name)
        if names:
            groups.append({"title": part.split("\n", 1)[0], "names": names})
    rest = [it for it in known if it not in seen]
    return groups + ([{"title": "More", "names": rest}] if rest else [])


def translating() -> str:
    """How a module of Haskell becomes a script, by what the repository has."""
    if "script" in COMMANDS:
        return "The program itself takes a module as it is, `conc_run outcomes Main.hs`, and `conc_run script Main.hs` prints the script for this page."
    if os.path.isdir(os.path.join(TOP, "from-haskell")):
        return "A translator stands beside the sources of the program, for GHC 9.0.2: `$(from-haskell/build) Main.hs` prints the script for this page."
    return ""


def forms() -> list[dict[str, object]]:
    """All that an action and an expression may be, with what each needs."""
    page = "docs/LANGUAGE.md"
    heads = (("action", "needs", "result"), ("expression", "needs, from the left to the right", "type"))
    return [{"head": list(head), "rows": list(table(page, *head))} for head in heads]


def first_script() -> str:
    """The script that the page explains."""
    with open(os.path.join(TOP, "tools", "play", "site", "writing.conc"), encoding="utf-8", newline="") as file:
        return file.read()


def gallery(known: dict[str, dict[str, str]]) -> list[str]:
    """The scripts of the gallery in its order, the wrong one of each before the right one."""
    order = re.findall(r"^### ([\w-]+):", read("docs/MISTAKES.md"), flags=re.M)
    named = [f"mistakes/{name}-{which}" for name in order for which in ("wrong", "right")]
    return [it for it in named if it in known] + [it for it in known if it not in named]


def cures(known: dict[str, dict[str, str]]) -> dict[str, str]:
    """Of each script with a mistake the one that is right."""
    pairs = {**{it: it.replace("-wrong", "-right") for it in known if it.endswith("-wrong")}, "update": "modify"}
    return {wrong: right for wrong, right in pairs.items() if wrong in known and right in known}


def data() -> dict[str, object]:
    """All that the page's script takes from the repository. The gallery of mistakes stands behind the tour, where there is one."""
    examples, mistakes = scripts("examples/*.conc"), scripts("examples/mistakes/*.conc")
    groups = tour(examples) + ([{"title": "Mistakes and their cures", "names": gallery(mistakes)}] if mistakes else [])
    return {"examples": {**examples, **mistakes}, "groups": groups, "cures": cures({**examples, **mistakes}), "faults": faults(), "causes": causes(), "words": reserved_words(),
            "commands": commands(), "translating": translating(), "forms": forms(), "writing": first_script()}
