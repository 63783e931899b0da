"""What documents say of the repository: links, paths, names, crates, what is trusted; and what none may say."""

from __future__ import annotations

import os
import re
from collections.abc import Iterator

from tools import rows
from tools.sources import TOP, SPAN, Block, all_words, blocks, code, documents, files, here, kit_crates, lines, read, root_of, uses, words_of

# The most lines of a document.
LONGEST = 300
# A folder that a clone need not have: what is made, and edits that stand outside of the gate.
MAY_BE_ABSENT = {"out", "more-edits"}
OF_A_CRATE = ("src", "specs", "proofs", "data", "must-fail", "more-edits", "stdout")
ENDINGS = ("", ".rt", ".antt", ".edit", ".md", ".rows")
PATH = re.compile(r"(\./)?[\w*.-]+(/[\w*.-]+)*/?")


def is_there(path: str) -> bool:
    """Whether the repository has this path, in which NAME and its like stand for any name."""
    path = re.sub(r"(?<![A-Za-z])(NAME|PATH|X)(?![a-z])", "*", path.rstrip("/"))
    if MAY_BE_ABSENT & set(path.split("/")):
        return True
    return any(here(path + ending) for ending in ENDINGS)


class Reader:
    """Goes along the names between backquotes of a block, and remembers which crate and folder were named last."""

    def __init__(self, heading: str | None) -> None:
        self.crate: str | None = heading
        self.folder: str | None = None

    def path(self, span: str) -> str | None:
        """What is wrong with a path, or None."""
        parts = span.removeprefix("./").rstrip("/").split("/")
        if parts[0] in OF_A_CRATE and len(parts) > 1 or parts[0] in OF_A_CRATE and span.endswith("/"):
            inside = f"crates/{self.crate or '*'}"
        elif parts[0] in uses():
            inside, self.crate = "crates", parts[0]
        elif parts[0] == "crates" and len(parts) > 1 and parts[1] in uses():
            inside, self.crate = "", parts[1]
        else:
            inside = ""
        whole = os.path.join(inside, "/".join(parts))
        self.folder = os.path.dirname(whole)
        return None if is_there(whole) else f"there is no {span}"

    def file(self, span: str) -> str | None:
        """What is wrong with a file's name, or None. It stands in the folder that was named last, or has a place of its own."""
        known: bool
        if span.endswith(".md"):
            known = bool(here(span) or here(f"docs/{span}"))
        elif span.endswith(".conc"):
            known = span == "mine.conc" or any(here(it) for it in (f"examples/{span}", f"examples/mistakes/{span.replace('NAME', '*')}", f"litmus/{span}"))
        elif span.endswith(".rows"):
            known = bool(here(f"crates/*/data/{span}"))
        elif span.endswith((".rt", ".antt")):
            known = self.folder is not None and is_there(f"{self.folder}/{span}") or bool(here(f"crates/{self.crate or '*'}/*/{span}"))
        else:
            known = any(os.path.basename(it) == span for it in files())
        return None if known else f"there is no {span}"

    def module(self, span: str) -> str | None:
        return None if is_there(f"{self.folder}/{span}") else f"there is no {self.folder}/{span}"


def law(span: str) -> str | None:
    """What is wrong with a name such as crate::module::function or Type::method, or None."""
    parts = re.sub(r"\(.*\)$", "", span).split("::")
    first = parts[0]
    if first in kit_crates():
        return None
    if first not in uses():
        return None if all(it in all_words() for it in parts) else f"nothing is called {span}"
    for part in parts[1:]:
        if part not in words_of(first):
            return f"{first} has no {part}, which {span} names"
    if len(parts) > 1 and parts[-1].islower() and not is_public(first, parts[-1]):
        return f"{first} has no public function {parts[-1]}"
    return None


def is_public(crate: str, name: str) -> bool:
    say = re.compile(rf"\b(pub (const )?fn|pub mod|fn) {name}\b")
    return any(say.search(code(it)) for it in files() if it.startswith(f"crates/{crate}/src/"))


def names() -> Iterator[str]:
    """Links, and paths, crates, laws and other names between backquotes, that the repository doesn't have."""
    yield from links()
    # (a change log speaks of the names of its time, and a page on Haskell of Haskell's)
    for path in (it for it in documents() if it not in ("CHANGELOG.md", "docs/HASKELL.md", "docs/AUDIT.md")):
        heading = None
        for block in blocks(path):
            if block.kind == "code":
                for it in re.finditer(r"(?<![\w/.-])(?:\./)?((?:examples|docs|crates)/[\w./*-]*\w)", block.text):
                    if not is_there(it[1]):
                        yield f"{block.at(it.start())}: there is no {it[1]}"
                continue
            if block.kind == "heading":
                heading = next((it for it in SPAN.findall(block.text) if it in uses()), None)
            yield from names_of(block, heading)


def names_of(block: Block, heading: str | None) -> Iterator[str]:
    reader, end, beside = Reader(heading), 0, False
    for it in SPAN.finditer(block.text):
        span = " ".join(it[1].split())
        between = block.text[end:it.start()].replace("\n", " ")
        follows = beside and between.strip() in (",", "and", "")
        wrong: str | None = None
        end, beside = it.end(), False
        if span in uses():
            reader.crate = span
            if re.match(r":\s", block.text[end:end + 2]):
                reader.folder, beside = f"crates/{span}/specs", True
        elif re.fullmatch(r"[\w:]+::\w+(\(.*\))?", span):
            wrong = law(span)
            reader.crate = span.split("::")[0] if span.split("::")[0] in uses() else reader.crate
        elif "/" in span and PATH.fullmatch(span) and re.search(r"\w/\w|\w/$", span):
            wrong, beside = reader.path(span), True
        elif re.fullmatch(r"[\w*-]+\.(rt|antt|md|rows|conc|txt|edit|svg)", span):
            wrong, beside = reader.file(span), span.endswith((".rt", ".antt")) and follows
        elif follows and re.fullmatch(r"[A-Z]\w*\*?", span):
            wrong, beside = reader.module(span), True
        elif re.fullmatch(r"[a-z][a-z0-9]*(_[a-z0-9]+)+(\(.*\))?", span) or re.fullmatch(r"[A-Z]\w*", span):
            if re.sub(r"\(.*", "", span) not in all_words():
                wrong = f"nothing is called {span}"
        if wrong:
            yield f"{block.at(it.start())}: {wrong}"


def clauses() -> Iterator[str]:
    """Names of calls and clauses on the page of promises that no crate has which is named beside them, or in the heading."""
    headed: set[str] = set()
    for block in blocks("docs/PROMISES.md"):
        spans = [" ".join(it.split()) for it in SPAN.findall(block.text)]
        near = {part for it in spans for part in re.split(r"::|/|\(", it) if part in uses()}
        if block.kind == "heading":
            headed = near
        elif block.kind != "code":
            known = {word for it in near | headed for word in words_of(it)} if near | headed else all_words()
            for it in SPAN.finditer(block.text):
                word = " ".join(it[1].split())
                if re.fullmatch(r"[a-z][a-z_]*", word) and word not in known and word not in {*uses(), *kit_crates()} | words_of("conc_task"):
                    yield f"{block.at(it.start())}: no crate that is named here has `{word}`"


LINK = re.compile(r"\[[^\]]*\]\(([^)\s]+)\)")
# A page, and how the title of a part of it begins: `RULES.md`, "The clock".
PART = re.compile(r'`(?:docs/)?([A-Z]+\.md)`, "([^"]+)"')


def links() -> Iterator[str]:
    """Links to what isn't there, and titles of parts that their page doesn't have."""
    for path in documents():
        for block in blocks(path):
            for it in () if block.kind == "code" else LINK.finditer(block.text):
                target = it[1].partition("#")[0]
                if "://" not in it[1] and target and not os.path.exists(os.path.join(TOP, os.path.dirname(path), target)):
                    yield f"{block.at(it.start())}: there is no {target}"
            for it in PART.finditer(block.text.replace("\n", " ")):
                if not any(title.startswith(it[2].rstrip(".")) for title in titles(it[1])):
                    yield f'{block.at(it.start())}: {it[1]} has no part "{it[2]}"'


def titles(page: str) -> set[str]:
    """The titles of a page's parts: its headings, and the words in bold with which a paragraph or an item begins."""
    found: set[str] = set()
    whole = page if here(page) else f"docs/{page}"
    for block in blocks(whole) if here(whole) else ():
        bold = re.match(r"(?:[-*] )?(?:\d{4}-\d\d-\d\d · )?\*\*([^*]+)\*\*", block.text.replace("\n", " "))
        title = block.text.lstrip("# ").strip() if block.kind == "heading" else bold[1] if bold else None
        if title is not None:
            found.add(title.rstrip(".").replace("`", ""))
    return found


def decisions() -> Iterator[str]:
    """Each decision has its date and a title."""
    for block in blocks("docs/DECISIONS.md"):
        if block.text.startswith("- ") and not re.match(r"- \d{4}-\d\d-\d\d · \*\*[^*]+\*\*", block.text):
            yield f"{block.at(0)}: a decision begins with `DATE · **Title**`"


def lengths() -> Iterator[str]:
    for path in documents():
        count = len(lines(path)) - 1
        if count > LONGEST:
            yield f"{path}: {count} lines, and a document has {LONGEST} at most"


def index() -> Iterator[str]:
    """Documents that the README doesn't lead to; and mistakes that their page doesn't have."""
    for path in documents():
        if path != "README.md" and f"`{path}`" not in read("README.md"):
            yield f"README.md: it doesn't lead to {path}"
    yield from mistakes()


CLAIM = re.compile(r"[ \t\r]*--[ \t]*!")


def claims() -> Iterator[str]:
    """Examples without a claim, which says what they teach so that the program can judge it."""
    for path in here("examples/*.conc") + here("examples/mistakes/*.conc"):
        if not any(CLAIM.match(it) for it in lines(path)):
            yield f"{path}: it has no claim"


def mistakes() -> Iterator[str]:
    """Each mistake has a wrong script and a right one with the same claims, a section with its picture, and a row of each script."""
    folder, page, data = "examples/mistakes", "docs/MISTAKES.md", "crates/conc_rows/data/tour.rows"
    names = {re.sub(r"-(wrong|right)\.conc$", "", os.path.basename(it)) for it in here(f"{folder}/*")}
    sections = {it[1]: it[0] for it in re.finditer(r"^### ([a-z-]+): (?:(?!^##).*\n)*", read(page), re.M)}
    tried = {name: rows.script_of(row).strip("\n") for name, _, row in rows.rows_of(data)}
    for name in sorted(names ^ set(sections)):
        yield f"{page}: " + (f"it has no section of {name}" if name in names else f"{folder} has no {name}")
    for name in sorted(names & set(sections)):
        if f"(pictures/{name}.svg)" not in sections[name] or not here(f"docs/pictures/{name}.svg"):
            yield f"{page}: the section of {name} doesn't have its picture"
        said = []
        for path in (f"{folder}/{name}-wrong.conc", f"{folder}/{name}-right.conc"):
            script = read(path).strip("\n") if here(path) else None
            said.append([it for it in (script or "").split("\n") if CLAIM.match(it)])
            if script is None or script != tried.get(f"mistake-{os.path.basename(path).removesuffix('.conc')}"):
                yield f"{path}: it isn't the script of its row in {data}"
        if said[0] != said[1] or not said[0]:
            yield f"{folder}/{name}-*.conc: the two don't have the same claims"


def places() -> Iterator[str]:
    """Crates that the map leaves out, and folders that crates.txt leaves out."""
    named = set(re.findall(r"\w+", read("docs/ARCHITECTURE.md")))
    for crate in uses():
        if crate not in named:
            yield f"docs/ARCHITECTURE.md: the crate {crate} has no place in it"
    for crate in uses():
        if not root_of(crate):
            yield f"crates.txt: there is no crate {crate}"
    for folder in here("crates/*"):
        if os.path.basename(folder) not in uses():
            yield f"crates.txt: it has no line for {folder}"


def trusted() -> Iterator[str]:
    """Where a document lists the crates of the kit that are used, `std` first, these are those of crates.txt."""
    lists = 0
    for path in documents():
        for it in re.finditer(r"\(\s*`std`([^)]*)\)", read(path)):
            lists += 1
            said = {"std", *SPAN.findall(it[1])}
            for name in sorted(kit_crates() - said):
                yield f"{path}: `{name}` is used and so trusted, and isn't named"
            for name in sorted(said - kit_crates()):
                yield f"{path}: `{name}` is named as trusted, and no crate uses it"
    if not lists:
        yield "docs/PROMISES.md: it doesn't list the kit's crates that are used (`std`, ..)"


# What this repository stands alone from.
CITES = re.compile(r"\b(?:document|paper) 0[1-5]\b|shared/pape[r]s|/wor[k]/|\b0[1-5]-(?:scope|surface|theorems|requests|language|outcomes)"
                   r"|\bissue \d+\b|\brow \d+\b|\b(?:T[1-5]\.[0-9]|[DRW][0-9]{1,2}(?:\.[0-9]{1,2})?)(?= |:|,|\.|\)|$)", re.M)


# Most files have nothing like it, which is seen faster.
HINTS = ("ocument 0", "aper 0", "shared/", "/wor" + "k/", "issue ", "row ", "-scope", "-surface", "-theorems", "-requests", "-language", "-outcomes")
NUMBERED = re.compile(r"[TDRW][0-9]")


def citations() -> Iterator[str]:
    for path in files():
        if path.endswith((".rt", ".antt", ".md", ".edit", ".conc", ".rows", ".txt", ".py")) or "." not in os.path.basename(path):
            if not NUMBERED.search(read(path)) and not any(it in read(path) for it in HINTS):
                continue
            for it in CITES.finditer(read(path)):
                line = read(path).count("\n", 0, it.start()) + 1
                yield f"{path}:{line}: `{it[0]}` looks like a citation of what stands outside of the repository"


def named_pages() -> Iterator[str]:
    """Documents that comments of the sources name."""
    for path in files():
        if path.endswith((".rt", ".antt", ".rows", ".conc")) or path in ("conc_run", ".ci/run"):
            for it in re.finditer(r"\b(?:docs/)([A-Z]+\.md)", read(path)):
                if not os.path.isfile(os.path.join(TOP, "docs", it[1])):
                    yield f"{path}: there is no docs/{it[1]}"
