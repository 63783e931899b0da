"""What is said in two places: the language's page, the sources, and the script around the program."""

from __future__ import annotations

import re
from collections.abc import Iterator

from tools.run import refusals
from tools.run.words import STATUSES
from tools.sources import SPAN, code, here, read

PAGE = "docs/LANGUAGE.md"


def same_as_code() -> Iterator[str]:
    """The words and symbols of LANGUAGE.md are those of the lexer, and it has each text that the program prints."""
    language = read(PAGE)
    for title, source in (("Reserved words", "word"), ("Symbols", "symbol")):
        table = re.search(r"TEXTS: [^=]*= \[(.*?)\n\];", code(f"crates/rules_tokens/src/{source}.rt"), re.S)
        paragraph = re.search(rf"\*\*{title}\*\*[^`]*(.*?)\n\n", language, re.S)
        # a word is a text, a symbol a list of characters
        wanted = [a or "".join(re.findall(r"'(.)'", b)) for a, b in re.findall(r'"([^"]+)"|&\[([^]]*(?:\'.\'))\]', table[1])] if table else []
        given = " ".join(SPAN.findall(paragraph[1])).split() if paragraph else []
        if wanted != given:
            odd = next((f"{b} where the code has {a}" for a, b in zip(wanted, given) if a != b), f"{len(given)} where the code has {len(wanted)}")
            yield f"{PAGE}: {title} are not those of rules_tokens/src/{source}.rt: {odd}"
    said = " ".join(language.split())
    for path in here("crates/*/specs/Lines.antt") + here("crates/hs_rules/specs/E*.antt") + here("crates/*/specs/ExceptionTexts.antt"):
        for text in re.findall(r'codes "([^"]+)"', code(path)):
            text = text.removesuffix("\\n")
            if text.strip(" :") and text.strip() not in said:
                yield f"{PAGE}: it doesn't have the text `{text.strip()}`, which {path} has the program print"


def wrapper_texts() -> Iterator[str]:
    """The statuses that ./conc_run --help lists stand on the language's page, and each refusal has its sentences."""
    language = read(PAGE)
    for status in STATUSES:
        if f"| {status} |" not in language and not re.search(rf"\b[Ss]tatus\s+{status}\b", language):
            yield f"{PAGE}: it doesn't have the status {status}, which ./conc_run --help lists"
    lines = code("crates/conc_top/specs/Lines.antt")
    told = set(re.findall(r'codes "(?:refused: )?([A-Z]\w+)', lines))
    for name, table in (("BROKEN", refusals.BROKEN), ("REMEDIES", refusals.REMEDIES)):
        for it in sorted(told ^ set(table)):
            yield f"tools/run/refusals.py: {name} " + (f"has nothing of {it}" if it in told else f"has {it}, which is no refusal")
