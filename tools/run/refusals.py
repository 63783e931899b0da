"""What a refusal means and what to do, with the line of the script that it is about."""

from __future__ import annotations

import re

from tools.run.saying import tell
from tools.run.words import COMMANDS

# For each kind of refusal what is broken there, and what to do.
BROKEN = {
    "TooLong": "the script has more than 1,048,576 bytes",
    "NotUtf8": "the bytes aren't UTF-8; this is the first one that is no part of a character",
    "BadChar": "no token begins with this character, or the backslash begins no escape of a text",
    "OpenText": "this text isn't closed on its line",
    "BigNumber": "this number is above 9223372036854775807",
    "Unexpected": "up to this token some script begins so, and with it none does; all before it is fine",
    "Deep": "this bracket, if, case or let stands in 200 others",
    "Twice": "an earlier definition has this name",
    "Unknown": "there is no such name here",
    "Kind": "the name is of another sort: an action function or a masking name in an expression, something else than an action "
            "function as an action, or something else than a masking name behind restore",
    "Forward": "an expression calls a pure function that is defined here or later",
    "Arity": "the call has another number of arguments than there are parameters",
    "Mismatch": "a part of this form has another type than the form needs, or this definition's body another than is declared",
    "Scope": "this is the 65th name of its scope; parameters, hidden names and masking names count",
    "Wide": "this type, or the type that this form makes, has more than 64 nodes",
    "Large": "this definition unfolds to more than 100,000 nodes, to a height above 1,000, or with those before it to more than 1,000,000",
    "NoMain": "nothing else is wrong, and there is no main :: IO () without parameters",
}
REMEDIES = {
    "TooLong": "make it shorter",
    "NotUtf8": "save the file as UTF-8",
    "BadChar": 'take the character away, or put it into a text; the escapes are \\" \\\\ \\n \\t',
    "OpenText": 'write its closing "; a line feed in a text is \\n',
    "BigNumber": "take a smaller one; numbers have 64 bits",
    "Unexpected": "see what is missing before it: a ; behind a statement or a definition, parentheses round an argument that is a call, "
                  "an action at the end of a block, or another name in place of a reserved word. At the end of the text something isn't closed",
    "Deep": "name a part in a definition or by let",
    "Twice": "rename one",
    "Unknown": "define it or bind it; names are told apart by case",
    "Kind": "use the name where its sort belongs",
    "Forward": "define it earlier; a pure function can't call itself, an action function can",
    "Arity": "give as many as there are parameters; an argument that is a call needs parentheses",
    "Mismatch": "change the part, or the declared type; show makes a Text of a number",
    "Scope": "split the definition",
    "Wide": "name less of it",
    "Large": "make the definitions smaller",
    "NoMain": "define it: main :: IO () = { .. };",
}

if "claims" in COMMANDS:
    BROKEN["Claim"] = "this line begins as a claim, and what stands here, or lacks, makes it none"
    REMEDIES["Claim"] = "write always, never or sometimes and then what an outcome is, or terminates; a comment has no ! at its begin"

LINE = re.compile(r"refused: ([A-Za-z0-9]+)(?: at ([0-9]+):([0-9]+))?")
# Of a long line only the part round the column is shown.
WIDTH = 128
LONG, BEFORE = 100, 60


def _harmless(character: str) -> str:
    """Control characters don't reach the terminal, and what is no character is none to show."""
    code = ord(character)
    return "?" if code < 32 and character != "\t" or 127 <= code < 160 or 0xD800 <= code < 0xE000 else character


def place(script: bytes, line: int, column: int, kind: str) -> str:
    """The line of the script and a caret under the column. A column counts characters, a tab as one."""
    lines = script.split(b"\n")
    raw = lines[line - 1] if line <= len(lines) else b""
    # Each byte that is no part of a character becomes one by itself.
    text = raw.removesuffix(b"\r").decode("utf-8", "surrogateescape")
    if kind == "NotUtf8":
        text = text[:column]
    text = "".join(map(_harmless, text))
    first = column - BEFORE if column > LONG else 1
    shown = text[first - 1:first - 1 + WIDTH]
    indent = "".join("\t" if it == "\t" else " " for it in text[first - 1:column - 1])
    before, margin = (".. ", "   ") if first > 1 else ("", "")
    behind = " .." if len(text) > first - 1 + WIDTH else ""
    return f"{before}{shown}{behind}\n{margin}{indent}^\n"


def explain(line: str, script: bytes) -> None:
    """Tells what stands below the program's own line of a refusal."""
    found = LINE.fullmatch(line)
    if not found:
        return
    kind = found[1]
    if found[2]:
        tell(place(script, int(found[2]), int(found[3]), kind))
    if kind in BROKEN:
        tell(f"{kind}: {BROKEN[kind]}.\nWhat to do: {REMEDIES[kind]}.\n")


def refusal_in(said: bytes) -> str:
    """The last line of a refusal in what the program told."""
    lines = [it for it in said.decode("utf-8", "replace").split("\n") if it.startswith("refused: ")]
    return lines[-1] if lines else ""
