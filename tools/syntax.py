"""The syntax files of editors, in editors/: ./check compares them with the page's tables of words and symbols, ./check --draw writes them."""

from __future__ import annotations

import json
import os
import re
from collections.abc import Iterator, Sequence

from tools.play import tables
from tools.sources import TOP, read

FOLDER = "editors"
WRITTEN = "Written by ./check --draw from the tables of docs/LANGUAGE.md."

# The groups of reserved words. What begins with a capital letter and is in none is a constructor, and what is else in none an action.
KEYWORDS = frozenset("if then else case of let in".split())
FUNCTIONS = frozenset("div mod not fst snd show".split())
TYPES = frozenset("Int Bool Text ThreadId Maybe Either MVar IO Async".split())
# Exceptions by class, which stand behind `@` as types do.
CLASS = re.compile(r"[A-Z]\w*(?:Exception|OnMVar)")
# The words of a claim, which are none of the language.
CLAIM_WORDS = "always never sometimes terminates and has done uncaught deadlock stuck output errors".split()
BRACKETS = frozenset("( ) [ ] { } ; ,".split())


def group_of(word: str) -> str:
    """The group of a reserved word."""
    if word in KEYWORDS:
        return "keyword"
    if word in FUNCTIONS:
        return "function"
    if word in TYPES or CLASS.fullmatch(word):
        return "type"
    return "constructor" if word[0].isupper() else "action"


def groups(words: Sequence[str]) -> dict[str, list[str]]:
    """The reserved words by their group, in order."""
    found: dict[str, list[str]] = {it: [] for it in ("keyword", "type", "constructor", "function", "action")}
    for word in words:
        found[group_of(word)].append(word)
    return found


def symbols() -> list[str]:
    """The symbols of the language, by its page, without brackets and what separates."""
    paragraph = re.search(r"\*\*Symbols\*\*(.*?)\n\n", read("docs/LANGUAGE.md"), re.S)
    found = " ".join(re.findall(r"`([^`]+)`", paragraph[1])).split() if paragraph else []
    return [it for it in found if it not in BRACKETS]


def alternatives(texts: Sequence[str]) -> str:
    """A pattern of any of these, the longest first."""
    return "|".join(re.escape(it) for it in sorted(texts, key=lambda it: (-len(it), it)))


# ---- Vim ----

VIM_LINKS = {"Keyword": "Conditional", "Type": "Type", "Constructor": "Constant", "Function": "Function", "Action": "Statement", "Number": "Number",
             "Symbol": "Operator", "Text": "String", "Escape": "SpecialChar", "WrongEscape": "Error", "Comment": "Comment", "Claim": "SpecialComment",
             "ClaimWord": "PreProc"}


def vim(words: Sequence[str], marks: Sequence[str]) -> str:
    """The syntax file of Vim."""
    keywords = "".join(f"syntax keyword conc{name.capitalize()} {' '.join(them)}\n" for name, them in groups(words).items())
    any_mark = "\\|".join(it.replace("*", "\\*").replace("/", "\\/") for it in sorted(marks, key=lambda it: (-len(it), it)))
    links = "".join(f"highlight default link conc{name} {other}\n" for name, other in VIM_LINKS.items())
    return f'''" The syntax of scripts. {WRITTEN}
if exists("b:current_syntax")
  finish
endif

syntax case match
syntax iskeyword @,48-57,_,192-255,'
{keywords}syntax match concNumber /\\<\\d\\+\\>/
syntax match concSymbol /{any_mark}/
syntax match concWrongEscape /\\\\./ contained
syntax match concEscape /\\\\["\\\\nt]/ contained
syntax region concText start=/"/ skip=/\\\\./ end=/"/ oneline contains=concEscape,concWrongEscape
syntax match concComment /--.*$/
syntax keyword concClaimWord contained {' '.join(CLAIM_WORDS)}
syntax match concClaim /^[ \\t\\r]*\\zs--[ \\t]*!.*$/ contains=concClaimWord,concText

{links}
let b:current_syntax = "conc"
'''


VIM_DETECT = f'''" {WRITTEN}
autocmd BufRead,BufNewFile *.conc setfiletype conc
'''
VIM_PLUGIN = f'''" {WRITTEN}
if exists("b:did_ftplugin")
  finish
endif
let b:did_ftplugin = 1

setlocal commentstring=--\\ %s comments=:--
let b:undo_ftplugin = "setlocal commentstring< comments<"
'''

# ---- VS Code ----

SCOPES = {"keyword": "keyword.control.conc", "type": "storage.type.conc", "constructor": "constant.language.conc", "function": "support.function.conc",
          "action": "keyword.other.conc"}


def grammar(words: Sequence[str], marks: Sequence[str]) -> dict[str, object]:
    """The TextMate grammar of VS Code."""
    text = {"name": "string.quoted.double.conc", "begin": '"', "end": '"|$', "patterns": [
        {"name": "constant.character.escape.conc", "match": r'\\["\\nt]'}, {"name": "invalid.illegal.escape.conc", "match": r"\\."}]}
    claim = {"name": "comment.line.documentation.conc", "begin": r"^[ \t\r]*(?=--[ \t]*!)", "end": "$", "patterns": [
        {"include": "#text"}, {"name": "keyword.other.claim.conc", "match": rf"\b(?:{alternatives(CLAIM_WORDS)})\b"}]}
    names = [{"name": SCOPES[group], "match": rf"(?<![\w'])(?:{alternatives(them)})(?![\w'])"} for group, them in groups(words).items()]
    others = [{"name": "constant.numeric.conc", "match": r"(?<![\w'])[0-9]+"}, {"name": "keyword.operator.conc", "match": alternatives(marks)}]
    return {
        "$schema": "https://raw.githubusercontent.com/martinring/tmlanguage/master/tmlanguage.json",
        "comment": WRITTEN, "name": "conc_run script", "scopeName": "source.conc", "fileTypes": ["conc"],
        "patterns": [{"include": f"#{it}"} for it in ("claim", "comment", "text", "words", "others")],
        "repository": {"claim": claim, "comment": {"name": "comment.line.double-dash.conc", "match": "--.*$"}, "text": text,
                       "words": {"patterns": names}, "others": {"patterns": others}},
    }


# What makes a folder an extension of VS Code.
PACKAGE = {
    "name": "conc-run-scripts", "displayName": "conc_run scripts", "description": "The syntax of conc_run's scripts", "version": "1.0.0",
    "publisher": "conc-run", "engines": {"vscode": "^1.60.0"}, "categories": ["Programming Languages"],
    "contributes": {"languages": [{"id": "conc", "aliases": ["conc_run script"], "extensions": [".conc"], "configuration": "./language-configuration.json"}],
                    "grammars": [{"language": "conc", "scopeName": "source.conc", "path": "./syntaxes/conc.tmLanguage.json"}]},
}
CONFIGURATION = {
    "comments": {"lineComment": "--"},
    "brackets": [["{", "}"], ["[", "]"], ["(", ")"]],
    "autoClosingPairs": [{"open": "{", "close": "}"}, {"open": "[", "close": "]"}, {"open": "(", "close": ")"},
                         {"open": '"', "close": '"', "notIn": ["string", "comment"]}],
    "wordPattern": r"[_\p{L}][\p{L}\p{N}_']*",
}


def as_json(data: object) -> str:
    return json.dumps(data, indent=2, ensure_ascii=False) + "\n"


# ---- all of them ----

def files() -> dict[str, str]:
    """The files by their paths."""
    words, marks = tables.reserved_words(), symbols()
    return {
        f"{FOLDER}/vim/ftdetect/conc.vim": VIM_DETECT,
        f"{FOLDER}/vim/ftplugin/conc.vim": VIM_PLUGIN,
        f"{FOLDER}/vim/syntax/conc.vim": vim(words, marks),
        f"{FOLDER}/vscode/package.json": as_json(PACKAGE),
        f"{FOLDER}/vscode/language-configuration.json": as_json(CONFIGURATION),
        f"{FOLDER}/vscode/syntaxes/conc.tmLanguage.json": as_json(grammar(words, marks)),
    }


def stale() -> Iterator[str]:
    """Files that aren't as the tables have it."""
    for path, text in files().items():
        if not os.path.isfile(os.path.join(TOP, path)):
            yield f"{path}: there is no such file: ./check --draw writes it"
        elif read(path) != text:
            yield f"{path}: it isn't made of today's tables: ./check --draw writes it anew"


def draw() -> int:
    """Writes them."""
    for path, text in files().items():
        os.makedirs(os.path.dirname(os.path.join(TOP, path)), exist_ok=True)
        with open(os.path.join(TOP, path), "w", encoding="utf-8") as file:
            file.write(text)
    print(f"{FOLDER}: {len(files())} files for editors are written")
    return 0
