"""Which of the words are the wrapper's, which the program's, and which name files.

The program reads its words itself and refuses them, so they are handed to it as they stand, and no parser judges them here.
"""

from __future__ import annotations

import os

from tools.run.saying import Refused, as_word
from tools.run.words import COMMAND_OPTIONS, COMMANDS, OPTIONS

NOT_UNDERSTOOD = 2
MEMORY = "2048"
MOST_MEMORY_DIGITS = 7
# Commands of the wrapper alone, which the program doesn't know.
OWN_COMMANDS = ("audit", "litmus", "test")
# Those whose answer for one file is more than what one call of the program says.
MADE_UP = ("haskell", "picture", "story")


class Call:
    """What the words come to. The program gets `program_words`."""

    def __init__(self, memory: str) -> None:
        self.action = "program"
        self.words: list[str] = []
        self.files: list[str] = []
        # These are for the translator of Haskell modules.
        self.module_words: list[str] = []
        self.command = ""
        self.memory = memory
        self.explains = False
        self.wants_proof = False
        # A file of this name is there, and the word is read as an option.
        self.like_option = ""

    @property
    def document(self) -> int:
        """The most bytes of the document that the command reads, or 0 where it reads none."""
        return COMMANDS[self.command].document if self.command in COMMANDS else 0

    @property
    def takes_several(self) -> bool:
        return bool(self.document and COMMANDS[self.command].status_order)

    @property
    def is_made_up(self) -> bool:
        """Whether the wrapper makes its answer of what the program says, and doesn't hand that on as it is."""
        return self.command in COMMANDS and self.command in MADE_UP

    @property
    def program_words(self) -> list[str]:
        """A story is told of what the program draws."""
        return ["picture", *self.words[1:]] if self.command == "story" else self.words

    def megabytes(self) -> int:
        if not (self.memory.isascii() and self.memory.isdigit() and len(self.memory) <= MOST_MEMORY_DIGITS):
            raise Refused(NOT_UNDERSTOOD, "--memory and CONC_RUN_MEMORY take a number of MB, 0 for no limit")
        return int(self.memory)

    def read_plain(self, word: str) -> None:
        """A word that is no option is the command where there is none yet, and then the file of a command that reads one."""
        if self.document:
            self.files.append(word)
        else:
            self.words.append(word)
            self.command = self.command or word

    def read_option(self, word: str) -> None:
        self.words.append(word)
        if self.document and word not in OPTIONS and os.path.lexists(word) and os.path.exists(word):
            self.like_option = word

    def read_of_module(self, word: str, rest: list[str]) -> bool:
        """Reads a word for the translator of Haskell modules, and says whether it is one."""
        if word == "--main":
            self.module_words += ["--main", rest.pop(0) if rest else ""]
        elif word in ("--strict", "--trust") or word.startswith("--main=") or word.startswith("-i") and len(word) > 2:
            self.module_words.append(word)
        else:
            return False
        return True

    def read_behind_dashes(self, words: list[str]) -> None:
        if self.document and words:
            self.files += words
        else:
            self.words += ["--", *words]


def _read_own(call: Call, word: str, rest: list[str]) -> bool:
    """Reads a word that is the wrapper's own, and says whether it is one."""
    if word in ("--help", "-h"):
        call.action = "help"
    elif word == "--version":
        call.action = "version"
    elif word == "--clean":
        call.action = "clean"
    elif word == "--prove":
        call.wants_proof = True
    elif word == "--explain":
        call.explains = True
    elif word.startswith("--memory="):
        call.memory = word.split("=", 1)[1]
    elif word == "--memory":
        call.memory = rest.pop(0) if rest else ""
    else:
        return False
    return True


def read(words: list[str]) -> Call:
    call = Call(os.environ.get("CONC_RUN_MEMORY") or MEMORY)
    rest = list(words)
    while rest:
        word = rest.pop(0)
        if _read_own(call, word, rest) or call.read_of_module(word, rest):
            continue
        if word == "--":
            call.read_behind_dashes(rest)
            break
        if not word.startswith("-") or word == "-":
            call.read_plain(word)
            continue
        call.read_option(word)
        # Every option of the program takes one value.
        if word.startswith("--") and "=" not in word and rest and not rest[0].startswith("-"):
            call.words.append(rest.pop(0))
    if call.words == ["help"]:
        call.action = "help"
    elif call.command in OWN_COMMANDS and call.action == "program":
        call.action = call.command
    return call


def check_order(call: Call) -> None:
    """The command stands first. Where options of the program stand before it, the right order is told."""
    before = call.words[:call.words.index(call.command)] if call.command in COMMANDS else []
    if before and before[0].split("=")[0] in COMMAND_OPTIONS:
        behind = call.words[len(before) + 1:]
        files = ["--", *call.files] if any(it.startswith("-") and it != "-" for it in call.files) else call.files
        right = " ".join(as_word(it) for it in [call.command, *before, *behind, *files])
        raise Refused(NOT_UNDERSTOOD, f"the command stands before its options: ./conc_run {right}")
