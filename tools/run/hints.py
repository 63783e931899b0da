"""What stands below the program's own line where it refuses the words: what is wrong with them, and how they are written."""

from __future__ import annotations

import argparse
import os

from tools.run.page import usage_of
from tools.run.saying import as_word, say, tell
from tools.run.words import COMMANDS, OPTIONS, Command, Option

TYPE_CHECKING = False
if TYPE_CHECKING:
    from typing import NoReturn


class WrongWords(Exception):
    """What is wrong with the words."""


class Parser(argparse.ArgumentParser):
    """Reads words as the program does, to find what is wrong with them."""

    def error(self, message: str) -> NoReturn:
        raise WrongWords(message)


class Once(argparse.Action):
    """An option that may stand once."""

    def __call__(self, parser: argparse.ArgumentParser, namespace: argparse.Namespace, values: object, option_string: str | None = None) -> None:
        if getattr(namespace, self.dest) is not None:
            raise argparse.ArgumentError(self, "it stands twice")
        setattr(namespace, self.dest, values)


def _number(least: int, most: int, text: str) -> int:
    if not (text.isascii() and text.isdigit() and least <= int(text[:20]) <= most):
        raise argparse.ArgumentTypeError(f"{as_word(text)} is no number from {least} to {most}")
    return int(text)


def _value(option: Option, text: str) -> str | int:
    if not option.choices:
        return _number(option.least, option.most, text)
    if text not in option.choices:
        raise argparse.ArgumentTypeError(f"{as_word(text)} is neither {' nor '.join(option.choices)}")
    return text


def parser_of(command: Command) -> Parser:
    """What reads the words behind a command, made from the table. The file is none of them."""
    parser = Parser(prog=command.name, add_help=False, allow_abbrev=False)
    for name in command.options:
        parser.add_argument(name, action=Once, type=lambda text, option=OPTIONS[name]: _value(option, text))  # type: ignore[misc]
    if command.operand == "N":
        parser.add_argument("N", type=lambda text: _number(1, 4000, text))
    return parser


def what_is_wrong(words: list[str]) -> str:
    """What is wrong with the words of a command that there is, or nothing where that isn't seen here."""
    try:
        parser_of(COMMANDS[words[0]]).parse_args(words[1:])
    except WrongWords as it:
        return str(it)
    return ""


def hint(words: list[str]) -> None:
    if not words:
        say("to run a script: ./conc_run run FILE; ./conc_run --help has the commands and their options")
    elif words[0] in COMMANDS:
        wrong = what_is_wrong(words)
        if wrong:
            say(wrong)
        say("it is written so; ./conc_run --help says what each option takes")
        tell(f"{usage_of(words[0])}\n")
    elif os.path.isfile(words[0]):
        say(f"a command comes first: ./conc_run run {as_word(words[0])}")
    else:
        say("./conc_run --help has the commands and their options")
