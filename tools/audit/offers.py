"""What a module offers to be asked about: its abstract type, what makes values of that, and the operations on them."""

from __future__ import annotations

import os
import re
from collections.abc import Mapping, Sequence
from dataclasses import dataclass, field
from typing import Any, NamedTuple

from tools.audit.haskell_types import CLASSES_OF_IO, INT, IO, UNIT, NoValue, Type, is_shown, read_type, spelled, value


class Place(NamedTuple):
    """A line of a source file."""

    file: str
    line: int

    def text(self) -> str:
        return f"{os.path.basename(self.file)}:{self.line}" if self.file else "?"


class Operation(NamedTuple):
    """A function of a value x of the type: its call, the same with an action in it that throws, and what can be told of its result."""

    name: str
    call: str
    throwing: str
    is_shown: bool
    may_decline: bool
    place: Place


class Maker(NamedTuple):
    """What makes a value of the type."""

    name: str
    call: str


@dataclass
class Offer:
    """What a module offers. `left_out` has what can't be asked about, with the reason."""

    module: str
    type_name: str
    type_text: str
    makers: list[Maker]
    operations: list[Operation]
    pairs: list[tuple[str, str]] = field(default_factory=list)
    left_out: list[tuple[str, str]] = field(default_factory=list)


class NothingToAsk(Exception):
    """Why a module can't be asked about."""


class _Export(NamedTuple):
    name: str
    place: Place
    arguments: tuple[Type, ...]
    result: Type
    classes: dict[str, set[str]]


def _read_export(entry: Mapping[str, Any]) -> _Export:
    kind, classes = read_type(entry["type"])
    monads = {name: IO for name, above in classes.items() if above & CLASSES_OF_IO}
    arguments, result = kind.replaced(monads).arguments()
    plain = {name: above for name, above in classes.items() if name not in monads}
    return _Export(entry["name"], Place(entry.get("file", ""), entry.get("line", 0)), arguments, result, plain)


def _is_maker_of(export: _Export, name: str) -> bool:
    result = export.result.result_of_io()
    return result is not None and result.name == name and not any(it.is_written_with(name) for it in export.arguments)


def _abstract_type(names: Sequence[str], exports: Sequence[_Export]) -> str:
    """The type that most functions take, of those that some function makes."""
    def users(name: str) -> int:
        return sum(any(it.name == name for it in export.arguments) for export in exports)

    made = [name for name in names if any(_is_maker_of(it, name) for it in exports) and users(name)]
    if not made:
        raise NothingToAsk("it has no type that one of its exported actions makes and another one takes")
    return max(made, key=users)


def _choices(export: _Export, name: str) -> dict[str, Type]:
    """What stands for the variables of a function's type: Int for those of the abstract type and below classes, and of an action
    that gets an Int also for what it gives; () for the others."""
    result = export.result.result_of_io() or export.result
    known: dict[str, Type] = {}
    for it in (*export.arguments, result):
        if it.name == name:
            known.update(dict.fromkeys(it.variables(), INT))
    for variable, above in export.classes.items():
        if "Exception" in above:
            known[variable] = Type("constructor", "ErrorCall")
        known.setdefault(variable, INT)
    for it in export.arguments:
        given = it.replaced(known)
        if given.form == "function" and given.parts[0] == INT:
            answer = given.parts[1].result_of_io()
            known.update(dict.fromkeys(answer.variables() if answer else (), INT))
    for it in (*export.arguments, result):
        for variable in it.variables():
            known.setdefault(variable, UNIT)
    return known


def _make(export: _Export, name: str, type_text: str, numbers: Sequence[str]) -> list[Maker]:
    known = _choices(export, name)
    arguments = [it.replaced(known) for it in export.arguments]
    if arguments == [INT]:
        return [Maker(f"{export.name} {it}", f"(M.{export.name} {it} :: IO {type_text})") for it in numbers]
    call = " ".join([f"M.{export.name}", *map(value, arguments)])
    return [Maker(export.name, f"({call} :: IO {type_text})")]


def _has_action(kind: Type) -> bool:
    return kind.result_of_io() is not None or kind.form == "function" and _has_action(kind.parts[1])


def _operate(export: _Export, name: str) -> Operation:
    known = _choices(export, name)
    arguments = [it.replaced(known) for it in export.arguments]
    result = export.result.replaced(known).result_of_io()
    if result is None:
        raise NoValue("it isn't an action")
    if sum(it.name == name for it in arguments) != 1 or result.is_written_with(name):
        raise NoValue(f"it takes more or other than one {name}")
    calls = [" ".join([f"M.{export.name}", *("x" if it.name == name else value(it, throws=throws) for it in arguments)]) for throws in (False, True)]
    throwing = calls[1] if any(map(_has_action, arguments)) else ""
    return Operation(export.name, calls[0], throwing, is_shown(result) and result != UNIT, result.name in ("Bool", "Maybe"), export.place)


def _said(comments: Sequence[str]) -> tuple[list[tuple[str, str]], set[str]]:
    """The pairs that comments name, and what they leave out."""
    pairs, skipped = [], set()
    for it in comments:
        if match := re.fullmatch(r"skip\s+(.*\S)\s*", it):
            skipped |= set(re.split(r"[\s,;]+", match[1]))
        elif match := re.fullmatch(r"([\w']+)\s*;\s*([\w']+)\s*", it):
            pairs.append((match[1], match[2]))
        else:
            raise NothingToAsk(f"the comment `-- audit: {it}` is neither `acquire; release` nor `skip f`")
    return pairs, skipped


def read_offer(module: str, told: Mapping[str, Any], further_pairs: Sequence[tuple[str, str]] = (), further_skipped: Sequence[str] = ()) -> Offer:
    """What the module offers, of what the translator tells of its exports and what else was said."""
    pairs, skipped = _said(told["comments"])
    pairs, skipped = [*pairs, *further_pairs], skipped.union(further_skipped)
    exports = [_read_export(it) for it in told["exports"] if "type" in it]
    names = list(dict.fromkeys(it["name"] for it in told["exports"] if "type" not in it and it["name"][:1].isupper()))
    name = _abstract_type(names, exports)
    width = max(len(it.parts) for export in exports for it in (*export.arguments, export.result.result_of_io() or UNIT) if it.name == name)
    type_text = spelled(Type("constructor", name, (INT,) * width), {name: f"M.{name}"})
    offer = Offer(module, name, type_text, [], [], pairs)
    for export in exports:
        try:
            if export.name in skipped:
                raise NoValue("it is to be skipped")
            if _is_maker_of(export, name):
                offer.makers += _make(export, name, type_text, ("1", "0"))
            else:
                offer.operations.append(_operate(export, name))
        except NoValue as fault:
            offer.left_out.append((export.name, str(fault)))
    if not offer.makers or not offer.operations:
        raise NothingToAsk(f"of {name} nothing can be called: " + "; ".join(f"{it}, {why}" for it, why in offer.left_out))
    known = {it.name for it in offer.operations}
    for it in [it for pair in pairs for it in pair if it not in known]:
        raise NothingToAsk(f"a pair names {it}, which is none of its operations")
    return offer
