"""Types of Haskell, as the translator tells them, and expressions of a type."""

from __future__ import annotations

from collections.abc import Mapping, Sequence
from dataclasses import dataclass
from typing import Any


class NoValue(Exception):
    """There is no simple expression of a type."""


@dataclass(frozen=True)
class Type:
    """A type: a variable, a constructor with arguments, a function, a variable that is applied, or what has another form."""

    form: str
    name: str = ""
    parts: tuple[Type, ...] = ()

    def result_of_io(self) -> Type | None:
        """What an action of this type gives, or None where it is no action."""
        return self.parts[0] if self.form == "constructor" and self.name == "IO" and len(self.parts) == 1 else None

    def variables(self) -> set[str]:
        own = {self.name} if self.form == "variable" else set()
        return own.union(*(it.variables() for it in self.parts))

    def arguments(self) -> tuple[tuple[Type, ...], Type]:
        """The types of a function's arguments, and of what it gives then."""
        found, rest = [], self
        while rest.form == "function":
            found.append(rest.parts[0])
            rest = rest.parts[1]
        return tuple(found), rest

    def replaced(self, known: Mapping[str, Type]) -> Type:
        """The type with these in place of variables. A variable that is applied becomes the constructor that stands for it."""
        if self.form == "variable":
            return known.get(self.name, self)
        parts = tuple(it.replaced(known) for it in self.parts)
        if self.form == "applied" and parts[0].form == "constructor":
            return Type("constructor", parts[0].name, (*parts[0].parts, parts[1]))
        return Type(self.form, self.name, parts)

    def is_written_with(self, name: str) -> bool:
        return self.name == name and self.form == "constructor" or any(it.is_written_with(name) for it in self.parts)


INT = Type("constructor", "Int")
UNIT = Type("constructor", "()")
IO = Type("constructor", "IO")
# Classes of monads, of which IO is one.
CLASSES_OF_IO = frozenset(("Monad", "Functor", "Applicative", "MonadIO", "MonadUnliftIO", "MonadThrow", "MonadCatch", "MonadMask", "MonadBase",
                           "MonadBaseControl", "MonadFail"))
VALUES = {"Int": "1", "Integer": "1", "Word": "1", "()": "()", "Bool": "True", "Char": "'c'", "Ordering": "LT"}
SHOWN = frozenset(("Int", "Integer", "Bool", "Word", "()", "Ordering"))


def read_type(shape: Sequence[Any]) -> tuple[Type, dict[str, set[str]]]:
    """A type, and of each variable the classes that it is below."""
    form, *rest = shape
    classes: dict[str, set[str]] = {}
    if form == "classes":
        for it in rest[0]:
            found, _ = read_type(it)
            for argument in found.parts:
                if argument.form == "variable":
                    classes.setdefault(argument.name, set()).add(found.name)
        inner, more = read_type(rest[1])
        return inner, {**more, **classes}
    if form in ("variable", "other"):
        return Type(form, rest[0]), classes
    name = rest.pop(0) if form == "constructor" else ""
    parts = []
    for it in rest:
        part, more = read_type(it)
        parts.append(part)
        classes.update(more)
    return Type(form, name, tuple(parts)), classes


def spelled(kind: Type, own: Mapping[str, str]) -> str:
    """The type as one writes it; `own` has the spellings of the module's own types."""
    if kind.form != "constructor":
        if kind.form == "function":
            return f"({spelled(kind.parts[0], own)} -> {spelled(kind.parts[1], own)})"
        return kind.name
    parts = [spelled(it, own) for it in kind.parts]
    if kind.name == "[]":
        return f"[{parts[0]}]"
    if kind.name.startswith("(,"):
        return f"({', '.join(parts)})"
    words = " ".join([own.get(kind.name, kind.name), *parts])
    return f"({words})" if parts else words


def is_shown(kind: Type) -> bool:
    """Whether a value of the type can be printed by a script."""
    if kind.form != "constructor":
        return False
    return kind.name in SHOWN or kind.name == "Maybe" and is_shown(kind.parts[0])


def _answer(kind: Type, given: Sequence[tuple[str, Type]]) -> str:
    """What an action gives: what was handed in, if that is of the type, and else some value."""
    for name, of in given:
        if of == kind:
            return f"({name} + 1)" if kind == INT else name
    if kind.name.startswith("(,"):
        return f"({', '.join(_answer(it, given) for it in kind.parts)})"
    return value(kind, given)


def bare(expression: str) -> str:
    """The expression without parentheses round the whole of it."""
    depth = 0
    for place, letter in enumerate(expression):
        depth += (letter == "(") - (letter == ")")
        if depth == 0 and place < len(expression) - 1 or depth == 1 and letter == ",":
            return expression
    return expression[1:-1] if expression.startswith("(") and expression != "()" else expression


def value(kind: Type, given: Sequence[tuple[str, Type]] = (), throws: bool = False) -> str:
    """Some expression of the type. Actions in it give a value, or throw."""
    if kind.form == "function":
        name = "abcdefgh"[len(given)]
        return f"(\\{name} -> {bare(value(kind.parts[1], [*given, (name, kind.parts[0])], throws))})"
    if kind.form != "constructor":
        raise NoValue(f"no value of {kind.name or 'its type'}")
    result = kind.result_of_io()
    if result is not None:
        return '(throwIO (ErrorCall "thrown"))' if throws else f"(return {_answer(result, given)})"
    if kind.name in VALUES:
        return VALUES[kind.name]
    parts = [value(it, given, throws) for it in kind.parts]
    if kind.name.startswith("(,"):
        return f"({', '.join(parts)})"
    if kind.name == "[]":
        return '"text"' if kind.parts[0].name == "Char" else f"[{parts[0]}]"
    if kind.name in ("Maybe", "Either"):
        return f"({'Just' if kind.name == 'Maybe' else 'Right'} {parts[-1]})"
    raise NoValue(f"no value of {kind.name}")
