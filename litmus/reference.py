#!/usr/bin/env python3
"""Prints the Haskell module of an accepted script, as MODULE.md says it: reference.py < SCRIPT > MODULE.

The script is read by a small parser of its own, by docs/LANGUAGE.md, so that tests can hold what `haskell` prints against it.
Typing rules aren't looked at: of a script that `check` refuses it may print something.
"""

from __future__ import annotations

import argparse
import sys
from collections.abc import Callable
from dataclasses import dataclass
from typing import Generic, TypeVar

# How deep the functions below call each other at most: scripts nest 200 openers, and each is some calls.
DEPTH = 100_000

# --- tokens ---

RESERVED = frozenset(
    """True False Nothing Just Left Right ErrorCall ThreadKilled UserInterrupt DivideByZero Overflow Int Bool Text ThreadId
    SomeException Maybe Either MVar IO if then else case of let in div mod not fst snd show return throwIO putStr putStrLn
    hPutStrLn stderr newMVar newEmptyMVar takeMVar putMVar readMVar tryTakeMVar tryPutMVar modifyMVar_ forkIO forkIOWithUnmask
    myThreadId throwTo killThread threadDelay clockMicros getMaskingState catch mask mask_ uninterruptibleMask
    uninterruptibleMask_ restore onException bracket finally timeout Async withAsync wait cancel race concurrently""".split()
)
# The longer ones first, since at each place the longest token is taken.
SYMBOLS = (":: -> <- == /= <= >= && || ++ = < > + - * : ; , @ ( ) [ ] { }").split()
ESCAPES = {'"': '"', "\\": "\\", "n": "\n", "t": "\t"}


class Refused(Exception):
    """The text is no script."""


@dataclass(frozen=True)
class Token:
    """A token: its kind (word, name, number, text, symbol or end), its text, and where it stands."""

    kind: str
    text: str
    line: int
    column: int


def is_start(character: str) -> bool:
    return character == "_" or character.isidentifier()


def is_rest(character: str) -> bool:
    return character == "'" or ("a" + character).isidentifier()


def text_token(line: str, start: int) -> tuple[str, int]:
    """The content of the text literal that begins here, and where it ends."""
    content, place = [], start + 1
    while place < len(line) and line[place] != '"':
        if line[place] == "\\":
            place += 1
            if place == len(line) or line[place] not in ESCAPES:
                raise Refused("wrong escape")
            content.append(ESCAPES[line[place]])
        else:
            content.append(line[place])
        place += 1
    if place == len(line):
        raise Refused("open text")
    return "".join(content), place + 1


def word_kind(word: str) -> str:
    if word in RESERVED:
        return "word"
    return "upper" if "A" <= word[0] <= "Z" else "name"


def run_end(line: str, start: int, belongs: Callable[[str], bool]) -> int:
    place = start
    while place < len(line) and belongs(line[place]):
        place += 1
    return place


def token_at(line: str, place: int, number: int) -> tuple[Token, int]:
    """The token that begins at this place of this line, and where it ends."""
    first = line[place]
    if first == '"':
        content, end = text_token(line, place)
        return Token("text", content, number, place + 1), end
    if first in "0123456789":
        end = run_end(line, place, lambda it: it in "0123456789")
        return Token("number", line[place:end], number, place + 1), end
    if is_start(first):
        end = run_end(line, place, is_rest)
        return Token(word_kind(line[place:end]), line[place:end], number, place + 1), end
    for symbol in SYMBOLS:
        if line.startswith(symbol, place):
            return Token("symbol", symbol, number, place + 1), place + len(symbol)
    raise Refused(f"BadChar at {number}:{place + 1}")


def tokens_of(script: str) -> list[Token]:
    """All tokens of a script, and one for its end."""
    found, lines = [], script.split("\n")
    for number, line in enumerate(lines, 1):
        place = 0
        while place < len(line) and not line.startswith("--", place):
            if line[place] in " \t\r":
                place += 1
            else:
                token, place = token_at(line, place, number)
                found.append(token)
    return [*found, Token("end", "", len(lines), len(lines[-1]) + 1)]


# --- the tree ---


@dataclass(frozen=True)
class Type:
    """A type: its word (`pair`, `list` and `unit` for those without one), and its parts."""

    word: str
    parts: tuple[Type, ...] = ()


# What stands behind the arrow of an arm: an expression, or a block.
Body = TypeVar("Body", "Expression", "Block")


@dataclass(frozen=True)
class Arms(Generic[Body]):
    """The arms of a case, by what they are of: Maybe, Either, list or pair."""

    of: str
    names: tuple[str, ...]
    bodies: tuple[Body, ...]


@dataclass(frozen=True)
class Expression:
    """An expression: which form it is, and what that form holds."""

    form: str
    word: str = ""
    parts: tuple[Expression, ...] = ()
    types: tuple[Type, ...] = ()
    words: tuple[str, ...] = ()
    arms: Arms[Expression] | None = None


@dataclass(frozen=True)
class Action:
    """An action: its word (`call`, `if` and `case` too), where it stands, and what it holds."""

    word: str
    line: int
    column: int
    names: tuple[str, ...] = ()
    parts: tuple[Expression, ...] = ()
    types: tuple[Type, ...] = ()
    blocks: tuple[Block, ...] = ()
    arms: Arms[Block] | None = None


@dataclass(frozen=True)
class Let:
    """`let x = e`, at its name."""

    name: str
    line: int
    column: int
    value: Expression


@dataclass(frozen=True)
class Bind:
    """`x <- a`, and without a name `a`."""

    name: str | None
    action: Action


@dataclass(frozen=True)
class Block:
    statements: tuple[Let | Bind, ...]
    last: Action


@dataclass(frozen=True)
class Definition:
    """A definition, whose body is an expression or a block."""

    name: str
    parameters: tuple[tuple[str, Type], ...]
    result: Type
    body: Expression | Block


# --- the parser ---

ATOM_WORDS = frozenset("True False ThreadKilled UserInterrupt DivideByZero Overflow".split())
UNARY_WORDS = frozenset("Just ErrorCall not fst snd show".split())
# What stands behind the word of an action: e an argument, t a type behind @, x a name, b a block.
ACTION_SHAPES = {
    **dict.fromkeys("myThreadId clockMicros getMaskingState".split(), ""),
    **dict.fromkeys("return putStr putStrLn newMVar takeMVar readMVar tryTakeMVar".split(), "e"),
    **dict.fromkeys("killThread threadDelay wait cancel".split(), "e"),
    **dict.fromkeys("putMVar tryPutMVar throwTo".split(), "ee"),
    **dict.fromkeys("forkIO mask_ uninterruptibleMask_".split(), "b"),
    **dict.fromkeys("forkIOWithUnmask mask uninterruptibleMask restore".split(), "xb"),
    **dict.fromkeys("onException finally race concurrently".split(), "bb"),
    **dict.fromkeys("catch withAsync".split(), "bxb"),
    "throwIO": "te",
    "newEmptyMVar": "t",
    "modifyMVar_": "exb",
    "bracket": "bxbb",
    "timeout": "eb",
}
TYPE_WORDS = frozenset("Int Bool Text ThreadId SomeException".split())
WIDE_TYPES = {"Maybe": 1, "Either": 2, "MVar": 1, "Async": 1}


class Parser:
    """Reads the tokens of a script, one function for each rule of the grammar."""

    def __init__(self, tokens: list[Token]) -> None:
        self.tokens = tokens
        self.place = 0

    @property
    def next(self) -> Token:
        return self.tokens[self.place]

    def stands(self, *texts: str) -> bool:
        return self.next.kind in ("word", "symbol") and self.next.text in texts

    def take(self) -> Token:
        token = self.next
        self.place += 1
        return token

    def refuse(self) -> Refused:
        return Refused(f"Unexpected at {self.next.line}:{self.next.column}")

    def want(self, text: str) -> Token:
        if not self.stands(text):
            raise self.refuse()
        return self.take()

    def may_take(self, text: str) -> bool:
        if self.stands(text):
            self.take()
            return True
        return False

    def name(self) -> str:
        if self.next.kind != "name":
            raise self.refuse()
        return self.take().text

    # --- definitions and types ---

    def script(self) -> tuple[Definition, ...]:
        found = []
        while self.next.kind != "end":
            found.append(self.definition())
        return tuple(found)

    def definition(self) -> Definition:
        name, parameters = self.name(), []
        while self.may_take("("):
            parameter = self.name()
            self.want("::")
            parameters.append((parameter, self.type()))
            self.want(")")
        self.want("::")
        is_action = self.may_take("IO")
        result = self.closed_type() if is_action else self.type()
        self.want("=")
        body: Expression | Block = self.block() if is_action else self.expression()
        self.want(";")
        return Definition(name, tuple(parameters), result, body)

    def type(self) -> Type:
        if self.stands(*WIDE_TYPES):
            word = self.take().text
            return Type(word, tuple(self.closed_type() for _ in range(WIDE_TYPES[word])))
        return self.closed_type()

    def closed_type(self) -> Type:
        if self.stands(*TYPE_WORDS):
            return Type(self.take().text)
        if self.may_take("["):
            item = self.type()
            self.want("]")
            return Type("list", (item,))
        self.want("(")
        if self.may_take(")"):
            return Type("unit")
        first = self.type()
        if self.may_take(","):
            first = Type("pair", (first, self.type()))
        self.want(")")
        return first

    def written_type(self) -> Type:
        self.want("@")
        return self.closed_type()

    # --- blocks and actions ---

    def block(self) -> Block:
        self.want("{")
        statements: list[Let | Bind] = []
        while True:
            statements.append(self.statement())
            if self.stands("}") or (self.may_take(";") and self.stands("}")):
                break
            if self.tokens[self.place - 1].text != ";":
                raise self.refuse()
        last = statements.pop()
        if not isinstance(last, Bind) or last.name is not None:
            raise self.refuse()
        self.want("}")
        return Block(tuple(statements), last.action)

    def statement(self) -> Let | Bind:
        if self.may_take("let"):
            token, name = self.next, self.name()
            self.want("=")
            return Let(name, token.line, token.column, self.expression())
        if self.next.kind == "name" and self.tokens[self.place + 1].text == "<-":
            name = self.name()
            self.want("<-")
            return Bind(name, self.action())
        return Bind(None, self.action())

    def action(self) -> Action:
        token = self.next
        if token.kind == "name":
            return Action("call", token.line, token.column, (self.name(),), self.arguments())
        if token.kind != "word":
            raise self.refuse()
        if self.may_take("if"):
            parts, blocks = (self.expression(),), []
            for word in ("then", "else"):
                self.want(word)
                blocks.append(self.block())
            return Action("if", token.line, token.column, (), parts, (), tuple(blocks))
        if self.may_take("case"):
            subject, arms = self.subject_and_arms(self.block)
            return Action("case", token.line, token.column, (), (subject,), (), (), arms)
        return self.form(self.take())

    def form(self, token: Token) -> Action:
        """The rest of a built-in form, behind its word."""
        shape = "e" if token.text == "hPutStrLn" else ACTION_SHAPES.get(token.text)
        if shape is None:
            self.place -= 1
            raise self.refuse()
        if token.text == "hPutStrLn":
            self.want("stderr")
        names, parts, types, blocks = [], [], [], []
        for part in shape:
            if part == "x":
                names.append(self.name())
            elif part == "e":
                parts.append(self.argument())
            elif part == "t":
                types.append(self.written_type())
            else:
                blocks.append(self.block())
        return Action(token.text, token.line, token.column, tuple(names), tuple(parts), tuple(types), tuple(blocks))

    def subject_and_arms(self, body: Callable[[], Body]) -> tuple[Expression, Arms[Body]]:
        subject = self.expression()
        self.want("of")
        self.want("{")
        arms = self.arms(body)
        self.may_take(";")
        self.want("}")
        return subject, arms

    def arms(self, body: Callable[[], Body]) -> Arms[Body]:
        if self.may_take("Nothing"):
            first = self.arm_body(body)
            self.want(";")
            self.want("Just")
            return Arms("Maybe", (self.name(),), (first, self.arm_body(body)))
        if self.may_take("Left"):
            left, first = self.name(), self.arm_body(body)
            self.want(";")
            self.want("Right")
            return Arms("Either", (left, self.name()), (first, self.arm_body(body)))
        if self.may_take("["):
            self.want("]")
            first = self.arm_body(body)
            self.want(";")
            head = self.name()
            self.want(":")
            return Arms("list", (head, self.name()), (first, self.arm_body(body)))
        self.want("(")
        one = self.name()
        self.want(",")
        other = self.name()
        self.want(")")
        return Arms("pair", (one, other), (self.arm_body(body),))

    def arm_body(self, body: Callable[[], Body]) -> Body:
        self.want("->")
        return body()

    # --- expressions ---

    def expression(self) -> Expression:
        if self.may_take("if"):
            parts = [self.expression()]
            for word in ("then", "else"):
                self.want(word)
                parts.append(self.expression())
            return Expression("if", parts=tuple(parts))
        if self.may_take("case"):
            subject, arms = self.subject_and_arms(self.expression)
            return Expression("case", parts=(subject,), arms=arms)
        if self.may_take("let"):
            name = self.name()
            self.want("=")
            value = self.expression()
            self.want("in")
            return Expression("let", name, (value, self.expression()))
        return self.chain(("||",), lambda: self.chain(("&&",), self.comparison))

    def chain(self, operators: tuple[str, ...], operand: Callable[[], Expression]) -> Expression:
        """Operands with operators of one level between them; one operand alone is itself."""
        parts, words = [operand()], []
        while self.stands(*operators):
            words.append(self.take().text)
            parts.append(operand())
        return Expression("chain", "", tuple(parts), (), tuple(words)) if words else parts[0]

    def comparison(self) -> Expression:
        first = self.chain((":", "++"), self.sum)
        if self.stands("==", "/=", "<", "<=", ">", ">="):
            word = self.take().text
            return Expression("chain", "", (first, self.chain((":", "++"), self.sum)), (), (word,))
        return first

    def sum(self) -> Expression:
        is_negative = self.stands("-")

        def operand() -> Expression:
            nonlocal is_negative
            if is_negative:
                is_negative = False
                self.take()
                return Expression("unary", "-", (self.chain(("*",), self.application),))
            return self.chain(("*",), self.application)

        return self.chain(("+", "-"), operand)

    def application(self) -> Expression:
        if self.next.kind == "name":
            return Expression("call", self.name(), self.arguments())
        if self.stands(*UNARY_WORDS):
            return Expression("unary", self.take().text, (self.argument(),))
        if self.stands("div", "mod"):
            return Expression("binary", self.take().text, (self.argument(), self.argument()))
        if self.may_take("Nothing"):
            return Expression("empty", "Nothing", types=(self.written_type(),))
        if self.stands("Left", "Right"):
            word, types = self.take().text, (self.written_type(), self.written_type())
            return Expression("side", word, (self.argument(),), types)
        if self.stands("[") and self.tokens[self.place + 1].text == "]":
            self.take(), self.take()
            return Expression("empty", "[]", types=(self.written_type(),))
        return self.atom()

    def arguments(self) -> tuple[Expression, ...]:
        found = []
        while self.next.kind in ("name", "number", "text") or self.stands("(", "[", *ATOM_WORDS):
            found.append(self.argument())
        return tuple(found)

    def argument(self) -> Expression:
        if self.next.kind == "name":
            return Expression("call", self.name())
        return self.atom()

    def atom(self) -> Expression:
        if self.next.kind in ("number", "text"):
            token = self.take()
            return Expression(token.kind, token.text)
        if self.stands(*ATOM_WORDS):
            return Expression("constant", self.take().text)
        if self.may_take("["):
            items = [self.expression()]
            while self.may_take(","):
                items.append(self.expression())
            self.want("]")
            return Expression("list", "", tuple(items))
        self.want("(")
        if self.may_take(")"):
            return Expression("unit")
        first = self.expression()
        if self.may_take(","):
            first = Expression("pair", "", (first, self.expression()))
        self.want(")")
        return first


# --- the module ---

HEAD = """\
{import Prelude ();
import Litmus;
main :: IO ();
main = run script;
script :: Env -> IO ();
script = v_main;
"""
CONSTANTS = {
    "True": "True",
    "False": "False",
    "ThreadKilled": "threadKilled",
    "UserInterrupt": "userInterrupt",
    "DivideByZero": "divideByZero",
    "Overflow": "overflow",
}
FUNCTIONS = {"Just": "just", "ErrorCall": "errorCall", "-": "negate", "Left": "left", "Right": "right"}
# The forms that take the environment of their thread, and those of which each block is run by a thread of its own.
WITH_ENVIRONMENT = frozenset(
    """myThreadId clockMicros putStr putStrLn hPutStrLn threadDelay timeout forkIO forkIOWithUnmask withAsync race
    concurrently""".split()
)
FORKING = frozenset("forkIO forkIOWithUnmask race concurrently".split())


def name_text(name: str) -> str:
    return "v_" + "".join(name_piece(byte) for byte in name.encode())


def name_piece(byte: int) -> str:
    character = chr(byte)
    if byte < 128 and (character.isalnum() or character == "_"):
        return character
    return "''" if character == "'" else f"'{byte:02x}"


def literal_text(content: str) -> str:
    return '"' + "".join(literal_piece(byte) for byte in content.encode()) + '"'


def literal_piece(byte: int) -> str:
    character = chr(byte)
    return character if 32 <= byte <= 126 and character not in '"\\' else f"\\{byte}\\&"


def type_text(it: Type) -> str:
    parts = [type_text(part) for part in it.parts]
    if it.word == "unit":
        return "()"
    if it.word == "pair":
        return f"({parts[0]}, {parts[1]})"
    if it.word == "list":
        return f"[{parts[0]}]"
    return f"({' '.join([it.word, *parts])})" if parts else it.word


def arms_text(arms: Arms[Body], body: Callable[[Body], str]) -> str:
    names, bodies = [name_text(it) for it in arms.names], [body(it) for it in arms.bodies]
    if arms.of == "Maybe":
        return f"Nothing -> {bodies[0]}; Just {names[0]} -> {bodies[1]}"
    if arms.of == "Either":
        return f"Left {names[0]} -> {bodies[0]}; Right {names[1]} -> {bodies[1]}"
    if arms.of == "list":
        return f"[] -> {bodies[0]}; a : b -> (\\ {names[0]} -> \\ {names[1]} -> {bodies[1]}) a b"
    return f"(a, b) -> (\\ {names[0]} -> \\ {names[1]} -> {bodies[0]}) a b"


def expression_text(it: Expression) -> str:
    parts = [expression_text(part) for part in it.parts]
    types = [type_text(part) for part in it.types]
    match it.form:
        case "if":
            return f"(if {parts[0]} then {parts[1]} else {parts[2]})"
        case "case":
            assert it.arms is not None
            return f"(case {parts[0]} of {{{arms_text(it.arms, expression_text)}}})"
        case "let":
            return f"(strict (\\ {name_text(it.word)} -> {parts[1]}) {parts[0]})"
        case "chain":
            links = [f" {'.:' if word == ':' else word} {part}" for word, part in zip(it.words, parts[1:], strict=True)]
            return f"({parts[0]}{''.join(links)})"
        case "call":
            return f"({' '.join([name_text(it.word), *parts])})" if parts else name_text(it.word)
        case "unary" | "binary":
            return f"({' '.join([FUNCTIONS.get(it.word, it.word), *parts])})"
        case "empty":
            return f"(Nothing :: Maybe {types[0]})" if it.word == "Nothing" else f"([] :: [{types[0]}])"
        case "side":
            return f"({FUNCTIONS[it.word]} {parts[0]} :: Either {types[0]} {types[1]})"
        case "number":
            return f"({int(it.word)} :: Int)"
        case "text":
            return f"(text {literal_text(it.word)})"
        case "constant":
            return CONSTANTS[it.word]
        case "unit":
            return "()"
        case "pair":
            return f"(pair {parts[0]} {parts[1]})"
        case _:
            return f"(list [{', '.join(parts)}])"


def action_text(it: Action) -> str:
    parts = [expression_text(part) for part in it.parts]
    blocks = [block_text(part) for part in it.blocks]
    names = [name_text(part) for part in it.names]
    match it.word:
        case "call":
            return f"({' '.join([names[0], 'en', *parts])})"
        case "if":
            return f"(if {parts[0]} then {blocks[0]} else {blocks[1]})"
        case "case":
            assert it.arms is not None
            return f"(case {parts[0]} of {{{arms_text(it.arms, block_text)}}})"
        case "throwIO":
            return f"(throwIO {parts[0]} :: IO {type_text(it.types[0])})"
        case "newEmptyMVar":
            return f"(newEmptyMVar :: IO (MVar {type_text(it.types[0])}))"
        case "restore":
            return f"({names[0]} {blocks[0]})"
        case _:
            environment = ["en"] if it.word in WITH_ENVIRONMENT else []
            return f"({' '.join([it.word, *environment, *parts, *form_blocks(it, names, blocks)])})"


def form_blocks(it: Action, names: list[str], blocks: list[str]) -> list[str]:
    """The blocks of a form: each is a function of the environment of its thread, and of the name that it binds."""
    bound = "".join(f"\\ {name} -> " for name in names)
    if it.word in FORKING:
        return [f"(\\ en -> {bound}{block})" for block in blocks]
    if it.word == "withAsync":
        return [f"(\\ en -> {blocks[0]})", f"({bound}{blocks[1]})"]
    if it.word in ("catch", "bracket"):
        return [blocks[0], *(f"({bound}{block})" for block in blocks[1:])]
    return [f"({bound}{block})" if bound else block for block in blocks]


def statement_text(it: Let | Bind) -> str:
    if isinstance(it, Let):
        return f"{name_text(it.name)} <- at en {it.line} {it.column} (evaluate {expression_text(it.value)});\n"
    bound = "" if it.name is None else f"{name_text(it.name)} <- "
    return f"{bound}at en {it.action.line} {it.action.column} {action_text(it.action)};\n"


def block_text(it: Block) -> str:
    statements = "".join(statement_text(statement) for statement in it.statements)
    return f"(do {{\n{statements}end en {it.last.line} {it.last.column} {action_text(it.last)}}})"


def definition_text(it: Definition) -> str:
    name, result = name_text(it.name), type_text(it.result)
    types = "".join(f"{type_text(part)} -> " for _, part in it.parameters)
    before = "".join(f"(strict (\\ {name_text(parameter)} -> " for parameter, _ in it.parameters)
    behind = "))" * len(it.parameters)
    if isinstance(it.body, Block):
        return f"{name} :: Env -> {types}IO {result};\n{name} = (\\ en -> {before}{block_text(it.body)}{behind});\n"
    return f"{name} :: {types}{result};\n{name} = {before}{expression_text(it.body)}{behind};\n"


def module_text(script: bytes) -> bytes:
    """The module of a script. Raises Refused where the bytes spell none."""
    try:
        tokens = tokens_of(script.decode())
    except UnicodeDecodeError as fault:
        raise Refused("NotUtf8") from fault
    definitions = Parser(tokens).script()
    return (HEAD + "".join(definition_text(it) for it in definitions) + "}\n").encode()


def main() -> int:
    argparse.ArgumentParser(description="Prints the Haskell module of the script on standard input.").parse_args()
    sys.setrecursionlimit(DEPTH)
    try:
        sys.stdout.buffer.write(module_text(sys.stdin.buffer.read()))
    except Refused as fault:
        print(f"refused: {fault}", file=sys.stderr)
        return 3
    return 0


if __name__ == "__main__":
    sys.exit(main())
