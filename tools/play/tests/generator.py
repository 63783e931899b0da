"""Random scripts: small programs of threads, cells, exceptions, masks and forms, most of them accepted; and broken ones."""

from __future__ import annotations

import random

LEAVES = ["print", "put", "take", "try_take", "try_put", "read", "kill", "throw_to", "delay", "throw", "mask_state", "modify", "let"]
NESTS = ["fork", "catch", "mask", "mask_", "uninterruptible", "finally", "on_exception", "bracket", "timeout", "race", "concurrently", "async",
         "if", "case", "fork_unmask"]


class Maker:
    """One script. Names of cells, threads and numbers are kept while they are in scope."""

    def __init__(self, seed: int) -> None:
        self.random = random.Random(seed)
        self.left, self.names = self.random.randint(4, 14), 0

    def fresh(self, letter: str) -> str:
        self.names += 1
        return f"{letter}{self.names}"

    def some(self, names: list[str], otherwise: str) -> str:
        return self.random.choice(names) if names else otherwise

    def number(self, scope: dict[str, list[str]]) -> str:
        small = str(self.random.randint(0, 9))
        name = self.some(scope["number"], small)
        return self.random.choice([small, name, f"({name} + {small})", f"(div {name} {self.random.randint(0, 2)})", f"(- {small})"])

    def text(self, scope: dict[str, list[str]]) -> str:
        return self.random.choice([f'"{self.random.choice("abcd")}"', f"(show {self.number(scope)})", f'("{self.random.choice("xy")}" ++ show ({self.number(scope)} < 3))'])

    def block(self, scope: dict[str, list[str]], depth: int, end: str = "return ()") -> str:
        inside = {sort: list(names) for sort, names in scope.items()}
        actions = [self.action(inside, depth) for _ in range(self.random.randint(0, 3)) if self.left > 0]
        return "{ " + "; ".join([*actions, end]) + " }"

    def action(self, scope: dict[str, list[str]], depth: int) -> str:
        self.left -= 1
        kind = self.random.choice(LEAVES + (NESTS if depth < 4 else []))
        return self.leaf(kind, scope) if kind in LEAVES else self.nest(kind, scope, depth + 1)

    def leaf(self, kind: str, scope: dict[str, list[str]]) -> str:
        cell, thread = self.some(scope["cell"], "m0"), self.some(scope["thread"], "me")
        if kind in ("take", "read", "let"):
            name = self.fresh("x")
            made = {"take": f"{name} <- takeMVar {cell}", "read": f"{name} <- readMVar {cell}", "let": f"let {name} = {self.number(scope)}"}[kind]
            scope["number"].append(name)
            return made
        return {
            "print": f"{self.random.choice(['putStr', 'putStrLn', 'hPutStrLn stderr'])} {self.text(scope)}",
            "put": f"putMVar {cell} {self.number(scope)}", "try_take": f"_ <- tryTakeMVar {cell}", "try_put": f"_ <- tryPutMVar {cell} {self.number(scope)}",
            "kill": f"killThread {thread}", "throw_to": f"throwTo {thread} (ErrorCall {self.text(scope)})", "delay": f"threadDelay {self.random.choice([0, 1, 5, 5, 20])}",
            "throw": f"throwIO @() {self.random.choice(['ThreadKilled', 'UserInterrupt', '(ErrorCall ' + self.text(scope) + ')'])}",
            "mask_state": f"{(state := self.fresh('s'))} <- getMaskingState; putStr {state}",
            "modify": f"modifyMVar_ {cell} y {{ return (y + {self.random.randint(1, 3)}) }}",
        }[kind]

    def nest(self, kind: str, scope: dict[str, list[str]], depth: int) -> str:
        if kind == "fork":
            block = self.block(scope, depth)
            scope["thread"].append(self.fresh("t"))
            return f"{scope['thread'][-1]} <- forkIO {block}"
        if kind == "mask":
            name = self.fresh("r")
            inside = {**scope, "restore": [*scope["restore"], name]}
            return f"mask {name} {self.block(inside, depth, f'restore {name} {self.block(inside, depth)}')}"
        one, two, bound = self.block(scope, depth), self.block(scope, depth), self.fresh("v")
        return {
            "catch": f"catch {one} e {{ putStr (show e); return () }}", "mask_": f"mask_ {one}", "uninterruptible": f"uninterruptibleMask_ {one}",
            "finally": f"finally {one} {two}", "on_exception": f"onException {one} {two}", "bracket": f"bracket {{ return 1 }} {bound} {one} {two}",
            "timeout": f"{bound} <- timeout {self.random.choice([0, 5, 50])} {one}", "race": f"{bound} <- race {one} {two}",
            "concurrently": f"{bound} <- concurrently {one} {two}", "async": f"withAsync {one} {bound} {self.block(scope, depth, f'wait {bound}')}",
            "if": f"if {self.number(scope)} < {self.number(scope)} then {one} else {two}",
            "case": f"{bound} <- tryTakeMVar {self.some(scope['cell'], 'm0')}; case {bound} of {{ Nothing -> {one}; Just w -> {two} }}",
            "fork_unmask": f"_ <- mask_ {{ forkIOWithUnmask q {{ restore q {one} }} }}",
        }[kind]

    def script(self) -> str:
        scope: dict[str, list[str]] = {"cell": ["m0", "m1"], "thread": ["me"], "number": [], "restore": []}
        body = []
        while self.left > 0:
            body.append(self.action(scope, 0))
        first = self.random.choice(["newMVar 0", "newEmptyMVar @Int"])
        return f"main :: IO () = {{ m0 <- {first}; m1 <- newEmptyMVar @Int; me <- myThreadId;\n  " + ";\n  ".join(body) + ";\n  return () };\n"


def made(seed: int) -> str:
    """The script of a number; each fifth is broken somewhere."""
    script = Maker(seed).script()
    if seed % 5:
        return script
    chance = random.Random(-seed)
    at = chance.randrange(len(script))
    return chance.choice([script[:at], script[:at] + script[at + 1:], script[:at] + chance.choice("{}();\"=<-@#\u00e9\u202e\U0001F600") + script[at:],
                          script.replace("m0", "m9", 1), script.replace("takeMVar", "putStr", 1)])
