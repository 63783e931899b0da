"""The program as WebAssembly: its bitcode and the runtime are compiled for 64 bits, linked, and lowered to addresses of 32."""

from __future__ import annotations

import os
import shutil
import subprocess
import sys
import tempfile

from tools.bitcode import bitcode_of, kit
from tools.play import sums
from tools.sources import TOP

TARGET = ["--target=wasm64-unknown-unknown", "-mbulk-memory", "-O2"]
# The stack in memory; a stack that comes first ends in a trap where it overflows.
STACK = ["-z", "stack-size=67108864", "--stack-first"]
FEATURES = ["bulk-memory", "sign-ext", "nontrapping-float-to-int", "mutable-globals", "memory64"]
# What the runtime asks of the page; a program that needs anything else is refused.
IMPORTS = {"write_piece", "read_piece", "argument", "milliseconds", "pause", "most_memory", "end"}
NEEDED = {"wasm-ld": "lld", "wasm-opt": "binaryen"}


def must(*command: str) -> None:
    ran = subprocess.run(command, stdout=subprocess.PIPE, stderr=subprocess.STDOUT, text=True, check=False)
    if ran.returncode:
        sys.exit(f"{ran.stdout[-2000:]}\nplay: {command[0]} ended with {ran.returncode}")


def need_tools() -> None:
    for name, package in NEEDED.items():
        if not shutil.which(name):
            sys.exit(f"play: no command {name} here; Debian has it in {package}")


def number_at(code: bytes, at: int) -> tuple[int, int]:
    """A number of WebAssembly's own spelling, and the place behind it."""
    value = shift = 0
    while True:
        byte = code[at]
        value |= (byte & 127) << shift
        at, shift = at + 1, shift + 7
        if byte < 128:
            return value, at


def name_at(code: bytes, at: int) -> tuple[str, int]:
    size, at = number_at(code, at)
    return code[at:at + size].decode(), at + size


def imports_of(code: bytes) -> set[str]:
    """The names of the functions that a module imports. The section has the number 2."""
    at = 8
    while at < len(code):
        section, (size, begin) = code[at], number_at(code, at + 1)
        at = begin + size
        if section == 2:
            count, here = number_at(code, begin)
            names = set()
            for _ in range(count):
                _, here = name_at(code, here)
                name, here = name_at(code, here)
                _, here = number_at(code, here + 1)
                names.add(name)
            return names
    return set()


def compiled(bitcode: str, clang: str) -> bytes:
    """The module of a bitcode. The same bytes come of the same bitcode, runtime and tools."""
    need_tools()
    with tempfile.TemporaryDirectory(prefix="play-") as work:
        program, runtime, wide, narrow = (os.path.join(work, it) for it in ("program.o", "runtime.o", "wide.wasm", "narrow.wasm"))
        must(clang, *TARGET, "-Wno-override-module", "-c", bitcode, "-o", program)
        must(clang, *TARGET, "-Wall", "-fno-builtin", "-c", os.path.join(TOP, sums.RUNTIME), "-o", runtime)
        must("wasm-ld", "-mwasm64", runtime, program, "--no-entry", "--allow-undefined", *STACK, "--strip-all", "-o", wide)
        must("wasm-opt", *(f"--enable-{it}" for it in FEATURES), "--memory64-lowering", wide, "-o", narrow)
        with open(narrow, "rb") as file:
            code = file.read()
    if imports_of(code) - IMPORTS:
        sys.exit(f"play: the program calls what the runtime doesn't have: {' '.join(sorted(imports_of(code) - IMPORTS))}")
    return code


def code_of(bitcode: str | None) -> bytes:
    """The module of this bitcode, or of one that is built now. It is kept in out/ with the sum of its sources."""
    kept, now = os.path.join(TOP, "out", "conc_run.wasm"), sums.sum_of_sources()
    if bitcode is None and os.path.exists(f"{kept}.sum"):
        with open(f"{kept}.sum", encoding="utf-8") as file:
            if file.read() == now:
                with open(kept, "rb") as module:
                    return module.read()
    if bitcode is not None:
        stale = next(sums.newer_than(bitcode), None)
        if stale:
            sys.exit(f"play: {stale} is newer than {bitcode}")
    code = compiled(bitcode or bitcode_of(sums.PROGRAM), f"{kit()}/toolchain/bin/clang")
    os.makedirs(os.path.dirname(kept), exist_ok=True)
    with open(kept, "wb") as module:
        module.write(code)
    with open(f"{kept}.sum", "w", encoding="utf-8") as file:
        file.write(now)
    return code
