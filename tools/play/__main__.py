"""Makes the page for the browser:  python3 tools/play [--out FILE] [--bitcode FILE | --wasm FILE] [--keep-wasm FILE] [--check]

Without --bitcode and --wasm the program is taken from the page that is there, where that is of the same sources, and else its bitcode
is built by the kit (two minutes) and compiled (one). Debian's lld and binaryen are needed for that. The same bytes come of the same
sources by the same tools. --check says whether the page that is there is of this version and these sources, and makes none.
"""

from __future__ import annotations

import argparse
import os
import sys

sys.dont_write_bytecode = True
sys.path.insert(0, os.path.dirname(os.path.dirname(os.path.dirname(os.path.realpath(__file__)))))

from tools.play import page, sums, wasm  # noqa: E402
from tools.sources import TOP  # noqa: E402


def read_words() -> argparse.Namespace:
    words = argparse.ArgumentParser(prog="play", description="Makes the page for the browser.")
    words.add_argument("--out", default=os.path.join(TOP, "docs", "play.html"), help="where the page goes (docs/play.html)")
    words.add_argument("--check", action="store_true", help="say whether the page is of this version and these sources")
    words.add_argument("--keep-wasm", metavar="FILE", help="leave the module there too, for node")
    source = words.add_mutually_exclusive_group()
    source.add_argument("--bitcode", metavar="FILE", help="the program's bitcode, which is built otherwise")
    source.add_argument("--wasm", metavar="FILE", help="a module that was made of these sources before")
    return words.parse_args()


def module(words: argparse.Namespace) -> bytes:
    if words.wasm:
        with open(words.wasm, "rb") as file:
            return file.read()
    there = None if words.bitcode else page.module_of_these_sources(words.out)
    return there or wasm.code_of(words.bitcode)


def main() -> int:
    words = read_words()
    if words.check:
        wrong = list(page.problems(os.path.relpath(words.out, TOP)))
        print("\n".join(wrong) or "play: the page is of this version and these sources")
        return 1 if wrong else 0
    code = module(words)
    whole = page.made(code)
    if words.keep_wasm:
        with open(words.keep_wasm, "wb") as file:
            file.write(code)
    os.makedirs(os.path.dirname(os.path.abspath(words.out)), exist_ok=True)
    with open(f"{words.out}.new", "w", encoding="utf-8", newline="") as file:
        file.write(whole)
    os.replace(f"{words.out}.new", words.out)
    print(f"{words.out}: version {sums.version()}, {len(whole.encode())} bytes, of which the program {len(code)} before it was packed")
    return 0


if __name__ == "__main__":
    sys.exit(main())
