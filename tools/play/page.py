"""The page of a module, the template and the documents; and what a page that is there says of itself."""

from __future__ import annotations

import base64
import gzip
import hashlib
import json
import os
import re
import sys
from typing import Iterator

from tools.play import sums, tables
from tools.sources import TOP

SITE = os.path.join(os.path.dirname(os.path.abspath(__file__)), "site")
# The parts of the page's script, in this order.
SCRIPTS = ["basis", "unseen", "program", "options", "lines", "editor", "marks", "results", "outcomes", "histories", "claims", "coming", "examples", "writing", "links", "page"]
MOST = 900 * 1024
HEAD = re.compile(r'<meta name="conc-run" content="version ([^ ]+) sources ([0-9a-f]{64})">')
MODULE = re.compile(r'<script type="text/plain" id="program">([A-Za-z0-9+/=]*)</script>')


def site(name: str) -> str:
    with open(os.path.join(SITE, name), encoding="utf-8", newline="") as file:
        return file.read()


def script() -> str:
    parts = "\n".join(site(f"{it}.js") for it in SCRIPTS)
    return f"'use strict';\n(() => {{\n{parts}}})();\n"


def hashed(text: str) -> str:
    return f"'sha256-{base64.b64encode(hashlib.sha256(text.encode()).digest()).decode()}'"


def policy(*scripts: str) -> str:
    """No address but those that the page makes itself, and no script but these. A picture's own style needs the one for styles."""
    return ("default-src 'none'; script-src " + " ".join(map(hashed, scripts)) + " 'wasm-unsafe-eval'; worker-src blob:; "
            "style-src 'unsafe-inline'; img-src blob:; frame-src blob:; base-uri 'none'; form-action 'none'; "
            "require-trusted-types-for 'script'; trusted-types conc-run")


def made(code: bytes) -> str:
    """The page. The same bytes come of the same module, documents and template."""
    parts = {
        "STYLE": site("style.css"),
        "SCRIPT": script(),
        "WORKER": site("worker.js"),
        "DATA": json.dumps(tables.data(), ensure_ascii=False).replace("<", "\\u003c"),
        "MODULE": base64.b64encode(gzip.compress(code, 9, mtime=0)).decode(),
        "VERSION": sums.version(),
        "SOURCES": sums.sum_of_sources(),
    }
    parts["POLICY"] = policy(parts["SCRIPT"])
    for name in ("SCRIPT", "WORKER"):
        if re.search(r"</script|<!--", parts[name], re.I):
            sys.exit(f"play: the page's {name.lower()} would end its element")
    page = re.sub(r"@([A-Z]+)@", lambda it: parts[it[1]], site("template.html"))
    if len(page.encode()) > MOST:
        sys.exit(f"play: the page has {len(page.encode())} bytes, and {MOST} are the most")
    return page


def said(page: str) -> tuple[str, str] | None:
    """The version and the sum of sources that a page names."""
    head = HEAD.search(page)
    return (head[1], head[2]) if head else None


def module_of(page: str) -> bytes | None:
    """The module that a page holds."""
    found = MODULE.search(page)
    return gzip.decompress(base64.b64decode(found[1])) if found else None


def read_page(path: str) -> str:
    with open(path, encoding="utf-8", newline="") as file:
        return file.read()


def module_of_these_sources(path: str) -> bytes | None:
    """The module of a page that is there, where it names the sources as they are now."""
    if not os.path.exists(path):
        return None
    there = read_page(path)
    told = said(there)
    return module_of(there) if told and told[1] == sums.sum_of_sources() else None


def is_current(path: str) -> bool:
    """Whether a page is what is made now of the program that it holds: template, scripts and documents have not changed since."""
    there = read_page(path)
    code = module_of(there)
    # How the program is packed is left out, since another version of zlib may pack it otherwise.
    return code is not None and MODULE.sub("", made(code)) == MODULE.sub("", there)


def problems(path: str = "docs/play.html") -> Iterator[str]:
    """What is wrong with the page of the repository: another version, or another sum of sources. Where there is none, nothing is."""
    whole = os.path.join(TOP, path)
    if not os.path.exists(whole):
        return
    told = said(read_page(whole))
    wanted = (sums.version(), sums.sum_of_sources())
    if told is None:
        yield f"{path}: it names neither version nor sources; python3 tools/play makes it anew"
    elif told != wanted:
        what = "version" if told[0] != wanted[0] else "sum of sources"
        yield f"{path}: it is of another {what} than the repository; python3 tools/play makes it anew"
