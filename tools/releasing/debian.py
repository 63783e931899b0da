"""The Debian package. It is written by hand, since all that is in it is made already, and so the same bytes come each time."""

from __future__ import annotations

import email.utils
import gzip
import hashlib

from tools.releasing import archive, licences, words
from tools.releasing.facts import Facts, fail
from tools.releasing.tree import Entry, documents, examples, for_editors, running

NAME = "conc-run"
HOME = f"usr/lib/{NAME}"
DOCUMENTS = f"usr/share/doc/{NAME}"
MAINTAINER = "Nezdraupe maintainers <maintainers@users.noreply.nezdraupe.example>"
# The package that has each library which the program may be linked to.
LIBRARIES = {**dict.fromkeys(("libc.so.6", "libm.so.6", "libpthread.so.0", "libdl.so.2", "ld-linux-x86-64.so.2"), "libc6"), "libgcc_s.so.1": "libgcc-s1"}

SYNOPSIS = "what interrupted and masked Concurrent Haskell code may do"
DESCRIPTION = """conc_run checks and runs small scripts with the threads, MVars and
asynchronous exceptions of Concurrent Haskell, and lists all that a script
may come to, over all schedules: for each outcome it has a history, as text
and as a picture. From the bytes of the script to the bytes of the output it
is proved to do what its rules say.
.
The package has examples, documents, and a page for the browser that does
the same (play.html)."""
# Made when the package is put in, by the Python that is there, so that each start takes less time.
AFTER = f"""#!/bin/sh
set -e
if [ "$1" = configure ] && command -v py3compile > /dev/null 2>&1; then
  py3compile -p {NAME} /{HOME}
fi
"""
BEFORE = f"""#!/bin/sh
set -e
if command -v py3clean > /dev/null 2>&1; then
  py3clean -p {NAME}
else
  find /{HOME} -name __pycache__ -type d -prune -exec rm -rf {{}} +
fi
"""
OVERRIDES = f"""# The program's bytes are those that the kit built after its proof, and RELEASE names their checksum; a stripped one would be another.
{NAME}: unstripped-binary-or-object [{HOME}/crates/conc_run/out/conc_run]
# The project has no bug in Debian that its first package could close.
{NAME}: initial-upload-closes-no-bugs [{DOCUMENTS}/changelog.gz:1]
"""


def zipped(content: bytes) -> bytes:
    return gzip.compress(content, 9, mtime=0)


def changelog(facts: Facts) -> bytes:
    date = email.utils.formatdate(facts.epoch)
    what = "Of the proved program." if facts.is_proved else "Of a program without proof, for tests of the package."
    return (f"{NAME} ({facts.package_version}) unstable; urgency=medium\n\n  * {what}\n  * CHANGELOG.md has what is new.\n\n"
            f" -- {MAINTAINER}  {date}\n").encode()


def entries(facts: Facts, page: bytes) -> list[Entry]:
    """Every file of the package, at its place."""
    found = [Entry(f"{HOME}/{it.place}", it.content, it.runs) for it in running(facts)]
    found += [Entry(f"{DOCUMENTS}/{it.place.removeprefix('docs/')}", it.content) for it in documents() if it.place != "LICENSE"]
    found += [Entry(f"{DOCUMENTS}/{it.place}", it.content) for it in examples()]
    found += [Entry(f"usr/share/{NAME}/{it.place}", it.content) for it in for_editors()]
    return found + [
        Entry("usr/bin/conc_run", b"", link=f"../lib/{NAME}/conc_run"),
        Entry(f"{DOCUMENTS}/play.html", page),
        Entry(f"{DOCUMENTS}/copyright", licences.copyright_file().encode()),
        Entry(f"{DOCUMENTS}/changelog.gz", zipped(changelog(facts))),
        Entry("usr/share/man/man1/conc_run.1.gz", zipped(words.manual(facts.version, facts.epoch).encode())),
        Entry("usr/share/bash-completion/completions/conc_run", words.bash().encode()),
        Entry("usr/share/zsh/vendor-completions/_conc_run", words.zsh().encode()),
        Entry("usr/share/fish/vendor_completions.d/conc_run.fish", words.fish().encode()),
        Entry(f"usr/share/lintian/overrides/{NAME}", OVERRIDES.encode()),
    ]


def depends(facts: Facts) -> str:
    unknown = [it for it in facts.libraries if it not in LIBRARIES]
    if unknown:
        fail(f"the program is linked to {' '.join(unknown)}, and no package is known to have that")
    needed = sorted({LIBRARIES[it] for it in facts.libraries} | {"libc6"})
    return ", ".join([f"libc6 (>= {facts.glibc})" if it == "libc6" else it for it in needed] + ["python3 (>= 3.9)"])


def control(facts: Facts, size: int) -> bytes:
    fields = {"Package": NAME, "Version": facts.package_version, "Architecture": "amd64", "Maintainer": MAINTAINER, "Installed-Size": str(size),
              "Depends": depends(facts), "Suggests": "ghc, libghc-async-dev", "Section": "devel", "Priority": "optional",
              "Description": f"{SYNOPSIS}\n " + DESCRIPTION.replace("\n", "\n ")}
    return "".join(f"{name}: {value}\n" for name, value in fields.items()).encode()


def package(facts: Facts, page: bytes) -> bytes:
    files = entries(facts, page)
    size = sum((len(it.content) + 1023) // 1024 for it in files) + len(archive.folders_of(files))
    hashes = "".join(f"{hashlib.md5(it.content).hexdigest()}  {it.place}\n" for it in sorted(files) if not it.link)
    about = [Entry("control", control(facts, size)), Entry("md5sums", hashes.encode()),
             Entry("postinst", AFTER.encode(), True), Entry("prerm", BEFORE.encode(), True)]
    return archive.ar({"debian-binary": b"2.0\n", "control.tar.xz": archive.packed(archive.tar(about, facts.epoch, "")),
                       "data.tar.xz": archive.packed(archive.tar(files, facts.epoch, ""))}, facts.epoch)
