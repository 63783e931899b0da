"""The archive that runs where it is unpacked."""

from __future__ import annotations

from tools.releasing import archive, licences, words
from tools.releasing.facts import Facts
from tools.releasing.tree import Entry, documents, examples, for_editors, running

FIRST = """conc_run {version} for Linux on x86-64

  ./conc_run run examples/hello.conc      runs a script
  ./conc_run outcomes examples/update.conc
  ./conc_run --help                       has all commands

It needs a processor of x86-64, the GNU C library {glibc} or newer (Debian 12, Ubuntu 22.04 and what is newer have it), and Python 3.9 or
newer; no other package. Windows, macOS and other processors have docs/play.html, which does the same in a browser.

RELEASE says which program this is. COPYRIGHT names whose parts it is linked from. share/ has a page of the manual and completions for
bash, zsh and fish.
"""


def entries(facts: Facts, page: bytes) -> list[Entry]:
    made = [
        Entry("READ-FIRST", FIRST.format(version=facts.version, glibc=facts.glibc).encode()),
        Entry("COPYRIGHT", licences.copyright_file().encode()),
        Entry("docs/play.html", page),
        Entry("share/man/man1/conc_run.1", words.manual(facts.version, facts.epoch).encode()),
        Entry("share/bash-completion/completions/conc_run", words.bash().encode()),
        Entry("share/zsh/site-functions/_conc_run", words.zsh().encode()),
        Entry("share/fish/vendor_completions.d/conc_run.fish", words.fish().encode()),
    ]
    return [*running(facts), *documents(), *examples(), *for_editors(), *made]


def name(facts: Facts) -> str:
    return f"conc_run-{facts.package_version}-linux-x86_64"


def archived(facts: Facts, page: bytes) -> bytes:
    return archive.packed(archive.tar(entries(facts, page), facts.epoch, name(facts)))
