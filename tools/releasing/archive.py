"""Archives with the same bytes each time: entries in order, of root, with the date of the commit."""

from __future__ import annotations

import hashlib
import io
import lzma
import tarfile

from tools.releasing.tree import Entry


def folders_of(entries: list[Entry]) -> list[str]:
    """All folders that the entries stand in, each before what it holds."""
    found = {""}
    for entry in entries:
        parts = entry.place.split("/")[:-1]
        found.update("/".join(parts[:it]) for it in range(1, len(parts) + 1))
    return sorted(found - {""})


def member(name: str, epoch: int, mode: int, kind: bytes = tarfile.REGTYPE) -> tarfile.TarInfo:
    info = tarfile.TarInfo(name)
    info.mtime, info.mode, info.type = epoch, mode, kind
    info.uid = info.gid = 0
    info.uname = info.gname = "root"
    return info


def tar(entries: list[Entry], epoch: int, below: str) -> bytes:
    """A tar file of the entries, below a folder of this name."""
    whole = io.BytesIO()
    with tarfile.open(fileobj=whole, mode="w", format=tarfile.GNU_FORMAT) as out:
        out.addfile(member(below or ".", epoch, 0o755, tarfile.DIRTYPE))
        for folder in folders_of(entries):
            out.addfile(member(f"{below or '.'}/{folder}", epoch, 0o755, tarfile.DIRTYPE))
        for entry in sorted(entries):
            name = f"{below or '.'}/{entry.place}"
            if entry.link:
                info = member(name, epoch, 0o777, tarfile.SYMTYPE)
                info.linkname = entry.link
                out.addfile(info)
            else:
                info = member(name, epoch, 0o755 if entry.runs else 0o644)
                info.size = len(entry.content)
                out.addfile(info, io.BytesIO(entry.content))
    return whole.getvalue()


def packed(content: bytes) -> bytes:
    return lzma.compress(content, preset=9)


def sums(files: dict[str, bytes]) -> bytes:
    return "".join(f"{hashlib.sha256(content).hexdigest()}  {name}\n" for name, content in sorted(files.items())).encode()


def ar(members: dict[str, bytes], epoch: int) -> bytes:
    """An archive of ar, which a Debian package is."""
    whole = b"!<arch>\n"
    for name, content in members.items():
        whole += f"{name:<16}{epoch:<12}{0:<6}{0:<6}{'100644':<8}{len(content):<10}`\n".encode() + content + b"\n" * (len(content) % 2)
    return whole
