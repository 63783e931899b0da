"""Haskell programs as they are: compiled with modules in front of base's, and run many times in one process."""

from __future__ import annotations

import hashlib
import os
import re
import resource
import shutil
import subprocess
import tempfile
from collections.abc import Sequence
from dataclasses import dataclass
from pathlib import Path

from tools.litmus.haskell import PATIENCE, RUNTIME, SUPPORT, TOP, Broken, Compiler, Missing, RunOptions
from tools.litmus.outcomes import Shown, read_counts

FRONT = TOP / "from-haskell" / "front"
# Modules that stand in front of those of base and async.
FRONT_MODULES = FRONT / "modules"
# What these call, which with the support module of scripts is a package of its own.
FRONT_SUPPORT = FRONT / "support"
UNIT = "conc-run-litmus-0"
EXPOSED = "Litmus.Programs"
NEEDED = ("async", "base", "bytestring", "containers", "text")
# The module of the program's own main.
DRIVER = "ConcRunDriver"
HEADER = re.compile(r"^[ \t>]*module\s+([A-Z][\w.']*)", re.MULTILINE)


@dataclass(frozen=True)
class Question:
    """A module, and the action of it that is asked."""

    path: Path
    action: str = "main"

    def module(self) -> str:
        """The name of the module, which is Main where the file says none."""
        found = HEADER.search(self.path.read_text(encoding="utf-8", errors="replace"))
        return found[1] if found else "Main"


def cache() -> Path:
    return Path(os.environ.get("XDG_CACHE_HOME") or Path.home() / ".cache") / "conc-run"


def support_files() -> list[Path]:
    return sorted([*(SUPPORT / "Litmus").glob("*.hs"), *FRONT_SUPPORT.rglob("*.hs")])


def call(words: Sequence[str | Path], folder: Path | None = None) -> str:
    """Runs a command, and answers what it wrote."""
    done = subprocess.run([str(it) for it in words], capture_output=True, text=True, cwd=folder, check=False)
    if done.returncode != 0:
        raise Broken(f"{Path(str(words[0])).name} ends with status {done.returncode}:\n{done.stderr or done.stdout}")
    return done.stdout


def support(compiler: Compiler) -> Path:
    """The folder of the package that the front modules need, which is built where it isn't there yet."""
    texts = b"\0".join(path.read_bytes() for path in support_files())
    made = cache() / f"litmus-{compiler.version}-{hashlib.sha256(texts).hexdigest()[:16]}"
    if not (made / "db").is_dir():
        made.parent.mkdir(parents=True, exist_ok=True)
        work = Path(tempfile.mkdtemp(prefix="litmus.", dir=made.parent))
        try:
            build_support(compiler, work, made)
            work.rename(made)
        except OSError:
            # Another one has built it meanwhile.
            if not (made / "db").is_dir():
                raise
        finally:
            shutil.rmtree(work, ignore_errors=True)
    return made


def build_support(compiler: Compiler, work: Path, made: Path) -> None:
    """Builds the package in one folder, for another one that it is moved to."""
    registry = shutil.which("ghc-pkg", path=f"{Path(compiler.path).parent}:{os.environ.get('PATH', os.defpath)}")
    if registry is None:
        raise Missing("there is no ghc-pkg beside ghc")
    objects = work / "objects"
    words = [compiler.path, "-v0", "-O1", "-package-env", "-", "-this-unit-id", UNIT, f"-i{FRONT_SUPPORT}:{SUPPORT}"]
    call([*words, "-outputdir", objects, EXPOSED])
    call(["ar", "qcs", work / f"libHS{UNIT}.a", *sorted(objects.rglob("*.o"))])
    ids = [call([registry, "field", name, "id", "--simple-output"]).split()[0] for name in NEEDED]
    modules = sorted(".".join(it.relative_to(objects).with_suffix("").parts) for it in objects.rglob("*.hi"))
    lines = {"name": UNIT.removesuffix("-0"), "version": "0", "id": UNIT, "key": UNIT, "exposed": "True", "exposed-modules": EXPOSED,
             "hidden-modules": " ".join(it for it in modules if it != EXPOSED), "import-dirs": str(made / "objects"),
             "library-dirs": str(made), "hs-libraries": f"HS{UNIT}", "depends": " ".join(ids)}
    (work / "conf").write_text("".join(f"{name}: {text}\n" for name, text in lines.items()))
    call([registry, "init", work / "db"])
    call([registry, f"--package-db={work / 'db'}", "register", "--force", work / "conf"])


def driver_text(questions: Sequence[Question]) -> str:
    """The module of the program's main: it runs each question under its number."""
    imports = "".join(f"import qualified {module}\n" for module in sorted({it.module() for it in questions}))
    pairs = ", ".join(f'("{number}", {it.module()}.{it.action})' for number, it in enumerate(questions, 1))
    return (f'{{-# LANGUAGE NoImplicitPrelude #-}}\nmodule {DRIVER} (main) where\n\nimport Litmus.Programs (runPrograms)\n{imports}'
            f"\n-- main = the main of the process\nmain = runPrograms [{pairs}]\n")


def compile_programs(compiler: Compiler, questions: Sequence[Question], folders: Sequence[str], room: Path, perturbs: bool = True) -> Path:
    """One program of these questions, in a folder of its own; without perturbing the modules of base are base's own."""
    made = support(compiler)
    (room / f"{DRIVER}.hs").write_text(driver_text(questions))
    paths = [str(FRONT_MODULES)] if perturbs else []
    paths += [".", *sorted({str(it.path.parent) for it in questions}), *folders]
    words = [compiler.path, "-v0", "-w", "-O0", "-threaded", "-rtsopts", "-package-env", "-", f"-package-db={made / 'db'}", "-package", UNIT]
    words += [f"-i{':'.join(paths)}", "-main-is", DRIVER, "-outputdir", str(room / "objects"), "-o", str(room / "program")]
    call([*words, room / f"{DRIVER}.hs", *(it.path for it in questions)])
    return room / "program"


# What a program may take: seconds of a processor, bytes of a file, and the megabytes of its heap.
MOST_SECONDS, MOST_BYTES, HEAP = 3600, 1 << 26, "1g"


def hold() -> None:
    """Holds this process to what a program may take."""
    resource.setrlimit(resource.RLIMIT_CPU, (MOST_SECONDS, MOST_SECONDS))
    resource.setrlimit(resource.RLIMIT_FSIZE, (MOST_BYTES, MOST_BYTES))
    resource.setrlimit(resource.RLIMIT_CORE, (0, 0))


def run_question(program: Path, number: int, options: RunOptions) -> Shown:
    """Runs a question of the program many times, on 1, 2 and 4 capabilities, in an empty folder and within limits."""
    words = [str(program), *RUNTIME[:-1], f"-M{HEAP}", RUNTIME[-1], f"--script={number}", f"--runs={options.runs}"]
    words += [f"--seconds={options.seconds}", f"--seed={options.seed}", f"--forks={options.forks}"]
    with tempfile.TemporaryDirectory(prefix="litmus-") as folder:
        try:
            done = subprocess.run(words, capture_output=True, stdin=subprocess.DEVNULL, cwd=folder, preexec_fn=hold, check=False,
                                  timeout=options.seconds + PATIENCE)
        except subprocess.TimeoutExpired as fault:
            raise Broken(f"its program goes on {PATIENCE} seconds behind its time") from fault
    if done.returncode != 0:
        raise Broken(f"its program ended with status {done.returncode}: {done.stderr.decode(errors='replace').strip()}")
    return read_counts(done.stdout)
