"""Begins ./conc_run. An older Python reads this file too, and looks for a newer one."""

import os
import resource
import sys

TYPE_CHECKING = False
if TYPE_CHECKING:
    from typing import Optional

NEEDED = (3, 9)
# More than there are by now.
NEWEST = 30


def find_newer():
    # type: () -> Optional[str]
    """A Python that is new enough and has its version in its name, or None."""
    for minor in range(NEWEST, NEEDED[1] - 1, -1):
        for folder in os.environ.get("PATH", os.defpath).split(os.pathsep):
            path = os.path.join(folder, "python3.%d" % minor)
            if os.access(path, os.X_OK) and works(path):
                return path
    return None


def works(path):
    # type: (str) -> bool
    """Whether a Python runs. What chooses among several may stand under the name of one that isn't chosen."""
    import subprocess
    with open(os.devnull, "r+") as nothing:
        return subprocess.call([path, "-I", "-S", "-c", ""], stdin=nothing, stdout=nothing, stderr=nothing) == 0


def begin():
    # type: () -> None
    if sys.version_info[:2] < NEEDED:
        newer = find_newer()
        if newer:
            os.execv(newer, [newer, "-I", "-S"] + sys.argv)
        sys.stderr.write("conc_run: it needs Python 3.9 or newer, and %s is %d.%d; install a newer one, for example by: apt-get install python3\n"
                         % (sys.executable or "python3", sys.version_info[0], sys.version_info[1]))
        sys.exit(70)
    here = os.path.dirname(os.path.abspath(__file__))
    sys.path.insert(0, os.path.dirname(os.path.dirname(here)))
    # Python keeps modules in files, and where no file may grow it leaves those cut off.
    sys.dont_write_bytecode = resource.getrlimit(resource.RLIMIT_FSIZE)[0] != resource.RLIM_INFINITY
    try:
        from tools.run.main import main
        main(sys.argv[1:])
    except EOFError:
        sys.stderr.write("conc_run: what Python keeps in %s is cut off, as a full disk leaves it; remove that folder\n" % os.path.join(here, "__pycache__"))
        sys.exit(70)


if __name__ == "__main__":
    begin()
