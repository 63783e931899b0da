"""What is made once and kept: the translator of modules, the module for GHC, and scripts of modules. `--clean` removes it all."""

from __future__ import annotations

import os
import shutil

from tools.run.saying import WRITE_FAILED, Refused, as_word, put


def folder() -> str:
    """Where it is kept."""
    home = os.environ.get("XDG_CACHE_HOME") or os.path.join(os.path.expanduser("~"), ".cache")
    return os.path.join(home, "conc-run")


def clean() -> int:
    """Removes it, and answers the status."""
    kept = folder()
    if not os.path.lexists(kept):
        return put(f"nothing is kept in {as_word(kept)}\n")
    try:
        if os.path.islink(kept):
            os.remove(kept)
        else:
            shutil.rmtree(kept)
    except OSError as fault:
        raise Refused(WRITE_FAILED, f"{as_word(str(fault.filename or kept))} could not be removed: {fault.strerror}") from None
    return put(f"removed {as_word(kept)}\n")
