"""`./conc_run litmus`: a script's list of outcomes beside what GHC shows of the same script in many runs."""

from tools.litmus.command import main

__all__ = ["main"]
