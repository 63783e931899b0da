"""Tests of the translator of Haskell modules: its programs, calls on files of their own, libraries, generated programs and mutants."""
