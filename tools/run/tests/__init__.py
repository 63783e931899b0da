"""Tests of ./conc_run, in seconds: on a copy of it in which a small script stands for the program, and another for the kit's rt.

  python3 -m unittest discover -s tools/run/tests -t .
"""
