"""Tests of what decides something in the tools, on small repositories that they make:  python3 -m unittest tools.tests.test_rows"""
