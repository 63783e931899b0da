"""Tests of what decides something in an audit. They need neither GHC nor the program."""
