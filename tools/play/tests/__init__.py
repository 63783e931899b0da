"""Tests of the page, by tools/test-play."""
