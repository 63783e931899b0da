"""The lock by which one build waits for another, where the system refuses it."""

from __future__ import annotations

import errno
import os
import unittest
from unittest import mock

from tools.run import building
from tools.run.saying import CANNOT_BUILD, Refused


class Lock(unittest.TestCase):
    def test_a_lock_that_is_refused_is_told(self) -> None:
        refused = OSError(errno.ENOLCK, os.strerror(errno.ENOLCK))
        with mock.patch("fcntl.flock", side_effect=refused), self.assertRaises(Refused) as told:
            building._locks(0, "out/lock")
        self.assertEqual(told.exception.status, CANNOT_BUILD)
        self.assertIn("out/lock can't be locked", told.exception.sentence)

    def test_a_lock_that_another_has_is_waited_for(self) -> None:
        with mock.patch("fcntl.flock", side_effect=BlockingIOError):
            self.assertFalse(building._locks(0, "out/lock"))


if __name__ == "__main__":
    unittest.main()
