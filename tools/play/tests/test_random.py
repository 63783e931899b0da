"""Random scripts under node against the program."""

from __future__ import annotations

import base64
import collections
import json
import os
import shutil
import subprocess
import unittest

from tools.play.tests import generator, native, settings

RUNNER = os.path.join(os.path.dirname(os.path.dirname(os.path.abspath(__file__))), "site", "run.js")
CALLS = [["check"], ["run", "--clock", "virtual"], ["outcomes", "--states", "2000"], ["trace", "--clock", "virtual"]]


class Random(unittest.TestCase):
    def test_scripts(self) -> None:
        if not shutil.which("node"):
            self.skipTest("no node here")
        seen: collections.Counter[tuple[str, int | None]] = collections.Counter()
        wrong = []
        with subprocess.Popen(["node", RUNNER, settings.module, "--lines"], stdin=subprocess.PIPE, stdout=subprocess.PIPE, text=True) as node:
            assert node.stdin and node.stdout
            for number in range(settings.first, settings.first + settings.count):
                script = generator.made(number).encode()
                for words in CALLS:
                    node.stdin.write(json.dumps({"words": words, "script": base64.b64encode(script).decode()}) + "\n")
                    node.stdin.flush()
                    told = json.loads(node.stdout.readline())
                    answer = native.Answer(told["status"], base64.b64decode(told["out"]), base64.b64decode(told["err"]))
                    wanted = native.call(words, script)
                    seen[words[0], wanted.status] += 1
                    if answer != wanted:
                        wrong.append((number, words, wanted.status, answer.status))
            node.stdin.close()
        print(f"{settings.count} random scripts, {sum(seen.values())} calls: " + ", ".join(f"{word} {status}: {times}" for (word, status), times in sorted(seen.items(), key=str)))
        self.assertEqual([], wrong)
