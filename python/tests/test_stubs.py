"""Tests of the stubs by mypy: they agree with what runs, as stubtest compares it, and find the errors of wrong_uses.py."""
import pathlib
import re
import subprocess
import sys
import tempfile
import unittest

USES = pathlib.Path(__file__).resolve().parent / "wrong_uses.py"


def run(*command):
    with tempfile.TemporaryDirectory() as folder:
        told = subprocess.run([sys.executable, "-m", *command], cwd=folder, stdout=subprocess.PIPE, stderr=subprocess.STDOUT, universal_newlines=True)
    return told.returncode, told.stdout


class Stubs(unittest.TestCase):
    maxDiff = None

    def test_run_time(self):
        self.assertEqual(run("mypy.stubtest", "speedate")[0], 0, run("mypy.stubtest", "speedate")[1])

    def test_wrong_uses(self):
        wanted = [(number, code) for number, line in enumerate(USES.read_text("utf-8").split("\n"), 1) for code in re.findall(r"  # ([a-z-]+)$", line)]
        _, told = run("mypy", "--strict", "--python-executable", sys.executable, "--cache-dir", "/dev/null", "--no-error-summary", "--hide-error-context", str(USES))
        found = [(int(number), code) for number, code in re.findall(r"^[^:\n]*:(\d+): error: .*\[([a-z-]+)\]$", told, re.M)]
        self.assertEqual(sorted(set(found) ^ set(wanted)), [], told)
        self.assertGreater(len(wanted), 30)


if __name__ == "__main__":
    unittest.main()
