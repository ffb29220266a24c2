"""Tests of a wheel: what its records say of its files and of itself: python3 test_wheel.py WHEEL.."""
import base64
import csv
import email
import hashlib
import io
import pathlib
import re
import sys
import unittest
import zipfile

ROOT = pathlib.Path(__file__).resolve().parents[2]
WHEELS = []


def said(text):
    """The fields of a file of headers, and what follows them."""
    message = email.message_from_string(text)
    return message, message.get_payload()


class Wheel(unittest.TestCase):
    def test_records(self):
        for path in WHEELS:
            with self.subTest(path), zipfile.ZipFile(path) as wheel:
                self.check(path.name[:-len(".whl")], {it.filename: wheel.read(it) for it in wheel.infolist()}, wheel.infolist())

    def check(self, name, files, entries):
        project, version, python, abi, platform = name.split("-")
        info, package = f"{project}-{version}.dist-info", ROOT / "python/speedate"
        self.assertEqual(project, "speedate")
        self.assertEqual(version, re.search(r"^## (\S+)$", (ROOT / "CHANGELOG.md").read_text("utf-8"), re.M)[1])
        self.assertEqual(python, "cp{}{}".format(*sys.version_info))
        self.assertRegex(abi, rf"^{python}[a-z]*$")
        self.assertRegex(platform, r"^(manylinux_2_\d+|linux)_(x86_64|aarch64)$")

        sources = {f"speedate/{it.name}": it.read_bytes() for it in package.iterdir() if it.is_file()}
        for place, data in {**sources, "speedate/GRAMMAR.md": (ROOT / "docs/GRAMMAR.md").read_bytes(), f"{info}/LICENSE": (ROOT / "LICENSE").read_bytes()}.items():
            self.assertEqual(files.get(place), data, place)
        made = {"speedate/GRAMMAR.md", *(f"{info}/{it}" for it in ("LICENSE", "METADATA", "RECORD", "WHEEL"))}
        [extension] = {*files} - {*sources} - made
        self.assertRegex(extension, r"^speedate/_speedate\.\S+\.so$")
        self.assertEqual({(it.external_attr >> 16, it.date_time) for it in entries}, {(0o100644, (1980, 1, 1, 0, 0, 0))})

        rows = list(csv.reader(io.StringIO(files[f"{info}/RECORD"].decode())))
        self.assertEqual(rows, [
            [it, "", ""] if it == f"{info}/RECORD" else
            [it, "sha256=" + base64.urlsafe_b64encode(hashlib.sha256(data).digest()).decode().rstrip("="), str(len(data))] for it, data in files.items()])

        fields, _ = said(files[f"{info}/WHEEL"].decode())
        self.assertEqual((fields["Wheel-Version"], fields["Root-Is-Purelib"], fields.get_all("Tag")), ("1.0", "false", [f"{python}-{abi}-{platform}"]))
        fields, page = said(files[f"{info}/METADATA"].decode())
        self.assertEqual((fields["Name"], fields["Version"], fields["License-File"], fields["Requires-Python"]), ("speedate", version, "LICENSE", ">=3.8"))
        if sys.version_info >= (3, 11):
            import tomllib

            stated = tomllib.loads((ROOT / "python/pyproject.toml").read_text("utf-8"))["project"]
            told = {"name": fields["Name"], "description": fields["Summary"], "license": {"text": fields["License"]}, "requires-python": fields["Requires-Python"], "classifiers": fields.get_all("Classifier")}
            self.assertEqual({**told, "dynamic": ["version", "readme"]}, stated)
        self.assertIn("# Calling the library from Python", page)
        self.assertEqual([it for it in re.findall(r"\]\(([^)]*)\)", page) if not it.startswith("https://")], [])


if __name__ == "__main__":
    WHEELS = list(map(pathlib.Path, sys.argv[1:]))
    unittest.main(argv=sys.argv[:1])
