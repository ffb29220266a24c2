"""Tests of the fields of python/examples/pydantic_fields.py: whatever a form sends, an error is fit to be shown."""
import json
import pathlib
import random
import sys
import unittest

HERE = pathlib.Path(__file__).resolve().parent
sys.path[:0] = [str(HERE), str(HERE.parent / "examples")]
from pydantic_fields import LONGEST, Payment, ValidationError
from test_extension import drawn_text

COUNT = 20_000
ODD = [None, True, 20200229, 10**5000, 1.5, float("nan"), [], {}, {"day": "x"}, object(), "\x1b[2J", "{message}", "%s", "\ud800", "\u202e", "9" * 10**6, b"\xff", "<script>", "\0"]


class Form(unittest.TestCase):
    def check(self, day, wait):
        try:
            Payment(day=day, wait=wait)
        except ValidationError as error:
            for it in error.errors():
                self.assertTrue(it["msg"].isascii() and it["msg"].isprintable() and len(it["msg"]) < 100 + 10 * LONGEST, it)
                self.assertIn(it["loc"][0], ("day", "wait"))
                if isinstance(day if it["loc"][0] == "day" else wait, (str, bytes)):
                    self.assertEqual({type(it["ctx"][name]) for name in ("start", "end")}, {int})
                json.dumps({name: it[name] for name in ("loc", "msg", "type")})
            return True
        return False

    def test_hostile(self):
        for it in ODD:
            self.assertTrue(self.check(it, it), it)

    def test_drawn(self):
        draw, refused = random.Random(1), 0
        for _ in range(COUNT):
            day, wait = (it if isinstance(it, (str, bytes)) else bytes(it) for it in (drawn_text(draw, "date"), drawn_text(draw, "duration")))
            refused += self.check(day, wait)
        self.assertTrue(COUNT / 4 < refused < COUNT, refused)


if __name__ == "__main__":
    unittest.main()
