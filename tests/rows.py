#!/usr/bin/env python3
"""usage: rows.py [--loose] [--check | COUNT [SEED]]

Prints the rows of the second reading of docs/GRAMMAR.md, one a line: with no number those that are kept in rows.txt, and
otherwise COUNT drawn ones, of the number SEED (1 unless said otherwise). With --check it says whether the kept rows are those
that it would print. With --loose it has the rows of the form Loose of date-times, which are kept in loose_rows.txt.

A row has these fields, with a tab between them:

- the kind: date, time, datetime or duration;
- the forms that have this answer, with a blank between them: text, or_timestamp, strict, front, loose or loose_front;
- the configuration: its five numbers in the order of SpeedateConfig in c/speedate.h, but the offset first;
- the text: a byte that is no printable character of ASCII, and a backslash, are written as \\xHH;
- the code: ok, or the error;
- the numbers of the value, in the order of its struct in c/speedate.h; of a refused text none;
- the text that the value is printed as; of a refused text none;
- where the value, or the wrong part, begins;
- where it ends.
"""
import collections
import pathlib
import random
import sys

import texts
from answers import FORMS, Config, answer, printed

HERE = pathlib.Path(__file__).resolve().parent
# The configurations of each kind, the default first.
UNITS = [Config(unit=it) for it in range(4)]
TRUNCATING = [it._replace(truncates=1) for it in UNITS]
CONFIGS = {"date": UNITS, "time": [Config(), TRUNCATING[0]], "datetime": UNITS + TRUNCATING, "duration": [Config(), TRUNCATING[0], Config(is_ordered=1)]}
OFFSETS = [Config(), Config(0, 1), Config(3600, 1), Config(-86_399, 1, 2), Config(86_399, 1, 3, 1, 1), Config(3600, 0)]
# What is put into drawn texts.
PIECES = ["0", "1", "5", "9", "-", ":", ".", ",", "+", "T", "Z", "_", " ", "x", "P", "D", "d", "S", "AM", "UTC", "\u00e9", "\u2212", "\n", "\0", "\\", "\t", "|"]
BROKEN = [b"\xe2", b"\xe2\x88", b"\x88", b"\xff", b"\x80\x80\x80\x80"]


def escaped(text):
    return "".join(chr(it) if 32 <= it < 127 and it != 92 else f"\\x{it:02x}" for it in text)


def row(kind, forms, config, text, it):
    """The row of a text that has this answer in some forms."""
    answered = [it.code, " ".join(map(str, it.value)), printed(kind, it.value) if it.value else "", str(it.start), str(it.end)]
    return "\t".join([kind, " ".join(forms), " ".join(map(str, config)), escaped(text), *answered])


def forms_of(kind, loose):
    return [it for it in FORMS[kind] if it.startswith("loose") == loose]


def families(kind, loose):
    """The kept texts of a kind, each with the configurations with which it is read."""
    if loose:
        return [(it, CONFIGS[kind]) for it in [*texts.logs(), *texts.date_times()]]
    of_values = {"date": texts.dates, "time": texts.times, "datetime": texts.date_times, "duration": texts.durations}[kind]()
    of_numbers = texts.numbers(kind) if kind.startswith("date") else []
    return [(it, CONFIGS[kind]) for it in [*of_values, *of_numbers]] + [(it, OFFSETS) for it in texts.SOME[kind]]


def kept(loose):
    """Each text in its forms with the default configuration, and with each other one that changes the answer."""
    told = {}
    for kind in FORMS:
        for text, configs in families(kind, loose) if kind == "datetime" or not loose else []:
            data, usual = text.encode(), {}
            for config in configs:
                answers = collections.defaultdict(list)
                for form in forms_of(kind, loose):
                    it = answer(kind, form, config, data)
                    if it != usual.setdefault(form, it) or config == Config():
                        answers[it].append(form)
                for it, forms in answers.items():
                    told[row(kind, forms, config, data, it)] = None
    return told


def drawn(draw, loose):
    """A drawn row: a text of a family, or of parts, with other digits, up to three pieces changed and one many times, and a
    configuration."""
    kind = "datetime" if loose else draw.choice(list(FORMS))
    form = draw.choice(forms_of(kind, loose))
    if kind != "duration" and form != "or_timestamp" and draw.random() < 0.5:
        day, clock = ["".join(draw.choice(right if draw.random() < 0.97 else wrong) for right, wrong in it) for it in (texts.DATE, texts.TIME)]
        text = {"date": day, "time": clock, "datetime": day + draw.choice("TTt _x") + clock}[kind]
    else:
        text = draw.choice(FAMILIES[kind, loose])
    if loose and draw.random() < 0.5:
        text = f"2020-02-29 12:13:14{draw.choice(texts.ZONES)}{draw.choice(texts.ZONES)}"
    data = text.encode()
    if draw.random() < 0.5:
        data = bytes(draw.choice(b"0123456789") if 48 <= it <= 57 and draw.random() < 0.25 else it for it in data)
    for _ in range(draw.choice([0, 0, 0, 1, 2, 3])):
        at = draw.randrange(len(data) + 1)
        piece = draw.choice(BROKEN) if draw.random() < 0.05 else draw.choice(PIECES).encode()
        data = data[:at] + piece + data[at + draw.randrange(2):]
    if draw.random() < 0.1:
        at = draw.randrange(len(data) + 1)
        data = data[:at] + draw.choice(["3", "7", " ", "x", "\u00e9", "+01:00"]).encode() * draw.randrange(100) + data[at:]
    config = Config(draw.choice([0, 0, 3600, -86_399, 86_399]), draw.randrange(2), draw.randrange(4), draw.randrange(2), draw.randrange(2))
    config = config if draw.random() < 0.7 else Config()
    return row(kind, [form], config, data, answer(kind, form, config, data))


FAMILIES = {(kind, loose): [text for text, _ in families(kind, loose)] for loose in (False, True) for kind in FORMS if kind == "datetime" or not loose}


def main(words):
    loose = "--loose" in words
    numbers = [it for it in words if not it.startswith("--")]
    if words == ["--help"]:
        print(__doc__, end="")
        return
    if set(words) - {"--loose", "--check", *numbers} or len(numbers) > 2 or not all(it.isdigit() for it in numbers):
        sys.exit(__doc__)
    if numbers:
        draw = random.Random(int(numbers[1]) if numbers[1:] else 1)
        sys.stdout.writelines(drawn(draw, loose) + "\n" for _ in range(int(numbers[0])))
        return
    lines = "".join(f"{it}\n" for it in kept(loose))
    if "--check" not in words:
        sys.stdout.write(lines)
    elif (HERE / ("loose_rows.txt" if loose else "rows.txt")).read_text() != lines:
        sys.exit("rows.py: the kept rows are not those of the second reading")


if __name__ == "__main__":
    main(sys.argv[1:])
