"""Summaries: their merge, their text and its form, restated plainly. A summary is sets of pairs."""

import re

LAST_DAY = 47_482
MOST = 2**64


def by_bytes(texts):
    return [text.encode() for text in texts]


LISTS = ["days", "names", "tasks", "together", "before", "exclusive", "shared", "pipe"]


def empty():
    return {"traces": 0, **{name: set() for name in LISTS}}


def merged(one, other):
    return {"traces": one["traces"] + other["traces"], **{name: one[name] | other[name] for name in LISTS}}


def marks(summary, rows, which, rising, falling):
    """The bytes of each row: one for each row before it."""
    def mark(a, b):
        if (a, b) not in summary[which]:
            return "."
        bits = ((a, b) in summary[rising]) + 2 * ((b, a) in summary[rising])
        return str(bits + 4 * (falling is not None and (a, b) in summary[falling]))
    return ["".join(mark(a, b) for a in rows[:k]) for k, b in enumerate(rows)]


def text_of(summary):
    """The text of a summary."""
    tasks, names = sorted(summary["tasks"], key=str.encode), sorted(summary["names"], key=by_bytes)
    rows = [["summary", *(f"{k}={n}" for k, n in (("traces", summary["traces"]), ("days", len(summary["days"])),
                                                  ("tasks", len(tasks)), ("names", len(names))))]]
    rows += [["day", str(day)] for day in sorted(summary["days"])]
    rows += [["task", task, row] for task, row in zip(tasks, marks(summary, tasks, "shared", "pipe", None))]
    rows += [["name", *name, row] for name, row in zip(names, marks(summary, names, "together", "before", "exclusive"))]
    return "".join("\t".join(row) + "\n" for row in rows)


class BadSummary(Exception):
    """The first line outside the form has this number."""


def number_of(word, label, most):
    """The number behind a label, as it is printed; None where there is none."""
    digits = word[len(label):]
    if not word.startswith(label) or not re.fullmatch(rb"0|[1-9][0-9]*", digits) or int(digits) >= most:
        return None
    return int(digits)


def is_text(field):
    try:
        field.decode()
    except UnicodeDecodeError:
        return False
    return 1 <= len(field) <= 64 and all(byte >= 32 and byte != 127 for byte in field)


def counts_of(fields):
    """The four counts of a header, where they can be those of traces."""
    if len(fields) != 5 or fields[0] != b"summary":
        return None
    counts = [number_of(f, label, most) for f, label, most in
              zip(fields[1:], [b"traces=", b"days=", b"tasks=", b"names="], [MOST, 2**32, 2**32, 2**32])]
    if None in counts:
        return None
    traces, days, tasks, names = counts
    possible = tasks <= 64 and names <= 512 and tasks <= names and (tasks > 0 or names == 0)
    possible = possible and (traces > 0 or names == 0) and days <= traces and (days > 0 or traces == 0)
    return counts if possible else None


def read_one(text, at):
    """The summary whose text begins at this line, from 0, and the line behind it."""
    def fields():
        nonlocal at
        if at >= len(text):
            raise BadSummary(at + 1)
        at += 1
        return text[at - 1].split(b"\t")

    def rows(count, word, width, form):
        found = []
        for _ in range(count):
            row = fields()
            key = tuple(row[1:1 + width])
            if row[0] != word or len(row) != form or found and found[-1][0] >= key:
                raise BadSummary(at)
            found.append((key, row[-1]))
            yield key, row[-1]

    def take_marks(keys, row, allowed, which, rising, falling):
        for key, mark in zip(keys, row.decode()):
            if mark not in allowed:
                raise BadSummary(at)
            if mark != ".":
                pair, bits = (key, keys[-1]), int(mark)
                found[which] |= {pair, pair[::-1]}
                found[rising] |= {p for p, bit in ((pair, 1), (pair[::-1], 2)) if bits & bit}
                if bits & 4:
                    found[falling] |= {pair, pair[::-1]}

    counts = counts_of(fields())
    if counts is None:
        raise BadSummary(at)
    found = {**empty(), "traces": counts[0]}
    last = -1
    for _ in range(counts[1]):
        row = fields()
        day = number_of(row[1], b"", LAST_DAY + 1) if len(row) == 2 and row[0] == b"day" else None
        if day is None or day <= last:
            raise BadSummary(at)
        found["days"].add(day)
        last = day
    tasks = []
    for key, row in rows(counts[2], b"task", 1, 3):
        if not is_text(key[0]) or len(row) != len(tasks) or not row.isascii():
            raise BadSummary(at)
        tasks.append(key[0].decode())
        take_marks(tasks, row, ".0123", "shared", "pipe", None)
    names = []
    for key, row in rows(counts[3], b"name", 3, 5):
        if not all(map(is_text, key)) or len(row) != len(names) or not row.isascii() or key[0].decode() not in tasks:
            raise BadSummary(at)
        names.append(tuple(part.decode() for part in key))
        take_marks(names, row, ".01237", "together", "before", "exclusive")
    if set(tasks) != {name[0] for name in names}:
        raise BadSummary(at)
    return {**found, "tasks": set(tasks), "names": set(names)}, at


def read(data):
    """The summaries that stand in these bytes, one behind another."""
    text = data.split(b"\n")
    # (what no line feed ends is no line)
    text.pop()
    found, at = [], 0
    while True:
        if found and at == len(text) and data.endswith(b"\n"):
            return found
        summary, at = read_one(text, at)
        found.append(summary)
