"""The report of all shards: figures are added up, and medians found by histograms."""
import numpy

from work_files import read_rows


# --- Tasks ---

def write_values(slack, to):
    """The latencies, and the durations of each name, of the rows of `slack`, as columns."""
    columns = {"latency": []}
    for fields in read_rows(slack):
        if fields[0] == "trace":
            columns["latency"].append(int(fields[3]))
        elif fields[0] == "segment":
            columns.setdefault("\t".join(fields[1:4]), []).append(int(fields[4]))
    with open(to, "wb") as out:
        numpy.savez(out, names=numpy.array(list(columns)),
                    **{f"v{k}": numpy.array(column, dtype=numpy.uint64) for k, column in enumerate(columns.values())})


def figures_of(path):
    """Of a report's file the figures of its head, its latencies and each name: COUNT SUM GREATEST ONPATH ONPATHSUM."""
    found = {}
    for fields in read_rows(path):
        if fields[0] == "report":
            found["head"] = [int(field.split("=")[1]) for field in fields[1:]]
        elif fields[0] == "latency":
            found["latency"] = [int(fields[k]) for k in (1, 2, 4)] + [0, 0]
        elif fields[0] == "segment":
            found["\t".join(fields[1:4])] = [int(fields[k]) for k in (4, 5, 7, 8, 9)]
    return found


def add_figures(several):
    """Adds figures up, in Python's numbers, which don't overflow; the third is the greatest of all."""
    total = {}
    for figures in several:
        for key, new in (figures_of(figures) if isinstance(figures, str) else figures).items():
            old = total.get(key, [0] * len(new))
            total[key] = [max(a, b) if k == 2 else a + b for k, (a, b) in enumerate(zip(old, new))]
    return total


def count_digits(paths, known, shift):
    """Of the values of each name that begin with its known digits, how many have each next digit, of 8 bits."""
    counts = {}
    for path in paths:
        with numpy.load(path) as columns:
            for k, name in enumerate(columns["names"].tolist()):
                values = columns[f"v{k}"] >> numpy.uint64(shift)
                if shift < 56:
                    values = values[values >> numpy.uint64(8) == numpy.uint64(known.get(name, 0))]
                digits = (values & numpy.uint64(255)).astype(numpy.int64)
                counts[name] = counts.get(name, 0) + numpy.bincount(digits, minlength=256)
    return counts


def add_counts(several):
    total = {}
    for counts in several:
        for name, new in counts.items():
            total[name] = total.get(name, 0) + new
    return total


# --- What the job makes of them ---

def medians(count, figures):
    """The exact median of each name, of two in the middle the lower: by histograms of 8 bits, the highest first.

    `count(known, shift)` has `count_digits` of all values.
    """
    known = {}
    ranks = {name: (row[0] - 1) // 2 for name, row in figures.items() if name != "head" and row[0]}
    greatest = max((figures[name][2] for name in ranks), default=0)
    for shift in range(8 * ((max(greatest.bit_length(), 1) - 1) // 8), -1, -8):
        counts = count(known, shift)
        for name in ranks:
            below = numpy.cumsum(counts[name])
            digit = int(numpy.searchsorted(below, ranks[name], side="right"))
            ranks[name] -= int(below[digit - 1]) if digit else 0
            known[name] = known.get(name, 0) * 256 + digit
    return known


def report_rows(figures, middle):
    traces, critical = figures.get("head", [0, 0])
    yield "report", f"traces={traces}", f"critical={critical}"
    for name in ["latency", *sorted(set(figures) - {"latency", "head"}, key=lambda n: n.encode().split(b"\t"))]:
        count, total, greatest, on, on_sum = figures.get(name, [0] * 5)
        row = [count, total, middle.get(name, 0), greatest]
        yield [name, *row] if name == "latency" else ["segment", name, *row, on, on_sum]
