"""What `mystery evidence` prints, restated plainly from the definitions, for inputs of one machine without bad lines.

Every pair of names and of tasks is looked at in every trace, by itself: no tables, no bits, no shared passes."""

import json

DAY = 86_400 * 10**9


def element_of(event):
    return event.split("@", 1)[1] if "@" in event else None


def trace_of(lines, grace):
    """The trace of one request's events, or None where it is refused."""
    seen = set()
    for line in lines:
        if (line["task"], line["event"]) in seen:
            return None
        seen.add((line["task"], line["event"]))
    tasks = {}
    for line in lines:
        tasks.setdefault(line["task"], []).append(line)
    segments = []
    for first, (task, events) in enumerate(tasks.items()):
        events = sorted(events, key=lambda line: line["nanos"])
        for place, (one, next_one) in enumerate(zip(events, events[1:])):
            segments.append((one["nanos"], next_one["nanos"], first, place, (task, one["event"], next_one["event"])))
    segments.sort(key=lambda s: s[:4])
    return {"request": lines[0]["request"], "day": lines[0]["nanos"] // DAY, "grace": grace * 1000,
            "segments": [(start, end, name, name[0], element_of(name[1])) for start, end, _, _, name in segments]}


def kept_of(text):
    """The kept traces after all lines, by day and then as they were taken, and what control lines printed."""
    kept, batch, grace, printed = [], {}, 0, []

    def add():
        for lines in batch.values():
            trace = trace_of(lines, grace)
            if trace is None:
                seen = set()
                for line in lines:
                    if (line["task"], line["event"]) in seen:
                        printed.append(("refused", line["request"], "repeated event", line["number"]))
                        break
                    seen.add((line["task"], line["event"]))
            else:
                kept.append(trace)
        batch.clear()

    for number, raw in enumerate(text.splitlines(), 1):
        line = json.loads(raw)
        line["number"] = number
        if line.get("do") == "add":
            add()
        elif line.get("do") == "grace":
            grace = line["micros"]
        elif line.get("do") == "drop":
            gone = [t for t in kept if t["day"] == line["day"]]
            kept[:] = [t for t in kept if t["day"] != line["day"]]
            printed.append(("drop", line["day"], len(gone)))
        else:
            batch.setdefault(line["request"], []).append(line)
    add()
    return sorted(kept, key=lambda t: t["day"]), printed


def named(trace, name):
    return next((s for s in trace["segments"] if s[2] == name), None)


def early(trace, one, other):
    """The other starts before the one ends, by more than the grace: `one before other` is refuted."""
    return other[0] - one[1] < -trace["grace"]


def elements(trace, task):
    """Of each element of the task the index of its first segment and of its last."""
    found = {}
    for index, (_, _, _, t, e) in enumerate(trace["segments"]):
        if t == task and e is not None:
            found.setdefault(e, [index, index])[1] = index
    return found


def refutes_pipe(trace, task, other):
    mine, theirs, segments = elements(trace, task), elements(trace, other), trace["segments"]
    both = [e for e in mine if e in theirs]
    if any(early(trace, segments[mine[e][1]], segments[theirs[e][0]]) for e in both):
        return True
    return any(mine[e][0] < mine[f][0] and theirs[f][0] < theirs[e][0] for e in both for f in both)


def reach(rows):
    """Which places each place reaches, itself among them."""
    places = {p for row in rows for p in row}
    found = {p: {p} for p in places}
    for _ in places:
        for a, b in rows:
            for seen in found.values():
                if a in seen:
                    seen |= found[b]
    return found


def few(refuted, traces):
    return 0 < 100 * refuted <= traces


def first_of(kept, refutes):
    """The day, the index among those of its day and the request of the first trace that refutes."""
    trace = next(t for t in kept if refutes(t))
    day = [t for t in kept if t["day"] == trace["day"]]
    return trace["day"], next(i for i, t in enumerate(day) if t is trace), trace["request"]


def text_of(text, least=0, reduced=False):
    kept, rows = kept_of(text)
    names = sorted({s[2] for t in kept for s in t["segments"]}, key=lambda n: [x.encode() for x in n])
    tasks = sorted({s[3] for t in kept for s in t["segments"] if s[4] is not None}, key=str.encode)
    orders, exclusions, pipes, nearly = [], [], [], ([], [], [])
    for i, a in enumerate(names):
        for j, b in enumerate(names):
            met = [(t, named(t, a), named(t, b)) for t in kept if named(t, a) and named(t, b)]
            if i == j or not met or len(met) < least:
                continue
            before = sum(early(t, s, r) for t, s, r in met)
            after = sum(early(t, r, s) for t, s, r in met)
            overlap = sum(early(t, s, r) and early(t, r, s) for t, s, r in met)
            gaps = [r[0] - s[1] for _, s, r in met]
            if before == 0:
                orders.append((len(met), i, j, ("hb", *a, *b, len(met), min(gaps), max(gaps))))
            if i < j and overlap == 0 and before and after:
                nearest = min(max(r[0] - s[1], s[0] - r[1]) for _, s, r in met)
                exclusions.append((len(met), i, j, ("mx", *a, *b, len(met), len(met) - before, len(met) - after, nearest)))
            if few(before, len(met)):
                who = first_of(kept, lambda t: named(t, a) and named(t, b) and early(t, named(t, a), named(t, b)))
                nearly[0].append((len(met), i, j, ("nearly", "before", *a, *b, len(met), before, *who)))
            if i < j and few(overlap, len(met)):
                who = first_of(kept, lambda t: named(t, a) and named(t, b) and early(t, named(t, a), named(t, b))
                               and early(t, named(t, b), named(t, a)))
                nearly[1].append((len(met), i, j, ("nearly", "exclusive", *a, *b, len(met), overlap, *who)))
    for i, task in enumerate(tasks):
        for j, other in enumerate(tasks):
            shared = [len(elements(t, task).keys() & elements(t, other).keys()) for t in kept]
            traces = sum(n > 0 for n in shared)
            if i == j or not traces or traces < least:
                continue
            refuted = sum(refutes_pipe(t, task, other) for t in kept)
            if refuted == 0:
                pipes.append((traces, i, j, ("pipe", task, other, traces, sum(shared))))
            if few(refuted, traces):
                who = first_of(kept, lambda t: refutes_pipe(t, task, other))
                nearly[2].append((traces, i, j, ("nearly", "pipe", task, other, traces, refuted, *who)))
    if reduced:
        found = reach([row[1:3] for row in orders])
        orders = [row for row in orders
                  if not any(p in found[row[1]] and row[2] in found[p] and row[1] not in found[p] and p not in found[row[2]]
                             for p in found)]
    told = [sorted(kind, key=lambda row: (-row[0], row[1], row[2])) for kind in (orders, exclusions, pipes, *nearly)]
    count = [len(kind) for kind in told]
    rows.append(("evidence", f"traces={len(kept)}", f"hb={count[0]}", f"mx={count[1]}", f"pipe={count[2]}", f"nearly={sum(count[3:])}"))
    rows += [row for kind in told for *_, row in kind]
    return "".join("\t".join(map(str, row)) + "\n" for row in rows)
