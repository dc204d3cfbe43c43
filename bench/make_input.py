#!/usr/bin/env python3
"""Makes benchmark inputs for the analyser `mystery`.

    make_input.py KIND OUT [--size S] [--seed N] [--refused R] [--no-elements]

KIND is wide, deep, days or pipes; S scales the number of traces (1.0 is the
full size, the same S and N give the same bytes); R is the share of traces that
get a repeated event and so are refused (0 by default). `days` is a session
file with its own control lines, the others hold event lines alone. Without
elements the names of events have a `-` where they would have an `@`.
"""
import argparse
import heapq
import random

DAY = 86_400_000_000
START = 19_800 * DAY
LIMIT = 67_108_864


def line(request, machine, task, event, clock, more):
    return f'{{"request":"{request}","machine":"{machine}","task":"{task}","event":"{event}",{clock}{more}}}\n'


class Trace:
    """Events of one request; a machine's clock differs by its skew. With random
    numbers a quarter of the lines are of version 2, with an odd nanosecond."""

    def __init__(self, request, base, skew, rnd=None):
        self.request, self.base, self.skew, self.rnd = request, base, skew, rnd
        self.rows = []

    def add(self, machine, task, event, at, more=""):
        time = self.base + at + self.skew[machine]
        clock = f'"time":{time}'
        if self.rnd and self.rnd.random() < 0.25:
            clock = f'"nanos":{1000 * time + self.rnd.randrange(1, 1000, 2)}'
        self.rows.append((at, line(self.request, machine, task, event, clock, more)))

    def lines(self, rnd, refused):
        self.rows.sort(key=lambda r: r[0])
        rows = [(self.base + at, text) for at, text in self.rows]
        if rnd.random() < refused:
            rows.append((rows[-1][0] + 1, rows[0][1]))
        return rows


def interleave(traces):
    """The lines of some traces as one log, by true time."""
    return [text for _, text in heapq.merge(*traces, key=lambda r: r[0])]


# -- wide: many short traces, about 100 names -----------------------------------

BACK = ["profiles", "photos", "search", "feed", "notify", "graph", "pricing", "auction", "spelling", "geo", "flags",
        "comments", "video", "quota", "audit", "recommend", "inbox", "translate", "weather", "history", "billing",
        "coupons", "stock", "shipping", "reviews", "wishlist", "events", "groups", "pages", "places", "stories",
        "stickers", "polls", "badges", "trends", "archive"]


def wide_trace(rnd, k, base):
    skew = {"phone": 0, "web07": rnd.randrange(-4000, 4000), "store12": rnd.randrange(-4000, 4000)}
    t = Trace(f"req{k:07d}", base, skew, rnd)
    send = lambda name: f',"send":"{name}{k}"'
    recv = lambda name: f',"recv":"{name}{k}"'
    c, w, s = skew
    t.add(c, "browser", "click", 0)
    at = rnd.randrange(100, 900)
    t.add(c, "browser", "sent", at, send("q"))
    at += rnd.randrange(2000, 5000)
    t.add(w, "frontend", "accepted", at, recv("q"))
    at += rnd.randrange(50, 300)
    if rnd.random() < 0.6:
        t.add(w, "frontend", "authorized", at)
        at += rnd.randrange(50, 300)
    t.add(w, "frontend", "asked", at, send("a"))
    # One or two backends run beside each other, those of the page more often.
    page = rnd.randrange(12)
    near = [BACK[(3 * page + i) % len(BACK)] for i in range(3)]
    chosen = [near[rnd.randrange(3)]]
    more = rnd.choice(near + [rnd.choice(BACK)])
    if more not in chosen and rnd.random() < 0.8:
        chosen.append(more)
    done = at
    for i, task in enumerate(chosen):
        b = at + rnd.randrange(100, 160)
        e = b + rnd.randrange(300, 4000)
        t.add(s, task, "received", b, recv("a") if i == 0 else "")
        style = sum(task.encode()) % 3
        if style == 0 and rnd.random() < 0.5:
            t.add(s, task, "missed", (b + e) // 2)
        elif style == 1:
            t.add(s, task, "scanned", (b + e) // 2)
            if i == 0 and rnd.random() < 0.5:
                t.add(s, task, "ranked", (b + 3 * e) // 4)
        t.add(s, task, "replied", e, send("b") if i == 0 else "")
        if i == 0:
            t.add(w, "frontend", "answered", e + rnd.randrange(105, 150), recv("b"))
        done = max(done, e + 150)
    done += rnd.randrange(60, 200)
    t.add(w, "frontend", "render@html", done)
    done += rnd.randrange(500, 3000)
    t.add(w, "frontend", "flushed", done, send("p"))
    done += rnd.randrange(2000, 5000)
    t.add(c, "paint", "first@html", done, recv("p"))
    t.add(c, "paint", "painted", done + rnd.randrange(200, 2000))
    return t


def wide(rnd, size, refused):
    count = max(1, int(42_000 * size))
    out = []
    base = START
    for k in range(0, count, 8):
        group = []
        for i in range(k, min(k + 8, count)):
            base += rnd.randrange(100, 4000)
            group.append(wide_trace(rnd, i, base).lines(rnd, refused))
        out += interleave(group)
        base += 6 * DAY * 8 // count
    return out


# -- deep: few long traces, 60 tasks, 5 machines ---------------------------------


def deep(rnd, size, refused):
    count = max(1, int(360 * size))
    machines = ["gateway", "compute-a", "compute-b", "storage", "analytics"]
    skew = {m: 0 if i == 0 else rnd.randrange(-50_000, 50_000) for i, m in enumerate(machines)}
    tasks = [f"stage{i // 10}-worker{i % 10:02d}" for i in range(60)]
    steps = [9 if i % 3 == 0 else 8 for i in range(60)]  # 500 segments in all
    out = []
    for k in range(count):
        t = Trace(f"batch-{k:05d}", START + k * DAY // 200, skew)
        for j, m in enumerate(machines[1:]):
            t.add(machines[0], "coordinator", f"ping-{m}", 10 * j, f',"send":"ping-{m}-{k}"')
            t.add(m, f"agent-{m}", "pinged", 10 * j + 1000, f',"recv":"ping-{m}-{k}","send":"pong-{m}-{k}"')
            t.add(machines[0], "coordinator", f"pong-{m}", 100 * j + 2000 + rnd.randrange(100), f',"recv":"pong-{m}-{k}"')
        begin = 5_000
        for stage in range(6):
            latest = begin
            for i in range(10 * stage, 10 * stage + 10):
                m = machines[(i * 7 + stage) % 5]
                at = begin + rnd.randrange(0, 400)
                full = steps[i] if rnd.random() < 0.9 else rnd.randrange(4, steps[i])
                for e in range(full + 1):
                    more = ""
                    if e == 0 and i >= 10 and rnd.random() < 0.5:
                        more = f',"recv":"go-{i}-{k}"'
                    if e == full and i < 50:
                        more = f',"send":"go-{i + 10}-{k}"'
                    t.add(m, tasks[i], f"checkpoint-{e}", at, more)
                    at += rnd.randrange(0, 50) if rnd.random() < 0.1 else rnd.randrange(50, 900)
                latest = max(latest, at)
            # Most stages wait for the whole stage before, some start early.
            begin = latest + rnd.randrange(10, 200) if stage != 2 else (begin + latest) // 2
        out += [text for _, text in t.lines(rnd, refused)]
    return out


# -- days: a rolling session -----------------------------------------------------


def days(rnd, size, refused):
    per_add = max(2, int(64 * size))
    out = []
    k = 0

    def add(day, n):
        nonlocal k
        for _ in range(n):
            t = wide_trace(rnd, k, START + day * DAY + rnd.randrange(DAY // 2))
            out.extend(text for _, text in t.lines(rnd, refused))
            k += 1

    def do(text):
        out.append(f'{{"do":{text}}}\n')

    for d in range(64):
        add(d, per_add)
        do('"add"')
        if d % 8 == 7:
            do('"model"')
    # Each further day: drop one, add one, look; now and then only the newest stay.
    # From some day on small overlaps are forgiven.
    day = 64
    for r in range(96):
        if r == 24:
            do('"grace","micros":60')
        do(f'"drop","day":{19_800 + day - 64 + (r * 5) % 17}')
        if r % 4 == 0:
            add(day - 1 - r % 9, max(1, per_add // 4))
        add(day, per_add)
        if r % 16 == 5:
            do('"keep","days":40')
        elif r % 4 == 1:
            do('"keep","days":63')
        do('"keep","days":63')
        do('"add"')
        do('"model"')
        if r % 24 == 11:
            do('"report"')
        if r == 95:
            do('"paths"')
            do('"slack"')
            do('"graph"')
        day += 1
    return out


# -- pipes: many elements --------------------------------------------------------


def pipes(rnd, size, refused):
    count = max(1, int(440 * size))
    elements = [f"{e:02d}" for e in range(38)]
    tasks = [f"filter-{i:02d}" for i in range(12)]
    order = []  # two of the tasks take the elements in an order of their own
    for i in range(len(tasks)):
        mine = list(elements)
        if i in (5, 9):
            a = 7 * i % 30
            mine[a], mine[a + 3] = mine[a + 3], mine[a]
        order.append(mine)
    out = []
    for k in range(count):
        t = Trace(f"stream-{k:06d}", START + k * DAY // 150, {"pipeline-host": 0})
        ready = {e: 0 for e in elements}
        for i, task in enumerate(tasks):
            at = 0
            n = len(elements) if rnd.random() < 0.9 else rnd.randrange(5, len(elements))
            for e in order[i][:n]:
                # Task 7 sometimes takes an element before task 6 let it go.
                early = 40 if i == 7 and rnd.random() < 0.05 else 0
                at = max(at + 1, ready[e] - early)
                t.add("pipeline-host", task, f"take@{e}", at)
                at += rnd.randrange(5, 60)
                ready[e] = at + 61  # the segment ends where the task takes the next one
            t.add("pipeline-host", task, "stop" if n == len(elements) else f"take@{order[i][n]}", at)
            # An element leaves the task when the next one is taken.
            ends = [r[0] for r in t.rows[-n - 1:]]
            for e, end in zip(order[i][:n], ends[1:]):
                ready[e] = end
        out += [text for _, text in t.lines(rnd, refused)]
    return out


KINDS = {"wide": wide, "deep": deep, "days": days, "pipes": pipes}


def make(kind, size=1.0, seed=1, refused=0.0, elements=True):
    data = "".join(KINDS[kind](random.Random(f"{kind} {seed}"), size, refused)).encode()
    if not elements:
        data = data.replace(b"@", b"-")
    assert len(data) <= LIMIT, f"{kind}: {len(data)} bytes are over the limit"
    return data


def main():
    p = argparse.ArgumentParser(description=__doc__, formatter_class=argparse.RawDescriptionHelpFormatter)
    p.add_argument("kind", choices=sorted(KINDS))
    p.add_argument("out")
    p.add_argument("--size", type=float, default=1.0)
    p.add_argument("--seed", type=int, default=1)
    p.add_argument("--refused", type=float, default=0.0)
    p.add_argument("--no-elements", action="store_true")
    a = p.parse_args()
    with open(a.out, "wb") as f:
        f.write(make(a.kind, a.size, a.seed, a.refused, not a.no_elements))


if __name__ == "__main__":
    main()
