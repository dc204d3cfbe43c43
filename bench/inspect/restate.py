"""A short restatement of `mystery inspect`: the rows of files, worked out in another way than by the
program. `restate.py FILE...` prints them, `--lines` those on lines alone."""

import json
import re
import sys
from collections import Counter, defaultdict

LATEST = 4102444800000000000
DAY = 86400 * 10**9
REASONS = ["not a JSON object", "missing member", "wrong kind", "out of range", "bad text", "unknown command"]
FAULTS = ["too many events", "repeated event", "repeated send", "repeated receive", "clock out of range"]
NUMBERS = {"drop": "day", "keep": "days", "watch": "every", "grace": "micros"}
PLAIN = ["add", "model", "paths", "slack", "report", "graph", "summarize"]


def fail(word):
    raise ValueError(word)


def read_value(line):
    """The JSON value of a line, or None in a list where it has none."""
    try:
        return [json.loads(line.decode("utf-8"), parse_constant=fail)]
    except (ValueError, RecursionError):
        return None


def is_text(value):
    return isinstance(value, str)


def is_whole(value):
    return isinstance(value, int) and not isinstance(value, bool) and -(2**63) <= value < 2**64


def is_bad(text):
    raw = text.encode("utf-8", "surrogatepass")
    return not 1 <= len(raw) <= 64 or any(byte < 32 or byte == 127 for byte in raw)


def judge_number(value, member, most):
    if member not in value:
        return "missing member", member
    if not is_whole(value[member]):
        return "wrong kind", member
    if not 0 <= value[member] <= most:
        return "out of range", member
    return None


def judge_control(value):
    name = value["do"]
    if not is_text(name):
        return "wrong kind", "do"
    if name in NUMBERS:
        return judge_number(value, NUMBERS[name], 1000000)
    return None if name in PLAIN else ("unknown command", "do")


def judge_event(value):
    time = "nanos" if value.get("nanos") is not None else "time"
    needed = ["request", "machine", "task", "event"]
    for member in needed + [time]:
        if member not in value:
            return "missing member", member
    for member in needed:
        if not is_text(value[member]):
            return "wrong kind", member
    if not is_whole(value[time]):
        return "wrong kind", time
    given = [member for member in ("send", "recv") if value.get(member) is not None]
    for member in given:
        if not is_text(value[member]):
            return "wrong kind", member
    if not 0 <= value[time] <= LATEST // (1 if time == "nanos" else 1000):
        return "out of range", time
    for member in needed + given:
        if is_bad(value[member]):
            return "bad text", member
    return None


def judge(line):
    """What a line that is not blank says: an event, a control line (None) or a fault."""
    value = read_value(line)
    if value is None or not isinstance(value[0], dict):
        return ("not a JSON object", "-"), None
    value = value[0]
    if "do" in value:
        return judge_control(value), None
    fault = judge_event(value)
    if fault:
        return fault, None
    nanos = value["nanos"] if value.get("nanos") is not None else value["time"] * 1000
    return None, {**{m: value[m] for m in ("request", "machine", "task", "event")}, "time": nanos,
                  "send": value.get("send"), "recv": value.get("recv")}


def share(count, of):
    return "ok" if count == 0 else "note" if 100 * count < of else "warn"


def row(kind, level, count, of, example, what):
    return "\t".join([kind, level, str(count), str(of), example, what])


def line_rows(names, files, events):
    """The rows on lines; appends the events to a list."""
    filled, reasons, bad = 0, defaultdict(int), []
    for name, data in zip(names, files):
        shown = bytes(63 if byte < 32 or byte == 127 else byte for byte in name.encode()).decode()
        for number, line in enumerate(data.split(b"\n"), 1):
            if not line.strip(b" \t\r"):
                continue
            filled += 1
            fault, event = judge(line)
            if fault:
                reasons[fault[0]] += 1
                bad.append("\t".join(["bad", "warn", shown, str(number), *fault]))
            elif event:
                events.append(event)
    rows = [row("lines", "ok" if events else "warn", len(events), filled, "-", "event lines")]
    rows += [row("lines", "warn", reasons[why], filled, "-", why) for why in REASONS if reasons[why]]
    return rows + bad[:100]


def clocks(trace):
    """For each machine of a trace, as far as pairings lead to it, its offset and the round trip to its parent."""
    sent = {e["send"]: e for e in trace if e["send"] is not None}
    least = {}
    for r in trace:
        s = sent.get(r["recv"]) if r["recv"] is not None else None
        if s and s["machine"] != r["machine"]:
            key = s["machine"], r["machine"]
            least[key] = min(least.get(key, r["time"] - s["time"]), r["time"] - s["time"])
    found, frontier = {trace[0]["machine"]: (0, 0)}, [trace[0]["machine"]]
    while frontier:
        after = {}
        for m in {n for m, n in least} - set(found):
            parents = sorted((p for p in frontier if (p, m) in least and (m, p) in least), key=str.encode)
            if parents:
                there, back = least[parents[0], m], least[m, parents[0]]
                after[m] = found[parents[0]][0] + (there - back) // 2, there + back
        found.update(after)
        frontier = list(after)
    return found


def repeats(keys):
    keys = [key for key in keys if key is not None]
    return len(set(keys)) < len(keys)


def verdict(trace):
    """The fault of a trace, or none, and its segments: their two events, each with its adjusted time."""
    if len(trace) > 4096:
        return FAULTS[0], []
    if repeats([(e["task"], e["event"]) for e in trace]):
        return FAULTS[1], []
    if repeats([e["send"] for e in trace]):
        return FAULTS[2], []
    if repeats([e["recv"] for e in trace]):
        return FAULTS[3], []
    clock = clocks(trace)
    keys = [(e["time"] - clock.get(e["machine"], (0, 0))[0], k) for k, e in enumerate(trace)]
    if any(not -LATEST <= time <= 2 * LATEST for time, _ in keys):
        return FAULTS[4], []
    tasks = {event["task"]: [] for event in trace}
    for key, event in sorted(zip(keys, trace), key=lambda pair: pair[0]):
        tasks[event["task"]].append((event, key[0]))
    return None, [pair for events in tasks.values() for pair in zip(events, events[1:])]


def is_wait(segment):
    return segment[0][0]["send"] is not None and segment[1][0]["recv"] is not None


def first(tests, requests):
    return next((request for test, request in zip(tests, requests) if test), "-")


def count_row(kind, level, tests, of, requests, what):
    count = sum(map(bool, tests))
    return row(kind, level(count, of), count, of, first(tests, requests), what)


def cut_traces(traces):
    """Whether each trace lacks an event that nine of ten of its group have, and how many traces are in groups."""
    groups = defaultdict(list)
    for k, trace in enumerate(traces):
        groups[trace[0]["task"], trace[0]["event"]].append(k)
    cut, of = [False] * len(traces), 0
    for members in groups.values():
        if len(members) < 10:
            continue
        of += len(members)
        names = [{(e["task"], e["event"]) for e in traces[k]} for k in members]
        usual = {n for n in set().union(*names) if 10 * sum(n in some for some in names) >= 9 * len(members)}
        for k, some in zip(members, names):
            cut[k] = not usual <= some
    return cut, of


def clock_rows(traces, requests, faults):
    """The rows on clocks: of each trace whose events and messages have no fault, what is told of each machine but that
    of its first event."""
    told = []
    for request, trace, fault in zip(requests, traces, faults):
        if fault in (None, FAULTS[4]):
            found = clocks(trace)
            for machine in dict.fromkeys(e["machine"] for e in trace if e["machine"] != trace[0]["machine"]):
                told.append((request, machine, found.get(machine)))
    machines = list(dict.fromkeys(machine for _, machine, _ in told))[:100]
    rows = []
    for machine in [None, *machines]:
        mine = [t for t in told if machine in (None, t[1])]
        known = [clock for _, _, clock in mine if clock]
        lost = [request for request, _, clock in mine if not clock]
        torn = [request for request, _, clock in mine if clock and clock[1] < 0]
        shown = lambda those: machine or (those[0] if those else "-")
        rows.append(row("clock", share(len(lost), len(mine)), len(lost), len(mine), shown(lost), "no offset"))
        rows.append(row("clock", share(len(torn), len(known)), len(torn), len(known), shown(torn), "delays contradict"))
        if machine and known:
            least, greatest = min(known)[0], max(known)[0]
            rows.append(row("clock", "ok", least, greatest, machine, "least and greatest offset"))
    return rows


def trace_rows(events):
    by_request = defaultdict(list)
    for event in events:
        by_request[event["request"]].append(event)
    requests, traces = list(by_request), list(by_request.values())
    count = len(traces)
    times = [e["time"] for e in events] or [0]
    spans = [max(e["time"] for e in t) - min(e["time"] for e in t) for t in traces]
    verdicts = [verdict(t) for t in traces]
    faults = [v[0] for v in verdicts]
    kept = faults.count(None)
    days = max(times) // DAY - min(times) // DAY + 1 if events else 0
    over = lambda n, of: "warn" if n else "ok"
    rows = [
        row("time", "note" if events and max(times) < 365 * DAY else "ok", min(times), max(times), "-", "least and greatest"),
        row("time", "ok", days, count, "-", "days"),
        count_row("time", lambda n, of: "warn" if 0 < n == of else "ok", [s == 0 for s in spans], count, requests, "no time passes"),
        count_row("time", over, [s > DAY for s in spans], count, requests, "longer than a day"),
        row("traces", "ok" if kept == count else "note" if kept else "warn", kept, count, "-", "valid"),
    ]
    rows += [count_row("refused", share, [f == why for f in faults], count, requests, why) for why in FAULTS if why in faults]
    slow = [20 * sum(s > span for s in spans) < count for span in spans]
    lost = lambda n, of: "ok" if n == 0 else "warn" if n * count > 2 * (count - kept) * of else "note"
    rows.append(count_row("refused", lost, [s and f is not None for s, f in zip(slow, faults)], sum(slow), requests, "slowest twentieth"))
    rows += clock_rows(traces, requests, faults)
    for end, other, what in (("send", "recv", "never received"), ("recv", "send", "never sent")):
        missing = [sum(e[end] is not None and e[end] not in {x[other] for x in t} for e in t) for t in traces]
        of = sum(e[end] is not None for e in events)
        rows.append(row("message", share(sum(missing), of), sum(missing), of, first(missing, requests), what))
    cut, of = cut_traces(traces)
    rows.append(count_row("cut", share, cut, of, requests, "lacks what nine of ten have"))
    waits, segments = [sum(map(is_wait, v[1])) for v in verdicts], sum(len(v[1]) for v in verdicts)
    rows.append(row("wait", share(sum(waits), segments), sum(waits), segments, first(waits, requests), "from a send to a receipt"))
    segments = [v[1] for v in verdicts]
    return rows + name_rows(segments) + grace_rows(segments, requests)


def name_of(segment):
    return segment[0][0]["task"], segment[0][0]["event"], segment[1][0]["event"]


def label(name):
    return "%s: %s -> %s" % name if isinstance(name, tuple) else name


def pattern(text):
    """What is left of a text where ids may stand: runs that touch are one."""
    marked = list(text)
    for run in ("[0-9]+", "[0-9a-fA-F]{8,}", "[0-9a-fA-F-]{36,}", "(?<=@).+"):
        for found in re.finditer(run, text, re.S):
            marked[found.start():found.end()] = ["\0"] * (found.end() - found.start())
    return re.sub("\0+", "{}", "".join(marked))


def kind_rows(kind, seen, limit, what):
    """The rows on names or tasks, each as often as it is seen, against their limit."""
    different = list(dict.fromkeys(seen))
    over = len(different) > limit
    rows = [row(kind, "warn" if over else "ok", len(different), limit, label(different[limit]) if over else "-", what)]
    if kind == "name":
        counts = Counter(seen)
        alone = [name for name in different if counts[name] == 1]
        example = label(alone[0]) if alone else "-"
        rows.append(row(kind, "note" if alone else "ok", len(alone), len(different), example, "in one trace alone"))
    families = defaultdict(list)
    for name in different:
        families[label(tuple(map(pattern, name)) if kind == "name" else pattern(name))].append(name)
    large = sorted((p for p in families if len(families[p]) >= 10), key=lambda p: -len(families[p]))
    return rows + [row(kind, "note", len(families[p]), len(different), label(families[p][0]), p) for p in large[:100]]


def grace_rows(traces, requests):
    """The rows on relations that few traces refute, all of these by little."""
    names = list(dict.fromkeys(name_of(s) for t in traces for s in t))
    if len(names) > 512 or len({name[0] for name in names}) > 64:
        return ["\t".join(["grace", "note", "-", "-", "-", "too many names or tasks"])]
    gaps = defaultdict(list)
    for request, trace in zip(requests, traces):
        for one in trace:
            for other in trace:
                gap, back = other[0][1] - one[1][1], one[0][1] - other[1][1]
                gaps[name_of(one), name_of(other)].append((request, gap, max(gap, back)))
    rows, met = [], 0
    for a, one in enumerate(names):
        for b, other in enumerate(names):
            meetings = gaps.get((one, other), [])
            for at, told, kind in ((1, a != b, "happens before"), (2, a < b, "excludes")):
                refuted = [m for m in meetings if m[at] < 0]
                met += told and len(meetings) > 0
                if told and 0 < 100 * len(refuted) < len(meetings) and min(m[at] for m in refuted) > -(10**6):
                    micros = next(n for n in range(1001) if all(m[at] >= -1000 * n for m in refuted))
                    what = "%s | %s | %s | survives with a grace of %d" % (label(one), kind, label(other), micros)
                    rows.append(row("grace", "note", len(refuted), len(meetings), refuted[0][0], what))
    return [row("grace", "note" if rows else "ok", len(rows), met, "-", "refuted by few, by less than 1 ms")] + rows[:100]


def name_rows(segments):
    seen = [name_of(s) for trace in segments for s in trace]
    return kind_rows("name", seen, 512, "segment names") + kind_rows("task", [name[0] for name in seen], 64, "tasks")


def rows_of(names, files, lines_alone=False):
    events = []
    rows = line_rows(names, files, events)
    return rows if lines_alone else rows + trace_rows(events)


if __name__ == "__main__":
    words = [word for word in sys.argv[1:] if word != "--lines"]
    for text in rows_of(words, [open(word, "rb").read() for word in words], "--lines" in sys.argv):
        print(text)
