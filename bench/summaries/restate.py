"""What `mystery [--given FILE]... COMMAND FILE` prints, restated plainly from the definitions.

Every pair of segments is looked at in every trace, and every chain of every graph is tried: no tables, no bits, no
numbers for names. The lines and the clocks are read by the restatement of `inspect`, here `lines`; what one trace
refutes is that of `evidence`, here `pairs`."""

import importlib.util
import os

from digests import MOST, BadSummary, by_bytes, empty, merged, read, text_of

BENCH = os.path.dirname(os.path.dirname(os.path.abspath(__file__)))


def restated(folder):
    """The restatement in another folder of bench/."""
    spec = importlib.util.spec_from_file_location(f"{folder}_restate", os.path.join(BENCH, folder, "restate.py"))
    module = importlib.util.module_from_spec(spec)
    spec.loader.exec_module(module)
    return module


lines, pairs = restated("inspect"), restated("evidence")


# --- Traces ---

def repeated(trace, reason):
    """The number of the first line that repeats what the reason speaks of."""
    keys = {"repeated event": lambda e: (e["task"], e["event"]), "repeated send": lambda e: e["send"],
            "repeated receive": lambda e: e["recv"]}
    seen = set()
    for event in trace:
        key = keys[reason](event)
        if key in seen and key is not None:
            return event["number"]
        seen.add(key)
    return None


def trace_of(events, grace):
    """The trace of one request's events, or the reason and the number of its refusal."""
    fault, found = lines.verdict(events)
    clock = lines.clocks(events) if fault in (None, "clock out of range") else {}
    times = [e["time"] - clock.get(e["machine"], (0, 0))[0] for e in events]
    if fault == "too many events":
        return None, (fault, len(events))
    if fault == "clock out of range":
        far = [e["number"] for e, time in zip(events, times) if not -lines.LATEST <= time <= 2 * lines.LATEST]
        return None, (fault, far[0])
    if fault:
        return None, (fault, repeated(events, fault))
    segments = [(a[1], b[1], place, (a[0]["task"], a[0]["event"], b[0]["event"])) for place, (a, b) in enumerate(found)]
    segments.sort(key=lambda s: s[:3])
    return {"request": events[0]["request"], "day": events[0]["time"] // pairs.DAY, "grace": 1000 * grace,
            "latency": max(times) - min(times),
            "segments": [(a, b, name, name[0], pairs.element_of(name[1])) for a, b, _, name in segments]}, None


# --- Summaries ---

def summary_of(kept):
    """The summary of these traces."""
    found = empty()
    for trace in kept:
        found["traces"] += 1
        found["days"].add(trace["day"])
        segments = trace["segments"]
        tasks = {s[3] for s in segments}
        found["names"] |= {s[2] for s in segments}
        found["tasks"] |= tasks
        for one in segments:
            for other in segments:
                if one[2] == other[2]:
                    continue
                pair = one[2], other[2]
                found["together"].add(pair)
                if pairs.early(trace, one, other):
                    found["before"].add(pair)
                    if pairs.early(trace, other, one):
                        found["exclusive"] |= {pair, pair[::-1]}
        for one in tasks:
            for other in tasks - {one}:
                if pairs.elements(trace, one).keys() & pairs.elements(trace, other).keys():
                    found["shared"].add((one, other))
                    if pairs.refutes_pipe(trace, one, other):
                        found["pipe"].add((one, other))
    return found


# --- What is printed of traces ---

def row(*fields):
    return "\t".join(map(str, fields)) + "\n"


def median(values):
    """Of two in the middle the lower."""
    return sorted(values)[(len(values) - 1) // 2] if values else 0


def edges_of(trace, known):
    """The edges of a trace: the first of two comes first, and nothing refutes that they are mutually exclusive."""
    names = [s[2] for s in trace["segments"]]
    return {(i, j) for j in range(len(names)) for i in range(j) if (names[i], names[j]) not in known["exclusive"]}


def chains_from(v, count, edges):
    """All chains that begin with this vertex in lexicographic order, a shorter one before those that begin with it."""
    yield (v,)
    for after in range(v + 1, count):
        if (v, after) in edges:
            for rest in chains_from(after, count, edges):
                yield (v, *rest)


def chains_of(trace, known):
    """All chains of a trace in that order, the empty one first."""
    count, edges = len(trace["segments"]), edges_of(trace, known)
    return [(), *(chain for v in range(count) for chain in chains_from(v, count, edges))]


def length_of(chain, lasting):
    return sum(lasting[v] for v in chain)


def lasting_of(trace):
    return [s[1] - s[0] for s in trace["segments"]]


def path_of(trace, known):
    """The first of the longest chains, and its length."""
    lasting = lasting_of(trace)
    path = max(chains_of(trace, known), key=lambda c: length_of(c, lasting))
    return path, length_of(path, lasting)


def model_text(known):
    """The model of all traces of a summary."""
    names = sorted(known["names"], key=by_bytes)
    tasks = sorted(known["tasks"], key=str.encode)
    hb = [(a, b) for a in names for b in names if (a, b) in known["together"] and (a, b) not in known["before"]]
    mx = [(a, b) for k, a in enumerate(names) for b in names[k:] if (a, b) in known["together"]
          and (a, b) in known["before"] and (b, a) in known["before"] and (a, b) not in known["exclusive"]]
    pipe = [(t, u) for t in tasks for u in tasks if (t, u) in known["shared"] and (t, u) not in known["pipe"]]
    head = row("model", f"traces={known['traces']}", f"days={len(known['days'])}", f"segments={len(names)}",
               f"tasks={len(tasks)}", f"hb={len(hb)}", f"mx={len(mx)}", f"pipe={len(pipe)}")
    return head + "".join([row("hb", *a, *b) for a, b in hb] + [row("mx", *a, *b) for a, b in mx]
                          + [row("pipe", t, u) for t, u in pipe])


def paths_text(kept, known):
    text = row("paths", f"traces={len(kept)}")
    for trace in kept:
        path, length = path_of(trace, known)
        text += row("path", trace["request"], trace["day"], trace["latency"], length, len(path))
        text += "".join(row("step", *trace["segments"][v][2], lasting_of(trace)[v]) for v in path)
    return text


def slack_text(kept, known):
    text = row("slack", f"traces={len(kept)}")
    for trace in kept:
        lasting = lasting_of(trace)
        lengths = [(c, length_of(c, lasting)) for c in chains_of(trace, known)]
        most = max(length for _, length in lengths)
        text += row("trace", trace["request"], trace["day"], trace["latency"], most)
        for v, segment in enumerate(trace["segments"]):
            through = max(length for chain, length in lengths if v in chain)
            text += row("segment", *segment[2], lasting[v], most - through)
    return text


def graph_text(kept, known):
    text = row("graph", f"traces={len(kept)}")
    for trace in kept:
        joined_by_more = {(c[0], c[-1]) for c in chains_of(trace, known) if len(c) > 2}
        told = sorted(edges_of(trace, known) - joined_by_more)
        text += row("trace", trace["request"], trace["day"], trace["latency"], len(trace["segments"]), len(told))
        text += "".join(row("vertex", v, *s[2], lasting_of(trace)[v]) for v, s in enumerate(trace["segments"]))
        text += "".join(row("edge", *edge) for edge in told)
    return text


def names_in(kept):
    return sorted({s[2] for trace in kept for s in trace["segments"]}, key=by_bytes)


def with_paths(kept, known):
    return [(trace, path_of(trace, known)[0]) for trace in kept]


def on_paths(traces, name):
    """How long the segments of a name last on the critical paths of traces."""
    return [lasting_of(t)[v] for t, path in traces for v in path if t["segments"][v][2] == name]


def report_text(kept, known):
    walked = with_paths(kept, known)
    text = row("report", f"traces={len(kept)}", f"critical={sum(lasting_of(t)[v] for t, path in walked for v in path)}")
    late = [t["latency"] for t in kept]
    text += row("latency", len(late), sum(late), median(late), max(late, default=0))
    for name in names_in(kept):
        lasting = [s[1] - s[0] for t in kept for s in t["segments"] if s[2] == name]
        on = on_paths(walked, name)
        text += row("segment", *name, len(lasting), sum(lasting), median(lasting), max(lasting), len(on), sum(on))
    return text


def tail_text(kept, known):
    order = sorted(range(len(kept)), key=lambda k: (kept[k]["latency"], k))
    count = (len(kept) + 19) // 20
    slow = with_paths([kept[k] for k in order[len(kept) - count:]], known)
    rest = with_paths([kept[k] for k in order[:len(kept) - count]], known)
    text = row("tail", f"traces={len(kept)}", f"slow={count}", f"floor={min((t['latency'] for t, _ in slow), default=0)}")
    for name in names_in(kept):
        on, off = on_paths(slow, name), on_paths(rest, name)
        text += row("segment", *name, len(on), sum(on), len(off), sum(off))
    return text


def whatif_text(kept, known, words):
    name, part, of = tuple(words[:3]), int(words[3]), int(words[4])
    rows, sums = "", [0, 0]
    for trace in kept:
        lasting, found = lasting_of(trace), chains_of(trace, known)
        changed = [part * d // of if s[2] == name else d for d, s in zip(lasting, trace["segments"])]
        lengths = [max(length_of(c, durations) for c in found) for durations in (lasting, changed)]
        rows += row("forecast", trace["request"], trace["day"], *lengths)
        sums = [a + b for a, b in zip(sums, lengths)]
    return row("whatif", f"traces={len(kept)}", f"before={sums[0]}", f"after={sums[1]}") + rows


VIEWS = {"paths": paths_text, "slack": slack_text, "graph": graph_text, "report": report_text, "tail": tail_text}


def view_text(kept, given, words):
    """What a command prints of kept traces under a given summary."""
    known = merged(given, summary_of(kept))
    if words[0] == "model":
        return model_text(known)
    if words[0] == "summarize":
        return text_of(known)
    if words[0] == "whatif":
        return whatif_text(kept, known, words[1:])
    return VIEWS[words[0]](kept, known)


# --- A run ---

def limit_of(names, tasks, days, traces):
    """The message on the first limit that these pass; nothing where they pass none."""
    if len(names) > 512:
        return f"limit: {len(names)} segment names\n"
    if len(tasks) > 64:
        return f"limit: {len(tasks)} tasks\n"
    if len(days) > 64:
        return f"limit: {len(days)} days\n"
    return f"limit: {MOST} traces\n" if traces >= MOST else ""


def joined(files):
    """The bytes of files, one behind another: one that does not end its last line gets a line feed."""
    return b"".join(data + b"\n" if data and not data.endswith(b"\n") else data for data in files)


def cut(batch, grace):
    """The traces of a batch, and the rows of those that are refused."""
    added, refused = [], ""
    for events in batch.values():
        trace, refusal = trace_of(events, grace)
        if refusal:
            refused += row("refused", events[0]["request"], *refusal)
        else:
            added.append(trace)
    return added, refused


def run(words, files, given=()):
    """What a run on good lines prints, after given files: the status, the text and the message."""
    data, known = joined(files), empty()
    try:
        for summary in read(joined(given)) if given else []:
            known = merged(known, summary)
    except BadSummary as bad:
        return 3, "", f"line {bad}: bad summary\n"
    names, tasks = set(known["names"]), set(known["tasks"])
    if limit := limit_of(names, tasks, set(), known["traces"]):
        return 6, "", limit
    kept, batch, grace, text = [], {}, 0, ""
    for number, line in enumerate([*data.split(b"\n"), b'{"do":"add"}'], 1):
        if not line.strip():
            continue
        value = lines.read_value(line)[0]
        todo = value.get("do")
        if todo is None:
            event = {**lines.judge(line)[1], "number": number}
            batch.setdefault(event["request"], []).append(event)
        elif todo == "add":
            added, refused = cut(batch, grace)
            for trace in added:
                names |= {s[2] for s in trace["segments"]}
                tasks |= {s[3] for s in trace["segments"]}
                if limit := limit_of(names, tasks, set(), 0):
                    return 6, text, limit
            if limit := limit_of(names, tasks, {t["day"] for t in kept + added}, known["traces"] + len(kept) + len(added)):
                return 6, text, limit
            text += refused
            kept = sorted(kept + added, key=lambda t: t["day"])
            batch = {}
        elif todo == "grace":
            grace = value["micros"]
        elif todo == "drop":
            left = [t for t in kept if t["day"] != value["day"]]
            text += row("drop", value["day"], len(kept) - len(left))
            kept = left
        else:
            text += view_text(kept, known, [todo])
    return 0, text + view_text(kept, known, words), ""
