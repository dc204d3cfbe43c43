"""What `mystery [--given FILE]... page FILE...` prints, restated plainly from the definitions.

Every chain of every graph is tried, once for each name whose gain is asked, and every pair of names is looked at in
every trace. The lines, the clocks, the reports and what is refuted are read by the restatement of summaries, here
`texts`, which has those of `inspect` and of `evidence` in it.

    restate.py FILE...        prints the page of the files
"""

import importlib.util
import os
import sys

BENCH = os.path.dirname(os.path.dirname(os.path.abspath(__file__)))
sys.path.insert(0, os.path.join(BENCH, "summaries"))


def restated(folder):
    """The restatement in another folder of bench/."""
    spec = importlib.util.spec_from_file_location(f"{folder}_restate", os.path.join(BENCH, folder, "restate.py"))
    module = importlib.util.module_from_spec(spec)
    spec.loader.exec_module(module)
    return module


texts = restated("summaries")
row, pairs = texts.row, texts.pairs


# --- One trace ---

def chains_with_lengths(trace, known):
    """All chains of a trace with their lengths, in lexicographic order; they are kept in the trace."""
    if "chains" not in trace:
        lasting = texts.lasting_of(trace)
        trace["chains"] = [(c, texts.length_of(c, lasting)) for c in texts.chains_of(trace, known)]
    return trace["chains"]


def path_of(trace, known):
    """The first of the longest chains, and its length."""
    return max(chains_with_lengths(trace, known), key=lambda c: c[1])


def slack_at(trace, known, v):
    """By how much the segment could last longer: the longest chain less the longest through it."""
    found = chains_with_lengths(trace, known)
    return max(length for _, length in found) - max(length for chain, length in found if v in chain)


def edges_left(trace, known):
    """How many edges no longer chain goes round."""
    joined = {(c[0], c[-1]) for c, _ in chains_with_lengths(trace, known) if len(c) > 2}
    return len(texts.edges_of(trace, known) - joined)


def loss_at(trace, known, name, part, of):
    """How much shorter the longest chain is if the segment with this name takes a part of its time."""
    lasting = texts.lasting_of(trace)
    lost = [d - part * d // of if s[2] == name else 0 for d, s in zip(lasting, trace["segments"])]
    found = chains_with_lengths(trace, known)
    return max(length for _, length in found) - max(length - sum(lost[v] for v in chain) for chain, length in found)


# --- Ranks ---

def by_latency(kept):
    """The traces, the quickest first; of equal latencies the first kept comes first."""
    return sorted(kept, key=lambda t: t["latency"])


def buckets_of(kept):
    """The traces in at most twenty buckets: of n traces and k buckets those behind which fewer than n / k come are in
    the last, those behind which fewer than 2 n / k come in the one before it, and so on."""
    count, ranked = max(1, min(20, len(kept))), by_latency(kept)
    found = [[] for _ in range(count)]
    for rank, trace in enumerate(ranked):
        later = len(kept) - 1 - rank
        found[count - 1 - later * count // len(kept)].append(trace)
    return found


def ranks_text(kept, known):
    buckets = buckets_of(kept)
    text = row("ranks", f"traces={len(kept)}", f"buckets={len(buckets)}")
    for number, traces in enumerate(buckets):
        late = [t["latency"] for t in traces]
        lengths = [path_of(t, known)[1] for t in traces]
        text += row("bucket", number, len(traces), sum(late), sum(lengths), min(late, default=0))
    for name in texts.names_in(kept):
        text += row("rank", *name, *(sum(time_on(t, known, name) for t in traces) for traces in buckets))
    return text


def time_on(trace, known, name):
    """How long the segment with this name lasts on the critical path of a trace."""
    return sum(texts.lasting_of(trace)[v] for v in path_of(trace, known)[0] if trace["segments"][v][2] == name)


# --- Gains and slacks ---

def gain_text(kept, known):
    text = row("gain", f"traces={len(kept)}", f"critical={sum(path_of(t, known)[1] for t in kept)}")
    for name in texts.names_in(kept):
        losses = [sum(loss_at(t, known, name, part, of) for t in kept) for part, of in [(0, 1), (1, 2)]]
        text += row("gain", *name, *losses)
    return text


def room_text(kept, known):
    text = row("room", f"traces={len(kept)}")
    for name in texts.names_in(kept):
        slacks = sorted(slack_at(t, known, v) for t in kept for v, s in enumerate(t["segments"]) if s[2] == name)
        along = [slacks[(len(slacks) - 1) * tenths // 10] for tenths in (0, 1, 5, 9, 10)]
        text += row("room", *name, len(slacks), slacks.count(0), *along)
    return text


# --- Loads ---

def picked(kept):
    """The loads that are shown, each with its word and its rank; of one rank the first word."""
    count, shown = len(kept), {}
    for word, rank in [("median", (count - 1) // 2), ("p95", count - (count + 19) // 20), ("slowest", count - 1)]:
        if count and rank not in shown:
            shown[rank] = word
    return [(word, rank, by_latency(kept)[rank]) for rank, word in shown.items()]


def index_of(kept, trace):
    """Its index among the traces of its day."""
    return [t is trace for t in kept if t["day"] == trace["day"]].index(True)


def loads_text(kept, known):
    loads = picked(kept)
    text = row("loads", f"loads={len(loads)}")
    for word, rank, trace in loads:
        (path, length), segments = path_of(trace, known), trace["segments"]
        text += row("load", word, rank, trace["request"], trace["day"], index_of(kept, trace), trace["latency"], length,
                    len(segments), len(path), edges_left(trace, known))
        first = min((s[0] for s in segments), default=0)
        for v, (start, end, name, *_) in enumerate(segments):
            text += row("bar", v, *name, start - first, end - start, slack_at(trace, known, v), int(v in path))
    return text


# --- The model in boxes ---

def boxes_of(kept, known):
    """The box of each name: the name, or its task alone."""
    names = texts.names_in(kept)
    on = [n for n in names if any(trace["segments"][v][2] == n for trace in kept for v in path_of(trace, known)[0])]
    own = names if len(names) <= 40 else on if len(on) <= 24 else []
    return {name: name if name in own else name[:1] for name in names}


def overlap_in(trace, one, other):
    """A segment of the one box and one of the other overlap in the trace, by more than its grace."""
    segments = trace["segments"]
    found = [(s, r) for s in segments for r in segments if s[2] in one and r[2] in other and s[2] != r[2]]
    return any(pairs.early(trace, s, r) and pairs.early(trace, r, s) for s, r in found)


def is_before(known, a, b):
    return (a, b) in known["together"] and (a, b) not in known["before"]


def is_exclusive(known, a, b):
    return ((a, b) in known["together"] and {(a, b), (b, a)} <= known["before"] and (a, b) not in known["exclusive"])


def boxes_text(kept, known):
    box_of = boxes_of(kept, known)
    boxes = sorted(set(box_of.values()), key=texts.by_bytes)
    text = "".join(row("box", number, *box) for number, box in enumerate(boxes))
    for v, one in enumerate(boxes):
        for w, other in enumerate(boxes):
            mine, theirs = ([n for n in box_of if box_of[n] == box] for box in (one, other))
            both = [(a, b) for a in mine for b in theirs if (a, b) in known["together"]
                    and (v != w or texts.by_bytes(a) < texts.by_bytes(b))]
            before = sum(is_before(known, a, b) or v == w and is_before(known, b, a) for a, b in both)
            seen = [t for t in kept if overlap_in(t, mine, theirs)][:1]
            if both:
                text += row("between", v, w, len(both), before, sum(is_exclusive(known, a, b) for a, b in both),
                            *(field for t in seen for field in (t["day"], index_of(kept, t), t["request"])))
    return text


def pipes_text(known):
    tasks = sorted(known["tasks"], key=str.encode)
    found = [(t, u) for t in tasks for u in tasks if (t, u) in known["shared"] and (t, u) not in known["pipe"]]
    return "".join(row("pipe", t, u) for t, u in found)


# --- A page ---

def page_text(kept, known):
    written = [texts.report_text, texts.tail_text, ranks_text, gain_text, room_text, loads_text, boxes_text]
    return "".join(text(kept, known) for text in written) + pipes_text(known)


texts.VIEWS["page"] = page_text


def run(files, given=()):
    """What a run prints, after given files: the status, the text and the message."""
    return texts.run(["page"], files, given)


def main():
    files = []
    for name in sys.argv[1:]:
        with open(name, "rb") as file:
            files.append(file.read())
    status, text, message = run(files)
    sys.stdout.write(text)
    sys.stderr.write(message)
    return status


if __name__ == "__main__":
    sys.exit(main())
