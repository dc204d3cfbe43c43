"""Spans to event lines, restated plainly: threads of control over one tree of calling contexts.

Reads and maps as docs/MANUAL.md says ("Spans as event lines"), one list or table at a time, and
shares nothing with the program. `imported(form, options, files)` gives the text and the message that
`mystery import` has to write, and its status.
"""
import json
import re

TASK_BYTES, EVENT_BYTES, MOST_LINES = 40, 48, 4096
LATEST = 4_102_444_800_000_000_000
KINDS = ["", "internal", "server", "client", "producer", "consumer"]


class Fault(Exception):
    """The index of the file, the number there, and the reason."""


class Span:
    __slots__ = "trace id parent service machine name kind start end at up calls seen_start seen_end context".split()

    def content(self):
        return (self.parent, self.service, self.machine, self.name, self.kind, self.start, self.end)


# ---- reading


def given(value, key):
    return value.get(key) if isinstance(value, dict) else None


def required(value, key):
    found = given(value, key)
    if found is None:
        raise ValueError("missing " + key)
    return found


def text(value, key):
    found = required(value, key)
    if not isinstance(found, str):
        raise ValueError("bad " + key)
    return found


def optional_text(value, key):
    return None if given(value, key) is None else text(value, key) or None


def identity(value, key, lengths):
    found = text(value, key)
    if len(found.encode()) not in lengths or not re.fullmatch("[0-9a-fA-F]+", found) or set(found) == {"0"}:
        raise ValueError("bad " + key)
    return found.lower()


def optional_identity(value, key, lengths):
    found = given(value, key)
    if found is not None and not isinstance(found, str):
        raise ValueError("bad " + key)
    return identity(value, key, lengths) if found else None


def whole(value, key):
    found = required(value, key)
    digits = found if isinstance(found, str) else str(found) if type(found) is int else ""
    if not re.fullmatch("[0-9]+", digits) or int(digits) >= 2**64:
        raise ValueError("bad " + key)
    return int(digits)


def objects(value, key):
    found = given(value, key)
    if found is None:
        return []
    if not isinstance(found, list) or not all(isinstance(x, dict) for x in found):
        raise ValueError("bad " + key)
    return found


def an_object(value, key):
    found = given(value, key)
    if found is not None and not isinstance(found, dict):
        raise ValueError("bad " + key)
    return found


def tag(key, tags, nested):
    for t in tags:
        found = given(t, "value")
        if nested:
            found = given(found, "stringValue")
        if given(t, "key") == key and isinstance(found, str) and found:
            return found
    return None


def span(ids, origin, name, kind, start, end):
    if end < start:
        raise ValueError("end before start")
    if end > LATEST:
        raise ValueError("time out of range")
    s = Span()
    s.trace, s.id, s.parent = ids
    s.service, s.machine = origin
    s.name, s.kind, s.start, s.end = name or "unknown", kind, start, end
    return s


def otlp_span(value, origin):
    kind = given(value, "kind")
    if kind is None:
        kind = 0
    if isinstance(kind, str):
        kind = {"SPAN_KIND_" + (k or "unspecified").upper(): n for n, k in enumerate(KINDS)}.get(kind, 9)
    if type(kind) is not int or not 0 <= kind < 6:
        raise ValueError("bad kind")
    ids = (identity(value, "traceId", [32]), identity(value, "spanId", [16]),
           optional_identity(value, "parentSpanId", [16]))
    name = text(value, "name")
    return span(ids, origin, name, KINDS[kind], whole(value, "startTimeUnixNano"), whole(value, "endTimeUnixNano"))


def otlp_value(value):
    if given(value, "resourceSpans") is None:
        if given(value, "resourceMetrics") is not None or given(value, "resourceLogs") is not None:
            return
        raise ValueError("missing resourceSpans")
    for resource in objects(value, "resourceSpans"):
        tags = objects(an_object(resource, "resource"), "attributes")
        service = tag("service.name", tags, True) or "unknown_service"
        machine = tag("host.name", tags, True) or tag("service.instance.id", tags, True) or service
        scopes = objects(resource, "scopeSpans") or objects(resource, "instrumentationLibrarySpans")
        for scope in scopes:
            for s in objects(scope, "spans"):
                yield otlp_span(s, (service, machine))


def parsed(data):
    try:
        return json.loads(data)
    except (ValueError, RecursionError):
        return ValueError


def otlp_file(index, data):
    lines = [(n, line) for n, line in enumerate(data.split("\n"), 1) if line.strip(" \t\r")]
    if lines and parsed(lines[0][1]) is ValueError:
        lines = [(lines[0][0], data)]
    for n, line in lines:
        try:
            value = parsed(line)
            if value is ValueError:
                raise ValueError("not JSON")
            for s in otlp_value(value):
                s.at = (index, n)
                yield s
        except ValueError as reason:
            raise Fault(index, n, str(reason))


def jaeger_span(trace, value):
    processes = required(trace, "processes")
    if not isinstance(processes, dict):
        raise ValueError("bad processes")
    process = processes.get(text(value, "processID"))
    if process is None:
        raise ValueError("bad processID")
    if not isinstance(process, dict):
        raise ValueError("bad processes")
    service = text(process, "serviceName")
    tags = objects(process, "tags")
    service = service or "unknown_service"
    machine = tag("hostname", tags, False) or tag("ip", tags, False) or service
    trace_id, own = identity(value, "traceID", range(1, 33)), identity(value, "spanID", range(1, 17))
    references = [r for r in objects(value, "references")
                  if isinstance(given(r, "traceID"), str) and r["traceID"].lower() == trace_id]
    children = [r for r in references if given(r, "refType") == "CHILD_OF"]
    parent, follows = None, False
    if references:
        reference = (children or references)[0]
        parent, follows = identity(reference, "spanID", range(1, 17)), not children
    kind = "consumer" if follows else tag("span.kind", objects(value, "tags"), False) or ""
    name = text(value, "operationName")
    start, duration = whole(value, "startTime"), whole(value, "duration")
    return span((trace_id, own, parent), (service, machine), name, kind if kind in KINDS else "",
                start * 1000, (start + duration) * 1000)


def numbered(index, values, read):
    """Spans one after another, each with its number."""
    for n, value in enumerate(values, 1):
        try:
            s = read(value)
        except ValueError as reason:
            raise Fault(index, n, str(reason))
        s.at = (index, n)
        yield s


def jaeger_file(index, data):
    value = parsed(data)
    if value is ValueError:
        raise Fault(index, 1, "not JSON")
    spans = [(t, s) for t in value["data"] for s in t["spans"]]
    yield from numbered(index, spans, lambda pair: jaeger_span(*pair))


def zipkin_span(value):
    kind = optional_text(value, "kind")
    if kind is not None and kind not in ("CLIENT", "SERVER", "PRODUCER", "CONSUMER"):
        raise ValueError("bad kind")
    ids = (identity(value, "traceId", range(1, 33)), identity(value, "id", range(1, 17)),
           optional_identity(value, "parentId", range(1, 17)))
    endpoint, tags = an_object(value, "localEndpoint"), an_object(value, "tags")
    service = optional_text(endpoint, "serviceName") or "unknown_service"
    machine = optional_text(tags, "host.name") or optional_text(endpoint, "ipv4") or service
    name = optional_text(value, "name")
    start = whole(value, "timestamp")
    duration = 0 if given(value, "duration") is None else whole(value, "duration")
    return span(ids, (service, machine), name, (kind or "internal").lower(), start * 1000, (start + duration) * 1000)


def zipkin_file(index, data):
    value = parsed(data)
    if value is ValueError:
        raise Fault(index, 1, "not JSON")
    values = [s for v in value for s in (v if isinstance(v, list) else [v])]
    spans = list(numbered(index, values, zipkin_span))
    have = {(s.trace, s.id, s.kind) for s in spans}
    for s in spans:
        # of a shared span the server's half is a child of the client's
        if s.kind == "server" and (s.trace, s.id, "client") in have:
            s.id, s.parent = s.id + "s", s.id
        elif {(s.trace, s.parent, "client"), (s.trace, s.parent, "server")} <= have:
            s.parent += "s"
    return spans


FILES = {"otlp": otlp_file, "jaeger": jaeger_file, "zipkin": zipkin_file}

# ---- names


def escaped(name):
    return "".join("%%%02X" % ord(c) if c in "%@" or ord(c) < 32 or ord(c) == 127 else c for c in name)


def cut(name, most):
    return name.encode()[:most].decode(errors="ignore")


def with_number(base, number, piece=None):
    if number == 1 and piece is None and not re.search(r"#[0-9]+(/[0-9]+(\.[0-9]+)?)?\Z", base):
        return base
    return "%s#%d" % (base, number) + ("" if piece is None else "/" + piece)


def folded(name):
    words = re.split("([ /])", name)
    return "".join("{}" if re.fullmatch("[0-9]+|[0-9a-fA-F]{8,}", w) else w for w in words)


# ---- requests


def once(spans):
    """The spans, each once: an exact repetition is left out."""
    first, kept = {}, []
    for s in spans:
        other = first.setdefault((s.trace, s.id), s)
        if other.content() != s.content():
            raise Fault(*s.at, "span id twice in a trace")
        if other is s:
            kept.append(s)
    return first, kept


def requests(spans):
    """The requests in order, as their names and entries, and how many spans miss their parent."""
    by_id, kept = once(spans)
    missing = 0
    for s in kept:
        parent = by_id.get((s.trace, s.parent)) if s.parent else None
        missing += s.parent is not None and parent is None
        s.up, s.calls = None if s.kind == "consumer" else parent, []
    for s in kept:
        x, steps = s, 0
        while x is not None and steps <= len(kept):
            x, steps = x.up, steps + 1
        if x is not None:
            raise Fault(*s.at, "parents form a circle")
    for s in kept:
        if s.up is not None:
            s.up.calls.append(s)
    traces = {}
    for s in kept:
        traces.setdefault(s.trace, [])
        if s.up is None:
            traces[s.trace].append(s)
    found = []
    for trace, entries in traces.items():
        entries.sort(key=lambda s: (s.kind == "consumer", s.parent is not None, s.start, s.id))
        found += [(trace + ("." + s.id if n else ""), s) for n, s in enumerate(entries)]
    return found, missing


def below(entry):
    """The spans of a request, each caller before its calls."""
    todo, found = [entry], []
    while todo:
        s = todo.pop()
        found.append(s)
        todo += reversed(s.calls)
    return found


def place(entry):
    """When each call runs as its caller sees it, and calls in order."""
    for c in below(entry):
        for s in c.calls:
            start = s.start
            if s.machine != c.machine and not (c.start <= s.start and s.end <= c.end):
                start = c.start + max(0, (c.end - c.start) - (s.end - s.start)) // 2
            s.seen_start, s.seen_end = start, start + s.end - s.start
        c.calls.sort(key=lambda s: (s.seen_start, s.seen_end, s.id))


# ---- contexts


class Contexts:
    """The calling contexts of all requests: tuples of (service, name, ordinal), the entry's first."""

    def __init__(self, grace, requests):
        self.forked, self.links, every = set(), {}, {}
        for _, entry in requests:
            entry.context = ((entry.service, entry.name, 1),)
            for c in below(entry):
                every[c.context] = True
                self.learn(grace, c)
        self.every = sorted(every, key=lambda x: [(a.encode(), b.encode(), k) for a, b, k in x])
        self.order = {x: n for n, x in enumerate(self.every)}
        self.group()
        self.name()

    def learn(self, grace, c):
        count = {}
        for s in c.calls:
            k = count[s.service, s.name] = count.get((s.service, s.name), 0) + 1
            s.context = c.context + ((s.service, s.name, k),)
            if s.seen_end > c.end + grace or s.seen_start + grace < c.start:
                self.forked.add(s.context)
        for i, s in enumerate(c.calls):
            for t in c.calls[i + 1:]:
                if s.seen_start + grace < t.seen_end and t.seen_start + grace < s.seen_end:
                    self.forked |= {s.context, t.context}
                    self.links.setdefault(s.context, set()).add(t.context)
                    self.links.setdefault(t.context, set()).add(s.context)

    def group(self):
        self.head = {}
        for x in self.every:
            todo = [x]
            while todo:
                y = todo.pop()
                if y not in self.head:
                    self.head[y] = x
                    todo += self.links.get(y, ())

    def thread(self, x):
        while len(x) > 1 and x not in self.forked:
            x = x[:-1]
        return x

    def name(self):
        self.label, self.task, self.piece = {}, {}, {}
        tasks, events = {}, {}
        for x in self.every:
            plain = escaped(x[-1][0] + " " + x[-1][1])
            thread = self.thread(x)
            if thread == x:
                base = cut(plain, TASK_BYTES)
                tasks[base] = tasks.get(base, 0) + 1
                self.task[x] = base, tasks[base]
            base = cut(plain, EVENT_BYTES)
            events[thread, base] = events.get((thread, base), 0) + 1
            self.label[x] = with_number(base, events[thread, base])
        heads = [x for x in self.every if x in self.forked and self.head[x] == x]
        heads.sort(key=lambda x: (self.order[x[:-1]], self.order[x]))
        pieces = {}
        for x in heads:
            thread = self.thread(x[:-1])
            pieces[thread] = pieces.get(thread, 1) + 1
            self.piece[x] = pieces[thread]


# ---- lines


def far_calls(s):
    return [c for c in s.calls if c.machine != s.machine] if s.kind in ("client", "") else []


def last(calls):
    return max(calls, key=lambda s: s.seen_end)


def within(c, s, seen, own):
    """Where and when a caller sees a moment of a call."""
    if seen < c.start:
        return c.machine, c.start
    return (c.machine, c.end) if seen > c.end else (s.machine, own)


class Writer:
    """The lines of a request."""

    def __init__(self, contexts, machines, request):
        self.contexts, self.machines, self.request, self.lines = contexts, machines, request, []

    def put(self, task, event, machine, time, send=None, recv=None):
        line = dict(request=self.request, machine=self.machines[machine], task=task, event=event, nanos=time)
        line.update({k: v for k, v in (("send", send), ("recv", recv)) if v})
        self.lines.append(line)

    def thread(self, head):
        """The lines of a thread, and the spans that it forks, in order."""
        base, number = self.contexts.task[head.context]
        piece, forks, todo = None, [], [("start", head)]
        while todo:
            step, s = todo.pop()
            task = with_number(base, number, piece)
            if step == "start":
                self.start(task, s)
                todo.append(("end", s))
                todo += reversed([("part", (s, part)) for part in self.parts(s)])
            elif step == "end":
                self.end(task, s)
            else:
                c, (calls, gap) = s
                if gap is None:
                    todo.append(("start", calls[0]))
                    continue
                forks += calls
                first = self.contexts.head[calls[0].context]
                label, number_of_group = self.contexts.label[first], self.contexts.piece[first]
                self.put(task, label + " forks", *within(c, calls[0], calls[0].seen_start, calls[0].start))
                piece = "%d" % number_of_group + (".%d" % gap if gap else "")
                z = last(calls)
                self.put(with_number(base, number, piece), label + " joined", *within(c, z, z.seen_end, z.end))
        return forks

    def parts(self, c):
        """The calls of a span in parts, each with its gap: 0 is the last one of its group."""
        group = [self.contexts.head[s.context] if s.context in self.contexts.forked else None for s in c.calls]
        found, gaps, i = [], {}, 0
        while i < len(c.calls):
            if group[i] is None:
                found.append(([c.calls[i]], None))
                i += 1
                continue
            j, end = i + 1, c.calls[i].seen_end
            while j < len(c.calls) and group[j] == group[i] and c.calls[j].seen_start < end:
                end, j = max(end, c.calls[j].seen_end), j + 1
            gap = 0
            if group[i] in group[j:]:
                gap = gaps[group[i]] = gaps.get(group[i], 0) + 1
            found.append((c.calls[i:j], gap))
            i = j
        return found

    def start(self, task, s):
        far = far_calls(s)
        up = far_calls(s.up) if s.up is not None else []
        self.put(task, self.contexts.label[s.context] + " start", s.machine, s.start,
                 far[0].id + ">" if far else None, s.id + ">" if up and up[0] is s else None)

    def end(self, task, s):
        far = far_calls(s)
        up = far_calls(s.up) if s.up is not None else []
        self.put(task, self.contexts.label[s.context] + " end", s.machine, s.end,
                 s.id + "<" if up and last(up) is s else None, last(far).id + "<" if far else None)


def request_lines(contexts, machines, request, entry):
    writer, todo = Writer(contexts, machines, request), [entry]
    while todo:
        todo = writer.thread(todo[0]) + todo[1:]
    return writer.lines


def mapped(spans, grace=0, entry=None, fold=False):
    """The lines of each request, and the two numbers of the notes."""
    if fold:
        for s in spans:
            s.name = folded(s.name)
    found, missing = requests(spans)
    asked = [(name, e) for name, e in found if entry is None or e.service + " " + e.name == entry]
    for _, e in asked:
        place(e)
    contexts = Contexts(grace, asked)
    machines, count = {}, {}
    for machine in sorted({s.machine for s in spans}, key=str.encode):
        base = cut(escaped(machine), EVENT_BYTES)
        count[base] = count.get(base, 0) + 1
        machines[machine] = with_number(base, count[base])
    lines = [request_lines(contexts, machines, name, e) for name, e in asked]
    return lines, missing, sum(len(ls) > MOST_LINES for ls in lines)


def imported(form, options, files):
    """Text, message and status of `mystery import FORM [OPTION].. FILE..` of files as texts."""
    try:
        spans = [s for n, data in enumerate(files) for s in FILES[form](n, data)]
        lines, missing, long = mapped(spans, **options)
    except Fault as fault:
        file, at, reason = fault.args
        unit = "line" if form == "otlp" else "span"
        return "", "file %d: %s %d: %s\n" % (file + 1, unit, at, reason), 3
    out = "".join(json.dumps(d, ensure_ascii=False, separators=(",", ":")) + "\n" for ls in lines for d in ls)
    notes = "note: spans whose parent is missing: %d\n" % missing if missing else ""
    notes += "note: requests over 4096 lines: %d\n" % long if long else ""
    return out, notes, 0
