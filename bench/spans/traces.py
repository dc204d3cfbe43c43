"""Random traces, most of them as no system would make them, and their text in three forms."""
import json

START = 1_760_000_000_000_000_000
NAMES = ["a", "b", "GET /2", "GET", "GET /user/17", "a#2", "a#1/2", "a@b", "x%40", "\x01\x7f", "", "\u00e9" * 60,
         "n" * 200, "n" * 199 + "m", "start", "a end", " ", "#3", "Users#show", "\u65e5\u672c" * 30, '"\\', "deadbeef01"]
SERVICES = ["s", "s a", "long" * 30, "", "t@u", "s#2"]
MACHINES = ["h1", "h2", "h3", "h" * 90, "h" * 91, "a\x02"]
KINDS = ["", "internal", "server", "client", "producer", "client", "server"]


class Made:
    """A span as it is made: what an exporter knows of it."""

    def __init__(self, draw, trace, parent, unit):
        self.trace, self.parent = trace, parent.id if parent else None
        self.id = "%016x" % (draw.getrandbits(63) + 1)
        if parent is None and draw.random() < 0.3:
            self.parent = "%016x" % (draw.getrandbits(60) + 1)
        self.service, self.name = draw.choice(SERVICES), draw.choice(NAMES)
        near = parent is not None and draw.random() < 0.6
        self.machine = parent.machine if near else draw.choice(MACHINES)
        self.kind = draw.choice(KINDS + ["consumer"] * (draw.random() < 0.3))
        self.start, self.end = times(draw, parent, unit)


def times(draw, parent, unit):
    if parent is None:
        return START, START + draw.choice([0, 10, 1000]) * unit
    room = max(1, (parent.end - parent.start) // unit)
    start = draw.choice([0, draw.randrange(room + 1), draw.randrange(room + 1), -draw.randrange(50), room,
                         draw.randrange(-2000, 2000)])
    length = draw.choice([0, 0, draw.randrange(room + 1), room, 3 * room])
    return parent.start + start * unit, parent.start + (start + length) * unit


def make_spans(draw, unit):
    """The spans of some traces, in any order, a few of them twice. Times are multiples of `unit`."""
    spans = []
    for n in range(draw.choice([1, 2, 6])):
        trace, most = [], draw.choice([1, 2, 5, 12, 40])
        for _ in range(most):
            parent = draw.choice(trace) if trace and draw.random() < 0.95 else None
            trace.append(Made(draw, "%032x" % (n + 1), parent, unit))
        spans += trace
    if draw.random() < 0.05:
        circle(draw, spans)
    spans += [s for s in spans if draw.random() < 0.02]
    draw.shuffle(spans)
    return spans


def circle(draw, spans):
    """Makes a span the child of one of its trace, perhaps of one below it."""
    s = draw.choice(spans)
    s.parent = draw.choice([t for t in spans if t.trace == s.trace]).id


# ---- text


def otlp_tags(**tags):
    return [{"key": k.replace("_", "."), "value": {"stringValue": v}} for k, v in tags.items()]


def otlp_span(draw, s):
    value = {"traceId": s.trace, "spanId": s.id, "name": s.name}
    if s.parent or draw.random() < 0.5:
        value["parentSpanId"] = s.parent or ""
    number = ["", "internal", "server", "client", "producer", "consumer"].index(s.kind)
    if number or draw.random() < 0.5:
        value["kind"] = draw.choice([number, "SPAN_KIND_" + (s.kind or "unspecified").upper()])
    value["startTimeUnixNano"] = draw.choice([s.start, str(s.start)])
    value["endTimeUnixNano"] = draw.choice([s.end, str(s.end)])
    if draw.random() < 0.3:
        value["traceId"], value["links"] = s.trace.upper(), [{"traceId": s.trace, "spanId": s.id}]
    return shuffled(draw, value)


def shuffled(draw, value):
    members = list(value.items())
    draw.shuffle(members)
    return dict(members)


def otlp_value(draw, spans):
    """A value with a resource for each service and machine of the spans that stand next to each other."""
    resources = []
    for s in spans:
        tags = otlp_tags(service_name=s.service, host_name=s.machine, other="x")
        if resources and resources[-1]["resource"]["attributes"] == tags and draw.random() < 0.9:
            resources[-1]["scopeSpans"][0]["spans"].append(otlp_span(draw, s))
        else:
            scopes = [{"scope": {"name": "x"}, "spans": [otlp_span(draw, s)]}]
            resources.append(shuffled(draw, {"resource": {"attributes": tags}, "scopeSpans": scopes}))
    return {"resourceSpans": resources}


def as_otlp(draw, spans):
    """A value a line, blank lines and values of other signals between them; or one over the file."""
    if draw.random() < 0.3:
        return json.dumps(otlp_value(draw, spans), ensure_ascii=draw.random() < 0.5, indent=1)
    lines, rest = [], list(spans)
    while rest:
        n = draw.choice([1, 3, 20])
        lines.append(json.dumps(otlp_value(draw, rest[:n]), ensure_ascii=draw.random() < 0.5))
        rest = rest[n:]
        if draw.random() < 0.1:
            lines.append(draw.choice(["", " \t", '{"resourceLogs":[]}']))
    return "\n".join(lines) + draw.choice(["", "\n"])


def jaeger_span(draw, s, process):
    value = {"traceID": s.trace, "spanID": s.id, "operationName": s.name, "processID": process,
             "startTime": s.start // 1000, "duration": (s.end - s.start) // 1000, "references": []}
    follows = s.kind == "consumer" and s.parent and draw.random() < 0.5
    if s.parent:
        value["references"].append({"refType": "FOLLOWS_FROM" if follows else "CHILD_OF", "traceID": s.trace,
                                    "spanID": s.parent})
    if draw.random() < 0.2:
        value["references"].insert(0, {"refType": "CHILD_OF", "traceID": "f" * 32, "spanID": s.id})
    if s.kind and not follows:
        value["tags"] = [{"key": "span.kind", "type": "string", "value": s.kind}]
    return shuffled(draw, value)


def as_jaeger(draw, spans):
    data = {}
    for s in spans:
        trace = data.setdefault(s.trace, {"traceID": s.trace, "spans": [], "processes": {}})
        process = "p%d" % (len(trace["processes"]) + 1)
        tags = [{"key": "hostname", "value": s.machine}]
        trace["processes"][process] = {"serviceName": s.service, "tags": tags}
        trace["spans"].append(jaeger_span(draw, s, process))
    return json.dumps({"data": list(data.values())})


def zipkin_span(draw, s):
    value = {"traceId": s.trace, "id": s.id, "name": s.name, "timestamp": s.start // 1000,
             "localEndpoint": {"serviceName": s.service}, "tags": {"host.name": s.machine}}
    if s.parent:
        value["parentId"] = s.parent
    if s.kind in ("client", "server", "producer", "consumer"):
        value["kind"] = s.kind.upper()
    if s.end > s.start or draw.random() < 0.5:
        value["duration"] = (s.end - s.start) // 1000
    return shuffled(draw, value)


def share(draw, spans):
    """Lets some servers have the id of the client that calls them."""
    by_id = {s.id: s for s in spans}
    for s in spans:
        client = by_id.get(s.parent)
        if s.kind == "server" and client and client.kind == "client" and draw.random() < 0.5:
            for below in spans:
                if below.parent == s.id:
                    below.parent = client.id
            s.id, s.parent = client.id, draw.choice([client.parent, client.id])


def as_zipkin(draw, spans):
    if draw.random() < 0.5:
        share(draw, spans)
    values = [zipkin_span(draw, s) for s in spans]
    if draw.random() < 0.3:
        values = [values[:3], values[3:]]
    return json.dumps(values)


FORMS = {"otlp": (1, as_otlp), "jaeger": (1000, as_jaeger), "zipkin": (1000, as_zipkin)}
SPOILS = ['"name"', '"operationName"', '"spanId"', '"spanID"', '"id"', '"startTimeUnixNano"', '"timestamp"', '"duration"',
          '"kind"', '"endTimeUnixNano"', '"processID"', "}", "0", '"traceId"', '"parentSpanId"', '"startTime"']


def spoil(draw, text):
    """Spoils a member or a byte of a text."""
    found = draw.choice(SPOILS)
    at = [n for n in range(len(text)) if text.startswith(found, n)]
    if not at:
        return text
    at = draw.choice(at)
    other = draw.choice(['"other"', "", "9" * 20, "null", "x"])
    return text[:at] + (other if found[0] != '"' else '"other"') + text[at + len(found):]


def make_files(draw, form):
    """The texts of one to three files."""
    unit, text_of = FORMS[form]
    spans, files = make_spans(draw, unit), []
    for n in range(draw.choice([1, 1, 3])):
        part, spans = (spans, []) if n == 2 or draw.random() < 0.7 else (spans[::2], spans[1::2])
        files.append(text_of(draw, part))
    if draw.random() < 0.2:
        n = draw.randrange(len(files))
        files[n] = spoil(draw, files[n])
    return files
