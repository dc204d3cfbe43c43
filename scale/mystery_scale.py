#!/usr/bin/python3
"""Runs `mystery` over event lines of any total size, on a Dask cluster.

    mystery_scale.py --work DIR [--scheduler tcp://HOST:8786 | --local N] [OPTION]... COMMAND... -- FILE...

COMMAND is one or more of model, report, paths, slack and graph, and `--whatif TASK START END NUM DEN`, more than once
if wanted. FILE may be a pattern in quotes; a file whose name ends in .gz is unpacked. The files together are one batch,
read in this order. They and DIR have the same names on all machines.

Lines are split by request into shards, each of which one run of `mystery` takes; each shard is summarized; summaries
are merged in a tree; and the commands run on each shard under the summary of all. A result comes to its place in DIR
by one rename once it is whole, so a task that runs twice does no harm, and the same call again goes on where it ended.

DIR then has model.tsv, report.tsv, whatif.tsv, refused.tsv with files and lines, all.summary, and for each other
command a folder with a file for each shard.
"""
import argparse
import contextlib
import glob
import hashlib
import json
import os
import shutil
import subprocess
import sys
import tempfile
import time

HERE = os.path.dirname(os.path.abspath(__file__))
sys.path.insert(0, HERE)
sys.dont_write_bytecode = True          # (an installation keeps the files that it was given)
try:
    from distributed import Client, LocalCluster, as_completed
    import figures
    import shard_tasks
    from shard_tasks import MOST_INPUT, Told, run_mystery
    from work_files import publish, read_json, read_rows, replace, write_json, write_rows
except ImportError as missing:
    sys.exit(f"mystery_scale: the Python package {missing.name} is missing: scale/setup installs python3-{missing.name}")

MODULES = ["work_files.py", "figures.py", "shard_tasks.py"]     # that the workers need
MOST_PARTS = 256                # parts of one split
MOST_LEVELS = 8                 # splits of one part, one after another
RETRIES = 3                     # of a task that failed, or whose worker died
TELL = 10                       # bad lines that are told
COMMANDS = ["model", "report", "paths", "slack", "graph"]
ASIDE = ["split", "summaries", "merged", "values"]      # folders of DIR that are no results


class Failed(Exception):
    """A task failed each time it was tried."""


# --- The engine ---

class Engine:
    """Hands tasks to the cluster, and shows how far they are."""

    def __init__(self, client, fan_in):
        self.client, self.fan_in = client, fan_in

    def submit(self, function, *arguments):
        return self.client.submit(function, *arguments, pure=False, retries=RETRIES)

    def tree(self, function, futures):
        """The result of a function of lists over all, which takes so many at a time."""
        while True:
            futures = [self.submit(function, futures[k:k + self.fan_in])
                       for k in range(0, max(len(futures), 1), self.fan_in)]
            if len(futures) == 1:
                return futures[0]

    def all(self, title, futures):
        """The results in order; {} for those that were given up, where enough errors are known."""
        results, errors, bar = {}, 0, Bar(title, len(futures))
        places = {future.key: k for k, future in enumerate(futures)}
        for future in as_completed(futures):
            try:
                result = results[places[future.key]] = future.result()
            except Exception as fault:
                self.client.cancel(futures)
                raise Failed(f"{title}: failed {RETRIES + 1} times: {type(fault).__name__}: {fault}") from fault
            errors += "errors" in result or "bad" in result
            bar.show(len(results))
            if errors >= TELL:
                self.client.cancel(futures)
                break
        return [results.get(k, {}) for k in range(len(futures))]


class Bar:
    """How far a phase is: a bar on a terminal, and a line now and then elsewhere."""

    def __init__(self, title, total, out=None):
        self.title, self.total, self.out = title, total, out or sys.stderr
        self.start, self.shown, self.terminal = time.monotonic(), 0.0, self.out.isatty()

    def show(self, done):
        now = time.monotonic() - self.start
        if now - self.shown < (0.2 if self.terminal else 30) and done < self.total:
            return
        self.shown, twentieths = now, 20 * done // self.total
        end = "\r" if self.terminal and done < self.total else "\n"
        print(f"{self.title:14}[{'#' * twentieths:20}] {done}/{self.total}  {now:.0f} s", end=end, file=self.out, flush=True)


def pages_of(client):
    """The address of the scheduler's pages: those with pictures need bokeh, which Debian has not."""
    has_bokeh = client.run_on_scheduler(lambda: __import__("importlib.util").util.find_spec("bokeh") is not None)
    link = client.dashboard_link
    return link if has_bokeh else link.replace("/status", "/info/main/workers.html")


# --- The job ---

def blocks_of(patterns, size):
    """The blocks of the files, in order; a packed file is one block."""
    blocks = []
    for pattern in patterns:
        found = [pattern] if os.path.exists(pattern) else sorted(glob.glob(pattern, recursive=True))
        if not found:
            raise Told(f"{pattern}: no such file")
        for path in map(os.path.abspath, found):
            length, packed = os.stat(path).st_size, path.endswith(".gz")
            for start in [0] if packed else range(0, max(length, 1), size):
                blocks.append({"path": path, "number": len(blocks), "start": start,
                               "end": None if packed else min(start + size, length)})
    return blocks


class Lines:
    """Files and lines of blocks and lines."""

    def __init__(self, blocks, counts):
        self.blocks, self.first, before = blocks, [], {}
        for block, count in zip(blocks, counts):
            self.first.append(before.get(block["path"], 0))
            before[block["path"]] = self.first[-1] + count

    def place(self, block, line):
        return self.blocks[block]["path"], self.first[block] + line


def tell(errors):
    if errors:
        more = f"\nand {len(errors) - TELL} more" if len(errors) > TELL else ""
        raise Told("\n".join(errors[:TELL]) + more)


def errors_in(results):
    return [error for result in results for error in result.get("errors", [])]


def check_same_job(folder, state):
    """Holds that a folder has one job: the same files, unchanged since, the same program and the same sizes."""
    path = publish(os.path.join(folder, "job.json"), lambda to: write_json(to, state))
    if read_json(path) != json.loads(json.dumps(state)):
        raise Told(f"{folder}: holds another job, or its files or mystery have changed since: take a new folder")


def grouped(results, prefix):
    """The parts of one number, in the order of the tasks, as (name, paths, bytes)."""
    found = {}
    for result in results:
        for part in result["parts"]:
            found.setdefault(part["name"], []).append(part)
    return [(prefix + name, [p["path"] for p in parts], sum(p["bytes"] for p in parts)) for name, parts in sorted(found.items())]


def make_shards(engine, job, blocks, target):
    """Splits the input, and what is still too large again. Answers the shards, and where lines are."""
    program, folder = job["program"], os.path.join(job["folder"], "split")
    os.makedirs(folder, exist_ok=True)
    total = sum(os.stat(path).st_size * (10 if path.endswith(".gz") else 1) for path in {b["path"] for b in blocks})
    count = max(1, min(MOST_PARTS, -(-total // target)))
    results = engine.all("split", [
        engine.submit(shard_tasks.split, program, os.path.join(folder, f"0-{b['number']:06d}"), b, 0, count) for b in blocks])
    lines = Lines(blocks, [r.get("count", 0) for r in results])
    tell(errors_in(results))
    tell(["{}: line {}: {}".format(*lines.place(k, r["bad"][0]), r["bad"][1]) for k, r in enumerate(results) if "bad" in r])
    shards, waiting, most = [], grouped(results, "s"), MOST_INPUT - len("".join(job["grace"]))
    for level in range(1, MOST_LEVELS + 1):
        shards += [{"name": name, "paths": paths, "alone": None}
                   for name, paths, size in waiting if size <= min(2 * target, most)]
        waiting = [part for part in waiting if part[2] > min(2 * target, most)]
        looks = engine.all(f"too large {level}", [engine.submit(shard_tasks.only_request, paths) for _, paths, _ in waiting])
        large = [part for part, look in zip(waiting, looks) if look["request"] is None]
        shards += [{"name": name, "paths": paths, "alone": look["request"] if size > most else None}
                   for (name, paths, size), look in zip(waiting, looks) if look["request"] is not None]
        if not large:
            return shards, lines
        results = engine.all(f"split again {level}", [
            engine.submit(shard_tasks.split, program, os.path.join(folder, f"{level}-{name}"), paths, level,
                          max(2, min(MOST_PARTS, -(-size // target)))) for name, paths, size in large])
        tell(errors_in(results))
        waiting = [entry for (name, _, _), r in zip(large, results) for entry in grouped([r], name + ".")]
    raise Told(f"the input was split {MOST_LEVELS} times, and a part is still too large for one run")


def merge_all(engine, job, shards):
    """Summarizes the shards and merges their summaries; answers the file of the last one."""
    summaries = [engine.submit(shard_tasks.summarize, job, shard) for shard in shards]
    results = engine.all("summarize", summaries)
    tell([f"shard {shard['name']}: {error}{hint_of(error, shard)}"
          for shard, r in zip(shards, results) for error in r.get("errors", [])])
    level = 0
    while len(summaries) > 1 or level == 0:
        groups = [summaries[k:k + engine.fan_in] for k in range(0, max(len(summaries), 1), engine.fan_in)]
        summaries = [engine.submit(shard_tasks.merge, job, os.path.join(job["folder"], "merged", f"{level}-{k:05d}"), group)
                     for k, group in enumerate(groups)]
        level += 1
    merged = engine.all("merge", summaries)[0]
    tell([error + hint_of(error, shards[0]) for error in merged.get("errors", [])])
    return merged["path"]


def hint_of(error, shard):
    """How to find the names that pass the limit."""
    if not error.endswith((" segment names", " tasks")):
        return ""
    return f"\nperhaps names have ids in them: see the rows `name` and `task` of: mystery inspect {' '.join(shard['paths'][:8])}"


def run_views(engine, job, shards, merged, words):
    """Runs the commands on each shard, and adds up what can be added."""
    commands = {command: [command] for command in words.commands if command != "model"}
    changes = {"whatif-" + hashlib.sha256("\t".join(change).encode()).hexdigest()[:8]: change for change in words.whatif}
    commands.update((name, ["whatif", *change]) for name, change in changes.items())
    if not commands:
        return
    tell(errors_in(engine.all("views", [engine.submit(shard_tasks.view, job, shard, merged, commands) for shard in shards])))
    paths = lambda name, end: [os.path.join(job["folder"], name, shard["name"] + end) for shard in shards]
    if "report" in commands:
        total = engine.tree(figures.add_figures, paths("report", ".tsv")).result()
        middle = figures.medians(lambda known, shift: digits_in(engine, paths("values", ".npz"), known, shift), total)
        publish(os.path.join(job["folder"], "report.tsv"), lambda to: write_rows(to, figures.report_rows(total, middle)))
    if changes:
        rows = [[name, *change, *forecast_of(paths(name, ".tsv"))] for name, change in changes.items()]
        replace(os.path.join(job["folder"], "whatif.tsv"), lambda to: write_rows(to, rows))


def digits_in(engine, paths, known, shift):
    """The counts of digits in all values."""
    groups = [paths[k:k + 64] for k in range(0, len(paths), 64)]
    counts = [engine.submit(figures.count_digits, group, known, shift) for group in groups]
    return engine.tree(figures.add_counts, counts).result()


def forecast_of(paths):
    """The heads of forecasts, added up: traces, before and after."""
    heads = [next(f for f in read_rows(path) if f[0] == "whatif") for path in paths]
    return [f"{label}={sum(int(head[k].split('=')[1]) for head in heads)}"
            for k, label in enumerate(["traces", "before", "after"], 1)]


def refused_rows(folder, shards, lines):
    """All refused traces: REQUEST REASON NUMBER FILE, in this order."""
    rows = []
    for shard in shards:
        for request, reason, number, block in read_rows(os.path.join(folder, "summaries", shard["name"] + ".refused")):
            path, line = lines.place(int(block), int(number)) if block else ("", int(number))
            rows.append(("refused", request, reason, line, path))
    return sorted(rows)


def program_of(name):
    """The command mystery: on the PATH, or in the installation that this file stands in."""
    found = shutil.which(name) or shutil.which(os.path.join(HERE, "..", "..", "..", "bin", "mystery"))
    if found is None:
        raise Told(f"the command {name} is not on the PATH: ./install puts it there, and --mystery PROGRAM names another one")
    return os.path.abspath(found)


def version_of(program):
    try:
        return subprocess.run([program, "--version"], capture_output=True, check=True, text=True).stdout.strip()
    except (OSError, subprocess.CalledProcessError) as fault:
        raise Told(f"{program}: the command mystery cannot be run: {fault}") from None


def run(client, words):
    """Does the job on the workers of a client."""
    folder = os.path.abspath(words.work)
    program = program_of(words.mystery)
    blocks = blocks_of(words.files, words.block)
    os.makedirs(folder, exist_ok=True)
    check_same_job(folder, {
        "mystery": [program, version_of(program)], "grace": words.grace, "sizes": [words.shard, words.block, words.fan_in],
        "files": [[path, os.stat(path).st_size, os.stat(path).st_mtime_ns] for path in dict.fromkeys(b["path"] for b in blocks)]})
    grace = [] if words.grace is None else [json.dumps({"do": "grace", "micros": words.grace}) + "\n"]
    front = [publish(os.path.join(folder, "grace.jsonl"), lambda to: write_rows(to, [[line[:-1]]])) for line in grace]
    job = {"program": program, "folder": folder, "front": front, "grace": grace}
    for module in MODULES if words.scheduler else []:
        client.upload_file(os.path.join(HERE, module))
    engine = Engine(client, words.fan_in)
    shards, lines = make_shards(engine, job, blocks, words.shard)
    merged = merge_all(engine, job, shards)
    publish(os.path.join(folder, "refused.tsv"), lambda to: write_rows(to, refused_rows(folder, shards, lines)))
    publish(os.path.join(folder, "all.summary"), lambda to: shutil.copyfile(merged, to))
    if "model" in words.commands:
        publish(os.path.join(folder, "model.tsv"), lambda to: run_mystery(program, ["--given", merged, "model"], to))
    run_views(engine, job, [shard for shard in shards if shard["alone"] is None], merged, words)
    for path in glob.glob(os.path.join(glob.escape(folder), "**", "*.tmp*"), recursive=True):
        if os.path.isdir(path):         # (of tasks whose worker died)
            shutil.rmtree(path, ignore_errors=True)
        elif os.path.exists(path):
            os.remove(path)


def arguments(words):
    parser = argparse.ArgumentParser(prog="mystery_scale.py", description=__doc__,
                                     formatter_class=argparse.RawDescriptionHelpFormatter)
    parser.add_argument("--work", required=True, metavar="DIR")
    parser.add_argument("--mystery", default="mystery", metavar="PROGRAM", help="the command mystery, if not on the PATH")
    parser.add_argument("--scheduler", metavar="ADDRESS", help="of a running cluster, as tcp://host:8786")
    parser.add_argument("--local", type=int, default=os.cpu_count(), metavar="N", help="worker processes on this machine")
    parser.add_argument("--grace", type=int, metavar="MICROS", help="the grace of all traces")
    parser.add_argument("--shard", type=int, default=32 << 20, metavar="BYTES", help="size aimed at; 32 MiB")
    parser.add_argument("--block", type=int, default=256 << 20, metavar="BYTES", help="of a file, for one task; 256 MiB")
    parser.add_argument("--fan-in", type=int, default=16, metavar="N", help="summaries merged at once; 16")
    parser.add_argument("--clean", action="store_true", help="leave the results alone in DIR")
    parser.add_argument("--whatif", nargs=5, action="append", default=[], metavar=("TASK", "START", "END", "NUM", "DEN"))
    parser.add_argument("commands", nargs="*", choices=[*COMMANDS, []], metavar="COMMAND", help=", ".join(COMMANDS))
    words = list(words)
    at = words.index("--") if "--" in words else len(words)
    parsed = parser.parse_args(words[:at])
    parsed.files = words[at + 1:]
    if not parsed.commands and not parsed.whatif:
        parser.error("no COMMAND")
    if not parsed.files:
        parser.error("no FILE: they stand after --")
    return parsed


def main(words):
    words = arguments(words)
    try:
        with contextlib.ExitStack() as stack:
            cluster = words.scheduler or stack.enter_context(LocalCluster(
                n_workers=words.local, threads_per_worker=1, local_directory=stack.enter_context(tempfile.TemporaryDirectory())))
            client = stack.enter_context(Client(cluster))
            print(f"pages of the scheduler: {pages_of(client)}", file=sys.stderr, flush=True)
            run(client, words)
        if words.clean:
            for name in ASIDE:
                shutil.rmtree(os.path.join(words.work, name), ignore_errors=True)
    except Told as told:
        print(told, file=sys.stderr)
        return 3
    except (Failed, OSError) as fault:
        print(fault, file=sys.stderr)
        return 1
    except KeyboardInterrupt:
        print("interrupted; the same call goes on from here", file=sys.stderr)
        return 130
    return 0


if __name__ == "__main__":
    sys.exit(main(sys.argv[1:]))
