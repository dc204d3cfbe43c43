"""The tasks that the cluster carries out: each runs `mystery` over files, and leaves what it prints in the work folder."""
import contextlib
import gzip
import json
import os
import shutil
import subprocess
import uuid
import zlib

from figures import write_values
from work_files import CHUNK, count_lines, publish, read_json, sync, write_json, write_rows

MOST_INPUT = 67_108_864         # bytes that one run of mystery reads
MOST_LINES = 4_096              # lines of a trace


class Told(Exception):
    """An error that trying again does not mend. Its text is for the user."""


# --- Runs of mystery ---

def end_of(words, ran, message):
    """An error that the input has is Told with the program's message; another one is worth another try."""
    if ran in (2, 3, 6):
        raise Told(message)
    if ran:
        raise RuntimeError(f"mystery {words[0]}: status {ran}: {message}")


def run_mystery(program, words, output):
    """Runs a command of the verified program, by one worker."""
    with open(output, "wb") as out:
        ran = subprocess.run([program, "--plain", "--workers", "1", *words], stdin=subprocess.DEVNULL, stdout=out,
                             stderr=subprocess.PIPE, check=False)
    end_of(words, ran.returncode, ran.stderr.decode("utf-8", "replace").strip())


def task(function):
    """What an error of the input answers is a value, so that the task is not tried again."""
    def call(*arguments):
        try:
            return function(*arguments)
        except Told as told:
            return {"errors": [str(told)]}
    call.__name__ = call.__qualname__ = function.__name__
    return call


# --- Splitting by request ---

def line_end(file, position):
    """The position behind the first line feed from this one on, or the end of the file."""
    file.seek(position)
    while chunk := file.read(CHUNK):
        at = chunk.find(b"\n")
        if at >= 0:
            return position + at + 1
        position += len(chunk)
    return position


def chunks_of(block):
    """The bytes of the lines that begin in a block of a file."""
    path, start, end = block["path"], block["start"], block["end"]
    if end is None:
        try:
            with gzip.open(path, "rb") as file:
                while chunk := file.read(CHUNK):
                    yield chunk
        except (EOFError, gzip.BadGzipFile, zlib.error) as fault:
            raise Told(f"{path}: not a whole gzip file: {fault}") from None
        return
    with open(path, "rb") as file:
        first = line_end(file, start - 1) if start else 0
        last = line_end(file, end - 1) if end else 0
        file.seek(first)
        while first < last and (chunk := file.read(min(CHUNK, last - first))):
            first += len(chunk)
            yield chunk


def split_block(program, block, words):
    """Splits a block, which the program reads from a pipe. Answers how many lines it has, and the first bad one."""
    with subprocess.Popen([program, "--plain", "split", *words, "/dev/stdin"], stdin=subprocess.PIPE,
                          stderr=subprocess.PIPE) as ran:
        count, last, wanted = 0, b"\n", True
        try:
            for chunk in chunks_of(block):
                count, last = count + chunk.count(b"\n"), chunk[-1:]
                if wanted:
                    try:
                        ran.stdin.write(chunk)
                    except BrokenPipeError:     # a bad line; the others are counted
                        wanted = False
        except Told:
            ran.kill()
            raise
        with contextlib.suppress(BrokenPipeError):
            ran.stdin.close()
        message = ran.stderr.read().decode("utf-8", "replace").strip()
    count += last != b"\n"
    if ran.returncode == 3:
        _, number, reason = message.split(": ", 2)
        return count, [int(number.removeprefix("line ")), reason]
    end_of(["split"], ran.returncode, message)
    return count, None


def split_parts(program, parts, words):
    """Splits parts again, which have no bad line."""
    ran = subprocess.run([program, "--plain", "split", *words, *parts], stdin=subprocess.DEVNULL,
                         stderr=subprocess.PIPE, check=False)
    end_of(["split"], ran.returncode, ran.stderr.decode("utf-8", "replace").strip())


@task
def split(program, folder, source, level, count):
    """Splits a block of a file, or parts once more, into a folder with so many parts, less those that are empty."""
    done = os.path.join(folder, "done.json")
    if os.path.exists(done):
        return read_json(done)
    mine = f"{folder}.{uuid.uuid4().hex}.tmp"
    os.makedirs(mine)
    words = [str(count), f"level {level}", os.path.join(mine, "part-")]
    result = {"source": source, "parts": []}
    if level == 0:
        result["count"], bad = split_block(program, source, words)
        if bad:
            shutil.rmtree(mine)
            return {"count": result["count"], "bad": bad}
    else:
        split_parts(program, source, words)
    for name in sorted(os.listdir(mine)):
        path = os.path.join(mine, name)
        size = os.path.getsize(path)
        if size == 0:
            os.remove(path)
            continue
        sync(path)
        if not name.endswith(".origins"):
            result["parts"].append({"name": name[-3:], "path": os.path.join(folder, name), "bytes": size})
    write_json(os.path.join(mine, "done.json"), result)
    sync(os.path.join(mine, "done.json"))
    sync(mine)
    try:
        os.rename(mine, folder)
    except OSError:             # another run of this task was first
        shutil.rmtree(mine)
    sync(os.path.dirname(folder))
    return read_json(done)


def origins_of(path, numbers):
    """Of these lines of a part, from 1, the number of the block that each came from and its line there."""
    with open(path + ".origins", "rb") as file:
        rows = file.read().split(b"\n")
    found = [tuple(map(int, rows[number - 1].split(b"\t"))) for number in numbers]
    source = read_json(os.path.join(os.path.dirname(path), "done.json"))["source"]
    if isinstance(source, dict):
        return [(source["number"], line) for _, line in found]
    wanted = {}
    for file, line in found:
        wanted.setdefault(file, []).append(line)
    earlier = {file: iter(origins_of(source[file - 1], lines)) for file, lines in wanted.items()}
    return [next(earlier[file]) for file, _ in found]


def origins_in(paths, numbers):
    """The same of lines of several parts, numbered over all of them."""
    found, first = {}, 0
    for path in paths if numbers else []:
        count = count_lines(path + ".origins")
        mine = [n for n in numbers if first < n <= first + count]
        if mine:
            found.update(zip(mine, origins_of(path, [n - first for n in mine])))
        first += count
    return [found[n] for n in numbers]


@task
def only_request(paths):
    """The request of all lines of parts; none where there are several."""
    found = None
    for path in paths:
        with open(path, "rb") as file:
            for line in file:
                request = json.loads(line)["request"]
                if found not in (None, request):
                    return {"request": None}
                found = request
    return {"request": found}


# --- What is done with a shard ---

def files_of(job, shard):
    """The files that mystery reads of a shard: a control line in front, where there is a grace, and the parts."""
    return [*job["front"], *shard["paths"]]


@task
def summarize(job, shard):
    """Summarizes a shard. The traces that it refuses stand apart, with the origins of their lines."""
    path = os.path.join(job["folder"], "summaries", shard["name"])

    def write(to):
        if shard["alone"] is not None:
            refuse_alone(shard, to)
            return
        run_mystery(job["program"], ["summarize", *files_of(job, shard)], to + ".all")
        refused = []
        with open(to + ".all", "rb") as file, open(to, "wb") as out:
            for row in file:
                if row.startswith(b"refused\t"):
                    refused.append(row.decode("utf-8")[:-1].split("\t")[1:])
                else:
                    out.write(row)
        os.remove(to + ".all")
        publish(path + ".refused", lambda at: write_rows(at, with_origins(job, shard, refused)))

    if shard["alone"] is not None:
        publish(path + ".refused", write)
        return {"path": None}
    return {"path": publish(path, write)}


def with_origins(job, shard, refused):
    """REQUEST REASON NUMBER, and the block where NUMBER is a line of it; none where it says how many lines there are."""
    front = len(job["front"])
    wanted = [int(number) - front for _, reason, number in refused if reason != "too many events"]
    found = iter(origins_in(shard["paths"], wanted))
    for request, reason, number in refused:
        block, line = ("", number) if reason == "too many events" else next(found)
        yield request, reason, line, block


def refuse_alone(shard, to):
    """A request whose lines no run takes: with too many of them it is refused, as mystery would."""
    count = sum(map(count_lines, shard["paths"]))
    if count <= MOST_LINES:
        raise Told(f"request {shard['alone']}: its {count} lines have over {MOST_INPUT} bytes together")
    write_rows(to, [[shard["alone"], "too many events", count, ""]])


@task
def merge(job, path, parts):
    """The summary of summaries."""
    given = [word for part in parts if part["path"] for word in ("--given", part["path"])]
    words = [*given, "summarize"] if given else ["summarize", os.devnull]
    return {"path": publish(path, lambda to: run_mystery(job["program"], words, to))}


@task
def view(job, shard, merged, commands):
    """Runs the commands on a shard under the summary of all."""
    def write(words):
        return lambda to: run_mystery(job["program"], ["--given", merged, *words, *files_of(job, shard)], to)

    for folder, words in commands.items():
        publish(os.path.join(job["folder"], folder, shard["name"] + ".tsv"), write(words))
    values = os.path.join(job["folder"], "values", shard["name"] + ".npz")
    if "report" in commands and not os.path.exists(values):
        slack = os.path.join(job["folder"], "slack" if "slack" in commands else "values", shard["name"] + ".tsv")
        publish(values, lambda to: write_values(publish(slack, write(["slack"])), to))
        if "slack" not in commands:
            os.remove(slack)
    return {}
