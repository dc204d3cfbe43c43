"""Tests of mystery_scale.py, on a cluster of two worker processes here: each result is held to one run over everything.

    MYSTERY=/path/of/mystery /usr/bin/python3 -m pytest -q scale
"""
import glob
import gzip
import io
import json
import os
import pty
import random
import re
import signal
import subprocess
import sys
import threading
import time
import urllib.request

import pytest

HERE = os.path.dirname(os.path.abspath(__file__))
sys.path.insert(0, HERE)
import figures  # noqa: E402
import mystery_scale  # noqa: E402
import shard_tasks  # noqa: E402
import work_files  # noqa: E402
from distributed import Client, LocalCluster  # noqa: E402
from shard_tasks import Told  # noqa: E402

MYSTERY = os.environ["MYSTERY"]
DAY = 86_400_000_000
WHATIF = ["--whatif", "a", "start@a", "end", "0", "1"]


# --- Inputs ---

def event(request, task, name, at, **more):
    return json.dumps({"request": request, "machine": "m", "task": task, "event": name, "time": at, **more}, ensure_ascii=False)


def drawn(requests, seed=1):
    """The lines of so many traces of three tasks, in any order; the draws decide what overlaps, and some are refused."""
    draw, found = random.Random(seed), []
    for k in range(requests):
        base = (19_800 + k % 3) * DAY + 1000 * k
        for place, task in enumerate("abc"):
            start = base + 10 * place + draw.randrange(25)
            end = start + 5 + draw.randrange(7)
            found.append(event(f"r{k}é", task, f"start@{task}", start))
            nanos = 1000 * end + draw.randrange(1000)
            found.append(event(f"r{k}é", task, "end", end, nanos=nanos))
        if k % 3 == 0:
            found.append(event(f"r{k}é", task, "mid", end, nanos=nanos))        # of equal times the line decides
        if k % 17 == 0:
            found.append(event(f"r{k}é", "a", "end", base))
    draw.shuffle(found)
    return found


def write_files(folder, rows):
    """Three files: one without a last line feed, one with blank lines and carriage returns, one packed."""
    third = len(rows) // 3
    os.makedirs(folder)
    with open(f"{folder}/1", "w", encoding="utf-8") as file:
        file.write("\n".join(rows[:third]))
    with open(f"{folder}/2", "w", encoding="utf-8", newline="") as file:
        file.write("".join(row + "\r\n\n \t\r\n" for row in rows[third:2 * third]))
    with gzip.open(f"{folder}/3.gz", "wt", encoding="utf-8") as file:
        file.write("".join(row + "\n" for row in rows[2 * third:]))
    return [f"{folder}/1", f"{folder}/2", f"{folder}/3.gz"]


def read(path):
    with open(path, encoding="utf-8", newline="\n") as file:
        return file.read()


# --- The job, and one run over everything ---

def words(work, files, *commands, shard=2000, block=4000):
    return mystery_scale.arguments(["--work", str(work), "--mystery", MYSTERY, "--shard", str(shard), "--block", str(block),
                                    "--fan-in", "3", *commands, "--", *files])


def whole(folder, command, rows):
    """The text of one run over all lines without the refused rows, and the request and the reason of these."""
    path = f"{folder}/whole"
    with open(path, "w", encoding="utf-8") as file:
        file.write("".join(row + "\n" for row in rows))
    ran = subprocess.run([MYSTERY, "--plain", *command, path], capture_output=True, check=True)
    text = ran.stdout.decode().splitlines(keepends=True)
    return ("".join(row for row in text if not row.startswith("refused\t")),
            sorted(row.split("\t")[1:3] for row in text if row.startswith("refused\t")))


def blocks(texts, head):
    """The rows of each trace, in the order of their first rows."""
    found = []
    for text in texts:
        for row in text.splitlines():
            if row.startswith(head + "\t"):
                found.append([row])
            elif found and not row.startswith(("refused\t", "paths\t", "slack\t", "graph\t", "whatif\t")):
                found[-1].append(row)
    return sorted(found)


def hold(folder, work, rows, *views):
    """Holds what a job left to one run over everything."""
    assert read(f"{work}/model.tsv") == whole(folder, ["model"], rows)[0]
    assert read(f"{work}/all.summary") == whole(folder, ["summarize"], rows)[0]
    for command, head in (("paths", "path"), ("slack", "trace"), ("graph", "trace")):
        if command in views:
            text, refused = whole(folder, [command], rows)
            assert blocks(map(read, glob.glob(f"{work}/{command}/*.tsv")), head) == blocks([text], head)
            assert sorted(row.split("\t")[1:3] for row in read(f"{work}/refused.tsv").splitlines()) == refused
    if "report" in views:
        assert read(f"{work}/report.tsv") == whole(folder, ["report"], rows)[0]
    assert not glob.glob(f"{work}/**/*.tmp*", recursive=True)


@pytest.fixture(scope="module")
def client():
    with LocalCluster(n_workers=2, threads_per_worker=1, dashboard_address=None) as cluster, Client(cluster) as client:
        yield client


# --- Tests ---

@pytest.mark.parametrize("seed,shard,least", [(1, 2000, 20), (2, 10**7, 1)])
def test_twenty_shards_and_one_are_the_same_as_one_run(client, tmp_path, seed, shard, least):
    rows = drawn(80, seed)
    files = write_files(f"{tmp_path}/in", rows)
    work = tmp_path / "w"
    mystery_scale.run(client, words(work, files, *WHATIF, "model", "report", "paths", "slack", "graph", shard=shard))
    assert len(os.listdir(work / "paths")) >= least
    hold(tmp_path, work, rows, "report", "paths", "slack", "graph")
    text, _ = whole(tmp_path, ["whatif", *WHATIF[1:]], rows)
    assert blocks(map(read, glob.glob(f"{work}/whatif-*/*.tsv")), "forecast") == blocks([text], "forecast")
    assert read(work / "whatif.tsv").split("\t", 1)[1].rstrip("\n").split("\t")[5:] == text.split("\n")[0].split("\t")[1:]


def test_a_grace_holds_in_all_shards(client, tmp_path):
    rows = drawn(40)
    mystery_scale.run(client, words(tmp_path / "w", write_files(f"{tmp_path}/in", rows), "--grace", "3", "model", "paths"))
    hold(tmp_path, tmp_path / "w", ['{"do": "grace", "micros": 3}', *rows], "paths")
    told_where(tmp_path / "w")


def test_no_line_is_no_trace(client, tmp_path):
    work = tmp_path / "w"
    mystery_scale.run(client, words(work, write_files(f"{tmp_path}/in", []), *WHATIF, "model", "report", "paths"))
    hold(tmp_path, work, [], "report", "paths")
    assert read(work / "refused.tsv") == "" and read(work / "whatif.tsv").endswith("\ttraces=0\tbefore=0\tafter=0\n")


def test_parts_that_are_too_large_are_split_again(client, tmp_path, monkeypatch):
    monkeypatch.setattr(mystery_scale, "MOST_PARTS", 2)
    rows = drawn(60)
    mystery_scale.run(client, words(tmp_path / "w", write_files(f"{tmp_path}/in", rows), "model", "report", "paths", shard=3000))
    assert glob.glob(f"{tmp_path}/w/split/2-*")
    hold(tmp_path, tmp_path / "w", rows, "report", "paths")
    told_where(tmp_path / "w")


def told_where(work):
    """Holds that the rows of refused traces name the lines that repeat an event."""
    refused = read(f"{work}/refused.tsv").splitlines()
    assert refused
    for row in refused:
        _, request, reason, number, path = row.split("\t")
        with (gzip.open if path.endswith(".gz") else open)(path, "rt", encoding="utf-8", newline="\n") as file:
            line = json.loads(file.read().split("\n")[int(number) - 1])
        assert (line["request"], line["task"], line["event"], reason) == (request, "a", "end", "repeated event")


@pytest.mark.parametrize("line,reason", [("{", "not a JSON object"), ('{"do":"add"}', "control line"),
                                         ('{"task":"a"}', "missing member"), (event("r1é", "a", "s", -1), "out of range")])
@pytest.mark.parametrize("packed", [False, True])
def test_a_bad_line_of_the_third_file_is_told(client, tmp_path, line, reason, packed):
    rows = drawn(40)
    files = write_files(f"{tmp_path}/in", rows)
    if not packed:
        files = [files[0], files[2], files[1]]
    opened = gzip.open if packed else open
    with opened(files[2], "rb") as file:
        old = file.read().split(b"\n")
    at = len(old) // 2
    old.insert(at, line.encode())
    with opened(files[2], "wb") as file:
        file.write(b"\n".join(old))
    with pytest.raises(Told) as told:
        mystery_scale.run(client, words(tmp_path / "w", files, "model", block=1500))
    assert str(told.value) == f"{files[2]}: line {at + 1}: {reason}"


def test_each_file_with_a_bad_line_is_told_in_order(client, tmp_path):
    files = write_files(f"{tmp_path}/in", drawn(20))
    for path in files[:2]:
        with open(path, "a", encoding="utf-8") as file:
            file.write("\n{\n")
    with pytest.raises(Told) as told:
        mystery_scale.run(client, words(tmp_path / "w", files, "model"))
    assert [line.split(": ")[0] for line in str(told.value).splitlines()] == files[:2]


def test_too_many_names_are_told_with_what_finds_them(client, tmp_path):
    rows = [event(f"r{k}", "t", f"{e}{k}", k + e) for k in range(513) for e in (0, 1)]
    with pytest.raises(Told, match=r"limit: 51[3-9] segment names\n.*mystery inspect "):
        mystery_scale.run(client, words(tmp_path / "w", write_files(f"{tmp_path}/in", rows), "model", shard=40_000))


def test_a_request_that_no_run_takes_is_refused_and_told(tmp_path, monkeypatch):
    """Shrunk limits: one request has more than a run reads."""
    rows = drawn(20)
    big = [event("heartbeat", "t", f"e{k}", k) for k in range(400)]
    files = write_files(f"{tmp_path}/in", rows + big)
    for module in (mystery_scale, shard_tasks):
        monkeypatch.setattr(module, "MOST_INPUT", 9000)
    monkeypatch.setattr(shard_tasks, "MOST_LINES", 100)
    with Client(processes=False, n_workers=1, threads_per_worker=1, dashboard_address=None) as here:
        mystery_scale.run(here, words(tmp_path / "w", files, "model", "report", "paths", shard=4000))
        assert "refused\theartbeat\ttoo many events\t400\t\n" in read(f"{tmp_path}/w/refused.tsv")
        assert read(f"{tmp_path}/w/model.tsv") == whole(tmp_path, ["model"], rows)[0]
        monkeypatch.setattr(shard_tasks, "MOST_LINES", 400)
        with pytest.raises(Told, match="request heartbeat: its 400 lines have over "):
            mystery_scale.run(here, words(tmp_path / "v", files, "model", shard=4000))


def test_a_request_with_too_many_events_is_refused(client, tmp_path):
    rows = drawn(10)
    big = [event("heartbeat", "t", f"e{k}", k) for k in range(4097)]
    mystery_scale.run(client, words(tmp_path / "w", write_files(f"{tmp_path}/in", rows + big), "model", shard=10**6))
    assert "refused\theartbeat\ttoo many events\t4097\t\n" in read(f"{tmp_path}/w/refused.tsv")
    assert read(f"{tmp_path}/w/model.tsv") == whole(tmp_path, ["model"], rows)[0]


def test_a_packed_file_that_is_cut_short_is_told(client, tmp_path):
    files = write_files(f"{tmp_path}/in", drawn(20))
    os.truncate(files[2], os.path.getsize(files[2]) - 20)
    with pytest.raises(Told, match="3.gz: not a whole gzip file"):
        mystery_scale.run(client, words(tmp_path / "w", files, "model"))


def test_a_file_or_command_that_is_not_there_is_told(client, tmp_path):
    with pytest.raises(Told, match="nowhere/.*: no such file"):
        mystery_scale.run(client, words(tmp_path / "w", ["nowhere/*.jsonl"], "model"))
    with pytest.raises(Told, match="the command nowhere is not on the PATH"):
        mystery_scale.run(client, words(tmp_path / "w", [__file__], "--mystery", "nowhere", "model"))


def test_files_that_changed_need_a_new_folder(client, tmp_path):
    files = write_files(f"{tmp_path}/in", drawn(10))
    mystery_scale.run(client, words(tmp_path / "w", files, "model", shard=10**6))
    mystery_scale.run(client, words(tmp_path / "w", files, "model", "paths", shard=10**6))
    with pytest.raises(Told, match="holds another job"):
        mystery_scale.run(client, words(tmp_path / "w", files, "--grace", "1", "model", shard=10**6))
    with open(files[0], "a", encoding="utf-8") as file:
        file.write("\n")
    with pytest.raises(Told, match="holds another job"):
        mystery_scale.run(client, words(tmp_path / "w", files, "model", shard=10**6))


def test_workers_that_die_change_nothing(tmp_path):
    rows = drawn(80)
    files = write_files(f"{tmp_path}/in", rows)
    killed = []
    with LocalCluster(n_workers=2, threads_per_worker=1, dashboard_address=None) as cluster, Client(cluster) as client:
        def kill():
            for folder in ("split", "summaries", "paths"):
                while not glob.glob(f"{tmp_path}/w/{folder}/*"):
                    time.sleep(0.01)
                pid = sorted(client.run(os.getpid).values())[0]
                os.kill(pid, signal.SIGKILL)
                killed.append(folder)
        thread = threading.Thread(target=kill)
        thread.start()
        mystery_scale.run(client, words(tmp_path / "w", files, "model", "report", "paths", block=2000))
        thread.join()
    assert killed == ["split", "summaries", "paths"]
    hold(tmp_path, tmp_path / "w", rows, "report", "paths")


def call(work, files, *more):
    return [sys.executable, f"{HERE}/mystery_scale.py", "--work", str(work), "--mystery", MYSTERY, "--shard", "2000",
            "--block", "4000", *more, "model", "report", "paths", "--", *files]


def test_an_interrupted_job_goes_on(tmp_path):
    rows = drawn(80)
    files = write_files(f"{tmp_path}/in", rows)
    with subprocess.Popen(call(tmp_path / "w", files, "--local", "2"), stderr=subprocess.PIPE, start_new_session=True) as first:
        while not glob.glob(f"{tmp_path}/w/paths/*.tsv") and first.poll() is None:
            time.sleep(0.05)
        os.killpg(first.pid, signal.SIGINT)     # as from a terminal: to the workers and the programs too
        message = first.stderr.read()
    assert first.returncode == 130 and b"interrupted; the same call goes on from here" in message
    assert not os.path.exists(f"{tmp_path}/w/report.tsv")
    before = {p: os.stat(p).st_mtime_ns for p in glob.glob(f"{tmp_path}/w/**/*", recursive=True)
              if os.path.isfile(p) and ".tmp" not in p}
    second = subprocess.run(call(tmp_path / "w", files, "--local", "2"), stderr=subprocess.PIPE, check=False)
    assert second.returncode == 0
    assert all(os.stat(p).st_mtime_ns == then for p, then in before.items())
    hold(tmp_path, tmp_path / "w", rows, "report", "paths")


def test_a_scheduler_and_workers_of_their_own(tmp_path):
    """As on several machines: the workers find the job's modules by the cluster alone, also those that start anew."""
    rows, logs = drawn(60), open(tmp_path / "log", "w", encoding="utf-8")
    files = write_files(f"{tmp_path}/in", rows)
    running = []

    def start(*words):
        running.append(subprocess.Popen([sys.executable, *words], cwd=tmp_path, stdout=subprocess.PIPE, stderr=logs, text=True))
    try:
        start("-m", "distributed.cli.dask_scheduler", "--host", "127.0.0.1", "--port", "0", "--dashboard-address", "127.0.0.1:0",
              "--scheduler-file", "s.json")
        while not (tmp_path / "s.json").exists():
            time.sleep(0.1)
        address = json.loads(read(tmp_path / "s.json"))["address"]
        for _ in range(2):
            start("-m", "distributed.cli.dask_worker", address, "--nthreads", "1", "--no-dashboard", "--local-directory", str(tmp_path))
        with Client(address) as client:
            client.wait_for_workers(2)
            first = sorted(client.run(os.getpid).values())[0]
        start(*call(tmp_path / "w", files, "--scheduler", address, "--clean")[1:])
        job = running[-1]
        while not glob.glob(f"{tmp_path}/w/summaries/*") and job.poll() is None:
            time.sleep(0.01)
        os.kill(first, signal.SIGKILL)
        status = job.wait()
        link = re.search("pages of the scheduler: (http://.*)", read(tmp_path / "log"))
        with urllib.request.urlopen(link[1]) as page:
            assert page.status == 200 and b"Workers" in page.read()
    finally:
        for one in running[::-1]:
            one.terminate()
            one.wait()
            one.stdout.close()
        logs.close()
    said = read(tmp_path / "log")
    assert status == 0, said
    assert "split         [####################] " in said
    hold(tmp_path, tmp_path / "w", rows, "report", "paths")
    assert not set(os.listdir(tmp_path / "w")) & set(mystery_scale.ASIDE)


@pytest.mark.parametrize("package", ["numpy", "distributed"])
def test_a_missing_package_is_named(tmp_path, package):
    (tmp_path / f"{package}.py").write_text(f"raise ImportError('none', name='{package}')", encoding="utf-8")
    ran = subprocess.run([sys.executable, f"{HERE}/mystery_scale.py", "--help"], capture_output=True, text=True, check=False,
                         env={**os.environ, "PYTHONPATH": str(tmp_path)})
    assert ran.returncode == 1 and f"the Python package {package} is missing: scale/setup installs python3-{package}" in ran.stderr


def test_a_file_is_whole_or_absent(tmp_path, monkeypatch):
    path, seen = f"{tmp_path}/folder/result", []
    monkeypatch.setattr(work_files, "sync", lambda p: seen.append((p, os.path.exists(path))))

    def write(to):
        with open(to, "w", encoding="utf-8") as file:
            file.write("half")
        assert not os.path.exists(path)
        raise OSError("disk full")
    with pytest.raises(OSError):
        work_files.publish(path, write)
    assert not os.path.exists(path) and not seen
    inodes = []

    def write_whole(to):
        work_files.write_rows(to, [["whole"]])
        inodes.append(os.stat(to).st_ino)
    work_files.publish(path, write_whole)
    assert read(path) == "whole\n" and inodes == [os.stat(path).st_ino]        # by a rename, not by a copy
    assert [there for _, there in seen] == [False, True] and seen[1][0] == os.path.dirname(path)
    work_files.publish(path, lambda to: pytest.fail("made twice"))


@pytest.mark.parametrize("seed", range(5))
def test_medians_are_exact(tmp_path, seed):
    draw = random.Random(seed)
    most = draw.choice([1, 255, 256, 10**9, 2**64 - 1])
    values = {"latency": [draw.randrange(most + 1) for _ in range(draw.randrange(1, 400))], "a\tb\tc": [draw.randrange(most + 1)]}
    paths = []
    for k in range(3):
        paths.append(f"{tmp_path}/{k}.npz")
        with open(f"{tmp_path}/slack", "w", encoding="utf-8") as file:
            file.writelines(f"trace\tr\t1\t{v}\t0\n" for v in values["latency"][k::3])
            file.writelines(f"segment\ta\tb\tc\t{v}\t0\n" for v in values["a\tb\tc"][k::3])
        figures.write_values(f"{tmp_path}/slack", paths[-1])
    total = {name: [len(v), sum(v), max(v), 0, 0] for name, v in values.items()}
    count = lambda known, shift: figures.add_counts([figures.count_digits([p], known, shift) for p in paths])
    assert figures.medians(count, total) == {name: sorted(v)[(len(v) - 1) // 2] for name, v in values.items()}


def test_sums_do_not_overflow():
    one = {"latency": [1, 8 * 10**18, 8 * 10**18, 0, 0], "head": [1, 8 * 10**18]}
    assert figures.add_figures([one, one, one]) == {"latency": [3, 24 * 10**18, 8 * 10**18, 0, 0], "head": [3, 24 * 10**18]}


def test_progress_is_a_bar_on_a_terminal_and_lines_elsewhere():
    lines = io.StringIO()
    bar = mystery_scale.Bar("split", 3, lines)
    for done in (1, 2, 3):
        bar.show(done)
    assert re.fullmatch(r"split         \[####################\] 3/3  \d s\n", lines.getvalue())
    ours, theirs = pty.openpty()
    with os.fdopen(theirs, "w", encoding="utf-8") as terminal:
        bar = mystery_scale.Bar("split", 2, terminal)
        bar.start -= 1
        bar.show(1)
        bar.show(2)
        shown = b""
        while not shown.endswith(b"\n"):
            shown += os.read(ours, 1000)
    os.close(ours)
    assert re.fullmatch(rb"split         \[##########          \] 1/2  \d s\rsplit         \[####################\] 2/2  \d s\r\n", shown)
