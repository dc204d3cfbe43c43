"""What the scripts of this folder share: runs of the program, and what every run promises."""
import os
import re
import subprocess

HERE = os.path.dirname(os.path.abspath(__file__))
ROOT = os.path.dirname(os.path.dirname(HERE))
EXAMPLES = os.path.join(ROOT, "examples")
MESSAGES = {
    0: rb"",
    1: rb"out of memory\n",
    2: rb"usage: mystery \[--workers N\] COMMAND FILE\.\.\.\n",
    3: rb"line [1-9][0-9]*: [a-zA-Z ]+\n",
    4: rb"file [1-9][0-9]*: read failed\n",
    5: rb"write failed\n",
    6: rb"limit: (input over 67108864 bytes|[1-9][0-9]* (segment names|tasks|days|traces))\n",
}


def run(words, seconds=120, **more):
    """Status (below 0: the signal that ended it), standard output and standard error."""
    done = subprocess.run(words, stdin=subprocess.DEVNULL, stdout=subprocess.PIPE, stderr=subprocess.PIPE, timeout=seconds, **more)
    return done.returncode, done.stdout, done.stderr


def has(binary, command, *operands):
    """Whether this build has the command."""
    return run([binary, command, *(operands or ["/dev/null"])])[0] != 2


def broken_promise(status, out, err):
    """What a run broke of that which every run promises, or None."""
    if status not in MESSAGES:
        return f"status {status}"
    if not re.fullmatch(MESSAGES[status], err):
        return f"status {status} with the message {err[:80]!r}"
    if status in (2, 3, 4) and out:
        return f"status {status} with {len(out)} bytes of output"
    if status == 6 and b"input over" in err and out:
        return f"an input that is too big, with {len(out)} bytes of output"
    return None


def without_numbers(out):
    """The text without the numbers of watch rows, which are free within their bounds."""
    return re.sub(rb"(?m)^(watch\t[0-9]+\t[0-9]+\t[0-9]+\t)[0-9]+$", rb"\1", out)
