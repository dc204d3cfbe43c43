"""Files of the work folder: each comes to its place by a rename, once it is whole and on the disk."""
import json
import os
import uuid

CHUNK = 1 << 20                 # bytes that are read at once


def sync(path):
    """Waits until a file or folder is on the disk."""
    opened = os.open(path, os.O_RDONLY)
    try:
        os.fsync(opened)
    finally:
        os.close(opened)


def replace(path, write):
    """Makes the file at `path` by `write(temporary path)`, or leaves it as it was."""
    os.makedirs(os.path.dirname(path), exist_ok=True)
    mine = f"{path}.{uuid.uuid4().hex}.tmp"
    write(mine)
    sync(mine)
    os.replace(mine, path)
    sync(os.path.dirname(path))


def publish(path, write):
    """Makes the file at `path` if it is not there yet, whole or not at all."""
    if not os.path.exists(path):
        replace(path, write)
    return path


def write_rows(path, rows):
    """Writes rows of fields that are parted by tabs."""
    with open(path, "w", encoding="utf-8", newline="\n") as file:
        file.writelines("\t".join(map(str, row)) + "\n" for row in rows)


def read_rows(path):
    with open(path, encoding="utf-8", newline="\n") as file:
        for line in file:
            yield line[:-1].split("\t")


def write_json(path, value):
    with open(path, "w", encoding="utf-8") as file:
        json.dump(value, file)


def read_json(path):
    with open(path, encoding="utf-8") as file:
        return json.load(file)


def count_lines(path):
    with open(path, "rb") as file:
        return sum(chunk.count(b"\n") for chunk in iter(lambda: file.read(CHUNK), b""))
