"""Documents of Int64 and String columns, and the wall seconds of whole runs over them."""

import json
import subprocess
import tempfile
import time


def type_of(values):
    return "String" if values and isinstance(values[0], str) else "Int64"


def write(file, columns, steps):
    """Writes the document of these columns and steps."""
    listed = [{"name": it, "type": type_of(columns[it]), "values": columns[it]} for it in columns]
    json.dump({"columns": listed, "steps": steps}, file, separators=(",", ":"))
    file.flush()


def run_seconds(command, path):
    """The seconds of one run, with the file as standard input."""
    with open(path) as source:
        start = time.perf_counter()
        subprocess.run(command, stdin=source, stdout=subprocess.DEVNULL, check=True)
        return time.perf_counter() - start


def seconds(command, path):
    """The least of three runs' seconds, with the file as standard input."""
    return min(run_seconds(command, path) for _ in range(3))


def seconds_in_turn(command, paths, times=5):
    """The least seconds of so many runs over each file, one file after the other each time."""
    rounds = [[run_seconds(command, path) for path in paths] for _ in range(times)]
    return [min(taken) for taken in zip(*rounds)]


def measure(px, made):
    """The seconds of px on the document of some columns and steps."""
    with tempfile.NamedTemporaryFile("w") as file:
        write(file, *made)
        return seconds([px, "run"], file.name)


def python_with_pandas():
    """The first Python that has pandas, if any."""
    for python in ("python3", "/usr/bin/python3"):
        has = subprocess.run([python, "-c", "import pandas"], stderr=subprocess.DEVNULL)
        if has.returncode == 0:
            return python
    return None
