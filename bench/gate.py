"""Runs `rt ci` from nothing in a repository, sees twice a second what processor time each of its processes has taken, and prints whose it was.

gate.py FOLDER BEFORE ; BEFORE is a folder with the earlier revision, two crates of which are proved beside it.
"""
import collections
import os
import re
import subprocess
import sys
import time

from before import Before

TICK = os.sysconf("SC_CLK_TCK")


def fields(pid):
    """The parent, the start and the processor seconds of a process."""
    with open(f"/proc/{pid}/stat") as it:
        after = it.read().rpartition(") ")[2].split()
    return int(after[1]), after[19], (int(after[11]) + int(after[12])) / TICK


def words(pid):
    """What a process was called with, and where it runs: an edit is tried in a folder of its own."""
    with open(f"/proc/{pid}/cmdline", "rb") as it:
        line = it.read().replace(b"\0", b" ").decode(errors="replace")
    return f"{line} {os.readlink(f'/proc/{pid}/cwd')}"


def work_of(line):
    """The crate and the kind of work of a check, where the line is one."""
    crate = re.search(r"--crate-name (\w+)", line)
    if not crate:
        return None
    kind = "edits" if "/rt-edit" in line else "tests" if " --test" in line else "proof"
    return crate[1], kind


def see(root, seen):
    """Notes the seconds of each process under the root, under the check that it belongs to."""
    parents, found = {}, {}
    for pid in filter(str.isdigit, os.listdir("/proc")):
        try:
            parent, start, seconds = fields(pid)
            parents[int(pid)] = (parent, work_of(words(pid)))
            found[int(pid)] = (start, seconds)
        except OSError:
            continue
    for pid, (start, seconds) in found.items():
        at, work = pid, None
        while at in parents and at != root:
            work = work or parents[at][1]
            at = parents[at][0]
        if at == root and pid != root:
            # A process that lets its memory go has no words left.
            known = seen.get((pid, start), (("rt", "proof"), 0))[0]
            seen[pid, start] = (work or known, seconds)


def chains(folder, proof):
    """The longest chain of proofs: its seconds and its crates."""
    longest = {}
    with open(f"{folder}/crates.txt") as it:
        for line in it:
            name, colon, below = line.split("#")[0].partition(":")
            if not colon:
                continue
            under = max((longest[dep] for dep in below.split() if dep in longest), default=(0, []))
            longest[name.strip()] = (under[0] + proof.get(name.strip(), 0), [*under[1], name.strip()])
    return max(longest.values()), list(longest)


def gate_words():
    """How the gate is run from nothing: a kit that keeps what it has proved is told to take nothing of it."""
    told = subprocess.run(["rt", "--help"], stdout=subprocess.PIPE, stderr=subprocess.STDOUT, text=True, check=False).stdout
    return ["rt", "ci", *["--anew"] * ("--anew proves" in told)]


def main(folder, earlier):
    begin = time.time()
    before = Before(earlier)
    before.start()
    gate = subprocess.Popen(gate_words(), cwd=folder, stdout=sys.stderr)
    seen = {}
    try:
        while gate.poll() is None:
            see(gate.pid, seen)
            time.sleep(0.5)
    except KeyboardInterrupt:
        print("The gate was interrupted: what it took until then.\n")
        gate.terminate()
        gate.wait()
    before.stop()
    used = os.times()
    minutes = (used.children_user + used.children_system - before.spent) / 60
    spent = collections.defaultdict(float)
    for work, seconds in seen.values():
        spent[work] += seconds
    proof = {crate: seconds for (crate, kind), seconds in spent.items() if kind == "proof"}
    (longest, path), names = chains(folder, proof)
    print("| crate | proof | tests | edits |\n|---|--:|--:|--:|")
    for name in names:
        print(f"| {name} | " + " | ".join(f"{spent[name, kind]:.0f}" for kind in ("proof", "tests", "edits")) + " |")
    print(
        f"\nAll: {minutes:.0f} processor minutes in {(time.time() - begin) / 60:.0f} minutes. "
        f"Longest chain of proofs: {longest / 60:.1f} processor minutes, {', '.join(path)}."
    )
    before.say(minutes, longest / 60)
    return gate.returncode


sys.exit(main(*sys.argv[1:]))
