#!/usr/bin/env python3
"""Prints a Markdown table of several builds of px, each run in turn on each document: its least seconds and memory, and their ratios to the first build's.

in_turn.py TIMES PX.. -- DOCUMENT..
"""

import os
import subprocess
import sys
import time


def run(px, document):
    """The wall seconds and the peak memory in MB of one run."""
    with open(document) as source:
        start = time.perf_counter()
        process = subprocess.Popen([px, "run"], stdin=source, stdout=subprocess.DEVNULL)
        _, status, used = os.wait4(process.pid, 0)
        seconds = time.perf_counter() - start
    if status != 0:
        sys.exit(f"{px} failed on {document}")
    return seconds, used.ru_maxrss / 1024


def main(times, *words):
    cut = words.index("--")
    builds, documents = words[:cut], words[cut + 1 :]
    print("| document | build | wall seconds | peak memory, MB | seconds, to the first | memory, to the first |")
    print("|---|---|--:|--:|--:|--:|")
    for document in documents:
        rounds = [[run(px, document) for px in builds] for _ in range(int(times))]
        best = [tuple(map(min, zip(*runs))) for runs in zip(*rounds)]
        for px, (seconds, memory) in zip(builds, best):
            ratios = f"{seconds / best[0][0]:.3f} | {memory / best[0][1]:.3f}"
            print(f"| {os.path.basename(document)} | {os.path.basename(px)} | {seconds:.3f} | {memory:.1f} | {ratios} |")


main(*sys.argv[1:])
