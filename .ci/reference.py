#!/usr/bin/env python3
"""Compares with reference/reference.py the table of documents, and px_batch, which `rt ci` has built, on generated documents.

reference.py [SEED [COUNT [PX_BATCH]]] ; where several values of one step are at fault, the label of any of them is a right answer.
"""

import json
import subprocess
import sys
from pathlib import Path

from table import BATCH, read_table, split_answers, split_lines

REFERENCE = BATCH.parent.parent / "reference"


def run(command, text=b""):
    """What a program prints on an input."""
    return subprocess.run(command, input=text, stdout=subprocess.PIPE, check=True).stdout


def run_reference(script, *words, documents=b""):
    """What a script of reference/ prints."""
    return run([sys.executable, str(REFERENCE / script), *words], documents)


def compare(name, documents, told):
    """Whether reference.py answers the documents in the same way; prints the first one that it does not."""
    text = b"".join(document + b"\n" for document in documents)
    wanted = split_answers(run_reference("reference.py", documents=text))
    causes = map(json.loads, run_reference("reference.py", "--causes", documents=text).splitlines())
    right = 0
    for seen, (document, answer, other, labels) in enumerate(zip(documents, told, wanted, causes)):
        if answer == other or answer in {f"1\nerror: {label}\n".encode() for label in labels}:
            right += 1
        elif right == seen:
            print(f"{document.decode()}\nanswered:\n{answer.decode()}reference.py:\n{other.decode()}")
    print(f"{name}: {right} of {len(documents)} documents answered as by reference.py")
    return 0 < right == len(documents) == len(told) == len(wanted)


def compare_table():
    """The table, but for group steps in chunks, which reference.py runs and px refuses as no documents."""
    rows = [row for row in zip(*read_table()) if b'"chunks":[' not in row[0]]
    return compare("the table", [document for document, _ in rows], [answer for _, answer in rows])


def compare_generated(seed="1", count="5000", px_batch=BATCH / "out" / "px_batch"):
    if not Path(px_batch).is_file():
        print(f"generated: {px_batch} was not built")
        return False
    documents = run_reference("random_documents.py", seed, count)
    told = split_answers(run([str(px_batch)], documents))
    return compare("generated", split_lines(documents), told)


def main():
    is_table_right = compare_table()
    return 0 if compare_generated(*sys.argv[1:]) and is_table_right else 1


if __name__ == "__main__":
    sys.exit(main())
