"""The table of documents: crates/px_batch/stdin, with the answers of crates/px_batch/stdout."""

import re
from pathlib import Path

BATCH = Path(__file__).resolve().parent.parent / "crates" / "px_batch"


def split_lines(text):
    """The lines of a text that ends with a line end; a carriage return is no line end."""
    return text.split(b"\n")[:-1]


def split_answers(printed):
    """The answers: each begins with a line that is the number of a status. Headings are left out."""
    answers = []
    for line in split_lines(printed):
        if line.startswith(b"#"):
            continue
        if re.fullmatch(rb"[0-6]", line):
            answers.append(b"")
        answers[-1] += line + b"\n"
    return answers


def read_table():
    """The documents of the table and their answers, both in order."""
    lines = split_lines((BATCH / "stdin").read_bytes())
    documents = [line for line in lines if not line.startswith(b"#")]
    return documents, split_answers((BATCH / "stdout").read_bytes())
