#!/usr/bin/env python3
"""Compares docs/EXPRESSIONS.md with the table of documents: each document of the page is a line of
crates/px_batch/stdin, and the text beside it is what crates/px_batch/stdout has for that line."""

import re
import sys
from pathlib import Path

from table import read_table

PAGE = Path(__file__).resolve().parent.parent / "docs" / "EXPRESSIONS.md"
BLOCKS = re.compile(r"```json\n(.*?)\n```\n\n```text\n(.*?)```\n", re.DOTALL)


def main():
    answers = dict(zip(*read_table()))
    documents = BLOCKS.findall(PAGE.read_text(encoding="utf-8"))
    wrong = 0
    for document, text in documents:
        told = answers.get(document.encode())
        if told != b"0\n" + text.encode():
            wrong += 1
            print(f"docs/EXPRESSIONS.md: not as in the table: {document}")
    print(f"docs/EXPRESSIONS.md: {len(documents) - wrong} of {len(documents)} documents as in the table")
    return 1 if wrong or not documents else 0


if __name__ == "__main__":
    sys.exit(main())
