#!/usr/bin/env python3
"""Shortens the proofs of functions: an answer that says only `search rules` goes, since the check tries that by itself. A file in which no
answer is left goes with it. It changes nothing that is proved; `rt check` says so, and `rt check --fix-imports` takes out the imports that
nothing uses any more.

Usage: tools/proofs.py [ANSWERS..], all crates/*/proofs/**/Answers.antt where none is named."""
import glob
import os
import re
import sys

SEARCHED = re.compile(r"^(?:--[^\n]*\n)*pub (\S+) : goal\.\1\n\1 c(?: κs)? = search rules\n\n*", re.M)


def shortened(text):
    """the file's text without such answers; nothing where no definition is left"""
    new = SEARCHED.sub("", text).rstrip("\n") + "\n"
    return new if re.search(r"^[^\s-][^\n]* :(?:\s|$)", new, re.M) else ""


def main():
    os.chdir(os.path.join(os.path.dirname(os.path.abspath(__file__)), ".."))
    saved = 0
    for path in sys.argv[1:] or sorted(glob.glob("crates/*/proofs/**/Answers.antt", recursive=True)):
        with open(path, encoding="utf-8") as file:
            text = file.read()
        new = shortened(text)
        if not SEARCHED.search(text):
            continue
        saved += text.count("\n") - new.count("\n")
        if new:
            with open(path, "w", encoding="utf-8") as file:
                file.write(new)
        else:
            os.remove(path)
            if not os.listdir(os.path.dirname(path)):
                os.rmdir(os.path.dirname(path))
    print(f"{saved} lines fewer")


if __name__ == "__main__":
    main()
