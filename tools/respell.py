#!/usr/bin/env python3
"""Brings the repository's own words to today's spelling: definitions and lemmas in snake case.

usage: python3 tools/respell.py        at the top, once, on what the kit's port.py left

An own word is one that a file of specs/ or proofs/ declares at the beginning of a line, other than the goals of a function,
which keep their dashes. Words of src/, strings, labels and goals stay.
"""
import collections
import os
import re
import sys

WORD = r"[^\W\d_][\w'₀-₉]*(?:-[\w'₀-₉]+)+"
DECLARED = re.compile(r"^\s*(?:(?:pub|abbrev|unfoldable)\s+)*(" + WORD + r")\s*:\s*(.*)$")
TOKEN = re.compile(r"(?<![\w'₀-₉-])(" + WORD + r")(?![\w'₀-₉]|-[\w])")
STRING = re.compile(r'b?"(?:[^"\\]|\\.)*"')
STEP = re.compile(r"(if|in|then|else|loop|returns|bounds|overflow|match)-")


def files(endings):
    for top in ("crates", "docs", "README.md"):
        if os.path.isfile(top):
            yield top
        for root, dirs, names in os.walk(top):
            dirs[:] = sorted(d for d in dirs if d not in ("out", "target"))
            for name in sorted(names):
                if name.endswith(endings):
                    yield os.path.join(root, name)


def read(path):
    with open(path, encoding="utf-8") as f:
        return f.read()


def declared():
    words = collections.defaultdict(set)
    for path in files(".antt"):
        for line in read(path).split("\n"):
            m = DECLARED.match(line)
            if m and not re.match(r"goal\b", m.group(2)):
                words[m.group(1)].add(path)
    return words


def turned(words):
    new = {}
    for word in words:
        snake = word.replace("-", "_")
        new[word] = snake.lower() if snake.lower() not in new.values() else snake
    return new


def respell(text, new, fields):
    def put(m):
        word = m.group(1)
        before = text[m.start() - 1] if m.start() else " "
        if word not in new:
            return word
        if before == "." and STEP.match(word) and word not in fields:
            return word
        return new[word]
    return TOKEN.sub(put, text)


def outside_strings(text, put):
    out, at = [], 0
    for m in STRING.finditer(text):
        out += [put(text[at:m.start()]), m.group(0)]
        at = m.end()
    return "".join(out + [put(text[at:])])


def in_backticks(text, put):
    return re.sub(r"`[^`\n]+`", lambda m: put(m.group(0)), text)


def main():
    words = declared()
    new = turned(words)
    fields = set()
    for path in files(".antt"):
        for line in read(path).split("\n"):
            m = re.match(r"^\s+pub (" + WORD + r")\s*:", line)
            if m:
                fields.add(m.group(1))
    falls = [v for v, n in collections.Counter(new.values()).items() if n > 1]
    if falls:
        sys.exit(f"these names fall together: {falls}")
    for path in files((".antt", ".rt", ".edit", ".md", "README.md")):
        text = read(path)
        put = lambda t: respell(t, new, fields)
        if path.endswith(".md"):
            if os.path.basename(path).startswith("PORT"):
                continue
            after = in_backticks(text, put)
        elif path.endswith(".antt"):
            after = put(text)
        else:
            after = outside_strings(text, put)
        if after != text:
            with open(path, "w", encoding="utf-8") as f:
                f.write(after)
    print(f"{len(new)} words respelled")


main()
