#!/usr/bin/env python3
"""Run once, at the top, after /opt/rattle/port/port.py: brings the names of this repository's own definitions and lemmas to today's spelling.

Words are in snake case, and facts and types in upper camel case. The names are those that specs/ and proofs/ declare; the names that Rattle makes
for goals and steps, and those of the library, stay. Comments, texts and the names of functions stay too. It also takes out the lines of
tools/port-prepare.py, and says where two names would fall together.
"""
import collections
import glob
import re
import sys

WORD = r"[^\s(){}\[\],;.:=λ@\"]+"
# A name of the library that the renamed one would meet in the same file.
SPECIAL = {"of-fields": "number_of_fields"}
TESTS = "crates/vectors/src/tests.rt"


def files(*endings):
    return sorted(p for e in endings for p in glob.glob(f"crates/**/*{e}", recursive=True) if "/out/" not in p)


def code(line, mark):
    """The line up to its comment."""
    return line.split(mark)[0]


def declared():
    """The names with a dash that the files of specs/ and proofs/ declare, but for the answers to goals."""
    own = set()
    for path in files(".antt"):
        for line in open(path, encoding="utf-8"):
            line = code(line, "--").rstrip("\n")
            found = re.match(rf"\s*(?:(?:pub|abbrev|unfoldable)\s+)*((?:{WORD}\s+)*{WORD})\s+:\s*(\S+)", line)
            if found and not found[2].startswith("goal"):
                own.update(found[1].split())
            found = re.match(rf"\s*(?:pub\s+)?(?:record|data)\s+(?:pub\s+)?({WORD})", line)
            if found:
                own.add(found[1])
    return {n for n in own if re.fullmatch(r"[\w'′]+(-[\w'′]+)+", n)}


def spelled(name):
    if name in SPECIAL:
        return SPECIAL[name]
    first = name.split("-")[0]
    if first[0].isupper() and not first.isupper():
        return "".join(w[0].upper() + w[1:] for w in name.split("-"))
    return name.replace("-", "_").lower() if first.isupper() else name.replace("-", "_")


def main():
    names = {n: spelled(n) for n in declared()}
    taken = collections.defaultdict(set)
    for path in files(".antt"):
        for line in open(path, encoding="utf-8"):
            # Of a `use` line the path does not count, only the names behind it.
            taken[path].update(re.findall(WORD, re.sub(r"^use [^{]*", "", code(line, "--"))))
    bad = 0
    for old, new in sorted(names.items()):
        meets = [p for p in taken if old in taken[p] and new in taken[p]]
        twins = [o for o in names if names[o] == new and o != old]
        if meets or twins:
            bad += 1
            print(f"fall together: {old} -> {new}: {meets} {twins}")
    if bad:
        sys.exit(1)
    pattern = re.compile(r"(?<![\w'-])(" + "|".join(sorted(map(re.escape, names), key=len, reverse=True)) + r")(?![\w'-])")
    for path in files(".antt", ".rt"):
        mark = "--" if path.endswith(".antt") else "//"
        text = open(path, encoding="utf-8").read()
        lines = []
        for line in text.split("\n"):
            head = code(line, mark)
            if path.endswith(".rt") and '"' in head:
                lines.append(line)
                continue
            lines.append(pattern.sub(lambda m: names[m[1]], head) + line[len(head) :])
        done = "\n".join(lines)
        if path == TESTS:
            done = re.sub(r"(?m)^use \w+;\n", "", done)
        if done != text:
            open(path, "w", encoding="utf-8").write(done)
    print(f"{len(names)} names")


main()
