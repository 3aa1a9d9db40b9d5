#!/usr/bin/env python3
"""Run once, at the top, before /opt/rattle/port/port.py.

The tests of `vectors` import from eighteen modules by `*`. The kit's script looks up each first name of such a path through all the
others, and takes hours. A line that imports the crate by its name ends that search at once. tools/port-names.py takes these lines out again.
"""
import re

PATH = "crates/vectors/src/tests.rt"

text = open(PATH, encoding="utf-8").read()
firsts = sorted({m for m in re.findall(r"(?m)^use (\w+)::", text) if m not in ("Under", "std", "crate")})
lines = "".join(f"use {name};\n" for name in firsts)
at = re.search(r"(?m)^use ", text).start()
open(PATH, "w", encoding="utf-8").write(text[:at] + lines + text[at:])
