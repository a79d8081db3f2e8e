#!/usr/bin/env python3
"""Looks at what examples/judge/judge.py printed: the engine as it is does what the judge does, and each of the three others
is found out by a script of at most eight lines. By the version of Hypothesis that the page names, the page shows the same.

    tools/gate/compare-finds.py PRINTED PAGE
"""
import difflib
import re
import sys

import hypothesis

LINES = 8
with open(sys.argv[1], encoding="utf-8") as printed, open(sys.argv[2], encoding="utf-8") as page:
    said, shown = printed.read(), page.read()
tests = [it.partition(": ") for it in re.findall(r"^\S.*\n(?:(?: {4}.*)?\n)*", said, re.M)]
wrong = []
if len(tests) != 4 or not tests[0][2].strip().endswith("runs are alike"):
    wrong.append("the engine as it is differs, or not each test has told something")
for title, _, found in tests[1:]:
    script = re.match(r"the engine and the judge differ after\n((?:    \S.*\n)+)", found)
    if not script or script[1].count("\n") > LINES:
        wrong.append(f"{title}: it is not found, or not by so few lines:\n{found}")
version = re.search(r"Hypothesis (\d+\.\d+\.\d+)", shown)[1]
block = re.search(r"^```text\n(The engine as it is.*?)^```$", shown, re.M | re.S)[1]
if version != hypothesis.__version__:
    print(f"the page is of Hypothesis {version}, and this is {hypothesis.__version__}: what it shows is not compared")
elif block.strip() != said.strip():
    wrong += difflib.unified_diff(block.splitlines(), said.splitlines(), "the page", "what is printed", lineterm="")
print("\n".join(wrong), end="\n" if wrong else "")
sys.exit(1 if wrong else 0)
