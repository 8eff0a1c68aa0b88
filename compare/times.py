#!/usr/bin/env python3
"""Says which commands take the test's time, and how many edits each crate has: ./test | tee LOG; python3 compare/times.py LOG

Prints two tables: by crate, whether it was proved in the run or before, its must-fail edits and its edits of edits/, as they were reported; and by command of
./test, its wall and processor time. `rt` says no seconds of a crate or an edit.
"""

import re
import sys
from collections import defaultdict
from pathlib import Path

LINES = {
    "proved in the run": r"^rt: (\w+) proved$",
    "proved before": r"^rt: (\w+) is kept: ",
    "must-fail edits": r"^rt: must-fail (\w+)/\S+: refused, ",
    "edits of edits/": r"^edits: (\w+)/\S+ refused at ",
}


def main():
    said = Path(sys.argv[1]).read_text(encoding="utf-8")
    numbers, crates = defaultdict(int), {}
    for kind, line in LINES.items():
        for crate in re.findall(line, said, re.M):
            crates.setdefault(crate)
            for row in (crate, "all"):
                numbers[row, kind] += 1
    print(f"| crate | {' | '.join(LINES)} |\n|{'---|' * (len(LINES) + 1)}")
    for row in [*crates, "all"]:
        print(f"| {row} |", " | ".join(str(numbers[row, kind] or "") for kind in LINES), "|")
    print("\n| command | wall | processors |\n|---|---|---|")
    for command, wall, spent in re.findall(r"^test: (.*) took (\d+) s, (\d+) s of processors$", said, re.M):
        print(f"| `{command}` | {wall} s | {spent} s |")


if __name__ == "__main__":
    main()
