#!/usr/bin/env python3
"""Counts the words of the pages, and fails where a page has more than it may have.

    docs/words.py

Counted are README.md and docs/*.md. A word is what stands between blanks and has a letter or a digit. What a script
writes between two marks isn't counted: a mark is a line such as `<!-- costs -->`, and the next mark that begins with
`end` closes it. The status is 1 where a page, or all of them, have more words than they may, or a mark has no end.
"""

import pathlib
import re
import sys

LIMITS = {"README.md": 1100, "docs/SPEED.md": 3000, "docs/DECISIONS.md": 7500, "docs/PROVING.md": 5000}
ALL = 50000
MARK = re.compile(r"<!--\s*(.*?)\s*-->")


def counted(text):
    """How many words a page has outside marks, and the mark that has no end, if there is one."""
    words, open_mark = 0, None
    for line in text.splitlines():
        mark = MARK.fullmatch(line.strip())
        if mark:
            open_mark = None if mark[1].startswith("end") else mark[1]
        elif open_mark is None:
            words += sum(any(c.isalnum() for c in word) for word in MARK.sub("", line).split())
    return words, open_mark


def main():
    top = pathlib.Path(__file__).resolve().parent.parent
    total, faults = 0, []
    for page in [top / "README.md", *sorted((top / "docs").glob("*.md"))]:
        name = page.relative_to(top).as_posix()
        words, open_mark = counted(page.read_text(encoding="utf-8"))
        total += words
        limit = LIMITS.get(name)
        print(f"{words:6} {name}" + (f" (at most {limit})" if limit else ""))
        if limit and words > limit:
            faults.append(f"{name} has {words} words, and may have {limit}")
        if open_mark is not None:
            faults.append(f"{name} has no end of the mark `{open_mark}`")
    print(f"{total:6} all (at most {ALL})")
    if total > ALL:
        faults.append(f"all pages have {total} words, and may have {ALL}")
    for fault in faults:
        print(f"words.py: {fault}", file=sys.stderr)
    return 1 if faults else 0


if __name__ == "__main__":
    sys.exit(main())
