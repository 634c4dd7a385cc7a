#!/usr/bin/env python3
"""Makes docs/LEFT_OUT.md from the table of the constructs of Ada that the subset leaves out.

    python3 tools/left_out_page.py            writes the page
    python3 tools/left_out_page.py --check    ends with 1 where the page isn't what would be written
    python3 tools/left_out_page.py --gnat     ends with 1 where GNAT refuses a source of the table or a program

The table is crates/spark_examples/data/tables/left_out.txt. A comment there has a construct and what stands in
its place; below it stand a source that is refused for the construct, and one that is accepted. The program
`spark_examples` runs all of them. A new construct is a new comment with its two sources.
"""
import pathlib
import re
import sys
from typing import NamedTuple

sys.dont_write_bytecode = True
import errors_page
import typing_rows

TOP = pathlib.Path(__file__).resolve().parent.parent
DATA = TOP / "crates" / "spark_examples" / "data"
TABLE = DATA / "tables" / "left_out.txt"
PAGE = TOP / "docs" / "LEFT_OUT.md"


class Construct(NamedTuple):
    """What is left out, what stands in its place, a source that is refused, the refusal, and an accepted source."""

    group: str
    name: str
    place: str
    refused: str
    refusal: str
    accepted: str

    @property
    def code(self):
        return self.refusal.split()[1]


HEAD = """
# What of Ada is left out, and what stands in its place

`spark` reads a subset of Ada 2012, and refuses a source with anything else. Each row below is a construct of Ada, the code of its refusal ([ERRORS.md](ERRORS.md)), and what stands in its
place. The [table](../crates/spark_examples/data/tables/left_out.txt) has two sources for each row, one that is refused
and one that is accepted; GNAT accepts both. `tools/spark-show` names the construct that is likely meant at a refusal.

**All at once.** `spark` stops at the first refusal. `spark-show --left-out FILE...` prints each construct of this page
that it finds in the files, with its position, its code and what to write in its place:

```
queue.adb:22:23: P1 a default of a component
      = in its place: give the value where the object is made: `X : R := (A => 0);`
```

It looks for words, without the rules of names and types, so it may miss some; it passes over what stands in contracts
and pragmas, which goes with them. Tested: it finds each row of this page in its refused source, and nothing in any
accepted program of the examples. What `spark check` says is the answer.

**The whole program is given.** `spark` looks into the body of each subprogram that is called, so each package that a
`with` clause names is given too, with its body (N1 and N5 otherwise), but for the few of Ada that it knows. A unit with
something that can't be replaced isn't left out either: give a body in its place that keeps to the subset, and that
changes, keeps and frees the same objects
([a body with a handler](../crates/spark_examples/data/refusals/P3_body_with_handler.adb),
[a simpler one](../crates/spark_examples/data/accepted/P3_simpler_body.adb)).

**What will come.** These are refused today, and will be read: `pragma Assert`, `Pre` and `Post`, which a run will
evaluate where it is asked to; and named access-to-constant types, whose values nobody owns and everybody may share.
Elements of an array are one place today, whatever the index; those at different static indexes, as `R (1)` and
`R (2)`, will be different places. No other row is planned.

This page is made by `tools/left_out_page.py` from the table. Change the table, not the page.
"""


def constructs():
    """The constructs of the table, in order."""
    group, name, place, found = "", "", "", []
    lines = []
    for line in TABLE.read_text().splitlines():
        if line.startswith("-- ## "):
            group = line[6:]
        elif line.startswith("-- ") and " | " in line:
            name, _, place = line[3:].partition(" | ")
            found.append([group, name, place])
        elif line.startswith("> "):
            source = "\n".join(lines)
            found[-1] += [source] if line == "> accepted" else [source, line[2:]]
            lines = []
        elif line and not line.startswith("--"):
            lines.append(line)
    made = [Construct(*row) for row in found]
    assert len({it.name for it in made}) == len(made), "a construct stands twice"
    return made


PROGRAMS = """
## Whole programs

These are programs as they are written in SPARK, each with several of these constructs, and below the same ones with
other things in their place. `spark` accepts them so; `tools/check_show.py` runs both.
"""


def programs():
    """The section on the programs."""
    rows = ["| as it is written | as `spark` reads it |", "|---|---|"]
    for path in sorted(DATA.glob("natural/*.adb")):
        links = ["[%s](../crates/spark_examples/data/%s/%s)" % (path.name, folder, path.name) for folder in ("natural", "reduced")]
        rows.append("| %s | %s |" % tuple(links))
    return errors_page.wrapped(PROGRAMS) + "\n\n" + "\n".join(rows) + "\n"


def cell(text):
    return text.replace("|", "\\|")


def made():
    """The page."""
    parts, group = [errors_page.wrapped(HEAD)], ""
    for it in constructs():
        if it.group != group:
            group = it.group
            parts.append("\n## %s\n\n| left out | refused with | in its place |\n|---|---|---|" % group)
        parts.append("| %s | %s | %s |" % (cell(it.name), it.code, cell(it.place)))
    return "\n".join(parts) + "\n\n" + programs()


def sources():
    """The sources of the table, and the programs."""
    for it in constructs():
        yield it.refused
        yield it.accepted
    for path in sorted(DATA.glob("natural/*.adb")) + sorted(DATA.glob("reduced/*.adb")):
        yield path.read_text()


def refused_by_gnat():
    for source in sources():
        said = typing_rows.refusal(source)
        if said:
            yield "%s\n%s" % (source, said)


def main():
    if sys.argv[1:] == ["--check"]:
        if not PAGE.is_file() or PAGE.read_text() != made():
            print("docs/LEFT_OUT.md isn't what tools/left_out_page.py makes: run python3 tools/left_out_page.py")
            return 1
    elif sys.argv[1:] == ["--gnat"]:
        found = list(refused_by_gnat())
        print("\n".join(found + ["%d sources, GNAT refuses %d" % (len(list(sources())), len(found))]))
        return 1 if found else 0
    elif sys.argv[1:]:
        print(__doc__)
        return 2
    else:
        PAGE.write_text(made())
    return 0


if __name__ == "__main__":
    sys.exit(main())
