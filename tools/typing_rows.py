#!/usr/bin/env python3
"""Compiles with GNAT the sources of the tables that break no rule of typing, and prints those that it refuses.

    python3 tools/typing_rows.py            ends with 1 where GNAT refuses one, or accepts one that a comment calls no Ada

The sources are the rows with the last line `> typed` of the tables in crates/spark_examples/data/tables.
A row right below a line `-- not Ada: ..` is a source that differs from Ada as LANGUAGE.md says; GNAT has to refuse it.
gnatchop cuts a source into its units. With GNAT 12: gcc -c -gnatc -gnat12.
"""
import pathlib
import subprocess
import sys
import tempfile

TOP = pathlib.Path(__file__).resolve().parent.parent
TABLES = TOP / "crates" / "spark_examples" / "data" / "tables"


def rows(text):
    """The lines of each row, the comment right above them, and its last line without the mark."""
    lines, above = [], ""
    for line in text.splitlines():
        if line.startswith("> "):
            yield lines, above, line[2:]
            lines, above = [], ""
        elif lines or not (line == "" or line.startswith("--")):
            lines.append(line)
        else:
            above = line


def sources():
    """Each table, a source in it that breaks no rule of typing, and whether a comment says that it is no Ada."""
    for table in sorted(TABLES.glob("*.txt")):
        for lines, above, wanted in rows(table.read_text()):
            if wanted == "typed":
                assert not any(line.startswith(("== ", "$ ")) for line in lines), lines
                yield table.name, "\n".join(lines), above.startswith("-- not Ada: ")


def refusal(source):
    """What GNAT says where it refuses the source, and nothing where it accepts it."""
    with tempfile.TemporaryDirectory() as folder:
        pathlib.Path(folder, "all.ada").write_text(source + "\n")
        made = subprocess.run(["gnatchop", "-q", "-w", "all.ada"], cwd=folder, capture_output=True, text=True)
        said = made.stderr if made.returncode else ""
        for unit in sorted(pathlib.Path(folder).glob("*.ad[bs]")):
            command = ["gcc", "-c", "-gnatc", "-gnat12", "-gnatwn", unit.name]
            made = subprocess.run(command, cwd=folder, capture_output=True, text=True)
            said += made.stderr if made.returncode else ""
        return said


def main():
    count, wrong = 0, 0
    for name, source, differs in sources():
        count += 1
        said = refusal(source)
        if bool(said) != differs:
            wrong += 1
            print("%s: %s\n%s" % (name, source, said or "GNAT accepts it"))
    print("%d sources, %d not as they should be" % (count, wrong))
    return 1 if wrong else 0


if __name__ == "__main__":
    sys.exit(main())
