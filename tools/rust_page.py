#!/usr/bin/env python3
"""Compiles the programs of docs/FROM_RUST.md, and compares what the compilers say with the page.

    python3 tools/rust_page.py [--program PATH [--only-spark]]

The first line of a Rust program names the errors that rustc gives, or says that it is accepted. GNAT
accepts each Ada program. With --program, as ./spark, the lines that `spark check main.adb` prints
are compared with the first lines of the Ada program too. rustc and GNAT are needed, except with
--only-spark, which looks at the Ada programs alone and compiles nothing.
"""
import argparse
import pathlib
import re
import subprocess
import sys
import tempfile

TOP = pathlib.Path(__file__).resolve().parent.parent
PAGE = TOP / "docs" / "FROM_RUST.md"


def programs():
    """The language, the first line in the page and the text of each program."""
    text = PAGE.read_text()
    for block in re.finditer(r"^```(rust|ada)\n(.*?)^```$", text, re.M | re.S):
        yield block[1], text[: block.start()].count("\n") + 2, block[2]


def run(folder, *words):
    done = subprocess.run(words, cwd=folder, stdin=subprocess.DEVNULL, capture_output=True, text=True)
    return done.returncode, done.stdout + done.stderr


def rust_differs(folder, text):
    wanted = re.match(r"// rustc: (.*)\n", text)[1]
    (folder / "main.rs").write_text(text)
    _, said = run(folder, "rustc", "--edition", "2021", "--emit", "metadata", "main.rs")
    errors = re.findall(r"^error\[(E\d+)\]", said, re.M)
    found = " ".join(errors) or ("accepted" if "error" not in said else said)
    return None if found == wanted else "rustc: %s, and not %s" % (found, wanted)


def gnat_refusal(folder):
    """What GNAT says where it refuses a unit of main.adb, and nothing where it accepts all."""
    with tempfile.TemporaryDirectory() as name:
        units = pathlib.Path(name)
        status, said = run(folder, "gnatchop", "-q", "-w", "main.adb", name)
        for unit in sorted(units.glob("*.adb")):
            if status == 0:
                status, said = run(units, "gcc", "-c", "-gnatc", unit.name)
        return said if status != 0 else ""


def ada_differs(folder, text, program, is_compiled):
    wanted = re.findall(r"^--  spark: (.*)$", text, re.M)
    (folder / "main.adb").write_text(text)
    said = gnat_refusal(folder) if is_compiled else ""
    if said:
        return "GNAT: " + said
    if program:
        _, said = run(folder, program, "check", "main.adb")
        if said.splitlines() != wanted:
            return "spark: " + said
    return None if wanted else "no line says what spark prints"


def main():
    words = argparse.ArgumentParser()
    words.add_argument("--program")
    words.add_argument("--only-spark", action="store_true")
    given = words.parse_args()
    if given.only_spark and not given.program:
        words.error("--only-spark needs --program")
    program = given.program and str(pathlib.Path(given.program).resolve())
    count, wrong = 0, 0
    with tempfile.TemporaryDirectory() as name:
        folder = pathlib.Path(name)
        for language, line, text in programs():
            if language == "rust" and given.only_spark:
                continue
            count += 1
            if language == "rust":
                differs = rust_differs(folder, text)
            else:
                differs = ada_differs(folder, text, program, not given.only_spark)
            if differs:
                wrong += 1
                print("docs/FROM_RUST.md:%d: %s" % (line, differs))
    print("%d programs, %d differ" % (count, wrong))
    return 1 if wrong else 0


if __name__ == "__main__":
    sys.exit(main())
