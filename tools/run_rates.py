#!/usr/bin/env python3
"""Rates of steps of `spark run` beside those of the same work in Lua; docs/COSTS.md has what was measured.

    python3 tools/run_rates.py [--program PATH] [--rounds N] [--count]

Without --program it runs the executable of the script `spark`, which has to be built. In each of N rounds (30, if no number
is given) both run in turn, with what they do before the first step: `spark run --steps=1`, and reading in Lua. It prints
processor seconds, user and system together, and the million steps a second of the rest: of the least, the middle and the mean
times, and the middle of the quotients of each round. lua5.4 is needed.
With --count it prints the instructions of a step in place of that, which valgrind counts, so other work on the machine doesn't
matter. A run takes some fifty times as long then.
"""
import argparse
import os
import pathlib
import re
import resource
import statistics
import subprocess
import sys
import tempfile

from bench import cells_again_and_again, cells_in_lua, lists_in_lua, lists_of_cells, program

# the settings that the script `spark` makes
SETTINGS = {"GLIBC_TUNABLES": "glibc.malloc.hugetlb=1:glibc.malloc.mxfast=0"}
WAYS = (("least", min), ("middle", statistics.median), ("mean", statistics.fmean))


def programs():
    """Name, source, the same work in Lua, and how many steps a run takes."""
    yield "lists_of_cells_10000", lists_of_cells(10_000), lists_in_lua(10_000), 16_731_674
    yield "lists_of_cells_1000", lists_of_cells(1_000), lists_in_lua(1_000), 173_174
    yield "cells_again_and_again", cells_again_and_again(), cells_in_lua(), 600_407


def commands(spark):
    """The two runs, each with what comes before its first step."""
    return {
        "spark": ([spark, "run", "main_all.ada"], [spark, "run", "--steps=1", "main_all.ada"]),
        "Lua": (["lua5.4", "main.lua"], ["lua5.4", "-e", "assert(loadfile('main.lua'))"]),
    }


def ran(command, folder):
    """What a command writes to standard error. A run of one step ends with status 4."""
    environment = dict(os.environ, **SETTINGS)
    done = subprocess.run(command, cwd=folder, env=environment, stdin=subprocess.DEVNULL, capture_output=True, check=False)
    if done.returncode != (4 if "--steps=1" in command else 0):
        sys.exit("%s: status %d" % (command, done.returncode))
    return done.stderr.decode()


def seconds(command, folder):
    before = resource.getrusage(resource.RUSAGE_CHILDREN)
    ran(command, folder)
    after = resource.getrusage(resource.RUSAGE_CHILDREN)
    return after.ru_utime + after.ru_stime - before.ru_utime - before.ru_stime


def instructions(command, folder):
    counted = ["valgrind", "--tool=callgrind", "--callgrind-out-file=/dev/null"] + command
    return int(re.search(r"refs:\s+([\d,]+)", ran(counted, folder))[1].replace(",", ""))


def rates(name, folder, spark, steps, rounds):
    rows = []
    for _ in range(rounds):
        rows.append({by: (seconds(whole, folder), seconds(before, folder)) for by, (whole, before) in commands(spark).items()})
    for way, of in WAYS:
        cells = []
        for by in rows[0]:
            whole, before = (of([row[by][i] for row in rows]) for i in (0, 1))
            cells += ["%.3f" % whole, "%.3f" % before, "%.1f" % (steps / 1_000_000 / (whole - before))]
        quotient = float(cells[2]) / float(cells[5])
        print("| %s, %s | %s | %.2f |" % (name, way, " | ".join(cells), quotient), flush=True)
    spent = [{by: whole - before for by, (whole, before) in row.items()} for row in rows]
    within = statistics.median(row["Lua"] / row["spark"] for row in spent)
    print("| %s, within rounds |%s %.2f |" % (name, " |" * 6, within), flush=True)


def counts(name, folder, spark, steps):
    cells = []
    for whole, before in commands(spark).values():
        cells.append("%.1f" % ((instructions(whole, folder) - instructions(before, folder)) / steps))
    print("| %s | %s |" % (name, " | ".join(cells)), flush=True)


def main():
    words = argparse.ArgumentParser()
    words.add_argument("--program", type=pathlib.Path)
    words.add_argument("--rounds", type=int, default=30)
    words.add_argument("--count", action="store_true")
    given = words.parse_args()
    spark = str((given.program or program()).resolve())
    if given.count:
        print("| program | spark run | Lua |\n|---|---|---|")
    else:
        print("| program | spark run, s | before | million steps a second | Lua, s | before | million steps a second | quotient |")
        print("|---|---|---|---|---|---|---|---|")
    with tempfile.TemporaryDirectory() as top:
        for name, ada, lua, steps in programs():
            folder = pathlib.Path(top) / name
            folder.mkdir()
            (folder / "main_all.ada").write_text(ada)
            (folder / "main.lua").write_text(lua)
            if given.count:
                counts(name, folder, spark, steps)
            else:
                rates(name, folder, spark, steps, given.rounds)


if __name__ == "__main__":
    main()
