#!/usr/bin/env python3
"""Makes docs/WHAT_IT_FINDS.md: mistakes, what `spark` says of each and what its run shows, and what GNAT says and does.

    python3 tools/what_it_finds.py                     writes the page
    python3 tools/what_it_finds.py --check             ends with 1 where the page isn't what would be written
    python3 tools/what_it_finds.py --run-gnat          compiles and runs each program with GNAT, keeps what is
                                                       found in tools/what_it_finds.json, and writes the page
    python3 tools/what_it_finds.py --run-spark ./spark runs what is accepted with `spark run`, keeps what is found in
                                                       tools/what_it_finds.json, and writes the page
    python3 tools/what_it_finds.py --program ./spark   ends with 1 where `spark check` or `spark run` answers otherwise

The programs and the lines of `spark check` are those of crates/spark_examples/data; what `spark run` shows, and what GNAT
says and does, is read from tools/what_it_finds.json, so that only --run-gnat needs GNAT. A new mistake is a new row of
ROWS, a program that is right and breaks a rule one of RIGHT, one that `spark` accepts one of NOT_FOUND; after that come
--run-gnat and --run-spark.
"""
import json
import pathlib
import re
import shutil
import signal
import subprocess
import sys
import tempfile
from typing import NamedTuple

sys.dont_write_bytecode = True
import errors_page

TOP = pathlib.Path(__file__).resolve().parent.parent
PAGE = TOP / "docs" / "WHAT_IT_FINDS.md"
ANSWERS = TOP / "tools" / "what_it_finds.json"
QUEUE = ["queue/queues.ads", "queue/queues.adb"]
# How a program is built, and what the page calls it.
BUILDS = {"checked": ["-gnata", "-gnatVa"], "unchecked": ["-gnatp"]}
# How often each program runs, so that what depends on addresses shows.
RUNS = 10


class Row(NamedTuple):
    """A program: what it shows, how it comes about, its example, and further files of the program."""

    title: str
    text: str
    path: str
    others: list = []
    # what does the same and is accepted, and how it is written
    mended: str = ""
    mend: str = ""


HEAD = """
# What `spark` finds, and what happens without it

Each section has a program with a mistake, the lines that `spark check` prints for it, and what GNAT 12 says and does.
The column `spark run` says what a [run](RUN.md) shows. A program that has reports doesn't run at all; a mistake that the
rules don't know shows only if a run comes to it. Two further parts have [what it reports though nothing goes wrong](#what-it-reports-though-nothing-goes-wrong) and
[what it doesn't find](#what-it-doesnt-find).

All of these programs are Ada that GNAT accepts. Each was compiled with all warnings but the advice to write
`constant` (`gcc -c -gnatc -gnatwa -gnatwK`); built with assertions and all checks, validity checks included
(`gnatmake -gnata -gnatVa`); and built without checks (`gnatmake -gnatp`).

Both builds were run ten times, on Linux with the GNU C library and without input. What a program does after a
mistake depends on the compiler, the library and the addresses of that run; the page says what was seen.

The programs are files of `crates/spark_examples/data`. They are shown here without their heads; the line numbers are
those of the files, heads included. `tools/what_it_finds.py` makes this page, and says how to try it again.
"""

THOUGH_RIGHT = """
## What it reports though nothing goes wrong

The rules look at each control path, whatever is tested on it; they know no index of an array, and a loan lasts to the
end of a scope. So they also forbid programs that are right. Each of these does what its author wants, but
breaks a rule. Below it is a program that does the same and is accepted.
"""

TAIL = """
## What it doesn't find

`spark check` looks at ownership alone. Programs like the following break none of its rules, and are accepted. `spark run`
makes Ada's checks and names each lost cell, so it shows such a mistake if the run comes to it. It doesn't show that an
object has no value: in a run each object has one from the beginning.
"""

ROWS = [
    Row(
        "An object is used after it was freed",
        "`Y := X` copies an address in Ada. The object is freed through one name, and read through the other.",
        "rules/O1_use_after_free.adb",
    ),
    Row("An object is freed twice", "As above, with a second free.", "rules/O14_double_free.adb"),
    Row(
        "One branch frees what is read after it",
        "A test shows it only if its run takes this branch. `spark` looks at each branch.",
        "rules/O1_freed_on_a_branch.adb",
    ),
    Row(
        "A loop frees what its next iteration uses",
        "The first iteration is right. The second one reads what the first one freed, and frees it again.",
        "rules/O1_freed_in_a_loop.adb",
    ),
    Row(
        "An object is changed through a second name",
        "Nothing is freed here, so no tool that watches memory finds it. The author took Count for a copy.",
        "rules/O1_changed_by_a_second_name.adb",
    ),
    Row(
        "Two lists share their cells",
        "M takes the list over, but L is still used. Dropping the first cell of L frees a cell of M.",
        "rules/O10_two_lists_with_one_rest.adb",
    ),
    Row(
        "A borrower writes into what was freed",
        "The cell is freed while B still designates it. The next cell gets its place, so the write through B changes M.",
        "rules/O14_borrowed.adb",
    ),
    Row(
        "An observer looks at what was freed",
        "The object is freed while C still designates it.",
        "rules/O14_observed.adb",
    ),
    Row(
        "An observer outlives its source",
        "C is assigned an object of an inner block, and the block frees it at its end.",
        "rules/V2_freed_in_the_inner_block.adb",
    ),
    Row(
        "A part is freed through a borrower",
        "The rest of the list is taken out and freed, and the list still leads to it.",
        "rules/O8_freed_rest.adb",
    ),
    Row(
        "A call frees a package object that is looked at",
        "The call doesn't show what it does. `spark` finds from the bodies what each subprogram reads and writes.",
        "rules/O11_freed_while_observed.adb",
    ),
    Row(
        "A procedure leaves a package object without its value",
        "Each call but the first uses what the first one freed.",
        "rules/O9_package_object_freed.adb",
    ),
    Row(
        "Two actuals are one object",
        "GNAT passes an array by its address, so a write to To changes From. The right output is `5 4 3 2 1`.",
        "rules/A1_turned_onto_itself.adb",
    ),
    Row(
        "An actual is a package object that the callee changes",
        "The formal By changes with Kept while the procedure runs. The right output is `1 2 3 4 5`.",
        "rules/A2_halved_by_itself.adb",
    ),
    Row(
        "A function changes a package object",
        "Ada doesn't say which operand is evaluated first, so the value of such an expression isn't defined either.",
        "rules/V1_order_of_evaluation.adb",
    ),
    Row(
        "A procedure changes what it is given to read",
        "The formal is of mode `in`, but Ada protects only the record itself, not what its access values designate.",
        "rules/V1_reader_that_writes.adb",
    ),
    Row(
        "A package is used wrongly in another file",
        """The specification and the body of the package, [queues.ads](../crates/spark_examples/data/queue/queues.ads) and
        [queues.adb](../crates/spark_examples/data/queue/queues.adb), have no mistake.""",
        "queue/main.adb",
        QUEUE,
        mended="queue/mended.adb",
        mend="It prints before it drops, and sets Todo to null after the move. A run of it shows what the rules don't know.",
    ),
]

NOT_FOUND = [
    Row(
        "An object is lost",
        "The first object is overwritten and never freed. Nothing is used wrongly, but memory is lost.",
        "accepted/O3_overwritten.adb",
    ),
    Row(
        "Null is dereferenced",
        "Whether a name is null depends on the run. Ada has a check for it.",
        "accepted/O1_null_is_read.adb",
    ),
    Row(
        "An object without a value is read",
        "R (2) was given no value. `spark` doesn't follow the values of objects.",
        "accepted/O1_no_value_yet.adb",
    ),
    Row(
        "An index is out of bounds",
        """The last iteration writes to an element that isn't there. Ada has a check for it; without the check, the write
        changes the component after the array. The right output is `6`.""",
        "accepted/O3_index_out_of_bounds.adb",
    ),
    Row(
        "A recursion doesn't end",
        "Each call makes another one, until the stack is full.",
        "accepted/O11_endless_recursion.adb",
    ),
]

RIGHT = [
    Row(
        "Two conditions that belong together",
        """X is read only if it wasn't moved, since both branches test the same. `spark` doesn't follow values, so it looks at
        the path through both branches, too.""",
        "rules/O1_same_condition_twice.adb",
        mended="accepted/O1_one_condition.adb",
        mend="With one `if` the read and the move are on different paths.",
    ),
    Row(
        "A branch that is never taken",
        "No run moves X. Each branch counts as taken all the same, even with the condition `False`.",
        "rules/O1_moved_under_if_false.adb",
        mended="accepted/O1_new_value_under_if_false.adb",
        mend="The branch gives X a value again. A branch that isn't wanted may also be taken out.",
    ),
    Row(
        "An observer that isn't used any more",
        "C observes X to the end of its scope, which here is the end of the procedure.",
        "rules/O3_observer_used_no_more.adb",
        mended="accepted/O3_observer_in_a_block.adb",
        mend="The observer gets a block of its own, which ends before the write.",
    ),
    Row(
        "Two elements of an array",
        "All elements of an array are one place, so with R (1) every element counts as moved.",
        "rules/O1_another_element.adb",
        mended="accepted/O1_element_by_a_procedure.adb",
        mend="""A procedure with an `in out` formal takes the element out and leaves null in its place. It returns with a value
        in each formal, so nothing of the array is moved after the call.""",
    ),
    Row(
        "The rest of a list that was moved",
        "`Old := L` moves the whole list, so `L.Next` may no longer be used under this name.",
        "rules/O4_old_head.adb",
        mended="accepted/O4_rest_of_the_old_head.adb",
        mend="The rest is moved out of Old, which owns the cell now.",
    ),
]

ALL = ROWS + RIGHT + NOT_FOUND + [Row("", "", row.mended) for row in RIGHT]
# What `spark` accepts, next to a row.
MENDED = [Row("", "", "queue/mended.adb", QUEUE)]


# ---- GNAT


def ran(folder, *words, seconds=60):
    return subprocess.run(
        words, cwd=folder, stdin=subprocess.DEVNULL, capture_output=True, text=True, errors="replace", timeout=seconds
    )


def unit_files(folder, row):
    """Writes the units of a program to files as GNAT wants them, and gives their names."""
    for path in [*row.others, row.path]:
        made = ran(folder, "gnatchop", "-q", "-w", str(errors_page.DATA / path))
        assert made.returncode == 0, made.stderr
    return sorted(path.name for path in folder.glob("*.ad[bs]"))


def warnings(folder, names):
    """What GNAT says when it compiles, line by line."""
    said = []
    for name in names:
        if name.endswith(".ads") and name.replace(".ads", ".adb") in names:
            continue
        made = ran(folder, "gcc", "-c", "-gnatc", "-gnatwa", "-gnatwK", name)
        assert made.returncode == 0, made.stderr
        said += [line for line in made.stderr.splitlines() if line]
    return said


def ending(made):
    """How a run ended, in words."""
    raised = re.search(r"^raised (\w+) ?:? ?(.*)$", made.stderr, re.M)
    if raised:
        name = "_".join(word.capitalize() for word in raised[1].split("_"))
        said = re.sub(r"^main\.adb:\d+ ", "", raised[2])
        first = made.stderr.partition("\n")[0]
        return "raises %s (%s)" % (name, first if first.startswith("free()") else said)
    if made.returncode < 0:
        said = made.stderr.strip().splitlines()
        return "is ended by %s%s" % (signal.Signals(-made.returncode).name, ": " + said[0] if said else "")
    return "ends normally" if made.returncode == 0 else "ends with status %d" % made.returncode


def runs(folder, words):
    """Builds a program, runs it ten times, and gives the different ends, and the output where it is always the same."""
    made = ran(folder, "gnatmake", "-q", "-f", *words, "main.adb")
    assert made.returncode == 0, made.stderr
    found = [ran(folder, "./main", seconds=10) for _ in range(RUNS)]
    outputs = {made.stdout for made in found}
    return {"endings": sorted({ending(made) for made in found}), "output": outputs.pop() if len(outputs) == 1 else None}


def gnat_answers(row):
    with tempfile.TemporaryDirectory() as name:
        folder = pathlib.Path(name)
        answers = {"warnings": warnings(folder, unit_files(folder, row))}
        for build, words in BUILDS.items():
            answers[build] = runs(folder, words)
        return answers


def run_gnat():
    version = ran(TOP, "gcc", "--version").stdout.splitlines()[0]
    keep(compiler=version, programs={row.path: gnat_answers(row) for row in ALL})


def keep(**found):
    """Keeps what was found in place of what was there under these names."""
    ANSWERS.write_text(json.dumps({**json.loads(ANSWERS.read_text()), **found}, indent=1, sort_keys=True) + "\n")


# ---- the page


def output_text(output):
    """What a program printed, in words."""
    if output is None:
        return "prints numbers that differ from run to run"
    lines = ["`%s`" % line.strip() for line in output.splitlines() if line.strip()]
    return "prints " + ", ".join(lines) if lines else "prints nothing"


def does(found):
    """What a build of a program did, in words."""
    ends = " or ".join(re.sub(r" \((.*)\)$", r" (`\1`)", text) for text in found["endings"])
    if found["output"] == "" and ends != "ends normally":
        return ends
    return "%s and %s" % (output_text(found["output"]), ends)


def lines_of(row, example):
    return "```\n%s\n```" % "\n".join(example.expected) if example.status == 0 else errors_page.shown(example)


def run_text(row, found):
    """What `spark run` shows of an accepted program, as a paragraph, with its lines."""
    lines = errors_page.Example(row.path, found["status"], found["err"].splitlines(), *errors_page.read_example(row.path)[3:])
    ends = "`spark run` %s" % output_text(found["output"])
    if not lines.expected:
        return errors_page.filled(ends + " and ends normally.")
    return errors_page.filled("%s and ends with status %d:" % (ends, found["status"])) + "\n\n" + errors_page.shown(lines)


def run_short(row, runs_of):
    """What `spark run` shows, in a few words; where there are reports, what it shows of the program in its place."""
    if errors_page.read_example(row.path).status:
        return "doesn't run it" + (", in its place: " + run_short(Row("", "", row.mended), runs_of) if row.mended else "")
    found = runs_of[row.path]
    said = [re.sub(r"^\S+: ", "", line) for line in found["err"].splitlines()]
    said = [line.replace("raised ", "raises ") for line in said]
    goes_on = ["goes on, " + output_text(found["output"])] if found["status"] in (0, 5) else []
    return ", ".join(goes_on + said)


def section(row, answers, runs_of, level):
    example = errors_page.read_example(row.path)
    answers = answers[row.path]
    said = answers["warnings"]
    parts = ["%s %s" % (level, row.title), errors_page.wrapped(row.text)]
    parts += [errors_page.filled(errors_page.link(row.path)), errors_page.program_of(example)]
    parts += ["`spark check` prints:", lines_of(row, example)]
    if example.status == 0:
        parts.append(run_text(row, runs_of[row.path]))
    parts.append("GNAT compiles it and says%s" % (":\n\n```\n%s\n```" % "\n".join(said) if said else " nothing."))
    checked, unchecked = (does(answers[build]) for build in BUILDS)
    if checked == unchecked:
        parts.append(errors_page.filled("Built with and without checks, it %s." % checked))
    else:
        parts.append(errors_page.filled("Built with checks it %s. Built without, it %s." % (checked, unchecked)))
    return "\n\n".join(parts)


def wrong_section(row, answers, runs_of):
    """A program with a mistake, and one in its place where the row has one."""
    parts = [section(row, answers, runs_of, "##")]
    if row.mended:
        assert errors_page.read_example(row.mended).expected == ["accepted"], row
        parts.append(errors_page.filled("**Accepted:** " + errors_page.link(row.mended)))
        parts += [errors_page.wrapped(row.mend), run_text(Row("", "", row.mended), runs_of[row.mended])]
    return "\n\n".join(parts)


def right_section(row, answers, runs_of):
    """A program that is right and breaks a rule, and the one in its place, which has to do the same."""
    mended, ran_as = errors_page.read_example(row.mended), runs_of[row.mended]
    assert (mended.status, mended.expected) == (0, ["accepted"]), row
    assert not answers[row.mended]["warnings"], row
    for build in BUILDS:
        assert answers[row.mended][build] == answers[row.path][build], row
        assert answers[row.mended][build]["output"] == ran_as["output"], row
    accepted = errors_page.filled("**Accepted:** " + errors_page.link(row.mended))
    parts = [section(row, answers, runs_of, "###"), accepted, errors_page.wrapped(row.mend), errors_page.program_of(mended)]
    return "\n\n".join([*parts, "It does the same. " + run_text(Row("", "", row.mended), ran_as)])


def codes(example):
    found = sorted({re.match(r"\S+: (\w\d+) ", line)[1] for line in example.expected if example.status})
    return ", ".join(found) or "accepted"


def table(rows_of, answers, runs_of, what):
    rows = ["| %s | `spark check` | `spark run` | GNAT compiles | with checks it | without it |" % what, "|---|---|---|---|---|---|"]
    for row in rows_of:
        found = answers[row.path]
        cells = ["[%s](#%s)" % (row.title, errors_page.slug(row.title)), codes(errors_page.read_example(row.path))]
        cells.append(run_short(row, runs_of))
        cells.append("with a warning" if found["warnings"] else "without a word")
        cells += [short(found[build]) for build in BUILDS]
        rows.append("| %s |" % " | ".join(cells))
    return "\n".join(rows)


def short(found):
    """What a build of a program did, in a few words."""
    ends = " or ".join(re.sub(r" \(.*|: .*", "", text) for text in found["endings"])
    if ends != "ends normally":
        return ends
    return "goes on" if found["output"] is None else "goes on, " + output_text(found["output"])


def made():
    kept = json.loads(ANSWERS.read_text())
    answers, runs_of = kept["programs"], kept["runs"]
    parts = [errors_page.wrapped(HEAD), table(ROWS + NOT_FOUND, answers, runs_of, "mistake")]
    parts += [wrong_section(row, answers, runs_of) for row in ROWS]
    parts += [errors_page.wrapped(THOUGH_RIGHT), table(RIGHT, answers, runs_of, "program")]
    parts += [right_section(row, answers, runs_of) for row in RIGHT]
    parts += [errors_page.wrapped(TAIL)]
    parts += [section(row, answers, runs_of, "###") for row in NOT_FOUND]
    return "\n\n".join(parts) + "\n"


# ---- spark


def response(program, command, row):
    """What a command of `spark` answers for a program: its status and both outputs."""
    with tempfile.TemporaryDirectory() as name:
        folder = pathlib.Path(name)
        paths = [*row.others, row.path]
        for path in paths:
            shutil.copy(errors_page.DATA / path, folder)
        got = ran(folder, program, command, *[path.rpartition("/")[2] for path in paths])
    return got.returncode, got.stdout, got.stderr


def differs(program, row):
    """What `spark check` answers where that isn't what the example says, or else what `spark run` answers.

    Without reports a run is as it was kept; with them `run` answers as `check` does.
    """
    example = errors_page.read_example(row.path)
    status, out, err = response(program, "check", row)
    if (status, (out + err).splitlines()) != (example.status, example.expected):
        return "%s: check: status %d\n%s" % (row.path, status, out + err)
    kept = json.loads(ANSWERS.read_text())["runs"].get(row.path)
    wanted = (kept["status"], kept["output"], kept["err"]) if kept else (status, out, err)
    got = response(program, "run", row)
    return None if got == wanted else "%s: run: status %d\n%s" % (row.path, got[0], got[1] + got[2])


def run_spark(program):
    found = {}
    for row in ALL + MENDED:
        if errors_page.read_example(row.path).status == 0:
            found[row.path] = dict(zip(("status", "output", "err"), response(program, "run", row)))
    keep(runs=found)


def main():
    words = sys.argv[1:]
    if words == ["--check"]:
        if not PAGE.is_file() or PAGE.read_text() != made():
            print("docs/WHAT_IT_FINDS.md isn't what tools/what_it_finds.py makes: run python3 tools/what_it_finds.py")
            return 1
    elif len(words) == 2 and words[0] == "--program":
        program = str(pathlib.Path(words[1]).resolve())
        rows = ALL + MENDED
        found = [text for text in (differs(program, row) for row in rows) if text]
        print("\n".join(found + ["%d programs, %d differ" % (len(rows), len(found))]))
        return 1 if found else 0
    elif words in ([], ["--run-gnat"]) or len(words) == 2 and words[0] == "--run-spark":
        if words == ["--run-gnat"]:
            run_gnat()
        elif words:
            run_spark(str(pathlib.Path(words[1]).resolve()))
        PAGE.write_text(made())
    else:
        print(__doc__)
        return 2
    return 0


if __name__ == "__main__":
    sys.exit(main())
