#!/usr/bin/env python3
"""Compares the examples of `spark run` with what GNAT makes of them.

    python3 tools/run_beside_gnat.py [NAME...]

Each program of crates/spark_examples/data/runs that runs to an end, or those that are named, as
`traversal_call`, is built with gnatmake and run with the input of its example. It has to print the
same and to end in the same way: normally, or with an exception of the same name. Lines of lost cells
are no part of that, since Ada has none. Those of DIFFERENT are expected to differ, and docs/RUN.md
says why. Status 1 where anything else differs.
"""
import pathlib
import re
import subprocess
import sys
import tempfile
from concurrent.futures import ThreadPoolExecutor

RUNS = pathlib.Path(__file__).resolve().parent.parent / "crates" / "spark_examples" / "data" / "runs"
# Programs that meet a limit of `spark` or of GNAT's stack, print what has no value, or have an item that
# Get reads in another way.
DIFFERENT = {
    "counts_of_one_slot",
    "frames_within_the_limit",
    "item_with_a_letter",
    "no_room_for_the_main_procedure",
    "too_many_live_words",
    "too_many_words_of_frames",
}
# The statuses of runs that come to an end: normally, by an exception, and normally with lost cells.
ENDED = {0, 3, 5}


def head(path):
    """The status, the input, the output and the ending that the head of an example tells."""
    entries = re.findall(r"^--> (\w+) ?(.*)$", path.read_text(), re.M)
    texts = {key: "".join(rest + "\n" for word, rest in entries if word == key) for key in ("in", "out", "err")}
    status = next(int(rest) for word, rest in entries if word == "status")
    raised = re.search(r": raised (\w+)$", texts["err"], re.M)
    return status, texts["in"], texts["out"], raised[1] if raised else "ended"


def ran(folder, words, text=""):
    return subprocess.run(words, cwd=folder, input=text, capture_output=True, text=True, timeout=60)


def by_gnat(path, text):
    """What the program that GNAT makes prints, and how it ends."""
    with tempfile.TemporaryDirectory() as folder:
        for words in (["gnatchop", "-q", "-w", str(path), folder], ["gnatmake", "-q", "main.adb"]):
            made = ran(folder, words)
            if made.returncode:
                return "", "not built: " + made.stderr
        made = ran(folder, ["./main"], text)
    raised = re.search(r"^raised (?:ADA\.IO_EXCEPTIONS\.)?(\w+)", made.stderr, re.M)
    return made.stdout, raised[1].title() if raised else "ended" if made.returncode == 0 else made.stderr


def compared(path):
    """An example, and how its run differs, or that it isn't compared, or nothing."""
    status, text, out, ending = head(path)
    if status not in ENDED:
        return path.stem, "not compared"
    found = by_gnat(path, text)
    return path.stem, "" if found == (out, ending) else "prints %r and ends: %s" % found


def main(names):
    paths = [RUNS / (name + ".adb") for name in names] or sorted(RUNS.glob("*.adb"))
    with ThreadPoolExecutor(2) as pool:
        found = list(pool.map(compared, paths))
    other = {name: text for name, text in found if text and text != "not compared"}
    wrong = set(other) ^ (DIFFERENT & {name for name, _ in found})
    for name in sorted(wrong):
        print("%s: %s" % (name, other.get(name, "doesn't differ")))
    same = sum(1 for _, text in found if not text)
    print("%d programs, %d are the same, %d differ as expected" % (len(found), same, len(other) - len(wrong & set(other))))
    return 1 if wrong else 0


if __name__ == "__main__":
    sys.exit(main(sys.argv[1:]))
