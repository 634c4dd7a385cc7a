#!/usr/bin/env python3
"""Asks `spark` with files, input and outputs that aren't plain files.

    python3 tools/check_outside.py [--program PATH]

Each row of TRIED has what docs/TOOL.md, "The outside", says of it. No clause does: what the
operating system answers isn't known to any. Linux is needed (/dev/full, /dev/zero, /proc).
"""
import argparse
import os
import pathlib
import signal
import subprocess
import sys
import tempfile
import threading
import time

TOP = pathlib.Path(__file__).resolve().parent.parent
MAIN = b"procedure Main is begin null; end Main;\n"
REPORTED = b"""procedure Main is
   type List is access Integer;
   X, Y : List;
begin
   Y := X;
   X.all := 1;
end Main;
"""
ECHO = b"""with Ada.Text_IO; use Ada.Text_IO;
with Ada.Integer_Text_IO; use Ada.Integer_Text_IO;
procedure Main is
   N : Integer;
begin
   Get (N);
   Put_Line (Integer'Image (N));
end Main;
"""
LIMIT = 4_194_304


def asked(program, words, folder, **streams):
    """The status, standard output and standard error of the program. A status below zero is the
    signal that ended it."""
    given = {"stdin": subprocess.DEVNULL, "stdout": subprocess.PIPE, "stderr": subprocess.PIPE}
    done = subprocess.run([program, *words], cwd=folder, timeout=60, **{**given, **streams})
    return done.returncode, done.stdout, done.stderr


# ---- files


def a_directory(program, folder):
    (folder / "d.adb").mkdir()
    return asked(program, ["check", "d.adb"], folder), (7, b"", b"")


def a_missing_file(program, folder):
    return asked(program, ["check", "none.adb"], folder), (7, b"", b"")


def a_file_without_end(program, folder):
    """Reading stops at the first byte past the limit."""
    os.symlink("/dev/zero", folder / "z.adb")
    return asked(program, ["check", "z.adb"], folder), (2, b"", b"z.adb:1:1: S1 sources too large\n")


def a_link_to_itself(program, folder):
    os.symlink("l.adb", folder / "l.adb")
    return asked(program, ["check", "l.adb"], folder), (7, b"", b"")


def a_file_that_grows(program, folder):
    """A pipe with a name: what comes while it is read is read too, to the end."""
    os.mkfifo(folder / "g.adb")

    def write():
        with open(folder / "g.adb", "wb", buffering=0) as pipe:
            for part in (MAIN[:20], MAIN[20:]):
                pipe.write(part)
                time.sleep(0.2)

    writer = threading.Thread(target=write)
    writer.start()
    answer = asked(program, ["check", "g.adb"], folder)
    writer.join()
    return answer, (0, b"accepted\n", b"")


def a_plain_file_that_grows(program, folder):
    """It grows past the limit while it is read. Either its end was seen before that, or it is too large."""
    name = folder / "p.adb"
    name.write_bytes(MAIN + b" " * (LIMIT - 65_536 - len(MAIN)))
    over = threading.Event()

    def write():
        with open(name, "ab", buffering=0) as grown:
            for _ in range(32):
                if not over.is_set():
                    grown.write(b" " * 4_096)

    writer = threading.Thread(target=write)
    writer.start()
    answer = asked(program, ["check", "p.adb"], folder)
    over.set()
    writer.join()
    accepted = (0, b"accepted\n", b"")
    return answer, accepted if answer == accepted else (2, b"", b"p.adb:1:1: S1 sources too large\n")


def a_name_with_blanks(program, folder):
    name = "my main.adb"
    (folder / name).write_bytes(REPORTED)
    return asked(program, ["check", name], folder), (1, b"", b"my main.adb:6:4: O3 X.all: moved\n")


def a_name_beyond_ascii(program, folder):
    name = "h\u00e4user/\u043c.adb"
    (folder / "h\u00e4user").mkdir()
    (folder / name).write_bytes(REPORTED)
    return asked(program, ["check", name], folder), (1, b"", name.encode() + b":6:4: O3 X.all: moved\n")


def a_name_in_no_code(program, folder):
    """Bytes that aren't UTF-8: then the list of words is empty."""
    name = b"\xff.adb"
    pathlib.Path(os.fsdecode(bytes(folder) + b"/" + name)).write_bytes(MAIN)
    status, out, err = asked(program, [b"check", name], folder)
    return (status, out, err.startswith(b"usage: ")), (6, b"", True)


# ---- outputs


def a_full_output(program, folder):
    (folder / "m.adb").write_bytes(MAIN)
    with open("/dev/full", "wb") as full:
        return asked(program, ["check", "m.adb"], folder, stdout=full), (8, None, b"")


def a_full_error_output(program, folder):
    (folder / "m.adb").write_bytes(REPORTED)
    with open("/dev/full", "wb") as full:
        return asked(program, ["check", "m.adb"], folder, stderr=full), (8, b"", None)


def a_closed_output(program, folder):
    (folder / "m.adb").write_bytes(MAIN)
    return asked("sh", ["-c", 'exec "$0" check m.adb >&-', program], folder), (8, b"", b"")


def a_closed_pipe(program, folder):
    """Nobody reads any more."""
    reads, writes = os.pipe()
    os.close(reads)
    answer = asked(program, ["make", "10000"], folder, stdout=writes)
    os.close(writes)
    return answer, (8, None, b"")


# ---- input


def a_closed_input(program, folder):
    """It is as an empty one: the last file that was opened has its number, and is at its end."""
    (folder / "e.adb").write_bytes(ECHO)
    return asked("sh", ["-c", 'exec "$0" run e.adb <&-', program], folder), (3, b"", b"e.adb:6:4: raised End_Error\n")


def a_directory_as_input(program, folder):
    (folder / "m.adb").write_bytes(MAIN)
    directory = os.open(folder, os.O_RDONLY)
    answer = asked(program, ["run", "m.adb"], folder, stdin=directory)
    os.close(directory)
    return answer, (7, b"", b"")


def an_input_without_end(program, folder):
    (folder / "m.adb").write_bytes(MAIN)
    with open("/dev/zero", "rb") as zero:
        return asked(program, ["run", "m.adb"], folder, stdin=zero), (10, b"", b"input too large\n")


def reading(program, folder):
    """The program while it waits for its input, and the other end of that."""
    (folder / "e.adb").write_bytes(ECHO)
    child = subprocess.Popen([program, "run", "e.adb"], cwd=folder, stdin=subprocess.PIPE, stdout=subprocess.PIPE, stderr=subprocess.PIPE)
    child.stdin.write(b"4")
    child.stdin.flush()
    # (field 3 of stat is the state: it sleeps in the read once it has read the files)
    for turn in range(500):
        time.sleep(0.01)
        state = pathlib.Path("/proc", str(child.pid), "stat").read_text().rpartition(")")[2].split()[0]
        if state == "S" and turn > 20:
            break
    return child


def a_pause_in_the_input(program, folder):
    """It is stopped while it reads, goes on, and a window that changes its size is nothing to it."""
    child = reading(program, folder)
    for number in (signal.SIGSTOP, signal.SIGCONT, signal.SIGWINCH):
        child.send_signal(number)
        time.sleep(0.05)
    out, err = child.communicate(b"2\n", timeout=60)
    return (child.returncode, out, err), (0, b" 42\n", b"")


def an_interrupt_in_the_input(program, folder):
    """The signal ends it, and nothing was written."""
    child = reading(program, folder)
    child.send_signal(signal.SIGINT)
    out, err = child.communicate(timeout=60)
    return (child.returncode, out, err), (-signal.SIGINT, b"", b"")


TRIED = [
    a_directory,
    a_missing_file,
    a_file_without_end,
    a_link_to_itself,
    a_file_that_grows,
    a_plain_file_that_grows,
    a_name_with_blanks,
    a_name_beyond_ascii,
    a_name_in_no_code,
    a_full_output,
    a_full_error_output,
    a_closed_output,
    a_closed_pipe,
    a_closed_input,
    a_directory_as_input,
    an_input_without_end,
    a_pause_in_the_input,
    an_interrupt_in_the_input,
]


def main():
    parser = argparse.ArgumentParser(description=__doc__.splitlines()[0])
    parser.add_argument("--program", default=str(TOP / "crates" / "spark" / "out" / "spark"))
    program = str(pathlib.Path(parser.parse_args().program).resolve())
    failed = 0
    for ask in TRIED:
        with tempfile.TemporaryDirectory() as name:
            answer, wanted = ask(program, pathlib.Path(name))
        if answer != wanted:
            print("%s: %r, not %r" % (ask.__name__.replace("_", " "), answer, wanted))
            failed += 1
    print("%d tried, %d failed" % (len(TRIED), failed))
    return 1 if failed else 0


if __name__ == "__main__":
    sys.exit(main())
