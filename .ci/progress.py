#!/usr/bin/env python3
"""progress.py PROGRAM: what the program tells of its progress on standard error, while it waits for the rest of a file."""

import fcntl
import os
import pty
import re
import subprocess
import sys
import tempfile
import threading
import time

PROGRAM = os.path.abspath(sys.argv[1])
# The file's first bytes come at once, the others after so many seconds: two lines are due meanwhile.
SECONDS = 2.6
FIRST, REST = b"id,city\n1,Bonn\n", b"2,Bonn\n"
LEFT_ALONE, SILENCED, ASKED = None, "0", "1"


def fed(path):
    """Writes the file into the pipe of that name, slowly."""
    with open(path, "wb", buffering=0) as file:
        file.write(FIRST)
        time.sleep(SECONDS)
        file.write(REST)


def environment(value):
    found = {name: it for name, it in os.environ.items() if name != "DEPPROF_PROGRESS"}
    return found if value is None else {**found, "DEPPROF_PROGRESS": value}


def run(room, value, stdout, stderr):
    """Profiles a file that comes slowly, and returns the process when it is done."""
    path = f"{room}/slow.csv"
    os.mkfifo(path)
    writer = threading.Thread(target=fed, args=(path,), daemon=True)
    writer.start()
    process = subprocess.Popen([PROGRAM, "profile", "slow.csv"], cwd=room, env=environment(value), stdout=stdout, stderr=stderr, stdin=subprocess.DEVNULL)
    text = process.communicate(timeout=30)[0] if stdout == subprocess.PIPE else process.wait(timeout=30)
    return process, text


def all_of(terminal):
    """Returns what was written to a terminal whose other end is closed."""
    found = b""
    while True:
        try:
            piece = os.read(terminal, 65536)
        except OSError:
            return found
        if not piece:
            return found
        found += piece


def on_terminal(room, value, is_shared):
    """Returns what a run wrote to a terminal on standard error, or on both."""
    ours, theirs = pty.openpty()
    found = []
    reader = threading.Thread(target=lambda: found.append(all_of(ours)))
    reader.start()
    try:
        process, _ = run(room, value, theirs if is_shared else subprocess.DEVNULL, theirs)
    finally:
        os.close(theirs)
    reader.join(10)
    os.close(ours)
    return process.returncode, found[0].replace(b"\r\n", b"\n")


def left_on(text):
    """Returns what stands on a terminal in the end: a line told over another begins with a return and ends with a clearing."""
    return re.sub(rb"\r[^\r\n]*\x1b\[K", b"", text)


def report(room):
    with open(f"{room}/plain.csv", "wb") as file:
        file.write(FIRST + REST)
    text = subprocess.run([PROGRAM, "profile", "plain.csv"], cwd=room, capture_output=True, check=True).stdout
    return text.replace(b"plain.csv", b"slow.csv")


def is_silent_in_a_pipe(room, wanted):
    with open(f"{room}/said", "wb") as said:
        process, text = run(room, LEFT_ALONE, subprocess.PIPE, said)
    return process.returncode == 0 and text == wanted and os.path.getsize(f"{room}/said") == 0


def tells_lines_where_asked(room, wanted):
    with open(f"{room}/said", "wb") as said:
        process, text = run(room, ASKED, subprocess.PIPE, said)
    with open(f"{room}/said", "rb") as said:
        lines = said.read().split(b"\n")
    is_read = all(line.startswith(b"depprof: ") and line.endswith(b" s, reading, 15 bytes") for line in lines[:-1])
    return process.returncode == 0 and text == wanted and len(lines) >= 3 and is_read and lines[-1] == b""


def tells_on_a_terminal(room, _wanted):
    status, text = on_terminal(room, LEFT_ALONE, False)
    return status == 0 and text.startswith(b"\rdepprof: 1 s, reading") and text.endswith(b"\r\x1b[K") and b"\n" not in text


def is_silenced_on_a_terminal(room, _wanted):
    return on_terminal(room, SILENCED, False) == (0, b"")


def leaves_the_output_on_a_shared_terminal(room, wanted):
    status, text = on_terminal(room, LEFT_ALONE, True)
    before = text[: text.find(b"relation,")]
    return status == 0 and before.startswith(b"\rdepprof: 1 s") and before.endswith(b"\r\x1b[K") and left_on(text) == wanted


def is_not_held_up_by_a_full_pipe(room, wanted):
    reading, writing = os.pipe()
    flags = fcntl.fcntl(writing, fcntl.F_GETFL)
    fcntl.fcntl(writing, fcntl.F_SETFL, flags | os.O_NONBLOCK)
    try:
        while True:
            os.write(writing, b"x" * 4096)
    except BlockingIOError:
        pass
    fcntl.fcntl(writing, fcntl.F_SETFL, flags)
    try:
        process, text = run(room, ASKED, subprocess.PIPE, writing)
    finally:
        os.close(writing)
        os.close(reading)
    return process.returncode == 0 and text == wanted


CASES = [
    is_silent_in_a_pipe,
    tells_lines_where_asked,
    tells_on_a_terminal,
    is_silenced_on_a_terminal,
    leaves_the_output_on_a_shared_terminal,
    is_not_held_up_by_a_full_pipe,
]


def main():
    wrong = []

    def tried(case):
        with tempfile.TemporaryDirectory() as room:
            try:
                is_right = case(room, report(room))
            except (OSError, subprocess.SubprocessError) as error:
                is_right = False
                print(f"progress: {case.__name__}: {error}")
            if not is_right:
                wrong.append(case.__name__)

    threads = [threading.Thread(target=tried, args=(case,)) for case in CASES]
    for thread in threads:
        thread.start()
    for thread in threads:
        thread.join()
    for name in wrong:
        print(f"progress: not so: {name}")
    return 1 if wrong else 0


if __name__ == "__main__":
    sys.exit(main())
