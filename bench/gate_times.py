#!/usr/bin/env python3
"""Runs a command of `rt`, the gate if none is given, and tells the processor seconds that it spent on each crate.

    bench/gate_times.py                 the gate, `rt ci`: run it where nothing is kept, or the table has what was not kept alone
    bench/gate_times.py rt ci NAME ..   another command

Each process of the prover notes its own processor time, with that of its children, as it ends: nothing is sampled. The table has the
seconds of a crate's proof, of the proof with its tests, and of its must-fail edits, the dearest crate first, and the sums. A process
that is killed notes nothing.
"""

import os
import re
import subprocess
import sys
import tempfile
from collections import defaultdict
from pathlib import Path

SHIM = r"""
#define _GNU_SOURCE
#include <fcntl.h>
#include <stdio.h>
#include <stdlib.h>
#include <string.h>
#include <sys/resource.h>
#include <unistd.h>

static double seconds(int who)
{
    struct rusage used;
    getrusage(who, &used);
    return used.ru_utime.tv_sec + used.ru_stime.tv_sec + (used.ru_utime.tv_usec + used.ru_stime.tv_usec) / 1e6;
}

__attribute__((destructor)) static void note(void)
{
    static char words[65536], folder[4096], line[70000];
    const char *log = getenv("GATE_TIMES");
    int file = open("/proc/self/cmdline", O_RDONLY);
    ssize_t count = file < 0 ? 0 : read(file, words, sizeof words - 1);
    if (!log || count <= 0 || !strstr(words, "rattle"))
        return;
    close(file);
    for (ssize_t place = 0; place < count; place++)
        if (words[place] == 0 || words[place] == '\n')
            words[place] = ' ';
    if (!getcwd(folder, sizeof folder))
        folder[0] = 0;
    int length = snprintf(line, sizeof line, "%.2f\t%s\t%s\n", seconds(RUSAGE_SELF) + seconds(RUSAGE_CHILDREN), folder, words);
    int out = open(log, O_WRONLY | O_APPEND | O_CREAT, 0600);
    if (out >= 0 && length > 0 && write(out, line, length) < 0)
        return;
}
"""

KINDS = ("proof", "tests", "edits")


def noted(command):
    """The command's status, and what its processes noted: seconds, folder and words of each."""
    with tempfile.TemporaryDirectory() as room:
        source, shim, log = Path(room, "note.c"), Path(room, "note.so"), Path(room, "times")
        source.write_text(SHIM, encoding="utf-8")
        subprocess.run(["cc", "-O1", "-shared", "-fPIC", "-o", shim, source], check=True)
        means = {**os.environ, "LD_PRELOAD": str(shim), "GATE_TIMES": str(log)}
        status = subprocess.run(command, env=means, check=False).returncode
        lines = log.read_text(encoding="utf-8", errors="replace").splitlines() if log.exists() else []
    return status, [line.split("\t", 2) for line in lines]


def kind_of(folder, words):
    if "/rt-edit-" in folder:
        return "edits"
    return "tests" if " --test " in words else "proof"


def table(notes):
    """The seconds of each crate by kind, the dearest first."""
    spent = defaultdict(lambda: dict.fromkeys(KINDS, 0.0))
    for seconds, folder, words in notes:
        name = re.search(r"--crate-name (\S+)", words)
        if name and re.match(r"\S*rattle (build|check) ", words):
            spent[name[1]][kind_of(folder, words)] += float(seconds)
    return sorted(spent.items(), key=lambda entry: -sum(entry[1].values()))


def main():
    status, notes = noted(sys.argv[1:] or ["rt", "ci"])
    rows = table(notes)
    print(f"{'crate':24}" + "".join(f"{kind:>8}" for kind in KINDS))
    for name, spent in rows:
        print(f"{name:24}" + "".join(f"{spent[kind]:8.0f}" for kind in KINDS))
    print(f"{'all':24}" + "".join(f"{sum(spent[kind] for _, spent in rows):8.0f}" for kind in KINDS))
    return status


if __name__ == "__main__":
    sys.exit(main())
