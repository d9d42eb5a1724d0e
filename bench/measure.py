#!/usr/bin/env python3
"""Measures `depprof profile` on generated relations, beside other profilers, and prints a table.

  measure.py [--small] [--only WORD] [--runs N] [--workers N] [--data FOLDER] [--program FILE] [--other NAME=COMMAND ..]

A COMMAND is split at its spaces, and `{}` in it is the file; as `--other 'peer=./peer profile --workers 1 {}'`. Each program runs on one
relation after the other has, N times; the table has the run that took the least processor time: lines of output, processor and
wall seconds, the most memory that was in use, and the ratio of processor seconds to those of depprof. Where another program writes other
bytes, it says so. Relations are made once and stay in the folder of data (bench/data). Nothing else should run on the machine.
"""
import argparse
import os
import shutil
import sys
import tempfile
import time

import relations

HERE = os.path.dirname(os.path.abspath(__file__))
SMALL = ["voters 1000 30", "voters 1000 40", "voters 10000 20", "random 100000 10 1000", "order-lines 100000", "demo"]
LARGE = ["voters 10000 40", "voters 100000 20", "order-lines 1000000", "random 1000000 20 1000000000"]


def made(words, folder):
    """The file of a relation, made where it is not there."""
    name = os.path.join(folder, "-".join(words.split()) + ".csv")
    if not os.path.exists(name):
        with open(name + ".part", "w", encoding="ascii") as file:
            relations.write(relations.relation(words.split()), file)
        os.rename(name + ".part", name)
    return name


def run(command, out):
    """Processor seconds, wall seconds, megabytes and status of a run."""
    began = time.monotonic()
    pid = os.fork()
    if pid == 0:
        try:
            os.dup2(os.open(out, os.O_WRONLY | os.O_CREAT | os.O_TRUNC, 0o600), 1)
            os.execvp(command[0], command)
        except OSError as error:
            print(f"{command[0]}: {error.strerror}", file=sys.stderr)
            os._exit(127)
    _, status, used = os.wait4(pid, 0)
    megabytes = used.ru_maxrss / (1048576 if sys.platform == "darwin" else 1024)
    return used.ru_utime + used.ru_stime, time.monotonic() - began, megabytes, os.waitstatus_to_exitcode(status)


def content(name):
    with open(name, "rb") as file:
        return file.read()


def measured(programs, file, runs, folder):
    """For each program its best run, its number of lines, and whether it writes what the first one does."""
    out = []
    for name, command in programs:
        text = os.path.join(folder, "out")
        best = min(run([word.replace("{}", file) for word in command], text) for _ in range(runs))
        written = content(text)
        if not out:
            first = written
        out.append((name, best, written.count(b"\n"), written == first))
    return out


def shape(file):
    with open(file, encoding="ascii") as lines:
        columns = next(lines).count(",") + 1
        return sum(1 for _ in lines), columns


def main():
    parser = argparse.ArgumentParser(prog="measure.py", description="Measures depprof on generated relations.")
    parser.add_argument("--small", action="store_true", help="only what takes a second or so")
    parser.add_argument("--only", metavar="WORD", help="only relations with this in their words")
    parser.add_argument("--runs", metavar="N", type=int, default=3)
    parser.add_argument("--workers", metavar="N", default="1")
    parser.add_argument("--data", metavar="FOLDER", default=os.path.join(HERE, "data"))
    parser.add_argument("--program", metavar="FILE", default=os.path.join(HERE, "..", "crates", "depprof", "out", "depprof"))
    parser.add_argument("--other", metavar="NAME=COMMAND", action="append", default=[])
    args = parser.parse_args()
    if not shutil.which(args.program):
        sys.exit(f"measure.py: there is no program {args.program}")
    os.makedirs(args.data, exist_ok=True)
    programs = [("depprof", [args.program, "profile", "--workers", args.workers, "{}"])]
    programs += [(name, command.split()) for name, _, command in (other.partition("=") for other in args.other)]
    print("| Relation | Rows | Columns | Program | Lines | Processor s | Wall s | MB | Ratio |")
    print("|---|---|---|---|---|---|---|---|---|")
    for words in SMALL + ([] if args.small else LARGE):
        if args.only and args.only not in words:
            continue
        file = made(words, args.data)
        rows, columns = shape(file)
        with tempfile.TemporaryDirectory() as folder:
            results = measured(programs, file, args.runs, folder)
        for name, (processor, wall, memory, status), lines, same in results:
            remark = f" (status {status})" if status else "" if same else " (other bytes)"
            ratio = processor / max(results[0][1][0], 0.001)
            print(f"| {words} | {rows:,} | {columns} | {name}{remark} | {lines:,} | {processor:.2f} | {wall:.2f} | {memory:.0f} | {ratio:.2f} |", flush=True)
    return 0


if __name__ == "__main__":
    sys.exit(main())
