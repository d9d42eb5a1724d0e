#!/usr/bin/env python3
"""Runs the examples of documents and compares.

  documents.py PROGRAM DOCUMENT..

An example is an indented or fenced block whose first line begins with `$ `. Each line that begins so is a command, `> ` goes on with
it, and the lines behind it are what it writes, to the standard output or the standard error; a line `...` stands for any lines. A
command must end with status 0, so one that fails shows its status by `echo $?`. The commands of a document run one after another in
one folder that has the repository's examples/, tools/ and bench/, and find `depprof` by its name. What stands in a comment of the
document (`<!--`) is left out, and so is a command that needs a program which is not there.
"""
import difflib
import os
import re
import shutil
import subprocess
import sys
import tempfile

MAYBE = ["sqlite3", "dot"]  # programs that may be missing
TOP = os.path.dirname(os.path.dirname(os.path.abspath(__file__)))


def blocks_of(text):
    """Each block of code: the number of its first line, and its lines."""
    block, fence, begins = [], False, 0
    for number, line in enumerate(text.split("\n") + ["end"], 1):
        if line.startswith("```"):
            if block:
                yield begins, block
            block, fence = [], not fence
        elif fence or line.startswith("    "):
            if not block:
                begins = number
            block.append(line if fence else line[4:])
        elif block and line == "":
            block.append("")
        elif block:
            yield begins, block
            block = []


def without_comments(text):
    """The text with its comments made empty lines."""
    return re.sub("<!--.*?-->", lambda found: "\n" * found.group().count("\n"), text, flags=re.DOTALL)


def commands_of(text):
    """Each command: the number of its line, the command, and the lines that it is to write."""
    for begins, block in blocks_of(without_comments(text)):
        while block and block[-1] == "":
            block.pop()
        if not block or not block[0].startswith("$ "):
            continue
        commands = []
        for number, line in enumerate(block, begins):
            if line.startswith("$ "):
                commands.append((number, [line[2:]], []))
            elif line.startswith("> ") and not commands[-1][2]:
                commands[-1][1].append(line[2:])
            else:
                commands[-1][2].append(line)
        for number, command, lines in commands:
            while lines and lines[-1] == "":
                lines.pop()  # the blank line before the next command
            yield number, "\n".join(command), lines


def is_as_told(lines, told):
    """Whether a text is these lines, where `...` stands for any lines."""
    pattern = "".join("(?:.*\n)*?" if line == "..." else re.escape(line) + "\n" for line in lines)
    return re.fullmatch(pattern, told) is not None


def check(document, program):
    """How many commands a document has, and how many of them differ."""
    with open(os.path.join(TOP, document), encoding="utf-8") as file:
        commands = list(commands_of(file.read()))
    bad = 0
    with tempfile.TemporaryDirectory() as folder:
        room, path = os.path.join(folder, "room"), os.path.join(folder, "path")
        os.mkdir(room)
        os.mkdir(path)
        os.symlink(program, os.path.join(path, "depprof"))
        for name in ("examples", "tools", "bench"):
            if os.path.isdir(os.path.join(TOP, name)):
                os.symlink(os.path.join(TOP, name), os.path.join(room, name))
        surroundings = {**os.environ, "PATH": path + os.pathsep + os.environ.get("PATH", ""), "LC_ALL": "C.UTF-8"}
        for number, command, lines in commands:
            missing = [need for need in MAYBE if re.search(rf"\b{need}\b", command) and not shutil.which(need)]
            if missing:
                print(f"documents: {document}:{number}: no {missing[0]}, skipped")
                continue
            done = subprocess.run(["bash", "-c", command], cwd=room, env=surroundings, stdin=subprocess.DEVNULL, stdout=subprocess.PIPE,
                                  stderr=subprocess.STDOUT, timeout=600)
            told = done.stdout.decode("utf-8", "replace")
            told += "" if told.endswith("\n") or not told else "\n"
            if done.returncode == 0 and is_as_told(lines, told):
                continue
            bad += 1
            print(f"documents: {document}:{number}: {command}\n  status {done.returncode}; the document (-) and what came (+):")
            print("".join(f"  {line}\n" for line in list(difflib.unified_diff(lines, told.split("\n")[:-1], lineterm="", n=1))[2:60]), end="")
    return len(commands), bad


def main():
    program, wrong = os.path.abspath(sys.argv[1]), 0
    for document in sys.argv[2:]:
        if not os.path.exists(os.path.join(TOP, document)):
            print(f"documents: no {document}, skipped")
            continue
        commands, bad = check(document, program)
        print(f"documents: {document}: {commands} commands, {bad} differ")
        wrong += bad + (commands == 0)
    return 1 if wrong else 0


if __name__ == "__main__":
    sys.exit(main())
