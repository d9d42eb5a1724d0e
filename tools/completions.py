#!/usr/bin/env python3
"""Makes the completions for bash and zsh of the usage lines in README.md.

  completions.py bash > completions/depprof
  completions.py zsh > completions/_depprof
"""
import os
import sys
from dataclasses import dataclass

from readme_parts import sections_of, usages_of

TOP = os.path.dirname(os.path.dirname(os.path.abspath(__file__)))
FILES = {"FILE", "PREFIX", "RULES", "CERT", "NAME"}  # arguments that are files
ABOUT = {"--workers": "threads, 1 to 16", "--nulls": "how empty cells compare", "--out": "what the names of the written files begin with",
         "--rules": "a text of rules", "--most": "columns on the left, 0 to 128"}


@dataclass
class Command:
    name: str
    options: list  # (option, its argument, the words that it may be)
    takes_files: bool


def command_of(usage):
    """The command that a usage line describes."""
    name, *words = usage.replace("[", "").replace("]", "").split()
    options, places = [], []
    while words:
        word = words.pop(0)
        if word.startswith("--"):
            argument = words.pop(0) if words else ""
            options.append((word, argument, values_of(word, argument)))
        else:
            places.append(word)
    return Command(name, options, any(place.rstrip(".") in FILES for place in places))


def values_of(option, argument):
    if option == "--workers":
        return [str(number) for number in range(1, 17)]
    return argument.split("|") if "|" in argument else []


def bash(commands):
    out = ["# Completions of depprof for bash. Made by tools/completions.py.", "_depprof() {",
           "    local word=${COMP_WORDS[COMP_CWORD]} before=${COMP_WORDS[COMP_CWORD-1]} command=${COMP_WORDS[1]}", "    COMPREPLY=()",
           "    if [ \"$COMP_CWORD\" -eq 1 ]; then",
           f"        COMPREPLY=($(compgen -W '{' '.join(c.name for c in commands)} --help --version' -- \"$word\"))", "        return", "    fi",
           "    case $command:$before in"]
    for c in commands:
        for option, argument, values in c.options:
            if values:
                out.append(f"        {c.name}:{option}) COMPREPLY=($(compgen -W '{' '.join(values)}' -- \"$word\")); return ;;")
            elif argument in FILES:
                out.append(f"        {c.name}:{option}) compopt -o filenames; COMPREPLY=($(compgen -f -- \"$word\")); return ;;")
            else:
                out.append(f"        {c.name}:{option}) return ;;")
    out += ["    esac", "    case $command:$word in"]
    for c in commands:
        options = " ".join([option for option, _, _ in c.options] + ["--help"])
        out.append(f"        {c.name}:-*) COMPREPLY=($(compgen -W '{options}' -- \"$word\")) ;;")
    with_files = "|".join(f"{c.name}:*" for c in commands if c.takes_files)
    out += [f"        {with_files}) compopt -o filenames; COMPREPLY=($(compgen -f -- \"$word\")) ;;", "    esac", "}", "complete -F _depprof depprof"]
    return "\n".join(out).replace("COMPREPLY=($(compgen -f -- \"$word\"))", "mapfile -t COMPREPLY < <(compgen -f -- \"$word\")") + "\n"


def zsh(commands):
    out = ["#compdef depprof", "# Completions of depprof for zsh. Made by tools/completions.py.", "_depprof() {", "    local context state line",
           "    _arguments -C '(- *)--help[what it does]' '(- *)--version[its version]' '1: :->command' '*:: :->words'", "    case $state in",
           "        command) _values command " + " ".join(c.name for c in commands) + " ;;", "        words)", "            case $line[1] in"]
    for c in commands:
        words = ["'--help[what it does]'"]
        for option, argument, values in c.options:
            action = f"({' '.join(values)})" if values else "_files" if argument in FILES else " "
            words.append(f"'{option}[{ABOUT.get(option, argument)}]:{argument.replace('|', ' or ')}:{action}'")
        if c.takes_files:
            words.append("'*:file:_files'")
        out.append(f"                {c.name}) _arguments {' '.join(words)} ;;")
    return "\n".join(out + ["            esac ;;", "    esac", "}", "_depprof \"$@\""]) + "\n"


def made(shell):
    with open(os.path.join(TOP, "README.md"), encoding="utf-8") as readme:
        commands = [command_of(usage) for usage in usages_of(sections_of(readme.read()))]
    return {"bash": bash, "zsh": zsh}[shell](commands)


def main():
    if sys.argv[1:] not in (["bash"], ["zsh"]):
        print("usage: completions.py bash|zsh", file=sys.stderr)
        return 2
    sys.stdout.write(made(sys.argv[1]))
    return 0


if __name__ == "__main__":
    sys.exit(main())
