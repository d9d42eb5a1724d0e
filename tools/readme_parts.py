"""The parts of README.md that the man page and the completions are made of."""
import re
from dataclasses import dataclass, field


@dataclass
class Section:
    title: str
    blocks: list = field(default_factory=list)  # (kind, lines): a paragraph, code, a list or a table


def sections_of(text):
    """The sections of a document; the first one has no title but the document's."""
    out = [Section("")]
    kind, lines = None, []

    def end():
        nonlocal kind, lines
        while lines and not lines[-1]:
            lines.pop()
        if lines:
            out[-1].blocks.append((kind, lines))
        kind, lines = None, []

    for line in text.split("\n"):
        if line.startswith("#"):
            end()
            out.append(Section(line.lstrip("#").strip()))
        elif not line and kind != "code":
            end()
        elif kind == "code" and (line.startswith("    ") or not line):
            lines.append(line[4:])
        else:
            found = kind_of(line)
            if found != kind and not (kind == "list" and found == "paragraph"):
                end()
                kind = found
            lines.append(line[4:] if kind == "code" else line)
    end()
    return out


def kind_of(line):
    if line.startswith("    "):
        return "code"
    if line.startswith("|"):
        return "table"
    return "list" if re.match(r"(- |[0-9]+\. )", line) else "paragraph"


def usages_of(sections):
    """The words of each command, as `profile [--workers N] FILE..`: lines of code that are nothing else, or the start of a paragraph."""
    out = []
    for section in sections:
        for kind, lines in section.blocks:
            if kind == "code":
                found = [re.fullmatch("depprof ([a-z]+ .*)", line) for line in lines]
            else:
                found = [kind == "paragraph" and re.match("`depprof ([a-z]+ [^`]*)`", lines[0])]
            if all(found):
                out += [usage.group(1) for usage in found if usage.group(1) not in out]
    return out
