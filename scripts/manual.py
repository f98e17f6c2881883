"""Reads what a program's --help prints, and makes a man page of it.

The help is clap's: a text, `Usage:` lines, sections `Commands:`, `Arguments:` and `Options:` whose
items stand in two columns, and a text at the end. Whatever does not fit is a fault, so that no word
of the help is missing from the page. Standard library only.
"""

import re
import subprocess
import textwrap

SECTIONS = ("Commands", "Arguments", "Options")
ITEM = re.compile(r" {2,6}(\S.*?)(?: {2,}(\S.*))?")


class Unreadable(Exception):
    """A help has a line that fits nowhere."""


class Help:
    """What a program, or one of its subcommands, says of itself. Items are pairs of what is given
    and what it means."""

    def __init__(self, text):
        about, mark, rest = text.partition("\nUsage: ")
        if not mark:
            raise Unreadable(f"no usage in {text[:60]!r}")
        self.about = paragraphs(about)
        usage, *parts = re.split(r"\n\n", rest)
        self.usage = [line.strip() for line in usage.splitlines()]
        self.items = {name: [] for name in SECTIONS}
        while parts and (head := parts[0].split(":\n", 1))[0] in SECTIONS and len(head) == 2:
            self.items[head[0]] = items_of(head[1])
            parts.pop(0)
        self.after = paragraphs("\n\n".join(parts))

    def options(self):
        """The spellings of each option, what it takes, or None, and what it means."""
        for given, meaning in self.items["Options"]:
            spellings = re.findall(r"--?[a-z][a-z-]*", given)
            taken = re.search(r"<([^>]+)>", given)
            yield spellings, taken and taken[1], meaning

    def subcommands(self):
        return [name for name, _ in self.items["Commands"]]


def paragraphs(text):
    """The paragraphs of a text: joined lines, but lines that are indented as they are."""
    out = []
    for part in re.split(r"\n\s*\n", text.strip("\n")):
        if part.strip():
            out.append(part if part.startswith("  ") else " ".join(part.split()))
    return out


def items_of(text):
    """The items of a section. A line that begins further to the right goes on with the item before
    it."""
    items = []
    for line in text.splitlines():
        found = ITEM.fullmatch(line)
        if found and (found[1].startswith(("-", "<", "[")) or re.match(r" {2}\S", line)):
            items.append([found[1], found[2] or ""])
        elif items and line.strip():
            items[-1][1] = f"{items[-1][1]} {line.strip()}".strip()
        elif line.strip():
            raise Unreadable(line)
    return [tuple(item) for item in items]


def help_of(program, *words):
    """What a program says of itself, or of a subcommand."""
    ran = subprocess.run([program, *words, "--help"], capture_output=True, text=True)
    return Help(ran.stdout)


# --- the page ------------------------------------------------------------------------------------


def plain(text):
    """A text as roff reads it."""
    text = text.replace("\\", "\\e").replace("-", "\\-").replace("`", "\\(ga").replace("'", "\\(aq")
    return text.replace("^", "\\(ha").replace("~", "\\(ti")


def block(text):
    """A paragraph, in lines that never begin with a request."""
    if text.startswith("  "):
        return ["", ".nf", *(f"\\&{plain(line)}" for line in text.splitlines()), ".fi"]
    return [".PP", *(f"\\&{plain(line)}" if line[0] in ".'" else plain(line)
                     for line in textwrap.wrap(text, 100, break_on_hyphens=False))]


def listed(items):
    out = []
    for given, meaning in items:
        out += [".TP", f"\\fB{plain(given)}\\fR", *(block(meaning)[1:] or ["\\&"])]
    return out


def usage_of(lines):
    return [".nf", *(f"\\&{plain(line)}" for line in lines), ".fi"]


def part(heading, lines):
    return [heading, *lines] if lines else []


def texts(paragraphs_of):
    return [line for text in paragraphs_of for line in block(text)]


def page_of(name, version, program):
    """The man page of a program: its help, and that of each of its subcommands."""
    said = help_of(program)
    first = said.about[0].rstrip(".")
    out = [f'.TH {name.upper()} 1 "" "{name} {version}" "The results desk"', ".ad l", ".nh",
           ".SH NAME",
           f"{name} \\- {plain(first[0].lower() + first[1:])}", ".SH SYNOPSIS",
           *usage_of(said.usage)]
    named = said.usage[0].split()[0]
    alone = [] if named == name else [f"Its own help calls it {named}: it is the part of that "
                                      "program that has the subcommands below."]
    out += part(".SH DESCRIPTION", texts([*said.about, *alone, *said.after]))
    out += part(".SH ARGUMENTS", listed(said.items["Arguments"]))
    out += part(".SH OPTIONS", listed(said.items["Options"]))
    out += part(".SH SUBCOMMANDS", listed(said.items["Commands"]))
    for subcommand in said.subcommands():
        if subcommand == "help":
            continue
        own = help_of(program, subcommand)
        out += [f".SH {plain(f'{name} {subcommand}').upper()}", *usage_of(own.usage)]
        out += texts(own.about)
        out += part(".SS Arguments", listed(own.items["Arguments"]))
        out += part(".SS Options", listed(own.items["Options"]))
        out += part(".SS What it does", texts(own.after))
    out += [".SH SEE ALSO", "HALL.md and FORMATS.md, beside the program."]
    return "\n".join(out) + "\n"
