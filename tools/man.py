#!/usr/bin/env python3
"""Writes man/aec.1 and man/aecp.1 from docs/COMMAND.md, docs/ARCHIVE.md and the file VERSION: man.py [--check]

The title of a source becomes the section NAME, its first block of code SYNOPSIS, and the text from there to the first heading
DESCRIPTION. Each other heading begins a section of its own: OPTIONS comes first, and those of LAST come last, in this order. In aecp(1)
OPTIONS lists what the command's parser has for each verb. A row of a table becomes a tagged paragraph: the first cell
is the tag, the second the text, and each later cell follows the head of its column. A list item that begins with code and a colon
becomes a paragraph with that code as its tag. Sections of LEFT_OUT stay on their page alone.

With --check nothing is written, and the script fails if a page differs from what it would write.
"""

import argparse
import os
import re
import sys
import textwrap

import completions
from version import version

TOP = os.path.join(os.path.dirname(os.path.abspath(__file__)), "..")
SOURCES = {"man/aec.1": "docs/COMMAND.md", "man/aecp.1": "docs/ARCHIVE.md"}
NOTE = '.\\" Written by `make man` from %s.\n'
COLUMNS = 100
LEFT_OUT = ("Speed", "The form of FILE.aec")
# Sections with another name on their page.
NAMES = {"Ten minutes": "Examples"}
LAST = ("Exit status", "Diagnostics", "Environment", "Files", "Examples", "Ten minutes", "See also")
ITEM = re.compile(r"(- |\d+\. )(.*)")
TAGGED = re.compile(r"`([^`]*)`: (.*)", re.S)
# Characters that roff would read as something else, and how they are written.
SIGNS = {"\\": r"\e", "^": r"\(ha", "~": r"\(ti"}
CODE_SIGNS = {**SIGNS, "-": r"\-", "'": r"\(aq", "`": r"\(ga"}


def escaped(text, signs):
    """Returns a text with each character of `signs` written so that roff prints it."""
    return "".join(signs.get(it, it) for it in text)


def font(name, text):
    return rf"\f{name}{text}\fR"


def inline(text, is_bold=False):
    """Returns a paragraph's text in roff: code and strong text in bold, emphasis in italics, a link as its text alone."""
    text = re.sub(r"\[([^]]*)\]\([^)]*\)", r"\1", text)
    out = []
    for part in re.split(r"(`[^`]*`|\*\*.+?\*\*|\*[^*`]+\*)", text):
        if part.startswith("`"):
            code = escaped(part[1:-1].replace(r"\|", "|"), CODE_SIGNS)
            out.append(code if is_bold else font("B", code))
        elif part.startswith("**"):
            out.append(font("B", inline(part[2:-2], is_bold=True)))
        elif part.startswith("*") and len(part) > 2:
            out.append(font("I", escaped(part[1:-1], SIGNS)))
        else:
            out.append(escaped(part, SIGNS))
    return "".join(out)


def guarded(line):
    """Returns a line of text so that roff doesn't take it for a request."""
    return "\\&" + line if line.startswith((".", "'")) else line


def filled(text):
    """Returns the lines of a paragraph."""
    wrapped = textwrap.wrap(inline(text), COLUMNS, break_long_words=False, break_on_hyphens=False)
    return "".join(f"{guarded(line)}\n" for line in wrapped)


def tag(text):
    """Returns a tag in bold."""
    return ".TP\n.B " + inline(text.replace("`", "")).replace("-", r"\-") + "\n"


def code(lines):
    """Returns code unchanged, but indented."""
    shown = "".join(f"{guarded(escaped(line, CODE_SIGNS))}\n" for line in lines)
    return f".PP\n.RS 4\n.nf\n{shown}.fi\n.RE\n"


def table(lines):
    """Returns a tagged paragraph for each row of a table."""
    rows = [[cell.strip() for cell in re.split(r"(?<!\\)\|", line)[1:-1]] for line in lines]
    out = []
    for row in rows[2:]:
        more = [f"{head}: {cell}." for head, cell in zip(rows[0][2:], row[2:])]
        out.append(tag(row[0]) + filled(f"{row[1]}." + "".join(f" {it}" for it in more)))
    return "".join(out)


def items(lines):
    """Returns the items of a list, each as its lines without their indentation."""
    found = []
    for line in lines:
        if ITEM.match(line):
            found.append([line])
        else:
            found[-1].append(line[min(len(line) - len(line.lstrip()), len(ITEM.match(found[-1][0]).group(1))) :])
    return found


def listed(lines):
    """Returns a list in roff. Items that are indented within an item become a list of their own."""
    out = []
    for first, *rest in items(lines):
        mark, text = ITEM.match(first).groups()
        inner = next((at for at, line in enumerate(rest) if ITEM.match(line)), len(rest))
        text = " ".join([text, *rest[:inner]])
        tagged = TAGGED.fullmatch(text)
        if tagged:
            out.append(tag(tagged.group(1)) + filled(tagged.group(2)))
        else:
            out.append((".IP \\(bu 2\n" if mark == "- " else f".IP {mark.strip()} 3\n") + filled(text))
        if inner < len(rest):
            out.append(f".RS 2\n{listed(rest[inner:])}.RE\n")
    return "".join(out)


def heading(line):
    """Returns the heading of a section or a subsection."""
    level, name = line.split(" ", 1)
    if level == "##":
        return f".SH {escaped(NAMES.get(name, name).upper(), CODE_SIGNS)}\n"
    return f".SS {escaped(name, CODE_SIGNS)}\n"


def block(lines):
    """Returns a block of the page in roff. Empty lines separate blocks."""
    if lines[0].startswith("```"):
        return code(lines[1:-1])
    if lines[0].startswith("#"):
        return heading(lines[0])
    if lines[0].startswith("|"):
        return table(lines)
    if ITEM.match(lines[0]):
        return listed(lines)
    at = next((number for number, line in enumerate(lines) if ITEM.match(line)), len(lines))
    return ".PP\n" + filled(" ".join(lines[:at])) + (listed(lines[at:]) if at < len(lines) else "")


def blocks(text):
    """Yields the blocks of a page, each as its lines. Code between fences is one block."""
    for part in re.findall(r"(?ms)^```.*?^```$|^(?!```)[^\n]+(?:\n(?!```)[^\n]+)*", text):
        yield part.split("\n")


def argument(action):
    """Returns an option or an argument of a verb in roff."""
    value = action.metavar or " | ".join(map(str, action.choices or ())) or action.dest.upper()
    if action.option_strings:
        names = ", ".join(action.option_strings) + ("" if action.nargs == 0 else f" {value}")
    else:
        names = value + (" .." if action.nargs in ("*", "+") else "")
    text = (action.help or "").replace("%%", "%")
    return tag(names) + filled(f"{text[:1].upper()}{text[1:]}." if text else "See above.")


def verbs():
    """Returns the subsection of each verb of aecp in roff, from the command's parser."""
    out = []
    for name, verb in completions.parsers().items():
        listed = [it for it in verb._actions if it.help != argparse.SUPPRESS and it.dest != "help"]
        about = " ".join((verb.description or "").split())
        out.append(heading(f"### aecp {name}") + (filled(about) if about else "") + "".join(map(argument, listed)))
    return "".join(out)


def rank(part):
    """Returns where a section of a page belongs."""
    name = part.partition("\n")[0].removeprefix("## ")
    return 0 if name == "Options" else 2 + LAST.index(name) if name in LAST else 1


def ordered(text):
    """Returns a page with its sections in the order of manual pages, without those of LEFT_OUT."""
    first, *parts = re.split(r"(?m)^(?=## )", text)
    kept = [it for it in parts if it.partition("\n")[0].removeprefix("## ") not in LEFT_OUT]
    return first + "".join(sorted(kept, key=rank))


def sections(text, name):
    """Returns the sections of a page after its synopsis in roff."""
    out = [block(it) for it in blocks(text)]
    if name == "aecp":
        at = next(at for at, it in enumerate(out) if it.startswith(".SH ") and at > out.index(".SH OPTIONS\n"))
        out.insert(at, verbs())
    return "".join(out)


def page(source):
    """Returns the manual page that a source becomes."""
    with open(os.path.join(TOP, source), encoding="utf-8") as file:
        text = ordered(file.read())
    title, synopsis, *_ = blocks(text)
    rest = text.partition("\n".join(synopsis))[2]
    name, what = title[0].removeprefix("# ").split(": ", 1)
    out = [NOTE % source, f'.TH {name.upper()} 1 "" "{name} {version()}" "User Commands"\n']
    out.append(f".SH NAME\n{name} \\- {escaped(what, CODE_SIGNS)}\n")
    command, words = synopsis[0].split(maxsplit=1)
    out.append(f".SH SYNOPSIS\n.B {command}\n{font('I', words)}\n.SH DESCRIPTION\n")
    return "".join(out) + sections(rest, name)


def is_current(path, wanted):
    """Returns whether a file has this text, and prints it."""
    with open(os.path.join(TOP, path), encoding="utf-8") as file:
        same = file.read() == wanted
    print(f"{path} is current" if same else f"{path} isn't what `make man` writes")
    return same


def main():
    pages = {path: page(source) for path, source in SOURCES.items()}
    if sys.argv[1:] != ["--check"]:
        for path, wanted in pages.items():
            with open(os.path.join(TOP, path), "w", encoding="utf-8") as file:
                file.write(wanted)
        return 0
    found = [is_current(path, wanted) for path, wanted in pages.items()]
    print(f"{found.count(True)} passed, {found.count(False)} failed")
    return 0 if all(found) else 1


if __name__ == "__main__":
    sys.exit(main())
