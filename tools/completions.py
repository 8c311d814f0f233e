#!/usr/bin/env python3
"""Writes completions/aecp.bash and completions/_aecp from the parser of the command aecp:
completions.py [--check]

With --check nothing is written, and the script fails if a file differs from what it would write.
Needs no library.
"""

import argparse
import os
import sys

TOP = os.path.join(os.path.dirname(os.path.abspath(__file__)), "..")
NOTE = "# Completion of aecp's words in {shell}. Written by tools/completions.py from the command's parser.\n"
# What a word completes to, by its metavar: values, a file, or a folder.
VALUES = {"J": "8 16 32 64", "N": "8 12 16 24 32"}
FILES = ("OUT", "LIST.json")
FOLDERS = ("DIR",)


def parsers():
    """Returns the parser of each verb."""
    sys.path.insert(0, os.path.join(TOP, "bindings", "python"))
    from aecp import _words

    return _words.parsers()[1]


def options(verb):
    """Returns the options of a verb."""
    return [it for it in verb._actions if it.option_strings and it.help != argparse.SUPPRESS]


def bash_values(actions):
    """Returns the cases of bash for the options that take a value."""
    lines, others = [], []
    for action in actions:
        if action.nargs == 0:
            continue
        names = " | ".join(action.option_strings)
        if action.dest in ("bits", "block_size"):
            words = VALUES[action.metavar]
            reply = f'COMPREPLY=($(compgen -W "{words}" -- "$word"))'
        elif action.metavar in FOLDERS:
            reply = 'COMPREPLY=($(compgen -d -- "$word"))'
        elif action.metavar in FILES:
            reply = 'COMPREPLY=($(compgen -f -- "$word"))'
        else:
            others.append(names)
            continue
        lines.append((names, reply))
    return [*lines, (" | ".join(others), ":")] if others else lines


def bash(verbs):
    """Returns the completion for bash."""
    out = [NOTE.format(shell="bash"), "\n_aecp() {\n"]
    out.append("    local word=${COMP_WORDS[COMP_CWORD]} before=${COMP_WORDS[COMP_CWORD - 1]} IFS=$' \\t\\n'\n")
    out.append("    COMPREPLY=()\n    if ((COMP_CWORD == 1)); then\n")
    out.append(f'        COMPREPLY=($(compgen -W "{" ".join(verbs)} -h --help -V --version" -- "$word"))\n')
    out.append("        return\n    fi\n    case ${COMP_WORDS[1]} in\n")
    for name, verb in verbs.items():
        words = [it for action in options(verb) for it in action.option_strings]
        out.append(f"        {name})\n")
        if name == "help":
            out.append(f'            COMPREPLY=($(compgen -W "{" ".join(verbs)}" -- "$word"))\n            return\n            ;;\n')
            continue
        cases = bash_values(options(verb))
        if cases:
            out.append("            case $before in\n")
            for names, reply in cases:
                out.append(f"                {names})\n                    {reply}\n                    return\n                    ;;\n")
            out.append("            esac\n")
        lines = " ".join(words)
        out.append(f'            [[ $word == -* ]] && COMPREPLY=($(compgen -W "{lines}" -- "$word")) && return\n            ;;\n')
    out.append("    esac\n    compopt -o filenames 2> /dev/null\n    IFS=$'\\n'\n")
    out.append('    COMPREPLY=($(compgen -f -- "$word"))\n}\n\ncomplete -F _aecp aecp\n')
    return "".join(out)


def zsh_text(text):
    """Returns a text within a description of zsh."""
    return text.replace("'", "").replace("[", "(").replace("]", ")").replace(":", "\\:").replace("%%", "%")


def zsh_option(action):
    """Returns the line of an option for _arguments."""
    names = action.option_strings
    text = zsh_text(action.help or "")
    exclusive = "'(" + " ".join(names) + ")'" if len(names) > 1 else ""
    listed = "{" + ",".join(names) + "}" if len(names) > 1 else ""
    value = ""
    if action.nargs != 0:
        if action.dest in ("bits", "block_size"):
            kind = f"({VALUES[action.metavar]})"
        else:
            kind = "_directories" if action.metavar in FOLDERS else "_files" if action.metavar in FILES else ""
        value = f":{zsh_text(action.metavar or action.dest)}:{kind}"
    repeat = "*" if isinstance(action, argparse._AppendAction) else ""
    if listed:
        return f"{exclusive}{listed}'[{text}]{value}'"
    return f"'{repeat}{names[0]}[{text}]{value}'"


def zsh(verbs):
    """Returns the completion for zsh."""
    out = ["#compdef aecp\n", NOTE.format(shell="zsh")]
    out.append("\nlocal -a verbs=(\n")
    for name, verb in verbs.items():
        text = zsh_text((verb.description or "Prints the page of a verb.").split(". ")[0].split("\n")[0].rstrip("."))
        out.append(f"    '{name}:{text}'\n")
    out.append(")\nif ((CURRENT == 2)); then\n    _describe verb verbs\n    return\nfi\n")
    out.append("local verb=$words[2]\nshift words\n((CURRENT--))\ncase $verb in\n")
    for name, verb in verbs.items():
        if name == "help":
            out.append("    help) _describe verb verbs ;;\n")
            continue
        lines = " \\\n            ".join([*map(zsh_option, options(verb)), "'*:file:_files'"])
        out.append(f"    {name})\n        _arguments -s \\\n            {lines}\n        ;;\n")
    out.append("esac\n")
    return "".join(out)


def is_current(path, wanted):
    """Returns whether a file has this text, and prints it."""
    try:
        with open(os.path.join(TOP, path), encoding="utf-8") as file:
            same = file.read() == wanted
    except FileNotFoundError:
        same = False
    print(f"{path} is current" if same else f"{path} isn't what `make man` writes")
    return same


def main():
    verbs = parsers()
    files = {"completions/aecp.bash": bash(verbs), "completions/_aecp": zsh(verbs)}
    if sys.argv[1:] != ["--check"]:
        for path, text in files.items():
            with open(os.path.join(TOP, path), "w", encoding="utf-8") as file:
                file.write(text)
        return 0
    found = [is_current(path, text) for path, text in files.items()]
    print(f"{found.count(True)} passed, {found.count(False)} failed")
    return 0 if all(found) else 1


if __name__ == "__main__":
    sys.exit(main())
