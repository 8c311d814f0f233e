#!/usr/bin/env python3
"""Tests what `make install` installs, and the completion files: installed.py PATH_OF_AEC

Installs the program at PATH_OF_AEC into an empty folder, as `aec` and under another name, looks for each file, follows each link of
the installed pages, runs the program from there, and uninstalls it, which must remove every file. Installs a program that isn't
there, which must fail with a line and install nothing. Each option of --help must be in both completion files. bash, and zsh if it
is installed, read theirs, and bash offers each option. Each copy of the version must be that of the file VERSION.

Prints the checks that fail and, last, how many passed. Ends with status 1 if one failed.
"""

import os
import re
import shutil
import subprocess
import sys
import tempfile

sys.path.insert(0, os.path.dirname(os.path.abspath(__file__)))

from lib.program import TOP, Tally

sys.path.insert(0, os.path.join(TOP, "packaging"))

import pages

WORD = r"(?<![\w-])--?\w[\w-]*"


def made(target, folder, *words):
    """Runs a target of the Makefile that works below a folder. Returns its status and its standard error."""
    command = ["make", "-s", "-C", TOP, target, f"DESTDIR={folder}", "PREFIX=/usr", f"PYTHON={sys.executable}", *words]
    # No folder of a toolchain is on the path.
    done = subprocess.run(command, capture_output=True, text=True, env={"PATH": "/usr/bin:/bin"})
    return done.returncode, done.stderr


def helped_options(program):
    text = subprocess.run([program, "--help"], capture_output=True, text=True).stdout
    found = set()
    for line in text.splitlines():
        match = re.match(r" +--?\w[\w-]*(, --\w[\w-]*)?", line)
        found |= set(re.findall(WORD, match.group())) if match else set()
    return sorted(found)


def files_below(folder):
    return [os.path.join(at, name) for at, _, names in os.walk(folder) for name in names]


def try_links(folder, tally):
    """Checks that each link of each page leads to a file or folder that is there."""
    for path in filter(lambda it: it.endswith(".md"), files_below(folder)):
        page = os.path.relpath(path, folder)
        with open(path, encoding="utf-8") as file:
            text = re.sub(r"(?ms)^```.*?^```$", "", file.read())
        for _, link in pages.LINK.findall(text):
            target = pages.target_of(page, link)
            is_there = target is None or os.path.exists(os.path.join(folder, target))
            tally.holds(is_there, f"the link {link} of the installed page {page} leads to nothing")


def version():
    with open(os.path.join(TOP, "VERSION"), encoding="utf-8") as file:
        return file.read().strip()


def try_version(tally):
    """Checks that each copy of the version is that of the file VERSION."""
    done = subprocess.run([sys.executable, os.path.join(TOP, "tools", "version.py"), "--check"], capture_output=True, text=True)
    tally.holds(done.returncode == 0, done.stdout)
    with open(os.path.join(TOP, "man", "aec.1"), encoding="utf-8") as file:
        tally.holds(f'"aec {version()}"' in file.read(), "man/aec.1 has another version: run make version")


def try_install(program, name, tally):
    """Checks one installation: each file is there, each link leads to a file, the program runs, and all can be removed."""
    with tempfile.TemporaryDirectory() as folder:
        words = [f"BUILT={program}"] + ([] if name == "aec" else [f"PROGRAM={name}"])
        tally.check(f"install as {name}", made("install", folder, *words), (0, ""))
        try_links(os.path.join(folder, "usr", "share", "doc", name), tally)
        wanted = ["bin/" + name, f"share/man/man1/{name}.1", f"share/bash-completion/completions/{name}"]
        wanted += [f"share/zsh/site-functions/_{name}", f"share/doc/{name}/README.md", f"share/doc/{name}/docs/COMMAND.md"]
        wanted += [f"share/doc/{name}/examples/ramp.aec", f"share/doc/{name}/LICENSE", f"share/doc/{name}/docs/pictures/speed.svg"]
        for file in wanted:
            tally.check(f"{name}: {file} is there", os.path.isfile(os.path.join(folder, "usr", file)), True)
        with open(os.path.join(folder, "usr", "share", "man", "man1", name + ".1"), encoding="utf-8") as file:
            named = set(re.findall(r"share/doc/([\w-]+)", file.read().replace("\\-", "-")))
        tally.check(f"the folders that {name}(1) names", named, {name, "aec-proved"})
        ran = subprocess.run([os.path.join(folder, "usr", "bin", name), "--version"], capture_output=True, text=True)
        tally.check(f"{name} --version", (ran.returncode, ran.stdout), (0, f"aec {version()}\n"))
        bash = os.path.join(folder, "usr", "share", "bash-completion", "completions", name)
        ask = f'source "{bash}"; complete -p {name}'
        said = subprocess.run(["bash", "-c", ask], capture_output=True, text=True)
        tally.check(f"bash completes {name}", (said.returncode, said.stdout), (0, f"complete -F _aec {name}\n"))
        with open(os.path.join(folder, "usr", "share", "zsh", "site-functions", "_" + name), encoding="utf-8") as file:
            tally.check(f"zsh completes {name}", file.readline(), f"#compdef {name}\n")
        if name != "aec":
            left = files_below(folder)
            tally.check(f"uninstall aec where {name} is installed", (made("uninstall", folder)[0], files_below(folder)), (2, left))
        tally.check(f"uninstall {name}", made("uninstall", folder, *words), (0, ""))
        tally.check(f"what uninstall leaves of {name}", files_below(folder), [])


def try_refusal(tally):
    """Checks that nothing is installed if nothing is built."""
    with tempfile.TemporaryDirectory() as folder:
        status, said = made("install", folder, "BUILT=no/such/aec")
        tally.check("nothing is built: status", status != 0, True)
        tally.check("nothing is built: the line", "there is no no/such/aec: run make first" in said, True)
        tally.check("nothing is built: nothing is installed", os.listdir(folder), [])
        status, said = made("install", folder, "PROGRAM=aecp")
        tally.check("PROGRAM=aecp", (status != 0, "PROGRAM can't be aecp" in said, os.listdir(folder)), (True, True, []))


def try_completions(program, tally):
    """Checks that both files have just the options of --help, that bash offers them, and that zsh reads its file."""
    helped = helped_options(program)
    tally.check("--help lists options", "--edit" in helped, True)
    with open(os.path.join(TOP, "completions", "aec.bash"), encoding="utf-8") as file:
        words = re.search(r'compgen -W "(-n -j[^"]*)"', file.read()).group(1)
    tally.check("the options of aec.bash and of --help", sorted(set(re.findall(WORD, words))), helped)
    path = os.path.join(TOP, "completions", "_aec")
    with open(path, encoding="utf-8") as file:
        words = re.findall(r"(?<=['\"){,])--?\w[\w-]*", file.read())
    tally.check("the options of _aec and of --help", sorted(set(words)), helped)
    if shutil.which("zsh"):
        read = subprocess.run(["zsh", "-n", path], capture_output=True, text=True)
        tally.check("zsh reads _aec", (read.returncode, read.stderr), (0, ""))
    ask = f'source "{TOP}/completions/aec.bash"; COMP_WORDS=(aec -); COMP_CWORD=1; _aec; echo "${{COMPREPLY[*]}}"'
    said = subprocess.run(["bash", "-c", ask], capture_output=True, text=True)
    tally.check("bash offers each option", sorted(said.stdout.split()), helped)


def main():
    tally, program = Tally(), os.path.abspath(sys.argv[1])
    try_install(program, "aec", tally)
    try_install(program, "other-aec", tally)
    try_refusal(tally)
    try_version(tally)
    try_completions(program, tally)
    tally.print()
    return 1 if tally.failed else 0


if __name__ == "__main__":
    sys.exit(main())
