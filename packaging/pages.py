#!/usr/bin/env python3
"""Installs the pages for users: pages.py FOLDER, or pages.py --page PAGE

Copies the pages, pictures and examples into FOLDER. A link to any other file becomes plain words, so that each link of an
installed page leads to an installed file or to a web site. With --page it prints one page, for a package without others.
"""

import argparse
import glob
import os
import re
import sys

TOP = os.path.join(os.path.dirname(os.path.abspath(__file__)), "..")
FILES = ["README.md", "CHANGELOG.md", "SECURITY.md", "LICENSE", "NOTICES", "docs/*.md", "docs/*/*", "bench/tables.md", "examples/*"]
FILES += ["examples/preload/README.md", "examples/preload/Makefile", "examples/preload/*.c"]
# For those who change the program. They are only in the source.
DEVELOPERS = {"docs/ARCHITECTURE.md", "docs/DECISIONS.md"}
LINK = re.compile(r"!?\[([^\]]*)\]\(([^)\s]+)\)")


def user_files():
    """Returns the files for users, as paths from the top of the repository."""
    found = set()
    for pattern in FILES:
        paths = glob.glob(os.path.join(TOP, pattern))
        found |= {os.path.relpath(path, TOP) for path in paths if os.path.isfile(path)}
    return sorted(found - DEVELOPERS)


def target_of(page, link):
    """Returns the path that a page's link names, from the top of the repository. None if it leads to another site or into the
    page."""
    if "://" in link or link.startswith(("#", "mailto:")):
        return None
    return os.path.normpath(os.path.join(os.path.dirname(page), link.partition("#")[0]))


def is_installed(target, files):
    """Returns whether a link's target is an installed file, or a folder of installed files."""
    return target in files or any(it.startswith(target + "/") for it in files)


def with_links(page, text, files):
    """Returns a page's text, in which links to files that aren't installed are only their text. Blocks of code are unchanged."""

    def link(found):
        target = target_of(page, found[2])
        return found[0] if target is None or is_installed(target, files) else found[1]

    parts = re.split(r"(?ms)(^```.*?^```$)", text)
    return "".join(part if part.startswith("```") else LINK.sub(link, part) for part in parts)


def install(folder):
    """Copies all files for users into a folder. Replaces earlier copies."""
    files = user_files()
    for path in files:
        with open(os.path.join(TOP, path), "rb") as file:
            data = file.read()
        if path.endswith(".md"):
            data = with_links(path, data.decode(), set(files)).encode()
        place = os.path.join(folder, path)
        os.makedirs(os.path.dirname(place), mode=0o755, exist_ok=True)
        with open(place, "wb") as file:
            file.write(data)
        os.chmod(place, 0o644)


def main():
    words = argparse.ArgumentParser(description="Installs the pages for users.")
    words.add_argument("folder", nargs="?")
    words.add_argument("--page")
    asked = words.parse_args()
    os.umask(0o022)
    if asked.page:
        with open(os.path.join(TOP, asked.page), encoding="utf-8") as file:
            print(with_links(asked.page, file.read(), set()), end="")
    elif asked.folder:
        install(asked.folder)
    else:
        words.error("FOLDER or --page")
    return 0


if __name__ == "__main__":
    sys.exit(main())
