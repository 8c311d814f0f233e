#!/usr/bin/env python3
"""Writes the table of modules at the end of each crate's README.md: modules.py [--check]

A row has a module, its public functions, types and traits, and the first sentence of the `//!` comment of its file. Below the
table are the libraries that the crate uses, from crates.txt, and a link to what docs/PROOFS.md says of the crate. The text above
the line NOTE is written by hand. A crate of tests needs no README. All crates of tests are rows of a table in
docs/ARCHITECTURE.md, which this script writes too.

Fails if a module has no `//!` comment, or if a crate has no README (crates of tests aside). With --check nothing is written, and
the script also fails if a page differs from what it would write.
"""

import os
import re
import sys

from sources import TOP, all_crates, crate_lines, ended, exports_of, files_below, module_of, text_of, write_or_compare

NOTE = "<!-- Written by `make pages` from the comments of the modules. -->\n"
OF_TESTS = "<!-- Written by `make pages` from the comments of the crates of tests. -->\n"
END = "<!-- end -->\n"
PAGE = "docs/ARCHITECTURE.md"
TESTS = "_tests"
ITEM = re.compile(r"^pub (extern \"C\" )?(?:const )?(?:fn|struct|enum|trait) (\w+)", re.M)


def comment_of(text):
    """Returns the `//!` comment of a file, on one line."""
    lines = re.match(r"(?://!.*\n)*", text).group().splitlines()
    return " ".join(line.removeprefix("//!").strip() for line in lines).replace("|", "\\|")


def sentence_of(text):
    """Returns the first sentence of a file's comment, without its full stop."""
    return re.split(r"\.(?: |$)", comment_of(text))[0]


def items_of(crate, path):
    """Returns the names of a module's items that its crate exports; none for `laws`, which only docs/PROOFS.md describes."""
    names, opened = exports_of(crate)
    module = module_of(path)
    items = ITEM.findall(text_of(path))
    found = [name for is_for_c, name in items if is_for_c or name in names or module in opened]
    return [] if module == "laws" else found


def rows_of(crate, wrongs):
    """Returns a row for each module of a crate: its name, its public items, its first sentence."""
    rows = []
    for path in files_below(f"crates/{crate.name}/src", ".rt"):
        if module_of(path):
            sentence = sentence_of(text_of(path))
            wrongs += [] if sentence else [f"{path} has no comment `//!`"]
            named = ", ".join(f"`{name}`" for name in items_of(crate.name, path))
            rows.append((f"`{module_of(path)}`", named, sentence))
    return sorted(rows, key=lambda row: row[0].strip("`"))


def table(heads, rows):
    """Returns a table with these rows, or an empty text without rows."""
    lines = (heads, ["---"] * len(heads), *rows) if rows else ()
    return "".join(f"| {' | '.join(line)} |\n" for line in lines)


def table_of(crate, wrongs):
    """Returns the table of a crate's modules. If no module has public items, the table has no column for them."""
    rows = rows_of(crate, wrongs)
    kept = [0, 1, 2] if any(row[1] for row in rows) else [0, 2]
    heads, *rows = [[row[i] for i in kept] for row in (("Module", "Public", "Contains"), *rows)]
    return table(heads, rows)


def uses_of(crate):
    """Returns the line that says which libraries a crate uses, what docs/PROOFS.md says of it and how to check it."""
    uses = f"Uses {', '.join(f'`{name}`' for name in crate_lines()[crate].uses)}."
    is_told = re.search(rf"(?m)^### {crate}$", text_of("docs/PROOFS.md"))
    proved = f" What is proved: [PROOFS.md](../../docs/PROOFS.md#{crate})." if is_told else ""
    return f"{uses}{proved} How to check it: [CONTRIBUTING.md](../../CONTRIBUTING.md#commands).\n"


def written(crate, wrongs):
    """Returns a crate's README: the text written by hand, and the rest."""
    by_hand = text_of(readme_of(crate)).split(NOTE)[0].rstrip("\n")
    modules = table_of(crate, wrongs)
    return f"{by_hand}\n\n{NOTE}\n{modules}" + ("\n" if modules else "") + uses_of(crate.name)


def readme_of(crate):
    return f"crates/{crate.name}/README.md"


def has_readme(crate):
    return os.path.exists(os.path.join(TOP, readme_of(crate)))


def tests_written(crates, wrongs):
    """Returns docs/ARCHITECTURE.md with a row for each crate of tests: what it contains, and its modules."""
    rows = []
    for crate in crates:
        if crate.name.endswith(TESTS):
            is_program = os.path.exists(os.path.join(TOP, f"crates/{crate.name}/src/main.rt"))
            comment = comment_of(text_of(f"crates/{crate.name}/src/{'main' if is_program else 'lib'}.rt"))
            named = f"[{crate.name}](../{readme_of(crate)})" if has_readme(crate) else f"`{crate.name}`"
            modules = rows_of(crate, [] if has_readme(crate) else wrongs)
            rows.append((named, comment.rstrip("."), ", ".join(row[0] for row in modules)))
    before, _, rest = text_of(PAGE).partition(OF_TESTS)
    after = rest.partition(END)[2]
    heads = ("Crate", "Contains", "Modules")
    return f"{before}{OF_TESTS}\n{table(heads, rows)}\n{END}{after}"


def main():
    wrongs, crates = [], list(all_crates().values())
    pages = {readme_of(crate): written(crate, wrongs) for crate in crates if has_readme(crate)}
    wrongs += [f"no {readme_of(it)}" for it in crates if not (has_readme(it) or it.name.endswith(TESTS))]
    pages[PAGE] = tests_written(crates, wrongs)
    for path, page in pages.items():
        wrongs += write_or_compare(path, page, "make pages", sys.argv[1:] == ["--check"])
    return ended(len(pages), wrongs)


if __name__ == "__main__":
    sys.exit(main())
