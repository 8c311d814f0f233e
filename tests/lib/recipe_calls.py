"""What the tests of examples/ share: the folder on Python's path, calls of the scripts' functions,
and hidden modules. If there are many cases, a test calls a script's function instead of running the
script, since Python takes 0.1 s to start, and 0.2 s with numpy."""

import contextlib
import io
import os
import sys

EXAMPLES = os.path.join(os.path.dirname(os.path.abspath(__file__)), "..", "..", "examples")
sys.path.append(EXAMPLES)

from aec_runs import Refused, WrongWords  # noqa: E402 - in the folder that was just added


def called(action, *words, **named):
    """Calls a function of a script. Returns 0 and what it prints, 1 and the text of its refusal, or
    2 and a text if it doesn't take the words. Its notes on standard error are dropped."""
    printed, notes = io.StringIO(), io.StringIO()
    try:
        with contextlib.redirect_stdout(printed), contextlib.redirect_stderr(notes):
            action(*words, **named)
    except Refused as refusal:
        return 1, str(refusal)
    except WrongWords as wrong:
        return 2, str(wrong)
    return 0, printed.getvalue()


def hiding(folder, *modules):
    """Returns an environment in which Python finds none of these modules. Makes a folder for it
    in `folder`."""
    hidden = os.path.join(folder, "hidden")
    os.makedirs(hidden, exist_ok=True)
    for name in modules:
        with open(os.path.join(hidden, f"{name}.py"), "w", encoding="utf-8") as file:
            file.write(f"raise ModuleNotFoundError(\"No module named '{name}'\")\n")
    return {**os.environ, "PYTHONPATH": hidden}
