"""The code that the scripts of this folder share: runs of aec, files that are written whole, and
refusals of one line."""

import contextlib
import errno
import functools
import inspect
import io
import os
import re
import subprocess
import sys
import tempfile

MOST_DIGITS = 20  # of a whole number
STANDARD_OUTPUT = "standard output"  # what an error calls it


class Refused(Exception):
    """A script refuses what it was given, or can't do it. The text is the line that the user
    reads."""


class WrongWords(Exception):
    """The user's words are wrong, whatever the files contain. The text is the line that the user
    reads."""


class WrongUse(Exception):
    """A function doesn't take so many words. The user reads which words it takes."""


def read_file(path):
    """Returns the bytes of a file."""
    with open(path, "rb") as file:
        return file.read()


def opened(path):
    """Opens a file to read parts of it. A pipe is read whole first."""
    file = open(path, "rb")
    if file.seekable():
        return file
    with file:
        return io.BytesIO(file.read())


def write_file(path, parts):
    """Writes the parts of a file, each of them bytes. A failure may leave some of them."""
    with open(path, "wb") as file, naming(path):
        file.writelines(parts)
        file.flush()


@contextlib.contextmanager
def naming(name):
    """Gives a failure of a file that has no name this one."""
    try:
        yield
    except OSError as fault:
        fault.filename = fault.filename or name
        raise


def say(text):
    """Prints a text on standard output."""
    with naming(STANDARD_OUTPUT):
        if sys.stdout is None:  # the file is closed
            raise OSError(errno.EBADF, os.strerror(errno.EBADF))
        print(text)


def say_written(path, text):
    """Prints a text about the file at `path`, which is written. That nobody reads the text, or that
    standard output is closed, is no failure then."""
    if sys.stdout is None:
        return
    try:
        print(text)
        sys.stdout.flush()
    except BrokenPipeError:
        os._exit(0)  # sys.exit would try once more to write
    except OSError as fault:
        raise Refused(f"{path} is written, but {STANDARD_OUTPUT}: {fault.strerror}") from fault


def write_whole(path, data, *inputs):
    """Writes a file under another name beside it, and then renames it. So after a failure an
    existing file is unchanged. A pipe or a device is written directly. Refuses to write over one of
    the inputs, and to standard output. DATA is bytes, or an iterable of them."""
    if path == "-":
        raise WrongWords("- is no name of a file to write: standard output can't be used")
    parts = [data] if isinstance(data, (bytes, memoryview)) else data
    asked, path = path, os.path.realpath(path)
    for name in inputs:
        if os.path.exists(path) and os.path.exists(name) and os.path.samefile(path, name):
            raise Refused(f"{name} is read, so it can't be written too")
    new = f"{path}.new-{os.getpid()}"
    try:
        if os.path.exists(path) and not os.path.isfile(path):  # a pipe or a device
            write_file(path, parts)
            return
        with open(new, "xb") as file:
            file.writelines(parts)
            file.flush()
            os.fsync(file.fileno())
        os.replace(new, path)
    except OSError as fault:
        fault.filename = asked
        raise
    finally:
        if os.path.exists(new):
            os.remove(new)


def said_by(words):
    """Runs a program. Returns its status, and what it printed on both streams."""
    try:
        ended = subprocess.run(words, capture_output=True, stdin=subprocess.DEVNULL, check=False)
    except OSError as fault:
        raise Refused(f"{words[0]}: {fault.strerror}") from fault
    return ended.returncode, (ended.stdout + ended.stderr).decode(errors="replace")


@functools.cache
def require_aec(aec):
    """Refuses a program that isn't this project's aec: libaec's client has the same name."""
    status, text = said_by([aec, "--version"])
    if status != 0 or len(text.splitlines()) != 1:
        raise Refused(f"{aec} isn't this project's aec: its --version prints something else")


def run_aec(aec, words, source, script=None):
    """Runs aec with these words on the bytes of SOURCE, and with --edit if there is a script.
    Returns the bytes of DEST. If aec refuses, raises Refused with aec's message."""
    require_aec(aec)
    with tempfile.TemporaryDirectory() as folder:
        given, made, lines = (os.path.join(folder, name) for name in ("source", "dest", "script"))
        write_file(given, [source])
        if script is not None:
            write_file(lines, [script])
            words = ["--edit", lines, *words]
        status, text = said_by([aec, *words, given, made])
        if status != 0:
            raise Refused(text.strip().split("\n")[0] or f"{aec} ended with status {status}")
        return read_file(made)


def bytes_of_sample(words):
    """Returns the number of bytes of a stored sample, by the words for aec."""
    bits = int(words[words.index("-n") + 1]) if "-n" in words else 8
    if bits <= 8:
        return 1
    if bits <= 16:
        return 2
    return 3 if bits <= 24 and "-3" in words else 4


def judge_options(aec, options):
    """Raises WrongWords if aec doesn't take these options of the user. Touches none of the user's
    files."""
    status, text = said_by([aec, "-d", *options, os.devnull, os.devnull])
    if status == 2:
        said = text.strip().split("\n")[0]
        raise WrongWords(said if said.startswith("aec: ") else f"aec: {said}")


def samples_of(data, words):
    """Returns the samples in bytes that aec has decoded with these words."""
    size, order = bytes_of_sample(words), "big" if "-m" in words else "little"
    parts = (data[first : first + size] for first in range(0, len(data), size))
    return [int.from_bytes(part, order, signed="-s" in words) for part in parts]


def perform(doc, **actions):
    """Calls the function that the first word names, with the words after it, and ends with its
    status. `--NAME VALUE` is the value of a keyword parameter. If the function refuses or a file
    fails, prints one line on standard error and ends with status 1. After wrong words it is status
    2."""
    first = sys.argv[1] if len(sys.argv) > 1 else ""
    if first not in actions and first not in ("-h", "--help"):
        names = ", ".join(actions)
        sys.exit(complain(f"the first word must be one of {names}; see --help", 2))
    call(doc, actions.get(first), first, sys.argv[2:])


def parameters_of(action):
    """Returns the names of a function's positional parameters, as the user reads them, and of its
    keyword parameters."""
    taken = inspect.signature(action).parameters.values()
    named = [it.name for it in taken if it.kind is it.KEYWORD_ONLY]
    places = [it for it in taken if it.kind is not it.KEYWORD_ONLY]
    return [it.name.upper() + ".." * (it.kind is it.VAR_POSITIONAL) for it in places], named


def forms_of(doc, action, name):
    """Returns the words that a function takes: those that `doc` shows after the script's name and
    `name`, or else the names of the parameters. Also returns its options as one text."""
    words, names = parameters_of(action)
    shown = re.findall(rf"^ +\S+\.py {re.escape(name)} (\S+(?: \S+)*)", doc, re.M)
    more = "".join(f" [--{it} {found_value(doc, it)}]" for it in names)
    return shown or [" ".join(words)], more


def usage_of(doc, action, name):
    """Returns a line about what a function takes."""
    forms, more = forms_of(doc, action, name)
    return f"{name} takes the words {', or '.join(forms)}{more}"


def found_value(doc, name):
    """Returns what `doc` calls the value of an option."""
    found = re.search(rf"--{name} ([A-Z,]+)", doc)
    return found[1] if found else name[0].upper()


def help_of(doc, action, name):
    """Returns the part of a script's text about one of its functions: its words with all options,
    the lines about them, and the paragraphs that begin with one of the words."""
    heads = r"^ +\S+\.py (\S+) .*\n(?:^(?! +\S+\.py ) +.*\n)*"
    lines = [it[0] for it in re.finditer(heads, doc, re.M) if it[1] == name]
    if not lines:
        return doc.strip()
    forms, more = forms_of(doc, action, name)
    usage = "\n".join(f"usage: {script_name()} {name} {it}{more}" for it in forms)
    taken = set(re.findall(r"[\w-]+", usage)) - {name}
    paragraphs = [it for it in doc.split("\n\n")[1:] if not it.startswith(" ")]
    parts = [it.strip() for it in paragraphs if re.findall(r"[\w-]+", it)[0] in taken]
    return "\n\n".join([usage, "".join(lines).rstrip("\n"), *parts])


def parted(words, names):
    """Returns the words without those for keyword parameters, and the values of these
    parameters."""
    places, named, rest = [], {}, iter(words)
    for word in rest:
        name, sign, value = word.removeprefix("--").partition("=")
        if not word.startswith("--") or name not in names:
            places.append(word)
        elif name in named:
            raise WrongWords(f"--{name} is given twice")
        elif sign:
            named[name] = value
        else:
            named[name] = next(rest, "")
    return places, named


def call(doc, action, name, words):
    """Does for one function what `perform` describes. If nobody reads standard output to its end,
    as with `head`, the script ends with status 1 and without a message."""
    status = 0
    try:
        status = status_of(doc, action, name, words)
        if sys.stdout is not None:
            sys.stdout.flush()
    except BrokenPipeError:
        os._exit(1)  # sys.exit would try once more to write
    except OSError as fault:
        os._exit(status or complain(f"{STANDARD_OUTPUT}: {fault.strerror}", 1))
    sys.exit(status)


def status_of(doc, action, name, words):
    """Calls a function, or prints help. Returns the script's status."""
    try:
        if name in ("-h", "--help"):
            return say(doc.strip()) or 0
        if words[:1] in (["-h"], ["--help"]):
            return say(help_of(doc, action, name)) or 0
        return called_with(action, words) or 0
    except WrongUse:
        return complain(f"{usage_of(doc, action, name)}; see --help", 2)
    except WrongWords as wrong:
        return complain(f"{wrong}; see --help", 2)
    except Refused as refusal:
        return complain(refusal, 1)
    except MemoryError:
        return complain("the memory isn't enough", 1)
    except BrokenPipeError:
        raise
    except OSError as fault:
        return complain(f"{fault.filename}: {fault.strerror}" if fault.filename else fault, 1)


def called_with(action, words):
    """Calls a function with the user's words. Returns what the function returns."""
    places, named = parted(words, parameters_of(action)[1])
    try:
        inspect.signature(action).bind(*places, **named)
    except TypeError:
        raise WrongUse from None
    return action(*places, **named)


def whole_number(text, what, least=0):
    """Returns the number in a text of digits. Raises WrongWords for another text, or if the number
    is below `least`."""
    is_short = len(text) <= MOST_DIGITS
    if not (is_short and text.isascii() and text.isdecimal() and int(text) >= least):
        raise WrongWords(f"{text} is no {what}")
    return int(text)


def complain(text, status):
    """Prints a line of a script on standard error. Returns the status."""
    print(f"{script_name()}: {text}", file=sys.stderr)
    return status


def script_name():
    """Returns the name of the script that runs."""
    return os.path.basename(sys.argv[0])
