"""A process of a run dies after it has written a file, or while it writes its result: the file is processed again, and the run ends."""

from __future__ import annotations

import os
import re
import signal
import time
from typing import Any

import pytest
from making import keep, walk, write
from running import How, command, done, start, until


@pytest.mark.parametrize("verb", ["keep", "back", "remove"])
def test_what_a_process_wrote_before_it_died(place: str, verb: str) -> None:
    """A process dies after it has written a file, or removed its original: the file is no reason to fail."""
    names = [f"f{i:02}" for i in range(40)]
    for name in names:
        keep(place, name, walk(1, 300))
        if verb != "back":
            os.unlink(os.path.join(place, f"{name}.aec"))
    words = ["back", ".", "--to", "out"] if verb == "back" else ["keep", ".", "-n", "16", "--anyway"]
    place_of = os.path.join(place, "out") if verb == "back" else place

    def deadly() -> None:
        import aecp.archive._saving as saving

        name = "unlink" if verb == "remove" else "sync_folder"
        owner: Any = os if verb == "remove" else saving
        first, real, died = os.getpid(), getattr(owner, name), os.path.join(place, ".died")

        def last(path: Any, *more: Any, **named: Any) -> None:
            real(path, *more, **named)
            is_done = str(path).endswith("f04") if verb == "remove" else os.path.exists(os.path.join(place_of, written))
            if os.getpid() != first and is_done and not os.path.exists(died):
                os.close(os.open(died, os.O_CREAT | os.O_WRONLY))
                os.kill(os.getpid(), signal.SIGKILL)

        setattr(owner, name, last)

    written = "f04" if verb == "back" else "f04.aec"
    more = ["--remove"] if verb == "remove" else []
    ran = command(place, *words, *more, "--jobs", "2", how=How(before=deadly))
    os.unlink(os.path.join(place, ".died"))
    assert ran.status == 0 and not ran.err, ran
    assert sum(int(it) for it in re.findall(r"(\d+) (?:kept|restored)", ran.out)) == 40, ran
    assert "40 checked, 40 sound" in done(place, "check", ".").out
    assert len(os.listdir(place_of)) == (80 if verb == "keep" else 40)


def test_another_file_that_appears_meanwhile(place: str) -> None:
    """A file that appears while a run of `back` works is left as it is, unless it has the very bytes."""
    from aecp.archive._form import Exists
    from aecp.archive._paths import kept_files
    from aecp.archive._restoring import Restoring, back, is_free

    keep(place, "f", walk(1, 300))
    path, how = os.path.join(place, "f"), Restoring()
    right = open(path, "rb").read()
    for part, wanted in ((None, right), ((5, 20), right[10:50])):
        how = Restoring(part=part)
        os.unlink(path)
        found = next(kept_files([f"{path}.aec"], []))
        assert is_free(how, found)
        found = found._replace(is_new=True)
        write(place, "f", wanted)
        assert back(how, found).kind == "restored"
        with pytest.raises(Exists):
            back(how, found._replace(is_new=False))
        for other in (wanted + b"x", wanted[:-1], b"", b"x" + wanted[1:]):
            write(place, "f", other)
            with pytest.raises(Exists):
                back(how, found)
            assert open(path, "rb").read() == other


@pytest.mark.parametrize("dies", [True, False])
def test_a_result_that_is_half_written(place: str, dies: bool) -> None:
    """A process dies while it writes its result, or is killed then because the run is stopped."""
    for i in range(5):
        keep(place, f"f{i}", walk(i, 300))
    mark = os.path.join(place, "mark")

    def before() -> None:
        import multiprocessing.connection as connection

        first, real = os.getpid(), connection.Connection._send  # type: ignore[attr-defined]

        def half(self: Any, data: Any, *more: Any) -> None:
            if os.getpid() == first or os.path.exists(mark):
                real(self, data, *more)
                return
            os.write(self.fileno(), bytes(data)[: len(data) // 2])
            os.close(os.open(mark, os.O_CREAT | os.O_WRONLY))
            if dies:
                os.kill(os.getpid(), signal.SIGKILL)
            time.sleep(100)

        connection.Connection._send = half  # type: ignore[attr-defined]

    running = start(place, "check", ".", "--jobs", "3", how=How(before=before, seconds=60))
    if not dies:
        until(lambda: os.path.exists(mark))
        running.kill(signal.SIGTERM)
    ran = running.ended()
    assert "Traceback" not in ran.said, ran
    assert ran.status == (0 if dies else 128 + signal.SIGTERM), ran
    assert not dies or "5 checked, 5 sound" in ran.out, ran


def test_no_pipe_is_closed_twice(place: str) -> None:
    """Where closing takes long, another thread may close the same number meanwhile, and fail, or close another file."""
    for i in range(3):
        keep(place, f"f{i}", walk(i, 300))

    def before() -> None:
        import multiprocessing.connection as connection

        real: Any = connection.Connection._close  # type: ignore[attr-defined]

        def slow(self: Any) -> None:
            real(self)
            time.sleep(0.3)

        connection.Connection._close = slow  # type: ignore[attr-defined]

    ran = command(place, "check", ".", "--jobs", "3", how=How(before=before, seconds=60))
    assert ran.status == 0 and "3 sound" in ran.out and not ran.err, ran
