"""Settings of the tests of the archive. Run them by `python3 tests/archive.py FOLDER`, which preloads hooks.c."""

from __future__ import annotations

import ctypes
import os
import signal
import sys
from pathlib import Path
from typing import Any, Iterator

import pytest
from hypothesis import HealthCheck, settings

TOP = Path(__file__).resolve().parents[2]
sys.path[:0] = [str(TOP / "bindings" / "python"), str(TOP / "tests"), str(Path(__file__).parent)]

import running  # noqa: E402 - it needs the path

SECONDS = 1200
QUIET = [HealthCheck.too_slow, HealthCheck.function_scoped_fixture, HealthCheck.data_too_large, HealthCheck.filter_too_much]
for name, examples in (("usual", 40), ("thorough", 400)):
    settings.register_profile(
        name, max_examples=examples, deadline=None, database=None, print_blob=True, suppress_health_check=QUIET, stateful_step_count=25
    )


def pytest_addoption(parser: Any) -> None:
    parser.addoption("--thorough", action="store_true", help="ten times as many cases")


def pytest_configure(config: Any) -> None:
    if not hasattr(ctypes.CDLL(None), "hooks_log"):
        raise pytest.UsageError("run these tests by: python3 tests/archive.py FOLDER (it preloads hooks.c)")
    # In the background of a shell this process ignores SIGINT, and so would the commands that it runs.
    signal.signal(signal.SIGINT, signal.default_int_handler)
    settings.load_profile("thorough" if config.getoption("--thorough") else "usual")


@pytest.fixture(scope="session")
def times(request: Any) -> int:
    """How many times the usual number of cases are to be tried."""
    return 10 if request.config.getoption("--thorough") else 1


@pytest.fixture()
def place(tmp_path: Path) -> str:
    """A folder within a folder, so that a test sees what is written outside."""
    inner = tmp_path / "place"
    inner.mkdir()
    os.chmod(tmp_path, 0o755)
    return str(inner)


@pytest.fixture()
def outside(tmp_path: Path) -> str:
    """A folder with one file that no run may touch."""
    folder = tmp_path / "victim"
    folder.mkdir()
    (folder / "file").write_bytes(b"untouched")
    return str(folder)


@pytest.fixture(autouse=True)
def limited(times: int) -> Iterator[None]:
    """Ends a test that takes too long."""

    def late(*_: Any) -> None:
        raise TimeoutError("the test takes too long")

    before = signal.signal(signal.SIGALRM, late)
    signal.alarm(SECONDS * times)
    yield
    signal.alarm(0)
    running.kill_all()
    signal.signal(signal.SIGALRM, before)
