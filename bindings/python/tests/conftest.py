"""Settings and fixtures of the tests of the module aecp.
One test, in a checkout with bin/libaecp.so: python3 -m pytest bindings/python/tests -k NAME"""

import ctypes
import importlib
import os
import signal
import sys
from pathlib import Path

import pytest
from hypothesis import HealthCheck, settings

MODULE = Path(__file__).resolve().parents[1]
TOP = MODULE.parents[1]  # of a checkout: an sdist has only the folder MODULE
SECONDS = 120  # of a test without the mark `seconds`
QUIET = [HealthCheck.too_slow, HealthCheck.filter_too_much]

# For the tests, and for the processes that they start.
sys.path.insert(0, str(MODULE))
os.environ["PYTHONPATH"] = os.pathsep.join(filter(None, [str(MODULE), os.getenv("PYTHONPATH")]))
for name, times in (("usual", 1), ("thorough", 10)):
    settings.register_profile(
        name,
        max_examples=100 * times,
        stateful_step_count=25,
        deadline=None,
        database=None,
        print_blob=True,
        suppress_health_check=QUIET,
    )


def pytest_addoption(parser):
    parser.addoption("--thorough", action="store_true", help="ten times as many cases")


def pytest_configure(config):
    config.addinivalue_line("markers", "seconds(number): how long the test may take")
    settings.load_profile("thorough" if config.getoption("--thorough") else "usual")
    path = importlib.import_module("aecp.library").place_of_library()
    if os.path.exists(path):
        path = os.environ["AECP_LIBRARY"] = os.path.abspath(path)
    try:
        ctypes.CDLL(path)
    except OSError:
        hint = "run `make library`, or set AECP_LIBRARY to the path of libaecp.so"
        raise pytest.UsageError(f"there is no library {path}: {hint}") from None


@pytest.fixture(autouse=True)
def _limited(request):
    """Ends a test that takes too long, such as one whose threads wait for each other."""

    def late(*_):
        raise TimeoutError("the test takes too long")

    before = signal.signal(signal.SIGALRM, late)
    mark = request.node.get_closest_marker("seconds")
    times = 10 if request.config.getoption("--thorough") else 1
    signal.alarm((mark.args[0] if mark else SECONDS) * times)
    yield
    signal.alarm(0)
    signal.signal(signal.SIGALRM, before)


@pytest.fixture
def numpy():
    """The module numpy. Without it, the test is skipped."""
    return pytest.importorskip("numpy")


@pytest.fixture
def without_numpy(monkeypatch):
    """Makes `import numpy` fail."""
    monkeypatch.setitem(sys.modules, "numpy", None)


@pytest.fixture
def checkout():
    """The top of the checkout. Without one, as in an sdist, the test is skipped."""
    if not (TOP / "tests" / "lib" / "plain_coder.py").exists():
        pytest.skip("no checkout: an sdist lacks the folders tests, docs and examples")
    return TOP


@pytest.fixture
def models(checkout, monkeypatch):
    """Imports a module of tests/lib, given its name: the plain coder and what it uses."""
    monkeypatch.syspath_prepend(str(checkout / "tests"))
    return lambda name: importlib.import_module(f"lib.{name}")


@pytest.fixture
def program(checkout):
    """The path of a program aec that was built from the same checkout, or that AECP_PROGRAM
    names."""
    named = os.getenv("AECP_PROGRAM")
    if named:
        assert os.path.exists(named), "AECP_PROGRAM names no file"
        return named
    paths = [checkout / "bin" / "aec", checkout / "crates" / "aec" / "out" / "aec"]
    found = next((str(path) for path in paths if path.exists()), None)
    if found is None:
        pytest.skip("no program aec: `make` builds it, AECP_PROGRAM names another")
    return found
