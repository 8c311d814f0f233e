"""The types of the module, by mypy, where it is installed."""

import os
import shutil
import subprocess

import aecp
import pytest

MODULE = os.path.dirname(aecp.__file__)


def test_the_module_has_types():
    """The file py.typed says that the module has types."""
    assert os.path.exists(os.path.join(MODULE, "py.typed"))


@pytest.mark.seconds(1200)
def test_mypy():
    """mypy --strict finds nothing in the module."""
    mypy = shutil.which("mypy")
    if mypy is None:
        pytest.skip("mypy isn't installed")
    words = [mypy, "--strict", "--cache-dir", os.devnull, "-p", "aecp"]
    ended = subprocess.run(words, cwd=os.path.dirname(MODULE), capture_output=True, text=True)
    assert ended.returncode == 0, ended.stdout
