"""Work dealt to a dask cluster, and arrays that dask, xarray and zarr read."""

from __future__ import annotations

import asyncio
import os
import signal
import subprocess
import sys
import time
import types
from typing import Any

import aecp
import pytest
from making import FAST, flip, keep, noise, tree, walk, write
from running import How, command, done
from test_pool import kept_in, lines, many


@pytest.fixture(scope="module")
def cluster() -> Any:
    """A cluster of three processes, each of one thread."""
    distributed = pytest.importorskip("distributed", reason="no distributed: python3-distributed")
    preload = os.environ.pop("LD_PRELOAD", None)
    try:
        made_cluster = distributed.LocalCluster(n_workers=3, threads_per_worker=1, dashboard_address=None, processes=True)
    finally:
        if preload:
            os.environ["LD_PRELOAD"] = preload
    yield made_cluster
    made_cluster.close()


def aecp_run(place: str, *words: str) -> subprocess.CompletedProcess[str]:
    environment = {key: it for key, it in os.environ.items() if key != "LD_PRELOAD"}
    return subprocess.run(
        [sys.executable, "-m", "aecp", *words], cwd=place, env=environment, capture_output=True, text=True, timeout=360, check=False
    )


def test_dask_deals_files(place: str, cluster: Any) -> None:
    """The lines and the statuses are those of the pool of this machine."""
    os.mkdir(os.path.join(place, "one"))
    os.mkdir(os.path.join(place, "two"))
    results = []
    for name, more in (("one", ["--jobs", "2"]), ("two", ["--dask", cluster.scheduler_address])):
        folder = os.path.join(place, name)
        many(folder, 20)
        write(folder, "odd", b"abc")
        first = aecp_run(folder, "keep", ".", "-n", "16", "--anyway", *more)
        flip(os.path.join(folder, "f007.aec"), 99)
        second = aecp_run(folder, "check", ".", *more)
        third = aecp_run(folder, "back", ".", "--to", "out", *more)
        ours = [[it for it in lines(run.stderr) if it.startswith("aecp: ")] for run in (first, second, third)]
        results.append([(run.returncode, lines(run.stdout), said) for run, said in zip((first, second, third), ours)])
    assert results[0] == results[1]
    found = tree(os.path.join(place, "two", "out"))
    assert len([it for it in found.values() if isinstance(it, bytes)]) == 19


def test_dask_without_a_scheduler(place: str) -> None:
    pytest.importorskip("distributed", reason="no distributed: python3-distributed")
    many(place, 2)
    ran = aecp_run(place, "keep", ".", "-n", "16", "--anyway", "--dask", "tcp://127.0.0.1:9")
    assert ran.returncode in (1, 2) and "Traceback" not in ran.stderr and ran.stderr.strip(), ran


@pytest.mark.parametrize("words", [["-o", "-"], ["-o", "out"], ["-"], ["out"]])
def test_dask_takes_no_out(place: str, words: list[str]) -> None:
    """The standard output of a worker is another one."""
    keep(place, "f", walk(1, 300))
    ran = command(place, "back", "f.aec", *words, "--dask", "tcp://127.0.0.1:9")
    assert ran.status == 2 and "--dask" in ran.err and "--to DIR" in ran.err.splitlines()[-1], ran


class Worked:
    """A future of dask that raises."""

    def __init__(self, error: BaseException) -> None:
        self.error = error

    def result(self) -> Any:
        raise self.error

    def done(self) -> bool:
        return False


@pytest.mark.parametrize("where", ["ncores", "submit", "result"])
@pytest.mark.parametrize("error", [OSError("Timed out"), asyncio.CancelledError("lot"), ModuleNotFoundError("No module named 'aecp'")])
def test_dask_that_fails(place: str, error: BaseException, where: str) -> None:
    """Whatever dask raises is one line, and leaving the cluster may fail too."""
    many(place, 3)

    def failing(*_: Any, **__: Any) -> Any:
        raise error

    def before() -> None:
        client = types.SimpleNamespace(ncores=lambda: {"a": 2}, submit=lambda *_, **__: Worked(error), cancel=failing, close=failing)
        if where != "result":
            setattr(client, where, failing)
        module, scheduler = types.ModuleType("distributed"), types.ModuleType("distributed.scheduler")
        module.Client = lambda *_, **__: client  # type: ignore[attr-defined]
        scheduler.KilledWorker = type("KilledWorker", (Exception,), {})  # type: ignore[attr-defined]
        sys.modules.update({"distributed": module, "distributed.scheduler": scheduler})

    ran = command(place, "keep", ".", "-n", "16", "--anyway", "--dask", "tcp://127.0.0.1:9", how=How(before=before))
    assert ran.status == 1 and f"aecp: the dask cluster failed: {type(error).__name__}: {error}" in ran.err, ran


@pytest.mark.parametrize("verb", ["keep", "back", "remove"])
def test_dask_with_a_killed_worker(place: str, verb: str) -> None:
    """A worker that dies has its files dealt again, those too that it had written, and nothing of it is left."""
    distributed = pytest.importorskip("distributed", reason="no distributed: python3-distributed")
    for i in range(12):
        write(place, f"f{i:03}", FAST.stored(noise(i, 1 << 16)) * 8)
    words = {"keep": ["keep", ".", "-n", "16"], "back": ["back", "."], "remove": ["keep", ".", "-n", "16", "--remove"]}[verb]
    if verb == "back":
        done(place, "keep", ".", "-n", "16", "--anyway", "--remove")
    before = len(os.listdir(place))

    def has_begun() -> bool:
        names = [it for it in os.listdir(place) if not it.startswith(".")]
        return len(names) > before or (verb == "remove" and any(it.endswith(".aec") for it in names))

    preload = os.environ.pop("LD_PRELOAD", None)
    try:
        with distributed.LocalCluster(n_workers=3, threads_per_worker=1, dashboard_address=None, processes=True) as own:
            environment = dict(os.environ)
            line = [sys.executable, "-m", "aecp", *words, *([] if verb == "back" else ["--anyway"]), "--dask", own.scheduler_address]
            running = subprocess.Popen(line, cwd=place, env=environment, stdout=subprocess.PIPE, stderr=subprocess.PIPE, text=True)
            end = time.monotonic() + 30
            while not has_begun() and time.monotonic() < end and running.poll() is None:
                time.sleep(0.005)
            worker = next(iter(own.workers.values()))
            os.kill(worker.process.process.pid, signal.SIGKILL)
            out, err = running.communicate(timeout=360)
    finally:
        if preload:
            os.environ["LD_PRELOAD"] = preload
    number = int(out.split()[0]) if verb == "back" else kept_in(out)
    assert running.returncode == 0 and number == 12 and not err, (running.returncode, out, err)
    assert "12 checked, 12 sound, 0 damaged" in done(place, "check", ".").out
    assert len(os.listdir(place)) == (12 if verb == "remove" else 24), sorted(os.listdir(place))


def test_dask_arrays_read_chunks(tmp_path: Any) -> None:
    array = pytest.importorskip("dask.array")
    numpy = pytest.importorskip("numpy")
    samples = numpy.array(noise(1, 6 * 100 * 100), dtype="u2").reshape(6, 100, 100)
    path = str(tmp_path / "f.aec")
    with aecp.create(path, aecp.Options(16), shape=samples.shape) as file:
        file.write(samples)
    with aecp.open(path) as file:
        lazy = array.from_array(file, chunks=(1, 50, 100))
        for scheduler in ("synchronous", "threads", "processes"):
            got = lazy[1:5, 20:80, ::3].compute(scheduler=scheduler)
            assert (got == samples[1:5, 20:80, ::3]).all(), scheduler
        assert lazy.sum().compute(scheduler="threads") == samples.sum()


def test_xarray_reads_it(tmp_path: Any) -> None:
    xarray = pytest.importorskip("xarray")
    numpy = pytest.importorskip("numpy")
    samples = numpy.array(noise(1, 20 * 30), dtype="u2").reshape(20, 30)
    path = str(tmp_path / "f.aec")
    with aecp.create(path, aecp.Options(16), shape=samples.shape) as file:
        file.write(samples)
    with aecp.open(path) as file:
        held = xarray.DataArray(numpy.asarray(file), dims=("row", "column"))
        assert (held[3:5, 7].values == samples[3:5, 7]).all()


def test_the_codec_decodes_parts(tmp_path: Any) -> None:
    """zarr asks the codec for a part of a chunk."""
    pytest.importorskip("numcodecs")
    numpy = pytest.importorskip("numpy")
    from aecp.codec import Aecp

    samples = numpy.array(walk(1, 50000), dtype="u2")
    for options in ({}, {"msb_first": True}, {"pad": True, "interval": 4}):
        codec = Aecp(16, **options)
        chunk = codec.encode(samples)
        assert (numpy.frombuffer(codec.decode(chunk), dtype="u2") == samples).all()
        if not hasattr(codec, "decode_partial"):
            pytest.fail("the codec has no decode_partial")
        for start_at, length in ((0, 10), (49990, 10), (12345, 6789), (0, 50000)):
            wanted = samples[start_at : start_at + length]
            got = codec.decode_partial(chunk, start_at, length)
            assert (numpy.frombuffer(memoryview(got).cast("B"), dtype="u2") == wanted).all()
            out = numpy.empty(length, dtype="u2")
            codec.decode_partial(chunk, start_at, length, out=out)
            assert (out == wanted).all()
