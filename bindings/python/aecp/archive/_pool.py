"""Work on many files, dealt by bytes to processes of this machine, or to the workers of a dask
cluster."""

from __future__ import annotations

import asyncio
import contextlib
import ctypes
import logging
import multiprocessing
import os
import signal
import threading
from collections.abc import Iterator, Sequence
from concurrent.futures import Future, ProcessPoolExecutor, wait
from concurrent.futures.process import BrokenProcessPool
from multiprocessing.connection import wait as ready
from multiprocessing.process import BaseProcess
from typing import Any, Callable, Generic, Optional, Protocol, TypeVar

from aecp._console import reason, shown

PR_SET_PDEATHSIG = 1  # the number of a call of prctl
STOPS = (signal.SIGINT, signal.SIGTERM, signal.SIGHUP)
LOTS = 8  # lots for each process, so that all processes end at nearly the same time
MOST_BYTES = 1 << 24  # bytes of a lot of several files
MOST_FILES = 256  # files of a lot
T = TypeVar("T")
R = TypeVar("R")


class Failed(Exception):
    """The pool can't be had. The text says why."""


class Pool(Protocol):
    """Processes that do work on lots of items. Each method yields results in the order of the
    lots."""

    workers: int

    def results(self, work: Callable[[Any], Any], lots: list[Any]) -> Iterator[Any]:
        """Yields the result for each lot, or None if the process that worked on it has died."""


def dealt(items: Sequence[T], sizes: Sequence[int], workers: int) -> list[list[T]]:
    """Returns the items as lots of about equal numbers of bytes, in order. Large files are lots of
    their own."""
    most = min(MOST_BYTES, sum(sizes) // (workers * LOTS) + 1)
    files = min(MOST_FILES, len(items) // (workers * LOTS) + 1)
    lots: list[list[T]] = []
    filled = 0
    for item, size in zip(items, sizes):
        if not lots or filled + size > most or len(lots[-1]) >= files:
            lots.append([])
            filled = 0
        lots[-1].append(item)
        filled += size
    return lots


def cores() -> int:
    """Returns how many processors this process may use."""
    try:
        return len(os.sched_getaffinity(0))
    except (AttributeError, OSError):
        return os.cpu_count() or 1


def begin(parent: int) -> None:
    """Begins a process of a pool. It ignores signals to stop, which the first process handles, and
    is killed as soon as the first process dies. `parent` is the number of the first process, 0 if
    another process starts those of the pool."""
    for number in STOPS:
        signal.signal(number, signal.SIG_IGN)
    signal.pthread_sigmask(signal.SIG_UNBLOCK, STOPS)
    with contextlib.suppress(AttributeError, OSError):  # only Linux has prctl
        ctypes.CDLL(None).prctl(PR_SET_PDEATHSIG, signal.SIGKILL, 0, 0, 0)
    if parent and os.getppid() != parent:  # it died before the call of prctl
        os._exit(1)


@contextlib.contextmanager
def no_processes() -> Iterator[None]:
    """Raises Failed if the block can't get processes, pipes or locks from the system."""
    try:
        yield
    except BrokenProcessPool:  # a RuntimeError too
        raise
    except (OSError, NotImplementedError, RuntimeError) as error:
        text = reason(error, "")
        raise Failed(f"no processes can be had: {text}; try --jobs 1, or a single file") from None


@contextlib.contextmanager
def executor(workers: int) -> Iterator[ProcessPoolExecutor]:
    """Yields an executor of new processes. In the end it kills them, whatever they do, and waits
    for their end: after the last result they do nothing. Raises Failed."""
    is_direct = multiprocessing.get_start_method() != "forkserver"
    parent = os.getpid() if is_direct else 0
    with no_processes():
        pool = ProcessPoolExecutor(workers, initializer=begin, initargs=(parent,))
    release_feeder(pool)
    try:
        yield pool
    finally:
        kill(pool)
        with contextlib.suppress(RuntimeError):  # its thread couldn't begin
            pool.shutdown(wait=True, cancel_futures=True)


def release_feeder(pool: ProcessPoolExecutor) -> None:
    """Lets an executor end without the thread that feeds its queue. Before Python 3.11.5 that thread
    may wait for ever to write for processes that are dead, and the executor for that thread. It is
    a daemon, so the interpreter ends without it too."""
    queue: Any = getattr(pool, "_call_queue", None)
    with contextlib.suppress(AttributeError):
        queue.cancel_join_thread()


def processes_of(pool: ProcessPoolExecutor) -> list[BaseProcess]:
    """Returns the processes of an executor, dead ones too."""
    return list((pool._processes or {}).values())


def kill(pool: ProcessPoolExecutor) -> None:
    """Kills the processes of an executor. They ignore SIGTERM, which the executor sends, and may be
    blocked: by a lock of a file, or by a lock of the queue that a dead process holds. Closes this
    end of their pipe: else the executor would wait for the rest of a result that one was writing."""
    for process in processes_of(pool):
        process.kill()
    results: Any = getattr(pool, "_result_queue", None)
    with contextlib.suppress(AttributeError, OSError):
        results._writer.close()


def result_of(pool: ProcessPoolExecutor, future: Future[T]) -> T:
    """Returns the result of a future. If a process has died while it wrote a result, the executor
    waits for the rest, and doesn't see the death: then all are killed. Raises
    BrokenProcessPool."""
    while not wait([future], timeout=1).done:
        if ready([it.sentinel for it in processes_of(pool)], timeout=0):
            kill(pool)
    return future.result()


def submitted(pool: ProcessPoolExecutor, work: Callable[[Any], Any], lot: Any) -> Future[Any]:
    """Returns the future of work on a lot. Raises Failed; BrokenProcessPool."""
    with no_processes(), blocked_stops():
        return pool.submit(work, lot)


@contextlib.contextmanager
def blocked_stops() -> Iterator[None]:
    """Blocks signals to stop in the block, and in processes that begin in it, until `begin` ignores
    them there. Else a process that is stopped before that prints a traceback."""
    before = signal.pthread_sigmask(signal.SIG_BLOCK, STOPS)
    try:
        yield
    finally:
        signal.pthread_sigmask(signal.SIG_SETMASK, before)


class Here:
    """This process alone."""

    workers = 1

    def results(self, work: Callable[[Any], Any], lots: list[Any]) -> Iterator[Any]:
        return map(work, lots)


class Processes:
    """Processes of this machine. `clean` removes what killed processes have left of work on a
    lot."""

    def __init__(self, workers: int, clean: Callable[[Any], None]) -> None:
        self.workers, self.clean = workers, clean

    def results(self, work: Callable[[Any], Any], lots: list[Any]) -> Iterator[Any]:
        done: dict[int, Any] = {}
        at = 0  # how many results were yielded
        while at < len(lots):
            rest = [i for i in range(at, len(lots)) if i not in done]
            for _ in self.round(work, lots, rest, done):
                while at in done:
                    yield done.pop(at)
                    at += 1
            # If a process has died, one of the lots that were begun is the cause: each is done
            # again in a process of its own. Others may have been begun meanwhile.
            work = getattr(work, "once_more", work)
            for i in [it for it in rest if it >= at and it not in done][: self.workers]:
                done[i] = self.alone(work, lots[i])
            while at in done:
                yield done.pop(at)
                at += 1

    def round(
        self, work: Callable[[Any], Any], lots: list[Any], rest: list[int], done: dict[int, Any]
    ) -> Iterator[None]:
        """Adds the results of lots to `done`, and yields after each, until all are done or a
        process dies."""
        futures: list[Future[Any]] = []
        try:
            with executor(self.workers) as pool:
                futures.extend(submitted(pool, work, lots[i]) for i in rest)
                for i, future in zip(rest, futures):
                    done[i] = result_of(pool, future)
                    yield
        except BaseException as error:
            for i, future in zip(rest, futures):
                if is_done(future):
                    done[i] = future.result()
            # The executor's queue is in order, and has room for one lot more than processes: what
            # the killed processes had begun is among the first lots without a result.
            for i in [it for it in rest if it not in done][: 2 * self.workers + 1]:
                self.clean(lots[i])
            if not isinstance(error, BrokenProcessPool):
                raise

    def alone(self, work: Callable[[Any], Any], lot: Any) -> Optional[Any]:
        """Returns the result for a lot in a process of its own, or None if that process dies."""
        try:
            with executor(1) as pool:
                return result_of(pool, submitted(pool, work, lot))
        except BaseException as error:
            self.clean(lot)
            if isinstance(error, BrokenProcessPool):
                return None
            raise


def is_done(future: Future[Any]) -> bool:
    """Returns whether a future has a result."""
    return future.done() and not future.cancelled() and future.exception() is None


# What dask raises: asyncio's CancelledError is no Exception.
FAULTS = (Exception, asyncio.CancelledError)


class Cluster:
    """The workers of a dask cluster. Dask deals the lots of a worker that died to others. `clean`
    removes what such a worker has left of work on lots."""

    def __init__(self, address: str, clean: Callable[[Any], None]) -> None:
        try:
            import distributed
        except ImportError:
            raise Failed("--dask needs the Python module distributed") from None
        self.clean = clean
        no_logs()
        try:
            connect: Any = distributed.Client
            self.client: Any = connect(address, timeout=20, set_as_default=False)
        except (OSError, ValueError, TypeError) as error:
            why = str(error) or type(error).__name__
            raise Failed(f"no dask scheduler at {address}: {why}") from None
        with cluster_faults():
            cores: dict[str, int] = self.client.ncores()
        self.addresses, self.workers = set(cores), max(1, sum(cores.values()))

    def results(self, work: Callable[[Any], Any], lots: list[Any]) -> Iterator[Any]:
        futures: list[Any] = []
        try:
            with cluster_faults():
                futures.extend(self.client.submit(work, lot, pure=False) for lot in lots)
            for number, future in enumerate(futures, 1):
                result = self.result(future)
                if number == len(futures):  # the caller needs no more, and may end the generator
                    self.clean_after_deaths(lots)
                yield result
        finally:
            left = [it for it in futures if not it.done()]
            if left:
                with contextlib.suppress(*FAULTS):
                    self.client.cancel(left)

    def clean_after_deaths(self, lots: list[Any]) -> None:
        """Removes what workers have left that died since the run began."""
        with contextlib.suppress(*FAULTS):
            if not self.addresses <= set(self.client.ncores()):
                self.clean([item for lot in lots for item in lot])

    def result(self, future: Any) -> Any:
        """Returns the result of a future, or None if the workers that worked on it died. Raises
        Failed."""
        from distributed.scheduler import KilledWorker

        with cluster_faults():
            try:
                return future.result()
            except KilledWorker:
                return None

    def close(self) -> None:
        """Leaves the cluster."""
        with contextlib.suppress(*FAULTS):
            self.client.close()


def no_logs() -> None:
    """Makes dask print nothing: each failure is told by a line of our own."""
    ours = ("asyncio", "distributed")
    for name in [*ours, *logging.root.manager.loggerDict]:
        if name.partition(".")[0] in ours:
            logging.getLogger(name).setLevel(logging.CRITICAL)


@contextlib.contextmanager
def cluster_faults() -> Iterator[None]:
    """Raises Failed for whatever dask raises in the block: work on files raises nothing."""
    try:
        yield
    except FAULTS as error:
        text = f"{type(error).__name__}: {error}" if str(error) else type(error).__name__
        raise Failed(f"the dask cluster failed: {shown(text)}") from None


@contextlib.contextmanager
def pool_of(
    jobs: Optional[int], dask: Optional[str], items: int, clean: Callable[[Any], None]
) -> Iterator[Pool]:
    """Yields the pool for so many items. `clean` removes what a killed process has left of work on
    a lot. Raises Failed if the pool can't be had."""
    if dask is not None:
        cluster = Cluster(dask, clean)
        try:
            yield cluster
        finally:
            cluster.close()
        return
    workers = min(jobs or cores(), items)
    if workers > 1:
        yield Processes(workers, clean)
    else:
        yield Here()


class Deal(Generic[T, R]):
    """One piece of work on many items: what is done with an item, the result of an item whose
    process died, what is done instead of the work after a process has died, and how many threads of
    a process share a lot: while one waits for the disk, others work."""

    def __init__(
        self, work: Callable[[T], R], died: R, again: Callable[[T], R], threads: int = 1
    ) -> None:
        self.work, self.died, self.again, self.threads = work, died, again, threads

    def __call__(self, lot: list[T]) -> list[R]:
        done: dict[int, R] = {}
        rest = iter(range(len(lot)))

        def work() -> None:
            for i in rest:
                done[i] = self.work(lot[i])

        others = [threading.Thread(target=work) for _ in range(min(self.threads, len(lot)) - 1)]
        begun = []
        for thread in others:
            with contextlib.suppress(RuntimeError):  # the system has no more threads
                thread.start()
                begun.append(thread)
        work()
        for thread in begun:
            thread.join()
        return [done[i] for i in range(len(lot))]

    @property
    def once_more(self) -> Deal[T, R]:
        """What is done after a process has died."""
        return Deal(self.again, self.died, self.again)

    @property
    def one_by_one(self) -> Deal[T, R]:
        """The same work in one thread: the first process ends it by an exception."""
        return Deal(self.work, self.died, self.again)

    def results(
        self, pool: Pool, items: Sequence[T], sizes: Sequence[int]
    ) -> Iterator[tuple[T, R]]:
        """Yields each item with its result, in order."""
        lots = dealt(items, sizes, pool.workers)
        work = self.one_by_one if isinstance(pool, Here) else self
        for lot, results in zip(lots, pool.results(work, lots)):
            if results is None and len(lot) > 1:
                singles = [[item] for item in lot]
                for item, result in zip(lot, pool.results(self.once_more, singles)):
                    yield item, self.died if result is None else result[0]
            else:
                yield from zip(lot, [self.died] * len(lot) if results is None else results)
