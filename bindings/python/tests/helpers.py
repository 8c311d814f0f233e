"""What the tests share: worked values, calls in eight threads, and what a call raises."""

import array
import random
import sys
import threading
import time

# Eight samples of 8 bits and their stream, by hand: blocks of 8 samples, intervals of 2 blocks.
EIGHT, CODED = bytes(range(8)), bytes.fromhex("20092492")
THREADS = 8


def raised(call):
    """Makes a call. Returns the exception that it raises, or None."""
    try:
        call()
    except Exception as fault:  # noqa: BLE001 - the test checks which one it is
        return fault
    return None


def kinds_of(data):
    """Returns the bytes in each kind of buffer that Python has, by names."""
    return {
        "bytes": data,
        "bytearray": bytearray(data),
        "memoryview": memoryview(bytearray(data)),
        "read-only memoryview": memoryview(data),
        "part of a memoryview": memoryview(b"\xff" + data + b"\xff")[1:-1],
        "array": array.array("B", data),
    }


def drawn(seed, count):
    """Returns random samples of 16 bits."""
    return random.Random(seed).choices(range(1 << 16), k=count)


def pause(*_):
    """Waits a millisecond at one of thirty calls and returns."""
    if random.random() < 1 / 30:
        time.sleep(0.001)


def in_threads(work, pausing=False):
    """Runs work(number) in eight threads. Returns what they raised. With `pausing`, each thread
    sometimes waits where a function of Python or C is called or returns: so other threads run
    between the steps of a call."""
    faults, start = [], threading.Barrier(THREADS)

    def run(number):
        start.wait()
        sys.setprofile(pause if pausing else None)
        fault = raised(lambda: work(number))
        sys.setprofile(None)
        if fault is not None:
            faults.append(repr(fault))

    threads = [
        threading.Thread(target=run, args=(number,), daemon=True) for number in range(THREADS)
    ]
    for thread in threads:
        thread.start()
    for thread in threads:
        thread.join()
    return faults
