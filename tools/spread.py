"""Runs commands side by side: over the processors of this machine, or over those of many by dask.distributed.

It isn't run by itself: tools/explore_farm.py, bench/hostile.py, tools/linux/live.py and tools/linux/daemon.py read it.
What is spread is a command: its words, and what it reads from its standard input. It is run as it is written, so a
machine of dask needs what its words name at the same path, as on a file system that all share. Where a worker of dask
dies, dask gives its commands to others. dask is Debian's package python3-distributed, and is read only where an address
of its scheduler is given.
"""

import concurrent.futures
import contextlib
import logging
import os
import re
import signal
import subprocess
import sys
import threading

#: For how many seconds a scheduler is looked for, and then a worker of it.
PATIENCE = 10
#: How often dask tries a command again that couldn't be begun.
RETRIES = 3
WIDTH = 40


class Trouble(Exception):
    """Why commands can't be spread, in one line."""


class Here:
    """The processors of this machine."""

    where = ""

    def __init__(self, processes):
        self.width = processes
        self.pool = concurrent.futures.ThreadPoolExecutor(processes)
        self.children, self.lock, self.is_over, self.running = set(), threading.Lock(), False, {}

    def begin(self, tag, words, given):
        self.running[self.pool.submit(self.ran, words, given)] = tag

    def ran(self, words, given):
        with self.lock:
            if self.is_over:
                return None
            child = subprocess.Popen(words, stdin=subprocess.PIPE, stdout=subprocess.PIPE, stderr=subprocess.PIPE,
                                     start_new_session=True)
            self.children.add(child)
        try:
            wrote, said = child.communicate(given)
        finally:
            self.children.discard(child)
        return subprocess.CompletedProcess(words, child.returncode, wrote, said)

    def next(self):
        """Waits for one that ends."""
        done = concurrent.futures.wait(self.running, return_when=concurrent.futures.FIRST_COMPLETED)[0].pop()
        return self.running.pop(done), done.result()

    def end(self):
        """Ends what still runs, with all that it has begun."""
        with self.lock:
            self.is_over = True
        for child in list(self.children):
            with contextlib.suppress(ProcessLookupError):
                os.killpg(child.pid, signal.SIGKILL)
        self.pool.shutdown(cancel_futures=True)


def distributed():
    """The module, which says nothing by itself."""
    try:
        import distributed as found  # pylint: disable=import-outside-toplevel
        # That a worker died is no matter of who waits for its commands.
        logging.disable(logging.CRITICAL)
        return found
    except ImportError as error:
        where = "which Debian's package python3-distributed has"
        raise Trouble(f"expected Python's distributed for a scheduler, {where}: {error}") from error


class There:
    """The workers of a scheduler of dask."""

    where = ", where each worker is"

    def __init__(self, address):
        self.dask, self.running = distributed(), {}
        if not re.fullmatch(r"(\w+://)?[^/\s]+:\d+", address):
            raise Trouble(f"expected the address of a scheduler of dask, as tcp://HOST:8786, and not {address}")
        try:
            self.client = self.dask.Client(address, timeout=PATIENCE, set_as_default=False)
            self.client.wait_for_workers(1, timeout=PATIENCE)
            self.width = sum(self.client.nthreads().values())
            self.came = self.dask.as_completed(loop=self.client.loop)
        except (OSError, ValueError, TypeError, TimeoutError, self.dask.TimeoutError) as error:
            raise Trouble(f"expected a scheduler of dask with a worker at {address}: {first_line(error)}") from error

    def begin(self, tag, words, given):
        future = self.client.submit(subprocess.run, words, input=given, capture_output=True, check=False, pure=False,
                                    retries=RETRIES)
        self.running[future] = tag
        self.came.add(future)

    def next(self):
        future = next(self.came)
        return self.running.pop(future), future.result()

    def end(self):
        if self.client.status != "closed":
            self.client.cancel(list(self.running))
            self.client.close()


def first_line(error):
    return (str(error).strip().splitlines() or [type(error).__name__])[0]


def place_of(scheduler=None, processes=None):
    """Where commands are run: on the workers of a scheduler, or by so many processes here, else as many as there are
    processors. Its width is how many it runs at once."""
    return There(scheduler) if scheduler else Here(processes or len(os.sched_getaffinity(0)))


def run(commands, place):
    """Runs commands, each a tag, its words and what it reads, and gives the tag of each with what came of it as it
    ends: a CompletedProcess, whose outputs are bytes. Commands that are added to the list meanwhile are run too."""
    try:
        while commands or place.running:
            while commands:
                place.begin(*commands.pop(0))
            yield place.next()
    except FileNotFoundError as error:
        raise Trouble(f"expected a program at {error.filename}{place.where}") from error
    except Exception as error:
        raise Trouble(f"a command can't be run: {first_line(error)}") from error
    finally:
        place.end()


class Bar:
    """How far it is, in one line on standard error, where that is a terminal."""

    def __init__(self):
        self.is_shown, self.width = sys.stderr.isatty(), 0

    def show(self, done, count, words):
        if self.is_shown:
            full = WIDTH * done // max(count, 1)
            line = f"[{'#' * full}{'.' * (WIDTH - full)}] {done} of {count}{words}"
            print(f"\r{line:{self.width}}", end="", file=sys.stderr, flush=True)
            self.width = len(line)

    def end(self):
        if self.width:
            print(f"\r{'':{self.width}}\r", end="", file=sys.stderr, flush=True)
