"""Worker processes: each does one item after another and answers a line of JSON for each over a pipe.

They are forked while this process has one thread, since libzonenorm asks for that. A worker that dies, or runs out of memory, costs the
item that it had; a new one starts.
"""
from __future__ import annotations

import contextlib
import json
import os
import selectors
import signal
import time
from collections import deque
from collections.abc import Callable, Iterator
from typing import Any, NoReturn

AHEAD = 8  # items that a worker has at most
PIECE = 1 << 16
Work = Callable[[int], Any]  # what an item, by its number, comes to


class Gone(str):
    """Why an item has no answer."""


class Worker:
    """A process, and the items that it has."""

    def __init__(self, number: int, make: Callable[[], Work], memory: int | None, others: list[Worker]) -> None:
        self.number, self.items, self.rest, self.is_spent = number, deque[int](), bytearray(), False
        (taken, self.tasks), (self.answers, given) = os.pipe(), os.pipe()
        self.process = os.fork()
        if not self.process:
            for it in (self, *others):
                os.close(it.tasks)
                os.close(it.answers)
            _works(taken, given, make, memory)
        os.close(taken)
        os.close(given)

    def give(self, item: int) -> None:
        """Hands out an item. A worker that is gone doesn't take it, and its end is seen later."""
        self.items.append(item)
        with contextlib.suppress(BrokenPipeError):
            os.write(self.tasks, b"%d\n" % item)

    def lines(self, octets: bytes) -> Iterator[Any]:
        """Yields the answers that are whole."""
        self.rest += octets
        if b"\n" in octets:
            *lines, self.rest = self.rest.split(b"\n")
            yield from map(json.loads, lines)

    def end(self) -> int:
        """Ends the process, and returns its status: below 0 the signal that ended it."""
        os.close(self.tasks)
        os.close(self.answers)
        if self.items and not self.is_spent:
            os.kill(self.process, signal.SIGKILL)
        return os.waitstatus_to_exitcode(os.waitpid(self.process, 0)[1])


def _works(taken: int, given: int, make: Callable[[], Work], memory: int | None) -> NoReturn:
    """Works until there are no more items, in the process of a worker."""
    try:
        signal.signal(signal.SIGINT, signal.SIG_IGN)
        for number in (signal.SIGTERM, signal.SIGHUP):
            signal.signal(number, signal.SIG_DFL)
        if memory:
            import resource

            resource.setrlimit(resource.RLIMIT_AS, (memory, memory))
        work = make()
        with open(taken, "rb") as tasks, open(given, "wb") as answers:
            for line in tasks:
                answer, is_spent = None, True
                with contextlib.suppress(MemoryError):
                    answer, is_spent = work(int(line)), False
                answers.write(json.dumps([answer, is_spent]).encode() + b"\n")
                answers.flush()
                if is_spent:
                    os._exit(0)
    except BaseException:  # the parent sees that the worker ended
        os._exit(1)
    os._exit(0)


class Pool:
    """The workers that run, and the items that wait."""

    def __init__(self, items: int, jobs: int, make: Callable[[int], Work], memory: int | None, ended: Callable[[int], object]) -> None:
        self.waiting, self.jobs, self.make, self.memory, self.ended = deque(range(items)), jobs, make, memory, ended
        self.workers: dict[int, Worker] = {}
        self.selector = selectors.DefaultSelector()

    def start(self, number: int) -> None:
        """Starts a worker."""
        worker = self.workers[number] = Worker(number, lambda: self.make(number), self.memory, list(self.workers.values()))
        self.selector.register(worker.answers, selectors.EVENT_READ, worker)
        self.hand_out(worker)

    def hand_out(self, worker: Worker) -> None:
        """Hands out items, fewer towards the end."""
        most = 1 + min(AHEAD - 1, len(self.waiting) // (4 * self.jobs))
        while self.waiting and len(worker.items) < most:
            worker.give(self.waiting.popleft())

    def stop(self, worker: Worker) -> int:
        """Ends a worker, and returns its status."""
        self.selector.unregister(worker.answers)
        del self.workers[worker.number]
        self.ended(worker.number)
        return worker.end()

    def taken(self, worker: Worker) -> Iterator[tuple[int, Any]]:
        """Yields what a worker answers now, and sees what it does next. One that ended loses the item that it had."""
        octets = os.read(worker.answers, PIECE)
        for answer, worker.is_spent in worker.lines(octets):
            yield worker.items.popleft(), answer
        if not octets or worker.is_spent:
            status = self.stop(worker)
            if worker.items and not worker.is_spent:
                yield worker.items.popleft(), Gone(f"a worker was ended by signal {-status}" if status < 0 else "a worker ended")
            self.waiting.extendleft(reversed(worker.items))
            if self.waiting:
                self.start(worker.number)
        elif self.waiting:
            self.hand_out(worker)
        elif not worker.items:
            self.stop(worker)


def answers(items: int, jobs: int, make: Callable[[int], Work], memory: int | None = None, ends: float | None = None,
            ended: Callable[[int], object] = lambda worker: None) -> Iterator[tuple[int, Any]]:
    """Yields each item with its answer, as they come: None if its worker ran out of memory, `Gone` if it ended. `make` makes in a worker
    of this number what it does. `ends` is a time of the monotonic clock, after which the items that are left are `Gone("")`; `ended` gets
    the number of each worker that ends."""
    pool = Pool(items, jobs, make, memory, ended)
    try:
        for number in range(min(jobs, items)):
            pool.start(number)
        while pool.workers and (ends is None or time.monotonic() < ends):
            for key, _ in pool.selector.select(None if ends is None else max(ends - time.monotonic(), 0)):
                yield from pool.taken(key.data)
        for worker in pool.workers.values():
            pool.waiting.extend(worker.items)
        yield from ((item, Gone("")) for item in pool.waiting)
    finally:
        for worker in list(pool.workers.values()):
            pool.stop(worker)
        pool.selector.close()
