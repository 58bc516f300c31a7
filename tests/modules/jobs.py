"""Runs side by side: so many at a time as `--jobs` says, or else the variable TEST_JOBS."""

import multiprocessing
import os
from collections import deque
from concurrent.futures import ProcessPoolExecutor, ThreadPoolExecutor

from progress import Progress

# The variable by which the jobs are given, also to the runners that a runner calls, and how many there are at most
# where nobody gives any.
VARIABLE, MOST = "TEST_JOBS", 4


def jobs():
    """How many runs a runner has side by side: as many as there are processors, if nobody says it."""
    return int(os.environ.get(VARIABLE) or min(len(os.sched_getaffinity(0)), MOST))


def share():
    """Shares the jobs among parts that run side by side: two for each. Answers how many parts these are."""
    parts = max(1, jobs() // 2)
    os.environ[VARIABLE] = str(jobs() // parts)
    return parts


def side_by_side(work, items, title="", pool_of=ThreadPoolExecutor):
    """What the work gives of each item, in their order. How many are done is told."""
    items = list(items)
    with Progress(len(items), title) as progress, pool_of(jobs()) as pool:
        begun = deque(pool.submit(work, item) for item in items)
        for each in begun:
            each.add_done_callback(progress.step)
        try:
            while begun:
                yield begun.popleft().result()
        finally:
            # Where it breaks off, what hasn't begun never does.
            for each in begun:
                each.cancel()


def forks(count):
    """A pool of processes for work that Python does by itself, which threads wouldn't do side by side. They begin with
    all that this process has. The work and what it gives have to be such as can be pickled."""
    return ProcessPoolExecutor(count, multiprocessing.get_context("fork"))
