"""Hands the days of a study to workers, in chunks, and gives back the rows in the order of the days."""
import multiprocessing
import os
import signal
from concurrent.futures import ProcessPoolExecutor
from concurrent.futures.process import BrokenProcessPool
from dataclasses import dataclass

from day_study.problem import Refused
from day_study.routing import Desk
from day_study.study import Bench

# So many chunks a worker may be under way or waiting to be written, so memory is bounded.
AHEAD = 4
# A chunk is small, so that a stopped run loses little; and few days are left to a single worker at the end.
LARGEST_CHUNK = 10
# Workers that are lost again and again are no accident.
MOST_LOST = 20


@dataclass
class Here:
    """What a worker process has."""

    bench: Bench = None


HERE = Here()


def begin_worker(study, knowledge, scratch):
    """Prepares a worker process. Ctrl-C is for the process that hands out the days."""
    signal.signal(signal.SIGINT, signal.SIG_IGN)
    desk = Desk(study.router, study.airport_data, os.path.join(scratch, str(os.getpid())))
    HERE.bench = Bench(study, desk)
    HERE.bench.learn(knowledge)


def run_chunk(first, end):
    """The rows of the days from FIRST up to END."""
    return [HERE.bench.run(day) for day in range(first, end)]


class Processes:
    """Workers that are processes of this machine."""

    def __init__(self, study, knowledge, scratch, jobs):
        self.given, self.jobs, self.lost = (study, knowledge, scratch), jobs, 0
        self.ahead = AHEAD * jobs
        self.pool = None
        self.restart()

    def restart(self):
        """Begins anew, with other processes."""
        if self.pool is not None:
            self.pool.shutdown(wait=True, cancel_futures=True)
        context = multiprocessing.get_context("fork")
        self.pool = ProcessPoolExecutor(self.jobs, context, begin_worker, self.given)

    def submit(self, chunk):
        """Hands out the days of a chunk."""
        try:
            return self.pool.submit(run_chunk, *chunk)
        except BrokenProcessPool:
            self.restart()
            return self.pool.submit(run_chunk, *chunk)

    def collect(self, waiting, number):
        """The rows of a chunk under way. Where a worker was lost, all that isn't there is handed out again."""
        while True:
            try:
                return waiting[number][1].result()
            except BrokenProcessPool as fault:
                self.lost += 1
                if self.lost > MOST_LOST:
                    raise Refused(f"{self.lost} workers were lost") from fault
                self.hand_out_again(waiting)

    def hand_out_again(self, waiting):
        """Hands out each chunk again that has no rows yet."""
        self.restart()
        for number, (chunk, future) in list(waiting.items()):
            if not future.done() or future.cancelled() or future.exception():
                waiting[number] = chunk, self.pool.submit(run_chunk, *chunk)

    def close(self):
        """Ends the workers when they have done what they are at."""
        self.pool.shutdown(wait=True, cancel_futures=True)


def chunks_of(first, end, jobs):
    """The days in chunks."""
    size = max(1, min(LARGEST_CHUNK, (end - first) // (8 * jobs)))
    return [(day, min(end, day + size)) for day in range(first, end, size)]


def in_order(workers, chunks):
    """The rows of each chunk, in their order. Chunks are handed out only so far ahead of what was given back."""
    waiting, handed = {}, 0
    for number in range(len(chunks)):
        while handed < min(len(chunks), number + workers.ahead):
            waiting[handed] = chunks[handed], workers.submit(chunks[handed])
            handed += 1
        rows = workers.collect(waiting, number)
        del waiting[number]
        yield rows
