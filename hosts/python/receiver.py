#!/usr/bin/env python3
"""A receiver with four channels on four threads: retunes, filters and decodes the channels side by side, and logs what it heard.

The engine says which job may start, the threads here run them. `run_program` is the part to copy; `Receiver` stands for the radio."""

import threading
from concurrent.futures import ThreadPoolExecutor

from keshtiwol import Ending, Machine

THREADS = 4
CHANNELS = 4
FILTER, DECODE, LOG, RETUNE = 0x11, 0x21, 0x30, 1_000_000  # filter and decode: the first channel's; retune: the least frequency

PROGRAM = bytes.fromhex(
    "01 90 81 DB 06"  # retune 14,074,000
    "03"  # finish: all in this body ends before the log starts
    "02 01 11 01 21 00"  # async: filter 1, decode 1
    "02 01 12 01 22 00"  # async: filter 2, decode 2
    "02 01 13 01 23 00"
    "02 01 14 01 24 00"
    "00"
    "01 30"  # log
    "00"
)


def run_program(program, run_job):
    """Runs all jobs of a program, each as soon as the engine lets it start and a thread is free. `run_job` gets a job's number."""
    machine = Machine(program)
    jobs = []  # handed out, and not yet begun
    failed = []  # what jobs raised: then no further job is begun
    changed = threading.Condition()  # a job was handed out or has ended; its lock is the one around the engine's calls and these lists

    def run(job):
        """Leaves the lock for as long as the job runs."""
        changed.release()
        try:
            run_job(job.number)
        except BaseException as error:
            failed.append(error)
        changed.acquire()
        machine.ended(job.vertex)
        changed.notify_all()

    def work():
        with changed:
            while not failed:
                if jobs:
                    run(jobs.pop())
                    continue
                handed_out = machine.dispatch()
                jobs.extend(handed_out.jobs)
                if jobs:
                    changed.notify_all()
                elif handed_out.ending is Ending.WAITING:
                    changed.wait()  # nothing more can start before a job has ended
                else:
                    return  # done: a loaded program has no other ending here

    with ThreadPoolExecutor(THREADS) as pool:
        for worker in [pool.submit(work) for _ in range(THREADS)]:
            worker.result()  # raises what the engine refused, which a loaded program never meets
    if failed:
        raise failed[0]


class Receiver:
    """What the jobs do. They need no lock: of two jobs that touch the same, the program has the one finish before the other starts."""

    ON_THE_AIR = b"Q1ABC", b"Q2DEF", b"Q3GHI", b"Q4JKL"

    def __init__(self):
        self.hertz, self.samples = 0, b""
        self.filtered = [b""] * CHANNELS
        self.heard = [""] * CHANNELS

    def run_job(self, number):
        if number >= RETUNE:
            # A block of samples: the channels in turn, each character sent one higher.
            self.hertz = number
            self.samples = bytes(character + 1 for characters in zip(*self.ON_THE_AIR) for character in characters)
        elif FILTER <= number < FILTER + CHANNELS:
            self.filtered[number - FILTER] = self.samples[number - FILTER :: CHANNELS]
        elif DECODE <= number < DECODE + CHANNELS:
            self.heard[number - DECODE] = bytes(sample - 1 for sample in self.filtered[number - DECODE]).decode()
        elif number == LOG:
            print(f"{self.hertz} Hz", *(f"channel {n}: {call}" for n, call in enumerate(self.heard, 1)), sep="\n")
        else:
            raise ValueError(f"no job has the number {number}")


if __name__ == "__main__":
    run_program(PROGRAM, Receiver().run_job)
