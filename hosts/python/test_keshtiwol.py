#!/usr/bin/env python3
"""Tests of keshtiwol.py and receiver.py, over the library that keshtiwol.py finds:

    python3 hosts/python/test_keshtiwol.py

The examples are those of docs/ENGINE.md. Constants, structs and calls are held to include/keshtiwol.h, the words of refusals to those
of the Rust wrapper."""

import copy
import ctypes
import doctest
import math
import os
import pickle
import re
import shutil
import subprocess
import sys
import tempfile
import threading
import time
import unittest
from dataclasses import FrozenInstanceError

import keshtiwol
import receiver
from keshtiwol import (
    EDGE_WORDS, FUTURE, IN_COUNT, JOB_WORDS, PHASE, ROWS, SOURCE, STATUS, STEP_LIMIT, VERTEX_WORDS,
    Bare, Dispatch, DispatchReply, Do, Edge, Edition, Ending, HandedJob, Job, Machine, New, Refusal, Release, Reply, Row, Run, RunReply,
    Said, Start, Status, Stop, Tally, Transfer, Yield, library,
)

HERE = os.path.dirname(os.path.realpath(__file__))
REPOSITORY = os.path.dirname(os.path.dirname(HERE))
LARGEST = 0xFFFFFFFF
LISTED = bytes.fromhex("03 02 01 05 00 00 01 06 00")  # finish { async { job 5 } }, then job 6
FORK = bytes.fromhex("04 01 01 00 01 02 00 01 03 00")  # fork { job 1 } { job 2 }, then job 3


def text_of(*path):
    with open(os.path.join(REPOSITORY, *path), encoding="utf-8") as file:
        return file.read()


def all_words(graph):
    """Every word of a machine's tables, tally and marks."""
    return list(graph._vertices), list(graph._edges), (graph.made, graph.held, graph.steps), list(getattr(graph, "_busy", ()))


def steps(machine):
    """Steps the lowest vertex until none can step: each step's vertex and answer."""
    taken = []
    vertex = machine.lowest()
    while vertex is not None:
        taken.append((vertex, machine.step(vertex)))
        vertex = machine.lowest()
    return taken


def jobs(program, edition=Edition.FIRST):
    return [answer.number for _, answer in steps(Machine(program, edition)) if isinstance(answer, Job)]


def listing(program, edition=Edition.FIRST):
    """The lister's lines."""
    try:
        machine = Machine(program, edition)
    except Refusal as refusal:
        return [f"refused {refusal.number} {refusal.place}"]
    taken = steps(machine)
    count = sum(isinstance(answer, Job) for _, answer in taken)
    return [f"vertices {machine.made} jobs {count} steps {machine.steps}", *(f"{vertex} {answer}" for vertex, answer in taken)]


class Case(unittest.TestCase):
    def assert_refused(self, number, call, *values, place=0):
        """The call is refused so. Where it is a machine's method, no word changes."""
        graph = getattr(call, "__self__", None)
        before = all_words(graph) if graph else None
        with self.assertRaises(Refusal) as caught:
            call(*values)
        self.assertEqual((caught.exception.number, caught.exception.place), (number, place))
        if graph:
            self.assertEqual(all_words(graph), before)


class Examples(Case):
    def test_step_counts(self):
        for program, count in [("00", 4), ("01 00 00", 5), ("02 01 01 00 01 02 00", 11), (FORK.hex(), 22), ("01 FF FF 03 00", 5),
                               ("01 80 80 04 00", 5), (LISTED.hex(), 21), ("05 00 06 00 00", 19)]:
            machine = Machine(bytes.fromhex(program))
            self.assertEqual(machine.run(STEP_LIMIT), Run(Ending.DONE, Stop(), count), program)
            self.assertEqual((machine.steps, machine.held), (count, 0))
            self.assertEqual({machine.status(vertex) for vertex in range(machine.made)}, {Status.FINISHED})

    def test_jobs_lowest_first(self):
        self.assertEqual(jobs(b"\1\0\0"), [0])
        self.assertEqual(jobs(bytes.fromhex("02 01 01 00 01 02 00")), [2, 1])
        self.assertEqual(jobs(FORK), [1, 2, 3])
        self.assertEqual(jobs(bytes.fromhex("01 FF FF 03 00")), [65_535])
        self.assertEqual(jobs(bytes.fromhex("01 80 80 04 00")), [65_536])
        self.assertEqual(jobs(bytes.fromhex("01 90 81 DB 06 01 FF FF FF FF 0F 00")), [14_074_000, LARGEST])

    def test_futures(self):
        self.assertEqual(jobs(bytes.fromhex("05 01 01 00 01 02 00")), [2, 1])
        self.assertEqual(jobs(bytes.fromhex("05 01 01 00 01 02 06 00 01 03 00")), [2, 1, 3])
        self.assertEqual(jobs(bytes.fromhex("05 01 01 00 05 01 02 00 06 01 01 03 00")), [1, 2, 3])
        self.assertEqual(listing(bytes.fromhex("05 00 06 00 00")), [
            "vertices 5 jobs 0 steps 19",
            "0 start", "0 new 2", "0 new 3", "0 edge 3 2", "0 release 2", "0 release 3",
            "0 new 4", "0 edge 2 4", "0 transfer 4", "0 release 4", "0 stop",
            "3 start", "3 stop", "2 start", "2 stop", "4 start", "4 stop", "1 start", "1 stop",
        ])

    def test_jobs_in_either_order(self):
        machine = Machine(bytes.fromhex("02 01 01 00 01 02 00"))
        said = [machine.step(vertex) for vertex in (0, 0, 0, 0, 2, 2, 0)]
        self.assertEqual(said, [Start(), New(2), Edge(2, 1), Release(2), Start(), Job(1, 1), Job(2, 4)])
        self.assertEqual(machine.run(STEP_LIMIT), Run(Ending.DONE, Stop(), 4))

    def test_the_listing(self):
        self.assertEqual(listing(LISTED), [
            "vertices 5 jobs 2 steps 21",
            "0 start", "0 new 2", "0 new 3", "0 edge 3 2", "0 transfer 2", "0 release 2", "0 release 3", "0 stop",
            "3 start", "3 new 4", "3 edge 4 2", "3 release 4", "3 stop",
            "4 start", "4 job 5", "4 stop",
            "2 start", "2 job 6", "2 stop",
            "1 start", "1 stop",
        ])
        self.assertEqual(listing(bytes.fromhex("01 80 00 00")), ["refused 2 1"])

    def test_refused_programs(self):
        for program, number, place in [
            ("", 1, 0), ("00" * 4097, 1, 0), ("07", 3, 0), ("05", 5, 1), ("06", 5, 1), ("06 00", 43, 1), ("05 00 06 01 00", 43, 3),
            ("05 06 00 00 00", 43, 2), ("05 00 06 FF FF FF FF 7F 00", 7, 3), ("01 80 00 00", 2, 1), ("01 80 80 80 80 80 01 00", 2, 1),
            ("00 00", 6, 1), ("03 00", 5, 2), ("01 80", 5, 2), ("01 80 80 80 80 10 00", 7, 1), ("02" * 32, 4, 31), ("02 00" * 1023 + "00", 8, 0),
        ]:
            with self.subTest(program[:20]):
                self.assert_refused(number, Machine, bytes.fromhex(program), place=place)

    def test_programs_at_the_limits(self):
        nested, pairs, row = "02" * 31 + "00" * 32, "02 00" * 1022 + "00", "01 05" * 2047 + "00"
        for program, made, count in [(nested, 33, 159), (pairs, 1024, 5114), (row, 2, 2051)]:
            machine = Machine(bytes.fromhex(program))
            self.assertEqual(machine.run(LARGEST), Run(Ending.DONE, Stop(), count))
            self.assertEqual(machine.made, made)

    def test_the_bare_example(self):
        bare = Bare()
        self.assertEqual([bare.start(0), bare.new(0), bare.new(0), bare.edge(0, 1, 2)], [Start(), New(1), New(2), Edge(1, 2)])
        self.assert_refused(keshtiwol.CLOSES_CYCLE, bare.edge, 0, 2, 1)
        self.assert_refused(keshtiwol.CLOSES_CYCLE, bare.edge, 0, 1, 1)
        before = all_words(bare)
        self.assertEqual(bare.edge(0, 1, 2), Edge(1, 2))  # held already
        self.assertEqual(all_words(bare), before)
        self.assertEqual(bare.edge(0, 0, 1), Edge(0, 1))
        self.assert_refused(keshtiwol.TRANSFER_HAS_EDGE_OUT, bare.transfer, 0, 1)
        self.assert_refused(keshtiwol.CLOSES_CYCLE, bare.transfer, 0, 2)
        self.assertEqual(bare.edges(), [(1, 2), (0, 1)])
        self.assertEqual((bare.made, bare.held, bare.steps), (3, 2, 0))

    def test_the_modules_own(self):
        done = doctest.testmod(keshtiwol)
        self.assertEqual(done.failed, 0)
        self.assertGreater(done.attempted, 4)


class SecondEdition(Case):
    def test_the_listing_of_a_fork(self):
        self.assertEqual(listing(FORK, Edition.SECOND), [
            "vertices 4 jobs 3 steps 19",
            "0 start", "0 new 2", "0 new 3", "0 edge 2 0", "0 edge 3 0", "0 release 2", "0 release 3", "0 yield",
            "2 start", "2 job 1", "2 stop", "3 start", "3 job 2", "3 stop",
            "0 start", "0 job 3", "0 stop", "1 start", "1 stop",
        ])

    def test_only_forks_differ(self):
        for program, first, second in [("04 00 00 00", 19, 16), (FORK.hex(), 22, 19), ("04 04 00 00 00 04 00 00 00 00", 49, 40),
                                       (LISTED.hex(), 21, 21), ("05 04 00 00 00 06 00 00", 34, 31)]:
            for edition, count in [(Edition.FIRST, first), (Edition.SECOND, second), (1, first), (2, second)]:
                machine = Machine(bytes.fromhex(program), edition)
                self.assertIs(machine.edition, Edition(edition))
                self.assertEqual(machine.run(STEP_LIMIT), Run(Ending.DONE, Stop(), count), program)
                self.assertEqual((machine.steps, machine.held), (count, 0))
        self.assertIs(Machine(FORK).edition, Edition.FIRST)
        self.assertEqual(listing(LISTED, Edition.SECOND), listing(LISTED))
        self.assertEqual(jobs(FORK, Edition.SECOND), jobs(FORK))

    def test_as_many_forks_as_there_are_vertices_for(self):
        most = bytes.fromhex("04 00 00" * 511 + "00")
        self.assert_refused(keshtiwol.TOO_MANY_VERTICES, Machine, most)
        machine = Machine(most, Edition.SECOND)
        self.assertEqual(machine.run(STEP_LIMIT), Run(Ending.DONE, Stop(), 6136))
        self.assertEqual(machine.made, ROWS)
        self.assert_refused(keshtiwol.TOO_MANY_VERTICES, Machine, b"\2\0" + most, Edition.SECOND)

    def test_rows_of_a_fork(self):
        machine = Machine(FORK, Edition.SECOND)
        machine.run(7)
        self.assertEqual(machine.row(0), Row(Status.EXECUTING, 0, 1, 6, (2, 3, 0), 0, 2))
        self.assertEqual(machine.edges(), [(0, 1), (2, 0), (3, 0)])
        self.assertEqual(machine.step(0), Yield())
        self.assertEqual(machine.row(0), Row(Status.RELEASED, 7, 1, 0, (0, 0, 0), 0, 2))
        self.assertFalse(machine.may_start(0))
        self.assert_refused(keshtiwol.EDGE_LEADS_IN, machine.step, 0)

    def test_branches_that_finish_before_the_yield(self):
        machine = Machine(FORK, Edition.SECOND)
        machine.run(7)
        said = [machine.step(vertex) for vertex in (3, 3, 3, 2, 2, 2)]
        self.assertEqual(said, [Start(), Job(2, 4), Stop(), Start(), Job(1, 1), Stop()])
        self.assertEqual([machine.step(0), machine.may_start(0), machine.step(0), machine.step(0)], [Yield(), True, Start(), Job(3, 7)])
        self.assertEqual(machine.run(STEP_LIMIT), Run(Ending.DONE, Stop(), 3))

    def test_numbers_that_no_edition_has(self):
        for number in (0, 3, LARGEST):
            self.assert_refused(keshtiwol.NO_SUCH_EDITION, Machine, FORK, number)
            self.assert_refused(keshtiwol.NO_SUCH_EDITION, Machine, b"", number)  # before what is wrong with the program
            machine = Machine(FORK)
            machine._edition = number
            for call, *values in [(machine.step, 0), (machine.run, 1), (machine.dispatch,), (machine.lowest,)]:
                self.assert_refused(keshtiwol.NO_SUCH_EDITION, call, *values)


class Programs(Case):
    def test_budgets(self):
        machine = Machine(LISTED)
        self.assertEqual(machine.run(0), Run(Ending.SPENT, None, 0))
        self.assertEqual(machine.run(4), Run(Ending.SPENT, Edge(3, 2), 4))
        self.assertEqual(machine.steps, 4)
        self.assertEqual(machine.lowest(), 0)
        self.assertEqual(machine.run(17), Run(Ending.DONE, Stop(), 17))
        self.assertIsNone(machine.lowest())
        self.assertEqual(machine.run(LARGEST), Run(Ending.DONE, None, 0))

    def test_stuck_on_altered_tables(self):
        machine = Machine(LISTED)
        machine._vertices[STATUS] = Status.NEW  # so nobody releases vertex 0, and 1 waits for it
        self.assertEqual(machine.run(5), Run(Ending.STUCK, None, 0))
        self.assertIsNone(machine.lowest())
        machine._vertices[STATUS] = Status.RELEASED
        machine._tally.steps = STEP_LIMIT - 2
        self.assertEqual(machine.run(5), Run(Ending.STUCK, New(2), 2))
        self.assert_refused(keshtiwol.UNSOUND_TABLES, machine.run, 5)

    def test_lowest_changes_nothing(self):
        machine = Machine(FORK)
        seen = []
        while True:
            before = all_words(machine)
            vertex = machine.lowest()
            self.assertEqual(all_words(machine), before)
            if vertex is None:
                break
            seen.append(vertex)
            machine.step(vertex)
        self.assertEqual(len(seen), 22)
        self.assertEqual(seen[-2:], [1, 1])

    def test_refused_steps_change_nothing(self):
        machine = Machine(bytes.fromhex("02 01 01 00 00"))
        self.assert_refused(keshtiwol.NO_SUCH_VERTEX, machine.step, 2)
        self.assert_refused(keshtiwol.NO_SUCH_VERTEX, machine.step, LARGEST)
        self.assert_refused(keshtiwol.EDGE_LEADS_IN, machine.step, 1)
        self.assertEqual([machine.step(0), machine.step(0)], [Start(), New(2)])
        self.assert_refused(keshtiwol.VERTEX_IS_NEW, machine.step, 2)
        self.assertEqual([machine.step(0), machine.step(0), machine.step(0)], [Edge(2, 1), Release(2), Stop()])
        self.assert_refused(keshtiwol.VERTEX_IS_FINISHED, machine.step, 0)
        self.assertEqual(machine.step(2), Start())
        machine._vertices[2 * VERTEX_WORDS + PHASE] = 1
        self.assert_refused(keshtiwol.NOTHING_STARTS, machine.step, 2)
        machine._edges[SOURCE] = 3
        for call, *values in [(machine.step, 2), (machine.try_step, 2), (machine.run, 1), (machine.lowest,), (machine.chain, 0, 1)]:
            self.assert_refused(keshtiwol.UNSOUND_TABLES, call, *values)

    def test_trying_a_step(self):
        machine = Machine(bytes.fromhex("02 01 01 00 00"))
        self.assertEqual([machine.try_step(0), machine.try_step(0)], [Start(), New(2)])
        before = all_words(machine)
        self.assertEqual([machine.try_step(vertex) for vertex in (1, 2, 3)], [None, None, None])  # 21, 22, 20
        self.assertEqual(all_words(machine), before)
        machine.run(STEP_LIMIT)
        self.assertIsNone(machine.try_step(0))  # 23
        machine._vertices[STATUS] = 5
        self.assert_refused(keshtiwol.UNSOUND_TABLES, machine.try_step, 0)
        machine._vertices[STATUS] = Status.EXECUTING
        machine._vertices[PHASE] = 9
        self.assert_refused(keshtiwol.NOTHING_STARTS, machine.try_step, 0)

    def test_words_for_futures_that_lead_nowhere(self):
        machine = Machine(bytes.fromhex("05 00 06 00 00"))
        machine.run(7)
        for word in (0, 5, LARGEST):
            machine._vertices[FUTURE] = word
            self.assert_refused(keshtiwol.NOTHING_STARTS, machine.step, 0)
        machine._vertices[FUTURE] = 2
        self.assertEqual(machine.step(0), Edge(2, 4))

    def test_rows(self):
        machine = Machine(LISTED)
        self.assertEqual(machine.program, LISTED)
        self.assertEqual(machine.row(0), Row(Status.RELEASED, 0, 1, 0, (0, 0, 0), 0, 0))
        self.assertEqual(machine.row(1), Row(Status.RELEASED, 8, 1, 0, (0, 0, 0), 0, 1))
        self.assertEqual(machine.edges(), [(0, 1)])
        machine.run(4)
        self.assertEqual(machine.row(0), Row(Status.EXECUTING, 0, 1, 3, (2, 3, 0), 0, 0))
        self.assertEqual(machine.row(3), Row(Status.NEW, 1, 2, 0, (0, 0, 0), 0, 0))
        self.assertEqual(machine.edges(), [(0, 1), (3, 2)])
        self.assertEqual((machine.made, machine.held, machine.steps), (4, 2, 4))
        for vertex in (4, -1, -2, LARGEST):
            with self.assertRaises(IndexError):
                machine.row(vertex)

    def test_rows_of_futures(self):
        machine = Machine(bytes.fromhex("05 00 06 00 00"))
        machine.run(7)
        self.assertEqual(machine.row(0), Row(Status.EXECUTING, 2, 1, 1, (4, 0, 0), 2, 0))
        self.assertEqual(machine.row(2), Row(Status.RELEASED, 4, 1, 0, (0, 0, 0), 0, 1))
        self.assertEqual(machine.row(3), Row(Status.RELEASED, 1, 2, 0, (0, 0, 0), 0, 0))
        self.assertEqual(machine.row(4), Row(Status.NEW, 4, 1, 0, (0, 0, 0), 2, 0))

    def test_which_vertices_may_start(self):
        for program, edition in [(LISTED, 1), (FORK, 1), (FORK, 2), (bytes.fromhex("05 00 05 00 06 01 00"), 1)]:
            machine = Machine(program, edition)
            while machine.lowest() is not None:
                for vertex in range(machine.made):
                    self.assertEqual(machine.row(vertex).in_count, sum(target == vertex for _, target in machine.edges()))
                    self.assertEqual(machine.may_start(vertex), copy.deepcopy(machine).try_step(vertex) == Start())
                self.assertFalse(any(map(machine.may_start, (-1, machine.made, LARGEST))))
                machine.step(machine.lowest())
        machine = Machine(LISTED)
        machine.run(8)
        self.assertEqual([vertex for vertex in range(machine.made) if machine.may_start(vertex)], [3])

    def test_something_wrong_elsewhere(self):
        for spoil in (lambda machine: machine._vertices.__setitem__(VERTEX_WORDS + STATUS, 5),
                      lambda machine: machine._edges.__setitem__(SOURCE, 9)):
            machine = Machine(LISTED)
            spoil(machine)
            for call, *values in [(machine.step, 2), (machine.run, 1), (machine.lowest,), (machine.chain, 0, 1)]:
                self.assert_refused(keshtiwol.UNSOUND_TABLES, call, *values)
            self.assertEqual(machine.step(0), Start())  # it looks at the tally and its own row only
            self.assert_refused(keshtiwol.UNSOUND_TABLES, machine.step, 0)

    def test_a_copy_is_another_machine(self):
        machine = Machine(LISTED)
        machine.run(4)
        other = copy.deepcopy(machine)
        self.assertEqual(other.run(STEP_LIMIT), Run(Ending.DONE, Stop(), 17))
        self.assertEqual((machine.steps, machine.lowest()), (4, 0))

    def test_machines_on_threads(self):
        ended = []

        def run_all():
            for _ in range(20):
                machine = Machine(bytes.fromhex("02 00" * 200 + "00"))
                ended.append((machine.run(STEP_LIMIT), machine.made))

        threads = [threading.Thread(target=run_all) for _ in range(4)]
        for thread in threads:
            thread.start()
        for thread in threads:
            thread.join()
        self.assertEqual(ended, [(Run(Ending.DONE, Stop(), 1004), 202)] * 80)


class Dispatches(Case):
    def test_a_fork(self):
        for edition, last, steps in [(Edition.FIRST, HandedJob(4, 3, 7), 22), (Edition.SECOND, HandedJob(0, 3, 7), 19)]:
            machine = Machine(FORK, edition)
            branches = machine.dispatch()
            self.assertEqual((branches.ending, branches.jobs), (Ending.WAITING, [HandedJob(2, 1, 1), HandedJob(3, 2, 4)]))
            self.assertEqual([machine.busy(vertex) for vertex in (1, 2, 3, 4, ROWS, -1)], [False, True, True, False, False, False])
            self.assertEqual(machine.dispatch(), Dispatch(Ending.WAITING, 0, []))
            machine.ended(3)
            self.assertEqual(machine.dispatch(), Dispatch(Ending.WAITING, 1, []))
            machine.ended(2)
            self.assertEqual(machine.dispatch().jobs, [last])
            machine.ended(last.vertex)
            self.assertEqual(machine.dispatch().ending, Ending.DONE)
            self.assertEqual((machine.steps, any(machine._busy)), (steps, False))

    def test_endings(self):
        machine = Machine(FORK)
        self.assertEqual(machine.dispatch(0), Dispatch(Ending.SPENT, 0, []))
        self.assertEqual(machine.dispatch(5), Dispatch(Ending.SPENT, 5, []))
        self.assertEqual(machine.dispatch(0, 0), Dispatch(Ending.FULL, 0, []))
        self.assertEqual(machine.dispatch(most=1), Dispatch(Ending.FULL, 8, [HandedJob(2, 1, 1)]))
        self.assertEqual(machine.dispatch(2, LARGEST), Dispatch(Ending.WAITING, 2, [HandedJob(3, 2, 4)]))
        machine = Machine(FORK)
        machine._vertices[STATUS] = Status.NEW
        self.assertEqual(machine.dispatch(), Dispatch(Ending.STUCK, 0, []))
        machine._vertices[STATUS] = 5
        self.assert_refused(keshtiwol.UNSOUND_TABLES, machine.dispatch)

    def test_ends_of_no_job(self):
        machine = Machine(LISTED)
        job, = machine.dispatch().jobs
        for vertex in (0, ROWS, -1, LARGEST):
            with self.assertRaises(ValueError):
                machine.ended(vertex)
        machine.ended(job.vertex)
        with self.assertRaises(ValueError):
            machine.ended(job.vertex)

    def test_a_job_at_a_time(self):
        program = bytes.fromhex("02 01 90 81 DB 06 00" * 100 + "05 01 05 00 06 00 01 06 00")
        for budget in (1, 9, STEP_LIMIT):
            machine, handed = Machine(program), []
            ending = None
            while ending is not Ending.DONE:
                dispatch = machine.dispatch(budget, 1)
                ending = dispatch.ending
                for job in dispatch.jobs:
                    handed.append(job.number)
                    machine.ended(job.vertex)
            self.assertEqual(sorted(handed), [5, 6] + [14_074_000] * 100)
            self.assertLess(handed.index(5), handed.index(6))


class Commands(Case):
    def opened(self, vertices):
        """The bare machine with vertex 0 executing and others that are new."""
        bare = Bare()
        self.assertEqual(bare.start(0), Start())
        for vertex in range(1, vertices):
            self.assertEqual(bare.new(0), New(vertex))
        return bare

    def test_commands(self):
        bare = Bare()
        self.assertEqual(bare.row(0), Row(Status.RELEASED, 0, 0, 0, (0, 0, 0), 0, 0))
        self.assert_refused(keshtiwol.CALLER_NOT_EXECUTING, bare.new, 0)
        bare.start(0)
        self.assertEqual(bare.new(0, 7, LARGEST), New(1))
        self.assertEqual(bare.row(1), Row(Status.NEW, 7, LARGEST, 0, (0, 0, 0), 0, 0))
        self.assertEqual([bare.new(0), bare.new(0)], [New(2), New(3)])
        self.assert_refused(keshtiwol.VERTEX_IS_NEW, bare.start, 1)
        self.assertEqual(bare.release(0, 1), Release(1))
        self.assert_refused(keshtiwol.RELEASE_NOT_NEW, bare.release, 0, 1)
        self.assert_refused(keshtiwol.TRANSFER_NOT_NEW, bare.transfer, 0, 1)
        self.assertEqual(bare.edge(0, 2, 1), Edge(2, 1))
        self.assert_refused(keshtiwol.EDGE_LEADS_IN, bare.start, 1)
        self.assert_refused(keshtiwol.VERTEX_IS_EXECUTING, bare.start, 0)
        self.assert_refused(keshtiwol.CALLER_NOT_EXECUTING, bare.stop, 1)
        self.assert_refused(keshtiwol.NO_SUCH_VERTEX, bare.edge, 0, 4, 1)
        self.assertEqual([bare.release(0, 2), bare.start(2), bare.transfer(2, 3)], [Release(2), Start(), Transfer(3)])
        self.assert_refused(keshtiwol.TARGET_NOT_WAITING, bare.edge, 0, 1, 2)
        self.assertEqual(bare.edges(), [(3, 1)])
        self.assertEqual([bare.release(0, 3), bare.start(3), bare.stop(3)], [Release(3), Start(), Stop()])
        self.assert_refused(keshtiwol.VERTEX_IS_FINISHED, bare.start, 3)
        self.assert_refused(keshtiwol.TARGET_NOT_WAITING, bare.edge, 0, 1, 3)
        self.assertEqual(bare.start(1), Start())
        self.assertEqual((bare.made, bare.held, bare.steps), (4, 0, 0))

    def test_yields_and_edges_onto_the_caller(self):
        bare = self.opened(3)
        self.assert_refused(keshtiwol.CLOSES_CYCLE, bare.edge, 0, 0, 0)
        self.assertEqual([bare.edge(0, 1, 0), bare.edge(0, 2, 0), bare.row(0).in_count], [Edge(1, 0), Edge(2, 0), 2])
        self.assert_refused(keshtiwol.CLOSES_CYCLE, bare.edge, 0, 0, 1)
        self.assertEqual([bare.release(0, 1), bare.release(0, 2), bare.yield_(0)], [Release(1), Release(2), Yield()])
        self.assertEqual(bare.row(0), Row(Status.RELEASED, 0, 0, 0, (0, 0, 0), 0, 2))
        self.assert_refused(keshtiwol.CALLER_NOT_EXECUTING, bare.yield_, 0)
        self.assert_refused(keshtiwol.NO_SUCH_VERTEX, bare.yield_, 3)
        self.assert_refused(keshtiwol.EDGE_LEADS_IN, bare.start, 0)
        self.assertEqual([bare.start(1), bare.stop(1), bare.may_start(0)], [Start(), Stop(), False])
        self.assertEqual([bare.start(2), bare.stop(2), bare.may_start(0), bare.start(0)], [Start(), Stop(), True, Start()])
        self.assertEqual([bare.yield_(0), bare.start(0)], [Yield(), Start()])  # for nothing

    def test_an_edge_into_a_finished_vertex_stays(self):
        bare = self.opened(2)
        self.assertEqual([bare.edge(0, 1, 0), bare.release(0, 1), bare.stop(0)], [Edge(1, 0), Release(1), Stop()])
        self.assertEqual((bare.edges(), bare.row(0).in_count), ([(1, 0)], 1))
        self.assertEqual([bare.start(1), bare.stop(1), bare.edges()], [Start(), Stop(), []])

    def test_altered_in_counts(self):
        bare = self.opened(2)
        bare.release(0, 1)
        self.assertTrue(bare.may_start(1))
        self.assertEqual([bare.edge(0, 0, 1), bare.row(1).in_count, bare.may_start(1)], [Edge(0, 1), 1, False])
        word = VERTEX_WORDS + IN_COUNT
        for altered, fewer in [(LARGEST, LARGEST - 1), (5, 4), (0, 0)]:
            other = copy.deepcopy(bare)
            other._vertices[word] = altered
            self.assertEqual([other.stop(0), other.row(1).in_count], [Stop(), fewer])
            if fewer:
                self.assert_refused(keshtiwol.EDGE_LEADS_IN, other.start, 1)
        bare._vertices[word] = 0
        self.assertEqual(bare.start(1), Start())

    def test_full_tables(self):
        bare = self.opened(ROWS)
        self.assert_refused(keshtiwol.NO_VERTEX_ROW, bare.new, 0)
        for target in range(1, ROWS):
            bare.edge(0, 0, target)
        bare.edge(0, 1, 2)
        self.assertEqual(bare.held, ROWS)
        self.assert_refused(keshtiwol.NO_EDGE_ROW, bare.edge, 0, 2, 3)

    def test_chains(self):
        bare = self.opened(7)
        for source, target in [(6, 1), (1, 5), (1, 4), (5, 2), (4, 2)]:
            bare.edge(0, source, target)
        self.assert_refused(keshtiwol.CLOSES_CYCLE, bare.edge, 0, 2, 6)
        before = all_words(bare)
        self.assertEqual(bare.chain(2, 6), [6, 1, 4, 2])
        self.assertEqual(bare.chain(3, 3), [3])
        self.assertEqual(all_words(bare), before)
        self.assert_refused(keshtiwol.NO_CHAIN, bare.chain, 6, 2)
        self.assert_refused(keshtiwol.NO_SUCH_VERTEX, bare.chain, 7, 0)
        self.assert_refused(keshtiwol.NO_SUCH_VERTEX, bare.chain, 0, LARGEST)

    def test_the_longest_chain(self):
        bare = self.opened(ROWS)
        for vertex in range(1, ROWS - 1):
            bare.edge(0, vertex, vertex + 1)
        bare.edge(0, 0, 1)
        self.assertEqual(bare.chain(ROWS - 1, 0), list(range(ROWS)))

    def test_chains_of_a_program(self):
        machine = Machine(LISTED)
        self.assertEqual(machine.chain(1, 0), [0, 1])
        machine.run(5)
        self.assertEqual(machine.chain(1, 3), [3, 2, 1])
        self.assert_refused(keshtiwol.NO_CHAIN, machine.chain, 1, 0)


class OwnTables(unittest.TestCase):
    """What only hosts with tables of their own can meet, through the calls themselves."""

    def assert_refused(self, number, call, before, vertices, edges, tally, *after):
        """The call is refused so, and changes no word of the tables, the tally or a list among the values after them."""
        lent = [vertices, edges, *(value for value in after if isinstance(value, ctypes.Array))]
        words = [list(table) for table in lent], bytes(tally)
        reply = call(*before, vertices, len(vertices), edges, len(edges), tally, *after)
        self.assertEqual((reply.said, reply.first, reply.second), (Said.REFUSED, number, 0))
        self.assertEqual(([list(table) for table in lent], bytes(tally)), words)

    def tables(self, vertex_words, edge_words):
        return (ctypes.c_uint32 * vertex_words)(*[77] * vertex_words), (ctypes.c_uint32 * edge_words)(*[77] * edge_words), Tally(9, 9, 9)

    def test_too_little_lent(self):
        program = bytes.fromhex("04 00 00 00"), 4
        for edition, rows in [(Edition.FIRST, 5), (Edition.SECOND, 4)]:
            few_vertices = self.tables(rows * VERTEX_WORDS - 1, 3 * EDGE_WORDS)
            self.assert_refused(keshtiwol.TOO_FEW_VERTEX_ROWS, library.keshtiwol_load, program, *few_vertices, edition)
            few_edges = self.tables(rows * VERTEX_WORDS, 3 * EDGE_WORDS - 1)
            self.assert_refused(keshtiwol.TOO_FEW_EDGE_ROWS, library.keshtiwol_load, program, *few_edges, edition)
            vertices, edges, tally = self.tables(rows * VERTEX_WORDS, 3 * EDGE_WORDS)
            self.assertEqual(library.keshtiwol_load(*program, vertices, len(vertices), edges, len(edges), tally, edition).said, Said.READY)
        self.assert_refused(keshtiwol.TOO_FEW_VERTEX_ROWS, library.keshtiwol_open, (), *self.tables(VERTEX_WORDS - 1, 0))

    def test_a_list_too_short_and_no_such_command(self):
        vertices, edges, tally = self.tables(2 * VERTEX_WORDS, EDGE_WORDS)
        said = library.keshtiwol_load(b"\0", 1, vertices, len(vertices), edges, len(edges), tally, Edition.FIRST).said
        self.assertEqual(said, Said.READY)
        short = (ctypes.c_uint32 * 1)(77)
        self.assert_refused(keshtiwol.LIST_TOO_SHORT, library.keshtiwol_chain, (), vertices, edges, tally, 1, 0, short, 1)
        enough = (ctypes.c_uint32 * 3)(77, 77, 77)
        reply = library.keshtiwol_chain(vertices, len(vertices), edges, len(edges), tally, 1, 0, enough, 3)
        self.assertEqual((reply.said, reply.first, list(enough)), (Said.CHAIN, 2, [0, 1, 77]))
        for number in (0, max(Do) + 1, LARGEST):
            self.assert_refused(keshtiwol.NO_SUCH_COMMAND, library.keshtiwol_command, (), vertices, edges, tally, number, 0, 0, 0)

    def test_too_few_marks_and_lists_of_any_length(self):
        vertices, edges, tally = self.tables(5 * VERTEX_WORDS, 5 * EDGE_WORDS)
        lent = FORK, len(FORK), vertices, len(vertices), edges, len(edges), tally
        self.assertEqual(library.keshtiwol_load(*lent, Edition.FIRST).said, Said.READY)
        for words in range(2 * JOB_WORDS + 2):
            rows = (ctypes.c_uint32 * words)(*[77] * words)
            for marks in range(5):
                busy = (ctypes.c_uint32 * marks)()
                before = bytes(vertices), bytes(edges), bytes(tally)
                reply = library.keshtiwol_dispatch(*lent, Edition.FIRST, 100, busy, marks, rows, words)
                self.assertEqual((reply.ending.said, reply.ending.first), (Said.REFUSED, keshtiwol.BUSY_TABLE_TOO_SHORT))
                self.assertEqual((reply.ending.second, reply.taken, reply.handed), (0, 0, 0))
                self.assertEqual((bytes(vertices), bytes(edges), bytes(tally), list(busy), list(rows)), (*before, [0] * marks, [77] * words))
            self.assertEqual(library.keshtiwol_load(*lent, Edition.FIRST).said, Said.READY)
            busy = (ctypes.c_uint32 * 7)(0, 0, 0, 0, 0, 77, 77)
            reply = library.keshtiwol_dispatch(*lent, Edition.FIRST, 100, busy, 7, rows, words)
            jobs = [2, 1, 1, 3, 2, 4][: JOB_WORDS * (words // JOB_WORDS)]
            self.assertEqual((list(rows), reply.handed), (jobs + [77] * (words - len(jobs)), len(jobs) // JOB_WORDS))
            self.assertEqual(list(busy), [0, 0, int(reply.handed > 0), int(reply.handed > 1), 0, 77, 77])
            self.assertEqual(reply.ending.said, Ending.WAITING if reply.handed == 2 else Ending.FULL)
            self.assertEqual(reply.taken, [0, 13, 15][reply.handed])

    def test_the_editions_mixed(self):
        # Nothing is promised of both together, but each call still ends well: a fork has nine commands or seven.
        machine = Machine(FORK)
        machine.run(8)
        self.assertEqual(machine.row(0).phase, 7)
        program = FORK, len(FORK)
        self.assert_refused(keshtiwol.NOTHING_STARTS, library.keshtiwol_step, program, machine._vertices, machine._edges, machine._tally,
                            Edition.SECOND, 0)
        self.assertEqual(machine.step(0), Release(2))


class Values(Case):
    def test_programs_of_any_bytes(self):
        every_other = memoryview(bytes(byte for listed in LISTED for byte in (listed, 99)))[::2]
        for program in (LISTED, bytearray(LISTED), memoryview(LISTED), every_other):
            machine = Machine(program)
            self.assertEqual(machine.program, LISTED)
            self.assertEqual(machine.run(STEP_LIMIT), Run(Ending.DONE, Stop(), 21))
        for empty in (b"", bytearray(), memoryview(b"")):
            self.assert_refused(keshtiwol.LENGTH_OUTSIDE, Machine, empty)
        for other in ("00", 5, [0], None):
            with self.assertRaises(TypeError):
                Machine(other)

    def test_a_program_is_copied(self):
        program = bytearray(LISTED)
        machine = Machine(program)
        program[:] = bytes(9)
        self.assertEqual(machine.run(STEP_LIMIT), Run(Ending.DONE, Stop(), 21))

    def test_numbers_of_32_bits(self):
        machine, bare = Machine(LISTED), Bare()
        before = all_words(machine), all_words(bare)
        for call in [
            machine.step, machine.try_step, machine.run, machine.dispatch, lambda n: machine.dispatch(0, n),
            lambda n: machine.chain(n, 0), lambda n: machine.chain(0, n), lambda n: Machine(LISTED, n),
            bare.start, bare.stop, bare.yield_, bare.new, lambda n: bare.new(0, n, 0), lambda n: bare.new(0, 0, n),
            lambda n: bare.edge(0, n, 0), lambda n: bare.edge(0, 0, n), lambda n: bare.release(0, n), lambda n: bare.transfer(0, n),
        ]:
            for number in (-1, LARGEST + 1, 1 << 64):
                with self.assertRaises(ValueError):
                    call(number)
            for other in (0.0, "0", None):
                with self.assertRaises(TypeError):
                    call(other)
        self.assertEqual((all_words(machine), all_words(bare)), before)

    def test_answers(self):
        self.assertEqual([str(answer) for answer in (Start(), New(2), Edge(3, 2), Release(4), Transfer(5), Job(6, 7), Stop(), Yield())],
                         ["start", "new 2", "edge 3 2", "release 4", "transfer 5", "job 6", "stop", "yield"])
        self.assertNotEqual(New(2), Release(2))
        self.assertNotEqual(Start(), Stop())
        self.assertEqual(len({New(2), New(2), Transfer(2)}), 2)
        with self.assertRaises(FrozenInstanceError):
            New(2).vertex = 3

    def test_a_refusal_reads_well(self):
        with self.assertRaises(Refusal) as caught:
            Machine(bytes.fromhex("00 00"))
        self.assertEqual(str(caught.exception), "refused with 6 at byte 1: bytes come after the end")
        self.assertEqual(str(Refusal(8, 0)), "refused with 8: the program makes more than 1,024 vertices")
        self.assertEqual(str(Refusal(43, 1)), "refused with 43 at byte 1: no such future is open")
        self.assertEqual(caught.exception.text, "bytes come after the end")
        again = pickle.loads(pickle.dumps(caught.exception))
        self.assertEqual((again.number, again.place), (6, 1))
        self.assertEqual(Refusal(34, 0).text, "unknown")  # the one that is not used


class OneList(unittest.TestCase):
    """The module says the same as include/keshtiwol.h and the Rust wrapper."""

    HEADER = re.sub(r"/\*.*?\*/", "", text_of("include", "keshtiwol.h"), flags=re.DOTALL)
    TYPES = {
        "uint32_t": ctypes.c_uint32,
        "size_t": ctypes.c_size_t,
        "uint8_t *": ctypes.c_char_p,
        "uint32_t *": ctypes.POINTER(ctypes.c_uint32),
        "struct keshtiwol_tally": Tally,
        "struct keshtiwol_tally *": ctypes.POINTER(Tally),
        "struct keshtiwol_reply": Reply,
        "struct keshtiwol_run_reply": RunReply,
        "struct keshtiwol_dispatch_reply": DispatchReply,
    }

    def test_constants(self):
        in_header = {}
        for name, value in re.findall(r"^\s*KESHTIWOL_(\w+) = ([\w *]+)", self.HEADER, re.MULTILINE):
            # A number, or a product of constants that stand before it.
            factors = value.strip().replace("KESHTIWOL_", "").split(" * ")
            in_header[name] = math.prod(in_header[factor] if factor in in_header else int(factor) for factor in factors)
        here = [(name, value) for name, value in vars(keshtiwol).items() if name.isupper() and type(value) is int]
        here.remove(("VERSION_MAJOR", 4))
        for prefix, names, suffix in [("", Said, ""), ("", Ending, ""), ("VERTEX_", Status, ""), ("", Edition, "_EDITION"), ("DO_", Do, "")]:
            here += [(prefix + name + suffix, int(value)) for name, value in names.__members__.items()]
        self.assertEqual(len(here), len(in_header))
        self.assertEqual(dict(here), in_header)

    def test_refusals(self):
        header = text_of("include", "keshtiwol.h")
        section = header[header.index("The numbers of refusals") :]
        numbers = dict(re.findall(r"KESHTIWOL_(\w+) = (\d+)", section[: section.index("};")]))
        wrapper = text_of("hosts", "rust", "keshtiwol", "src", "refusal.rs")
        words = dict(re.findall(r'^\s*([A-Z][A-Z_]*) => "(.*)",$', wrapper, re.MULTILINE))
        self.assertEqual(len(keshtiwol.TEXTS), 31)
        self.assertEqual(words.keys(), numbers.keys())
        self.assertEqual({int(number): words[name] for name, number in numbers.items()}, keshtiwol.TEXTS)
        self.assertEqual({name: getattr(keshtiwol, name) for name in numbers}, {name: int(number) for name, number in numbers.items()})

    def test_structs(self):
        structs = re.findall(r"(struct \w+) \{([^}]*)\};", self.HEADER)
        self.assertEqual(len(structs), 4)
        for name, body in structs:
            fields = [(field, self.TYPES[kind]) for kind, field in re.findall(r"(\w[\w ]*) (\w+);", body)]
            self.assertEqual(self.TYPES[name]._fields_, fields)
        self.assertEqual([ctypes.sizeof(struct) for struct in (Tally, Reply, RunReply, DispatchReply)], [12, 12, 28, 20])

    def test_calls(self):
        calls = {}
        for answers, name, takes in re.findall(r"(struct \w+|uint32_t) (keshtiwol_\w+)\(([^()]*)\);", self.HEADER):
            kinds = [re.sub(r"\s*\w+$", "", one.replace("const ", "").strip()) for one in takes.split(",") if one.strip() != "void"]
            calls[name] = (self.TYPES[answers], [self.TYPES[kind] for kind in kinds])
        self.assertEqual(keshtiwol._CALLS, calls)
        for name, (answers, takes) in calls.items():
            self.assertEqual((getattr(library, name).restype, getattr(library, name).argtypes), (answers, takes))

    def test_version(self):
        number = {part: int(value) for part, value in re.findall(r"KESHTIWOL_VERSION_([A-Z]+)\s+(\d+)", self.HEADER)}
        self.assertEqual(number["MAJOR"], keshtiwol.VERSION_MAJOR)
        self.assertEqual(keshtiwol.version(), 10000 * number["MAJOR"] + 100 * number["MINOR"] + number["PATCH"])


class TheLibrary(unittest.TestCase):
    """Where the module looks for the library, and what it says where there is none to use."""

    FILE = "libkeshtiwol.so.4"

    def setUp(self):
        # A repository of its own, and folders for other libraries beside it.
        self.top = os.path.realpath(tempfile.mkdtemp())
        self.addCleanup(shutil.rmtree, self.top)
        self.module = os.path.join(self.top, "repository", "hosts", "python")
        self.built = os.path.join(self.top, "repository", "target", "hosts", "lib")
        self.other = os.path.join(self.top, "other")
        for folder in (self.module, self.built, self.other):
            os.makedirs(folder)
        shutil.copy(keshtiwol.__file__, self.module)

    def copy_library(self, folder):
        if not os.path.dirname(library._name):
            self.skipTest("the library is the system's")
        shutil.copy(library._name, os.path.join(folder, self.FILE))

    def compile_library(self, folder, code):
        if not shutil.which("gcc"):
            self.skipTest("no gcc")
        command = ["gcc", "-shared", "-fPIC", "-x", "c", "-", "-o", os.path.join(folder, self.FILE)]
        subprocess.run(command, input=code.encode(), check=True)

    def load(self, **environment):
        """Imports the module in a Python of its own: the library's name, or the last line of what went wrong."""
        variables = {name: value for name, value in os.environ.items() if name not in ("KESHTIWOL_LIB", "LD_LIBRARY_PATH")}
        variables.update(environment, PYTHONPATH=self.module)
        command = [sys.executable, "-c", "import keshtiwol; print(keshtiwol.library._name)"]
        done = subprocess.run(command, env=variables, cwd=self.top, stdout=subprocess.PIPE, stderr=subprocess.PIPE, universal_newlines=True)
        self.assertEqual(done.returncode != 0, bool(done.stderr))
        return (done.stderr or done.stdout).splitlines()[-1]

    def test_the_named_folder_comes_first(self):
        self.copy_library(self.built)
        self.copy_library(self.other)
        self.assertEqual(self.load(KESHTIWOL_LIB=self.other), os.path.join(self.other, self.FILE))
        self.assertEqual(self.load(KESHTIWOL_LIB="other"), os.path.join("other", self.FILE))

    def test_then_the_repository(self):
        self.copy_library(self.built)
        self.assertEqual(self.load(), os.path.join(self.built, self.FILE))
        self.assertEqual(self.load(KESHTIWOL_LIB=""), os.path.join(self.built, self.FILE))

    def test_then_the_system(self):
        self.copy_library(self.other)
        self.assertEqual(self.load(LD_LIBRARY_PATH=self.other), self.FILE)

    def test_none_in_the_named_folder(self):
        self.copy_library(self.built)
        path = os.path.join(self.other, self.FILE)
        said = self.load(KESHTIWOL_LIB=self.other)
        self.assertTrue(said.startswith(f"ImportError: no engine of version 4; looked for {path}: "), said)
        self.assertIn("No such file", said)

    def test_none_anywhere(self):
        # What the system's loader finds first is no library.
        with open(os.path.join(self.other, self.FILE), "w", encoding="utf-8") as file:
            file.write("no library" * 100)
        built = os.path.join(self.built, self.FILE)
        said = self.load(LD_LIBRARY_PATH=self.other)
        self.assertTrue(said.startswith(f"ImportError: no engine of version 4; looked for {built}, then for {self.FILE}: "), said)

    def test_another_major_version(self):
        for number, version in [(50607, "5.6.7"), (30405, "3.4.5"), (9999, "0.99.99")]:
            self.compile_library(self.other, f"unsigned keshtiwol_version(void) {{ return {number}; }}")
            path = os.path.join(self.other, self.FILE)
            said = self.load(KESHTIWOL_LIB=self.other)
            self.assertEqual(said, f"ImportError: {path} is version {version} of the engine, and this module was written for version 4")

    def test_a_library_without_a_call(self):
        path = os.path.join(self.other, self.FILE)
        version = "unsigned keshtiwol_version(void) { return 40000; }"
        for code, missing in [("int other;", "keshtiwol_version"), (version, "keshtiwol_load")]:
            self.compile_library(self.other, code)
            said = self.load(KESHTIWOL_LIB=self.other)
            self.assertTrue(said.startswith(f"ImportError: no engine of version 4; looked for {path}: "), said)
            self.assertTrue(said.endswith(f"undefined symbol: {missing}"), said)


class TheReceiver(unittest.TestCase):
    HEARD = text_of("hosts", "receiver.expected")

    def test_what_it_prints(self):
        for _ in range(3):
            done = subprocess.run([sys.executable, os.path.join(HERE, "receiver.py")], stdout=subprocess.PIPE, stderr=subprocess.PIPE,
                                  universal_newlines=True, timeout=60)
            self.assertEqual((done.returncode, done.stdout, done.stderr), (0, self.HEARD, ""))

    def test_channels_side_by_side(self):
        # Each filter waits until all four run, and so does each decode: there are four threads, and none of them sleeps too long or leaves
        # too early, though the retune lets them wait.
        meetings = {17: threading.Barrier(4), 33: threading.Barrier(4)}
        ended, lock = [], threading.Lock()

        def run_job(number):
            if number == 14_074_000:
                time.sleep(0.02)
            for first, meeting in meetings.items():
                if first <= number < first + 4:
                    meeting.wait(timeout=30)
            with lock:
                ended.append(number)

        for _ in range(20):
            ended.clear()
            receiver.run_program(receiver.PROGRAM, run_job)
            self.assertEqual((ended[0], ended[-1]), (14_074_000, 48))
            self.assertEqual(sorted(ended[1:5]), [17, 18, 19, 20])
            self.assertEqual(sorted(ended[5:9]), [33, 34, 35, 36])
            self.assertEqual(len(ended), 10)

    def test_a_job_that_fails(self):
        begun = []

        def run_job(number):
            begun.append(number)
            if number == 18:
                raise RuntimeError("no filter 2")

        with self.assertRaisesRegex(RuntimeError, "no filter 2"):
            receiver.run_program(receiver.PROGRAM, run_job)
        self.assertIn(18, begun)
        self.assertNotIn(34, begun)
        self.assertNotIn(48, begun)

    def test_a_program_that_is_refused(self):
        with self.assertRaises(Refusal):
            receiver.run_program(b"\5", self.fail)

    def test_a_job_that_it_does_not_know(self):
        with self.assertRaisesRegex(ValueError, "number 21"):
            receiver.run_program(b"\1\x15\0", receiver.Receiver().run_job)

    def test_it_is_short(self):
        self.assertLess(len(text_of("hosts", "python", "receiver.py").splitlines()), 100)


if __name__ == "__main__":
    unittest.main()
