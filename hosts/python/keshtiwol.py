"""The task-graph engine from Python: which job of a program may start now.

A program is bytes: numbered jobs with async, finish, fork, future and force. A job's number takes one to five bytes and reaches
4,294,967,295, so that a retune job can carry its frequency in hertz. `Machine` owns all that the engine needs:

    >>> from keshtiwol import Edition, Job, Machine
    >>> machine = Machine(bytes.fromhex("04 01 01 00 01 02 00 01 03 00"))  # fork { job 1 } { job 2 }, then job 3
    >>> vertex = machine.lowest()
    >>> while vertex is not None:
    ...     answer = machine.step(vertex)
    ...     if isinstance(answer, Job):
    ...         print("job", answer.number)  # run it here
    ...     vertex = machine.lowest()
    job 1
    job 2
    job 3
    >>> machine.steps
    22

A host with threads has the engine hand out jobs, as many as may run beside one another, and says of each when it has ended:

    >>> machine = Machine(bytes.fromhex("04 01 01 00 01 02 00 01 03 00"))
    >>> handed_out = machine.dispatch()
    >>> handed_out.ending.name, [job.number for job in handed_out.jobs]
    ('WAITING', [1, 2])
    >>> for job in handed_out.jobs:
    ...     machine.ended(job.vertex)  # run it, and then call this
    >>> machine.dispatch().jobs
    [HandedJob(vertex=4, number=3, offset=7)]

What the engine turns away is raised as a `Refusal`, and changed nothing:

    >>> Machine(b"\\x07")
    Traceback (most recent call last):
    ...
    keshtiwol.Refusal: refused with 3 at byte 0: an item's first byte is above 6

A fork is done as the edition has it, which is the first where no other is asked for. In the second the vertex that forks makes no vertex
for what follows, but yields, and starts again when both branches have finished:

    >>> Machine(bytes.fromhex("04 01 01 00 01 02 00 01 03 00"), Edition.SECOND).run(100).taken
    19

`Bare` is the bare machine: a graph built by hand, with single commands.

THREADS. Python goes on with other threads during a call, so the bargain of include/keshtiwol.h is the host's here too: make one call at a
time for the same machine, reading included (one lock around the engine is enough), and after a step says `Job` do not step its vertex again
before the job has ended. `dispatch` takes care of the latter: run each job that it hands out once, and call `ended` when the job has ended and
not before. Different machines may be used from different threads at once. receiver.py shows a host with four threads.

THE LIBRARY is libkeshtiwol.so.4: from the folder in the environment variable KESHTIWOL_LIB where that is set, else from the repository's
target/hosts/lib where it is there, else from where the system's loader finds it. Importing fails with an ImportError where there is none,
or where its major version is not the one that this module was written for.
"""

from __future__ import annotations

import ctypes
import enum
import operator
import os
from dataclasses import astuple, dataclass, fields
from typing import NamedTuple, Optional, Union

VERSION_MAJOR = 4

# THE TABLES, of 32-bit words: how many a row has, and where in it each stands.
VERTEX_WORDS = 9
STATUS = 0
PLACE = 1
SCOPE = 2
PHASE = 3
MADE = 4
FUTURE = 7
IN_COUNT = 8

EDGE_WORDS = 2
SOURCE = 0
TARGET = 1

JOB_WORDS = 3
JOB_VERTEX = 0
JOB_NUMBER = 1
JOB_OFFSET = 2

# Enough for every program.
PROGRAM_BYTES = 4096
ROWS = 1024
VERTEX_TABLE = VERTEX_WORDS * ROWS
EDGE_TABLE = EDGE_WORDS * ROWS
STEP_LIMIT = 8192  # steps are refused, with 12, where so many were taken

# THE NUMBERS OF REFUSALS, by who causes them.
# The program's writer.
LENGTH_OUTSIDE = 1
NUMBER_MALFORMED = 2
BYTE_UNKNOWN = 3
LEVEL_TOO_DEEP = 4
BYTES_RUN_OUT = 5
BYTES_AFTER_END = 6
JOB_TOO_LARGE = 7
TOO_MANY_VERTICES = 8
NO_SUCH_FUTURE = 43
# The lender.
TOO_FEW_VERTEX_ROWS = 10
TOO_FEW_EDGE_ROWS = 11
UNSOUND_TABLES = 12
NOTHING_STARTS = 13
# The host, choosing.
NO_SUCH_VERTEX = 20
EDGE_LEADS_IN = 21
VERTEX_IS_NEW = 22
VERTEX_IS_FINISHED = 23
VERTEX_IS_EXECUTING = 39
# The caller of single commands.
CALLER_NOT_EXECUTING = 30
NO_VERTEX_ROW = 31
NO_EDGE_ROW = 32
TARGET_NOT_WAITING = 33
CLOSES_CYCLE = 35
RELEASE_NOT_NEW = 36
TRANSFER_NOT_NEW = 37
TRANSFER_HAS_EDGE_OUT = 38
# Whoever asks for a chain.
NO_CHAIN = 41
LIST_TOO_SHORT = 42
# A host that has jobs handed out.
BUSY_TABLE_TOO_SHORT = 44
# A host that names an edition or a command by number.
NO_SUCH_EDITION = 98
NO_SUCH_COMMAND = 99

TEXTS = {
    LENGTH_OUTSIDE: "the program has no bytes or more than 4,096",
    NUMBER_MALFORMED: "a number is longer than five bytes or not in its shortest form",
    BYTE_UNKNOWN: "an item's first byte is above 6",
    LEVEL_TOO_DEEP: "a body is at level 33",
    BYTES_RUN_OUT: "the bytes run out",
    BYTES_AFTER_END: "bytes come after the end",
    JOB_TOO_LARGE: "a number is above 4,294,967,295",
    TOO_MANY_VERTICES: "the program makes more than 1,024 vertices",
    NO_SUCH_FUTURE: "no such future is open",
    TOO_FEW_VERTEX_ROWS: "too few vertex rows are lent",
    TOO_FEW_EDGE_ROWS: "too few edge rows are lent",
    UNSOUND_TABLES: "tally and tables don't fit together, or 8,192 steps were taken",
    NOTHING_STARTS: "no item can be read at the vertex's place, its phase is past the item, or its words lead to no future",
    NO_SUCH_VERTEX: "there is no such vertex",
    EDGE_LEADS_IN: "something must finish before this vertex starts",
    VERTEX_IS_NEW: "the vertex is not released yet",
    VERTEX_IS_FINISHED: "the vertex is finished",
    VERTEX_IS_EXECUTING: "the vertex executes already",
    CALLER_NOT_EXECUTING: "the caller is not executing",
    NO_VERTEX_ROW: "no vertex row is left",
    NO_EDGE_ROW: "no edge row is left",
    TARGET_NOT_WAITING: "the edge's target executes or is finished",
    CLOSES_CYCLE: "this would close a cycle",
    RELEASE_NOT_NEW: "only a new vertex is released",
    TRANSFER_NOT_NEW: "edges are handed to a new vertex only",
    TRANSFER_HAS_EDGE_OUT: "the vertex that would get the edges has one already",
    NO_CHAIN: "no chain of held edges leads from the target back to the source",
    LIST_TOO_SHORT: "the chain has more vertices than the list has words",
    BUSY_TABLE_TOO_SHORT: "the table of marks has fewer words than the vertex table has rows",
    NO_SUCH_EDITION: "no edition has this number",
    NO_SUCH_COMMAND: "no command has this number",
}


class Refusal(Exception):
    """The engine turned a call away, and nothing changed."""

    def __init__(self, number: int, place: int) -> None:
        super().__init__(number, place)
        self.number = number
        self.place = place  # an offset in the program for the numbers 2 to 7 and 43, else 0

    @property
    def text(self) -> str:
        """A few words on the number."""
        return TEXTS.get(self.number, "unknown")

    def __str__(self) -> str:
        has_place = NUMBER_MALFORMED <= self.number <= JOB_TOO_LARGE or self.number == NO_SUCH_FUTURE
        at = f" at byte {self.place}" if has_place else ""
        return f"refused with {self.number}{at}: {self.text}"


# WHAT IS SAID.


class Answer:
    """What an accepted step or command says. As text it is what the lister prints: the word, then its vertices or job number."""

    def __str__(self) -> str:
        return " ".join([type(self).__name__.lower(), *map(str, astuple(self))])


@dataclass(frozen=True)
class Start(Answer):
    """The vertex executes now."""


@dataclass(frozen=True)
class New(Answer):
    """This vertex was made."""

    vertex: int


@dataclass(frozen=True)
class Edge(Answer):
    """The source must finish before the target starts."""

    source: int
    target: int


@dataclass(frozen=True)
class Release(Answer):
    """This vertex is released."""

    vertex: int


@dataclass(frozen=True)
class Transfer(Answer):
    """This vertex has the edges now."""

    vertex: int


@dataclass(frozen=True)
class Job(Answer):
    """The host runs this job now, and does not step its vertex again before the job has ended. The offset tells jobs apart."""

    number: int
    offset: int

    def __str__(self) -> str:
        return f"job {self.number}"


@dataclass(frozen=True)
class Stop(Answer):
    """The vertex is finished."""


@dataclass(frozen=True)
class Yield(Answer):
    """The vertex is released, and starts again by a step when no edge leads in."""


class Ending(enum.IntEnum):
    """How a run or a dispatch ended. The last two are of dispatches only."""

    DONE = 11  # all vertices made are finished
    STUCK = 12  # no step would be accepted
    SPENT = 13  # the budget is used
    WAITING = 16  # only busy vertices could step: nothing more can start before a running job has ended
    FULL = 17  # as many jobs were handed out as were asked for, and more can be stepped now


@dataclass(frozen=True)
class Run:
    """A run's ending, its last accepted step (None where it took none), and how many steps it took."""

    ending: Ending
    last: Optional[Answer]
    taken: int


@dataclass(frozen=True)
class HandedJob:
    """A job that was handed out. The host runs it once; its vertex is busy until `ended` is called. The offset tells jobs apart."""

    vertex: int
    number: int
    offset: int


@dataclass(frozen=True)
class Dispatch:
    """A dispatch's ending, how many steps it took, and the jobs that it handed out."""

    ending: Ending
    taken: int
    jobs: list[HandedJob]


class Edition(enum.IntEnum):
    """How a fork is done. A program's bytes and the order of its jobs are the same in both."""

    # The forking vertex makes a vertex for each branch and a third that goes on behind the fork, and stops: 3 vertices, 15 steps.
    FIRST = 1
    # It makes the two alone, with an edge from each onto itself, yields, and starts again when both have finished: 2 vertices, 12 steps.
    SECOND = 2


class Status(enum.IntEnum):
    """The status of a vertex."""

    NEW = 1
    RELEASED = 2
    EXECUTING = 3
    FINISHED = 4


class Row(NamedTuple):
    """A vertex's row: its status, its place (a byte offset in the program), its scope (a vertex), its phase (commands already done of the
    item at its place), the three vertices that this item made, 0 where none, the latest open future, 0 where none (the vertex that
    finishes when that future has ended, and whose own word names the next future out), and the number of edges held into it."""

    status: Status
    place: int
    scope: int
    phase: int
    made: tuple[int, int, int]
    future: int
    in_count: int


# THE C INTERFACE, as include/keshtiwol.h declares it; the test holds it to that file.


class Tally(ctypes.Structure):
    """Vertices made, edges held, steps taken."""

    _fields_ = [("made", ctypes.c_uint32), ("held", ctypes.c_uint32), ("steps", ctypes.c_uint32)]


class Reply(ctypes.Structure):
    """What was said, and its values."""

    _fields_ = [("said", ctypes.c_uint32), ("first", ctypes.c_uint32), ("second", ctypes.c_uint32)]


class RunReply(ctypes.Structure):
    """How a run ended, its last accepted step (or Said.NONE), and how many steps it took."""

    _fields_ = [("ending", Reply), ("last", Reply), ("taken", ctypes.c_uint32)]


class DispatchReply(ctypes.Structure):
    """How a dispatch ended, how many steps it took, and how many jobs it handed out."""

    _fields_ = [("ending", Reply), ("taken", ctypes.c_uint32), ("handed", ctypes.c_uint32)]


class Said(enum.IntEnum):
    """What a reply can say, besides an `Ending`."""

    REFUSED = 0
    READY = 1
    START = 2
    NEW = 3
    EDGE = 4
    RELEASE = 5
    TRANSFER = 6
    JOB = 7
    STOP = 8
    NONE = 9
    VERTEX = 10
    CHAIN = 14
    YIELD = 15


class Do(enum.IntEnum):
    """The commands' numbers."""

    NEW = 1
    EDGE = 2
    RELEASE = 3
    TRANSFER = 4
    START = 5
    STOP = 6
    YIELD = 7


_WORD = ctypes.c_uint32
_WORDS = ctypes.POINTER(ctypes.c_uint32)
_PROGRAM = [ctypes.c_char_p, ctypes.c_size_t]
_TABLES = [_WORDS, ctypes.c_size_t, _WORDS, ctypes.c_size_t, ctypes.POINTER(Tally)]

# What each call answers and takes.
_CALLS = {
    "keshtiwol_version": (_WORD, []),
    "keshtiwol_load": (Reply, _PROGRAM + _TABLES + [_WORD]),
    "keshtiwol_step": (Reply, _PROGRAM + _TABLES + [_WORD, _WORD]),
    "keshtiwol_run": (RunReply, _PROGRAM + _TABLES + [_WORD, _WORD]),
    "keshtiwol_dispatch": (DispatchReply, _PROGRAM + _TABLES + [_WORD, _WORD, _WORDS, ctypes.c_size_t, _WORDS, ctypes.c_size_t]),
    "keshtiwol_lowest": (Reply, _PROGRAM + _TABLES + [_WORD]),
    "keshtiwol_open": (Reply, _TABLES),
    "keshtiwol_command": (Reply, _TABLES + [_WORD, _WORD, _WORD, _WORD]),
    "keshtiwol_chain": (Reply, _TABLES + [_WORD, _WORD, _WORDS, ctypes.c_size_t]),
}


def _open_library() -> ctypes.CDLL:
    """Finds the shared library, and checks that it is one that this module can call."""
    file = f"libkeshtiwol.so.{VERSION_MAJOR}"
    folder = os.environ.get("KESHTIWOL_LIB")
    if folder:
        places = [os.path.join(folder, file)]
    else:
        repository = os.path.dirname(os.path.dirname(os.path.dirname(os.path.realpath(__file__))))
        places = [os.path.join(repository, "target", "hosts", "lib", file), file]
    # The last place is not looked at here: the loader tells what is wrong with it.
    path = next(filter(os.path.exists, places[:-1]), places[-1])
    try:
        library = ctypes.CDLL(path)
        number = library.keshtiwol_version()
        if number // 10000 != VERSION_MAJOR:
            version = f"{number // 10000}.{number // 100 % 100}.{number % 100}"
            raise ImportError(f"{path} is version {version} of the engine, and this module was written for version {VERSION_MAJOR}")
        for name, (answers, takes) in _CALLS.items():
            call = getattr(library, name)
            call.restype, call.argtypes = answers, takes
    except (OSError, AttributeError) as error:  # no library, or one without a call
        raise ImportError(f"no engine of version {VERSION_MAJOR}; looked for {', then for '.join(places)}: {error}") from error
    return library


# For hosts that lend tables of their own: the calls under their names in C.
library = _open_library()


def version() -> int:
    """The library's version: 10000 * major + 100 * minor + patch."""
    return library.keshtiwol_version()


_ANSWERS = {
    Said.START: Start,
    Said.NEW: New,
    Said.EDGE: Edge,
    Said.RELEASE: Release,
    Said.TRANSFER: Transfer,
    Said.JOB: Job,
    Said.STOP: Stop,
    Said.YIELD: Yield,
}

# Of a host that tries vertices in turn: this one cannot step now.
_NOT_NOW = (NO_SUCH_VERTEX, EDGE_LEADS_IN, VERTEX_IS_NEW, VERTEX_IS_FINISHED)


def _accepted(reply: Reply) -> Reply:
    """The reply, unless it is a refusal."""
    if reply.said == Said.REFUSED:
        raise Refusal(reply.first, reply.second)
    return reply


def _answer(reply: Reply) -> Answer:
    """What an accepted step or command says."""
    kind = _ANSWERS[Said(_accepted(reply).said)]
    return kind(*(reply.first, reply.second)[: len(fields(kind))])


def _word(value: int) -> int:
    """A number that goes into 32 bits. (ctypes would cut off the rest of a larger one.)"""
    value = operator.index(value)
    if not 0 <= value <= 0xFFFFFFFF:
        raise ValueError(f"{value} is outside 0 to 4,294,967,295")
    return value


# THE MACHINES.


class Graph:
    """The tables and the tally of one machine, and what can be read from them."""

    def __init__(self) -> None:
        self._vertices = (ctypes.c_uint32 * VERTEX_TABLE)()
        self._edges = (ctypes.c_uint32 * EDGE_TABLE)()
        self._tally = Tally()

    def _tables(self) -> tuple:
        return self._vertices, VERTEX_TABLE, self._edges, EDGE_TABLE, self._tally

    @property
    def made(self) -> int:
        """How many vertices were made: their numbers are those below."""
        return self._tally.made

    @property
    def held(self) -> int:
        """How many edges are held."""
        return self._tally.held

    @property
    def steps(self) -> int:
        """How many steps were taken. Single commands are not counted."""
        return self._tally.steps

    def row(self, vertex: int) -> Row:
        """The row of a vertex that was made."""
        if not 0 <= vertex < self.made:
            raise IndexError(f"there is no vertex {vertex}")
        words = self._vertices[VERTEX_WORDS * vertex : VERTEX_WORDS * (vertex + 1)]
        made = tuple(words[MADE:FUTURE])
        return Row(Status(words[STATUS]), words[PLACE], words[SCOPE], words[PHASE], made, words[FUTURE], words[IN_COUNT])

    def status(self, vertex: int) -> Status:
        """The status of a vertex that was made."""
        return self.row(vertex).status

    def may_start(self, vertex: int) -> bool:
        """Whether a vertex can start: it was made, is released, and no edge leads into it. That stands in two words of its row, so the
        engine is not called."""
        at = VERTEX_WORDS * vertex
        return 0 <= vertex < self.made and self._vertices[at + STATUS] == Status.RELEASED and self._vertices[at + IN_COUNT] == 0

    def edges(self) -> list[tuple[int, int]]:
        """The edges held, each a source and a target, in order of making."""
        words = self._edges[: EDGE_WORDS * self.held]
        return list(zip(words[SOURCE::EDGE_WORDS], words[TARGET::EDGE_WORDS]))

    def chain(self, source: int, target: int) -> list[int]:
        """Shows the loop that an edge from source to target would close: the shortest chain of held edges that leads from target back to
        source, target first, and of equally short ones the first in vertex numbers. Where there is none, this is refused with 41."""
        words = (ctypes.c_uint32 * ROWS)()
        reply = _accepted(library.keshtiwol_chain(*self._tables(), _word(source), _word(target), words, ROWS))
        return words[: reply.first]


class Machine(Graph):
    """A loaded program, and the edition in which it was loaded and goes on. What the engine turns away is refused here: 1 to 8 and 43 for
    the program, 98 for an edition's number."""

    def __init__(self, program: Union[bytes, bytearray, memoryview], edition: int = Edition.FIRST) -> None:
        super().__init__()
        # By way of a memoryview, since bytes(5) would be five bytes.
        self._program = bytes(memoryview(program))
        self._edition = _word(edition)
        self._busy = (ctypes.c_uint32 * ROWS)()
        _accepted(library.keshtiwol_load(*self._lent()))

    def _lent(self) -> tuple:
        return (self._program, len(self._program), *self._tables(), self._edition)

    @property
    def program(self) -> bytes:
        """The program's bytes."""
        return self._program

    @property
    def edition(self) -> Edition:
        """The edition of all calls."""
        return Edition(self._edition)

    def step(self, vertex: int) -> Answer:
        """One step of a vertex: starts a released one; an executing one does the next command of the item at its place. After `Job` run
        that job, and step this vertex again when it has ended. After `Yield` a step starts it again when no edge leads in."""
        return _answer(library.keshtiwol_step(*self._lent(), _word(vertex)))

    def try_step(self, vertex: int) -> Optional[Answer]:
        """The same for hosts that try vertices in turn: None where the vertex cannot step now (20 to 23). Other refusals are raised."""
        try:
            return self.step(vertex)
        except Refusal as refusal:
            if refusal.number in _NOT_NOW:
                return None
            raise

    def run(self, budget: int) -> Run:
        """Steps the lowest vertex that can step, until all are finished, none can step or the budget of steps is used. Jobs count as run
        where they are named, so this serves hosts that only want the order."""
        reply = library.keshtiwol_run(*self._lent(), _word(budget))
        ending = Ending(_accepted(reply.ending).said)
        return Run(ending, None if reply.last.said == Said.NONE else _answer(reply.last), reply.taken)

    def dispatch(self, budget: int = STEP_LIMIT, most: int = ROWS) -> Dispatch:
        """Steps the lowest vertex that can step and is not busy, again and again, and hands out the jobs that these steps name, at most as many
        as asked for. Their vertices are busy then. Run each job once, on whatever thread, call `ended` when it has ended, and call this again.
        It ends when all vertices are finished, none can step, only busy ones could, that many jobs are handed out or the budget is used."""
        # Each vertex has one job at a time, so no longer list can be filled.
        words = JOB_WORDS * min(_word(most), ROWS)
        rows = (ctypes.c_uint32 * words)()
        reply = library.keshtiwol_dispatch(*self._lent(), _word(budget), self._busy, ROWS, rows, words)
        ending = Ending(_accepted(reply.ending).said)
        return Dispatch(ending, reply.taken, [HandedJob(*rows[at : at + JOB_WORDS]) for at in range(0, JOB_WORDS * reply.handed, JOB_WORDS)])

    def busy(self, vertex: int) -> bool:
        """Whether a job of this vertex was handed out and has not ended."""
        return 0 <= vertex < ROWS and self._busy[vertex] != 0

    def ended(self, vertex: int) -> None:
        """The job of this vertex that was handed out has ended, so that a dispatch may step the vertex again."""
        if not self.busy(vertex):
            raise ValueError(f"vertex {vertex} has no job that was handed out")
        self._busy[vertex] = 0

    def lowest(self) -> Optional[int]:
        """The lowest vertex that can step, or None. Changes nothing."""
        reply = _accepted(library.keshtiwol_lowest(*self._lent()))
        return reply.first if reply.said == Said.VERTEX else None


class Bare(Graph):
    """The bare machine, opened: vertex 0 is released, and there is no other. All but `start` have a caller, a vertex that executes."""

    def __init__(self) -> None:
        super().__init__()
        _accepted(library.keshtiwol_open(*self._tables()))

    def _command(self, number: Do, caller: int, first: int = 0, second: int = 0) -> Answer:
        return _answer(library.keshtiwol_command(*self._tables(), number, _word(caller), _word(first), _word(second)))

    def start(self, vertex: int) -> Answer:
        """Starts a released vertex that no edge leads into."""
        return self._command(Do.START, vertex)

    def new(self, caller: int, place: int = 0, scope: int = 0) -> Answer:
        """Makes the next vertex, which `New` names, with the caller's latest open future."""
        return self._command(Do.NEW, caller, place, scope)

    def edge(self, caller: int, source: int, target: int) -> Answer:
        """Adds an edge onto a vertex that is new, released or the caller itself. From a finished source, or held already, it changes
        nothing. Where it would close a loop it is refused with 35, and `chain` shows that loop."""
        return self._command(Do.EDGE, caller, source, target)

    def release(self, caller: int, vertex: int) -> Answer:
        """Lets a new vertex start as soon as no edge leads into it."""
        return self._command(Do.RELEASE, caller, vertex)

    def transfer(self, caller: int, vertex: int) -> Answer:
        """Hands the caller's edges out to a new vertex."""
        return self._command(Do.TRANSFER, caller, vertex)

    def stop(self, caller: int) -> Answer:
        """Finishes the caller and drops its edges out; those into it stay held."""
        return self._command(Do.STOP, caller)

    def yield_(self, caller: int) -> Answer:
        """Turns the caller released: it can start again when no edge leads in."""
        return self._command(Do.YIELD, caller)
