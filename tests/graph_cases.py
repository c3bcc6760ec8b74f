#!/usr/bin/env python3
"""The lines that the program `graph_cases` must write, from a model of docs/ENGINE.md's commands that shares no code with
the engine.

    tests/graph_cases.py > crates/graph_cases/stdout

The model keeps vertices and edges as Python lists, and looks for paths by plain depth-first search."""

from cases import next_state, total
from rows import EDGE_TABLE, EDGE_WORDS, USABLE, VERTEX_TABLE, VERTEX_WORDS

NEW, RELEASED, EXECUTING, FINISHED = 1, 2, 3, 4
FUTURE, IN_COUNT = 7, 8
LARGEST = 2**32 - 1


class Refused(Exception):
    pass


class Machine:
    def __init__(self, vertices, edges, made=0, held=0, steps=0):
        self.v, self.e, self.made, self.held, self.steps = list(vertices), list(edges), made, held, steps

    def vertex_rows(self):
        return min(USABLE, len(self.v) // VERTEX_WORDS)

    def edge_rows(self):
        return min(USABLE, len(self.e) // EDGE_WORDS)

    def status(self, k):
        return self.v[VERTEX_WORDS * k]

    def edges(self):
        return [tuple(self.e[EDGE_WORDS * i : EDGE_WORDS * (i + 1)]) for i in range(self.held)]

    def fits(self):
        return self.made <= self.vertex_rows() and self.held <= self.edge_rows()

    def sound(self):
        return (
            self.fits()
            and all(self.status(k) in (1, 2, 3, 4) for k in range(self.made))
            and all(a < self.made and b < self.made for a, b in self.edges())
        )

    def reaches(self, a, b):
        after, seen, todo = {}, set(), [a]
        for s, t in self.edges():
            after.setdefault(s, []).append(t)
        while todo:
            for t in after.get(todo.pop(), []):
                if t not in seen:
                    seen.add(t)
                    todo.append(t)
        return b in seen

    def count(self, k, more):
        """One edge more into vertex k, or one less. "The word stops at 0 and at its largest number." """
        at = VERTEX_WORDS * k + IN_COUNT
        self.v[at] = max(0, min(LARGEST, self.v[at] + more))

    def need(self, test, number):
        if not test:
            raise Refused(number)

    def begin(self, *named):
        self.need(self.sound(), 12)
        self.need(all(k < self.made for k in named), 20)

    def open(self):
        self.need(self.vertex_rows() > 0, 10)
        self.v[: VERTEX_WORDS * self.vertex_rows()] = [0] * (VERTEX_WORDS * self.vertex_rows())
        self.e[: EDGE_WORDS * self.edge_rows()] = [0] * (EDGE_WORDS * self.edge_rows())
        self.v[0], self.made, self.held, self.steps = RELEASED, 1, 0, 0
        return "opened"

    def new(self, t, place, scope):
        self.begin(t)
        self.need(self.status(t) == EXECUTING, 30)
        self.need(self.made < self.vertex_rows(), 31)
        row = [NEW, place, scope] + [0] * (VERTEX_WORDS - 3)
        row[FUTURE] = self.v[VERTEX_WORDS * t + FUTURE]
        self.v[VERTEX_WORDS * self.made : VERTEX_WORDS * (self.made + 1)] = row
        self.made += 1
        return f"new {self.made - 1}"

    def edge(self, t, a, b):
        """ "33 spares the caller" (note 10). """
        self.begin(t, a, b)
        self.need(self.status(t) == EXECUTING, 30)
        self.need(b == t or self.status(b) in (NEW, RELEASED), 33)
        if self.status(a) != FINISHED and (a, b) not in self.edges():
            self.need(a != b and not self.reaches(b, a), 35)
            self.need(self.held < self.edge_rows(), 32)
            self.e[EDGE_WORDS * self.held : EDGE_WORDS * (self.held + 1)] = [a, b]
            self.held += 1
            self.count(b, 1)
        return f"edge {a} {b}"

    def release(self, t, k):
        self.begin(t, k)
        self.need(self.status(t) == EXECUTING, 30)
        self.need(self.status(k) == NEW, 36)
        self.v[VERTEX_WORDS * k] = RELEASED
        return f"release {k}"

    def transfer(self, t, k):
        self.begin(t, k)
        self.need(self.status(t) == EXECUTING, 30)
        self.need(self.status(k) == NEW, 37)
        self.need(all(a != k for a, b in self.edges()), 38)
        self.need(not any(a == t and (b == k or self.reaches(b, k)) for a, b in self.edges()), 35)
        for i, (a, b) in enumerate(self.edges()):
            if a == t:
                self.e[EDGE_WORDS * i] = k
        return f"transfer {k}"

    def start(self, k):
        """ "For start .. 12 then looks at the tally and that vertex's row only; on altered tables 21 follows the word." """
        self.need(self.fits(), 12)
        self.need(k < self.made, 20)
        self.need(self.status(k) in (1, 2, 3, 4), 12)
        self.need(self.status(k) != NEW, 22)
        self.need(self.status(k) != EXECUTING, 39)
        self.need(self.status(k) != FINISHED, 23)
        self.need(self.v[VERTEX_WORDS * k + IN_COUNT] == 0, 21)
        self.v[VERTEX_WORDS * k] = EXECUTING
        return "start"

    def stop(self, t):
        self.begin(t)
        self.need(self.status(t) == EXECUTING, 30)
        self.v[VERTEX_WORDS * t] = FINISHED
        for a, b in self.edges():
            if a == t:
                self.count(b, -1)
        kept = [x for a, b in self.edges() if a != t for x in (a, b)]
        self.e[: EDGE_WORDS * self.held] = kept + [0] * (EDGE_WORDS * self.held - len(kept))
        self.held = len(kept) // EDGE_WORDS
        return "stop"

    def yield_(self, t):
        """ "turns the executing caller released"; "meets 12, 20 and 30 only" (note 10). """
        self.begin(t)
        self.need(self.status(t) == EXECUTING, 30)
        self.v[VERTEX_WORDS * t] = RELEASED
        return "yield"

    def call(self, command, *words):
        try:
            answer = getattr(self, "yield_" if command == "yield" else command)(*words)
        except Refused as refusal:
            answer = f"refused {refusal} 0"
        print(f"{answer} | {self.made} {self.held} {self.steps} | {total(self.v)} {total(self.e)}")


class Draw:
    def __init__(self, state):
        self.state = state

    def next(self, times=1):
        state = self.state
        for _ in range(times):
            state = next_state(state)
        return Draw(state)

    def below(self, limit):
        return self.state // 4096 % limit


def words(count, draw, low):
    drawn, now = [], draw.next()
    for _ in range(count):
        kind = now.below(100)
        now = now.next()
        drawn.append(now.below(7) if kind == 0 else now.below(4) + low)
        now = now.next()
    return drawn, now


def drawn(seed, repeats):
    vertices, d = words(5 * VERTEX_WORDS + 4, Draw(seed), 1)
    if seed % 4 != 0:
        vertices[0] = EXECUTING
    edges, d = words(5 * EDGE_WORDS, d, 0)
    steps, made, held = d.below(9000), d.next().below(7), d.next(2).below(6)
    d = d.next(3)
    targets = edges[1 : EDGE_WORDS * held : EDGE_WORDS]
    for k in range(5):
        at = VERTEX_WORDS * k + IN_COUNT
        vertices[at] = ([targets.count(k)] * 4 + [0, 0, LARGEST, vertices[at]])[d.below(8)]
        d = d.next()
    n, m = min(d.below(600), len(vertices)), min(d.next().below(200), len(edges))
    machine = Machine(vertices[:n], edges[:m], 4 if made < 4 else made - 1, held, steps)
    d = d.next()
    kind, caller, a, b = d.next().below(22), d.next(2).below(9), d.next(3).below(17), d.next(4).below(4)
    caller, a = max(caller - 4, 0), a % 4 if a < 16 else 4
    if repeats:
        row = d.next(3).below(max(machine.held, 1))
        machine.call("edge", caller, *edges[EDGE_WORDS * row : EDGE_WORDS * (row + 1)])
    elif kind == 0:
        machine.call("new", caller, a, b)
    elif kind < 5:
        machine.call("edge", caller, a, b)
    elif kind < 8:
        machine.call("edge", caller, a, caller)
    elif kind < 10:
        machine.call("release", caller, a)
    elif kind < 13:
        machine.call("transfer", caller, a)
    elif kind < 17:
        machine.call("start", a)
    elif kind < 19:
        machine.call("stop", caller)
    else:
        machine.call("yield", caller)


VERTEX_WORD = {"status": 0, "future": FUTURE, "count": IN_COUNT}
EDGE_WORD = {"source": 0, "target": 1}


def run(machine, calls):
    """Calls, and what is altered between them: the tally, or a word of a row, where 9000 to 9999 stand for the largest numbers of a word."""
    for line in calls.strip().split("\n"):
        word, *numbers = line.split()
        numbers = list(map(int, numbers))
        if word == "tally":
            machine.made, machine.held, machine.steps = numbers
        elif word in VERTEX_WORD:
            machine.v[VERTEX_WORDS * numbers[0] + VERTEX_WORD[word]] = written(numbers[1])
        elif word in EDGE_WORD:
            machine.e[EDGE_WORDS * numbers[0] + EDGE_WORD[word]] = written(numbers[1])
        else:
            machine.call(word, *numbers)


def written(number):
    return number if number < 9000 else LARGEST - 9999 + number


def executing_first(row):
    return EXECUTING if row == 0 else NEW


def stop_of_0(status, edges):
    """A stop of vertex 0 on tables of 41 rows, of which 40 are made and held."""
    vertices = [word for row in range(41) for word in [status(row)] + [NEW] * (VERTEX_WORDS - 1)]
    run(Machine(vertices, edges, 40, 40), "stop 0")


print("bare")
run(Machine([77] * (3 * VERTEX_WORDS + 2), [77] * (4 * EDGE_WORDS + 1), 9, 9, 9), """open
start 0
new 0 5 0
new 0 6 1
edge 0 1 2
edge 0 2 1
edge 0 1 1
edge 0 1 2
edge 0 0 1
transfer 0 1
transfer 0 2""")
print("full")
run(Machine([77] * (4 * VERTEX_WORDS + 2), [77] * (3 * EDGE_WORDS + 1)), """open
start 0
new 0 1 0
new 0 2 0
new 0 3 0
new 0 4 0
edge 0 1 3
edge 0 2 3
edge 0 1 2
edge 0 0 1
release 0 1
release 0 1
start 1
start 1
start 2
stop 1
stop 1
start 1
edge 0 1 3
edge 0 0 3
edge 0 0 2
edge 0 3 2
stop 0""")
print("twice")
run(Machine([77] * (4 * VERTEX_WORDS), [77] * (2 * EDGE_WORDS + 1)), """open
start 0
new 0 1 0
new 0 2 0
new 0 3 0
edge 0 1 2
edge 0 1 2
edge 0 2 3
edge 0 1 3
edge 0 2 3
edge 0 1 2
edge 0 1 3
edge 0 3 1
release 0 1
start 1
edge 1 1 2
stop 1
edge 0 2 3
edge 0 1 2
edge 0 0 2
edge 0 0 2
edge 0 0 3""")
print("cycle")
rows = [[status] + [1] * (VERTEX_WORDS - 1) for status in (EXECUTING, NEW, RELEASED, NEW, EXECUTING, FINISHED)]
run(Machine(sum(rows, []), [1, 2, 2, 1, 2, 3, 3, 3, 1, 4, 5, 1, 77, 77], 6, 6, 0), """edge 0 1 2
edge 0 2 1
edge 0 3 3
edge 0 5 1
edge 0 1 1
edge 0 2 2
edge 0 3 1
edge 0 3 2
edge 0 1 4
edge 1 1 2
edge 5 3 3
edge 4 1 2
edge 0 1 3
edge 0 1 3
edge 0 3 3
edge 0 0 3
edge 0 3 1
tally 6 7 9000
edge 0 2 1
tally 5 7 0
edge 0 1 2""")
print("futures")
run(Machine([77] * (6 * VERTEX_WORDS + 2), [77] * EDGE_WORDS), """open
start 0
new 0 8 0
future 0 5
new 0 9 1
future 1 6
future 2 7
release 0 1
start 1
new 1 2 0
future 3 9999
new 0 1 3
new 2 1 0
new 5 1 0
future 0 0
new 0 4 1
new 1 0 0
stop 0
stop 1
open
start 0
new 0 1 1""")
print("yields")
run(Machine([77] * (5 * VERTEX_WORDS + 2), [77] * (4 * EDGE_WORDS + 1)), """open
yield 0
start 0
yield 1
new 0 5 0
new 0 6 0
yield 1
edge 0 0 0
edge 0 1 0
edge 0 2 0
edge 0 1 0
edge 0 0 1
release 0 1
release 0 2
yield 0
yield 0
start 0
start 1
start 2
edge 1 1 2
edge 1 2 0
edge 1 0 1
edge 1 2 1
new 1 7 0
new 1 8 0
edge 1 3 1
edge 1 3 1
edge 2 3 2
edge 2 0 1
transfer 1 3
transfer 1 4
release 1 3
release 1 4
stop 1
start 1
edge 2 3 1
yield 1
stop 2
start 0
start 4
edge 4 1 4
edge 4 3 4
yield 4
start 4
stop 4
start 3
stop 3
start 4
stop 4
start 0
stop 0
edge 0 1 0
yield 0""")
print("counted")
run(Machine([77] * (5 * VERTEX_WORDS + 2), [77] * (4 * EDGE_WORDS + 1)), """open
start 0
new 0 1 0
new 0 2 0
new 0 3 0
edge 0 1 3
edge 0 2 3
edge 0 2 3
edge 0 0 3
edge 0 1 2
release 0 1
release 0 2
release 0 3
start 3
start 2
start 1
stop 1
edge 0 1 3
edge 0 1 2
count 4 5
new 0 4 0
transfer 0 4
release 0 4
stop 0
start 3
start 4
stop 4
start 3
start 2
stop 2
start 3
stop 3
open
start 0""")
print("counts altered")
run(Machine([77] * (4 * VERTEX_WORDS + 2), [77] * (3 * EDGE_WORDS + 1)), """open
start 0
new 0 1 0
new 0 2 0
new 0 3 0
edge 0 0 1
release 0 1
release 0 2
count 1 0
start 1
count 2 5
start 2
count 3 9998
edge 0 0 3
edge 0 2 3
stop 0
count 2 0
start 2
tally 4 3 0
source 1 2
target 1 3
source 2 1
target 2 3
count 3 3
stop 2
status 2 3
tally 4 3 0
source 1 2
target 1 3
source 2 2
target 2 3
count 3 1
stop 2
status 3 2
start 3""")
print("bad elsewhere")
run(Machine([77] * (4 * VERTEX_WORDS + 2), [77] * (EDGE_WORDS + 1)), """open
start 0
new 0 1 0
new 0 2 0
new 0 3 0
edge 0 2 3
release 0 1
release 0 3
status 2 0
start 1
new 0 5 0
edge 0 1 2
edge 0 2 3
release 0 2
transfer 0 2
stop 0
yield 0
start 0
start 2
start 3
start 4
status 1 2
status 2 5
start 1
stop 0
start 2
status 1 2
status 2 1
source 0 4
start 1
new 0 5 0
edge 0 1 2
edge 0 2 3
release 0 2
transfer 0 2
stop 0
yield 0
start 0
start 2
start 3
start 4
status 1 2
source 0 2
target 0 9999
start 1
stop 0
status 1 2
tally 4 2 0
start 1
start 4
stop 0
tally 5 1 0
start 1
start 5
stop 0
target 0 3
tally 4 1 9000
start 1
stop 0""")
print("short")
run(Machine([2] * (VERTEX_WORDS - 1), [2] * (EDGE_WORDS - 1)), """open
start 0
tally 1 0 0
start 0""")
print("long")
run(Machine([3] * (VERTEX_TABLE + 22), [1] * (EDGE_TABLE + 7), 1023, 1024, 7), """new 0 8 9
edge 0 0 2
new 0 8 9
stop 0
tally 1025 0 0
start 0
tally 3 1025 0
start 0
open""")
print("path")
ends = [(i // EDGE_WORDS + i % EDGE_WORDS + 1) % USABLE for i in range(EDGE_TABLE)]
run(Machine([3] + [1] * (VERTEX_TABLE - 1), ends, 1024, 1022, 0), """edge 0 1023 1
edge 0 1 1023
edge 0 0 1
edge 0 1 1023
transfer 0 1023
transfer 0 1024""")
print("gaps")
for stretch in range(1, 42):
    for sources in (0, 1), (1, 0):
        edges = [(sources[row // stretch % 2], row % 40) for row in range(41)]
        stop_of_0(executing_first, [end for edge in edges for end in edge])
print("bad rows")
for bad in range(41):
    sound = [1] * (41 * EDGE_WORDS)
    stop_of_0(lambda row: (0, 5)[row % 2] if row == bad else executing_first(row), sound)
    for word in EDGE_WORDS * bad, EDGE_WORDS * bad + 1:
        stop_of_0(executing_first, sound[:word] + [40] + sound[word + 1 :])
print("drawn")
for seed in range(600):
    drawn(seed, False)
print("repeated")
for seed in range(600, 1000):
    drawn(seed, True)
