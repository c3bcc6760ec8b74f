#!/usr/bin/env python3
"""The lines that the program `engine_cases` must write, from a model of docs/ENGINE.md's loading, steps and runs that
shares no code with the engine. Of the drawn programs it is checked, in either edition, that each order takes all steps, and
each job once and behind those ahead of it.

    tests/engine_cases.py > crates/engine_cases/stdout

The program is parsed to nested lists, vertices and edges are objects, and an item is a generator of its commands; rows of words are
made only to write their sums. A command is a generator, too: it yields its answer when no refusal is due, and is resumed to do the
rest."""

from functools import lru_cache

from cases import next_state, total
from rows import EDGE_WORDS, USABLE, VERTEX_WORDS

NEW, RELEASED, EXECUTING, FINISHED = 1, 2, 3, 4
FIRST, SECOND = 1, 2  # editions
NUMBERED = "job", "force"
# of each kind: vertices, edge rows and steps; and of a fork in the second edition
COSTS = {
    "end": (0, 0, 0),
    "job": (0, 0, 1),
    "async": (1, 1, 5),
    "finish": (2, 1, 10),
    "fork": (3, 2, 15),
    "future": (2, 1, 9),
    "force": (1, 1, 6),
}
SECOND_FORK = (2, 2, 12)


class Refused(Exception):
    def __str__(self):
        return "refused {} {}".format(*self.args, *[0] * (2 - len(self.args)))


def need(test, *refusal):
    if not test:
        raise Refused(*refusal)


class Text:
    """The bytes of a program, and how far they are read."""

    def __init__(self, data):
        self.data, self.at = data, 0

    def byte(self):
        need(self.at < len(self.data), 5, len(self.data))
        self.at += 1
        return self.data[self.at - 1]

    def number(self):
        first, groups = self.at, []
        while not groups or groups[-1] > 127:
            need(len(groups) < 5, 2, first)
            groups.append(self.byte())
        need(len(groups) == 1 or groups[-1], 2, first)
        value = sum(group % 128 * 128**i for i, group in enumerate(groups))
        need(value < 2**32, 7, first)
        return value

    def body(self, level, futures):
        """[place, items.., end], where an item is [kind, place, past, contents..]. `futures` are the bodies of the futures open there,
        the nearest first; a force's contents are its number and its future's body."""
        body = [self.at]
        while True:
            place = self.at
            byte = self.byte()
            if byte == 0:
                return body + [["end", place, place]]
            need(byte <= 6, 3, place)
            kind = ["job", "async", "finish", "fork", "future", "force"][byte - 1]
            if kind in NUMBERED:
                contents = [self.number()]
            else:
                need(level < 32, 4, place)
                contents = [self.body(level + 1, futures) for _ in range(1 + (kind == "fork"))]
            if kind == "force":
                need(contents[0] < len(futures), 43, place + 1)
                contents.append(futures[contents[0]])
            if kind == "future":
                futures = contents + futures
            body.append([kind, place, self.at] + contents)


@lru_cache
def parse(data, edition):
    need(0 < len(data) <= 4096, 1)
    text = Text(data)
    main = text.body(1, [])
    need(text.at == len(data), 6, text.at)
    need(cost(main, edition)[0] <= 1022, 8)
    return main


@lru_cache
def starting(data, edition):
    """The items and end bytes of a program, by their places."""
    return {item[1]: item for item in items(parse(data, edition))}


def items(body):
    for item in body[1:]:
        yield item
        for inner in bodies(item):
            yield from items(inner)


def bodies(item):
    return [] if item[0] in NUMBERED else item[3:]


def cost(body, edition):
    """The vertices, edge rows and steps that a body comes to, with all that is in it."""
    costs = {**COSTS, "fork": SECOND_FORK} if edition == SECOND else COSTS
    return [sum(numbers) for numbers in zip(*[costs[item[0]] for item in items(body)])]


def job(past, last, me, own, number):
    yield "job", number


def end(past, last, me, own):
    yield ("stop",)


def one_async(past, last, me, own, body):
    yield "new", body[0], own.scope
    yield "edge", own.made[0], own.scope
    yield "release", own.made[0]


def finish(past, last, me, own, body):
    yield "new", past, own.scope
    yield "new", body[0], own.made[0]
    rest, inner = own.made[:2]
    yield "edge", inner, rest
    yield "transfer", rest
    yield "release", rest
    yield "release", inner


def fork(past, last, me, own, left, right):
    for place in left[0], right[0], past:
        yield "new", place, own.scope
    yield "edge", own.made[0], own.made[2]
    yield "edge", own.made[1], own.made[2]
    yield "transfer", own.made[2]
    for which in 2, 0, 1:
        yield "release", own.made[which]


def second_fork(past, last, me, own, left, right):
    """ "newTd t1, newTd t2, newEdge of each to the forking vertex, release t1, release t2, yield" """
    for place in left[0], right[0]:
        yield "new", place, own.scope
    branches = own.made[:2]
    for branch in branches:
        yield "edge", branch, me
    for branch in branches:
        yield "release", branch
    yield ("yields",)


def future(past, last, me, own, body):
    yield "new", last, own.scope
    yield "new", body[0], own.made[0]
    whole, inner = own.made[:2]
    yield "edge", inner, whole
    yield "release", whole
    yield "release", inner


def force(past, last, me, own, number, body):
    yield "new", past, own.scope
    yield "edge_from_future", number, own.made[0]
    yield "transfer", own.made[0]
    yield "release", own.made[0]


COMMANDS = {"job": job, "end": end, "async": one_async, "finish": finish, "fork": fork, "future": future, "force": force}
GOES_PAST = "job", "async", "future"  # and a fork in the second edition; the others go to the last byte


class Vertex:
    def __init__(self, status, place, scope, phase=0, first=0, second=0, third=0, future=0, in_count=0):
        self.status, self.place, self.scope, self.phase = status, place, scope, phase
        self.made, self.future, self.in_count = [first, second, third], future, in_count

    def words(self):
        return [self.status, self.place, self.scope, self.phase] + self.made + [self.future, self.in_count]

    def one_edge(self, more):
        """One edge more into it, or one less. "The word stops at 0 and at its largest number." """
        self.in_count = min(max(self.in_count + more, 0), 2**32 - 1)


class Edge:
    def __init__(self, source, target):
        self.source, self.target = source, target

    def words(self):
        return [self.source, self.target]


class Shop:
    """The tables, the tally, and the edition of the next call. `spare` words are those past the rows in use."""

    def __init__(self, data, edition, vertex_words, edge_words, made, held, steps):
        self.edition = edition
        self.data, self.vertex_rows, self.edge_rows = data, len(vertex_words) // VERTEX_WORDS, len(edge_words) // EDGE_WORDS
        self.first_words, self.tally = (vertex_words, edge_words), (made, held, steps)
        self.fits = made <= self.vertex_rows and held <= self.edge_rows
        rows = [vertex_words[VERTEX_WORDS * k : VERTEX_WORDS * (k + 1)] for k in range(self.vertex_rows)]
        ends = [edge_words[EDGE_WORDS * k : EDGE_WORDS * (k + 1)] for k in range(self.edge_rows)]
        if self.fits:
            self.vertices = [Vertex(*row) for row in rows[:made]]
            self.edges = [Edge(*pair) for pair in ends[:held]]
            self.steps = steps
            self.spare = [sum(rows[made:], []), sum(ends[held:], [])]
        self.tails = vertex_words[VERTEX_WORDS * self.vertex_rows :], edge_words[EDGE_WORDS * self.edge_rows :]

    def load(self):
        vertices, edges, _ = cost(parse(self.data, self.edition), self.edition)
        need(2 + vertices <= self.vertex_rows, 10)
        need(1 + edges <= self.edge_rows, 11)
        self.vertices = [Vertex(RELEASED, 0, 1), Vertex(RELEASED, len(self.data) - 1, 1, in_count=1)]
        self.edges, self.steps, self.fits = [Edge(0, 1)], 0, True
        self.spare = [[0] * VERTEX_WORDS * (self.vertex_rows - 2), [0] * EDGE_WORDS * (self.edge_rows - 1)]
        return "loaded"

    def words(self):
        if not self.fits:
            return self.first_words
        vertices = [word for vertex in self.vertices for word in vertex.words()] + self.spare[0]
        edges = [word for edge in self.edges for word in edge.words()] + self.spare[1]
        return vertices + self.tails[0], edges + self.tails[1]

    def numbers(self):
        return (len(self.vertices), len(self.edges), self.steps) if self.fits else self.tally

    def need_tally(self):
        need(self.fits and self.steps < 8192, 12)

    def need_sound(self):
        self.need_tally()
        need(all(vertex.status in (NEW, RELEASED, EXECUTING, FINISHED) for vertex in self.vertices), 12)
        need(all(max(edge.source, edge.target) < len(self.vertices) for edge in self.edges), 12)

    def named(self, number):
        need(number < len(self.vertices), 20)
        return self.vertices[number]

    def behind(self, number):
        """All vertices that a path of one or more edges leads to."""
        found = set()
        grown = {number}
        while grown:
            grown = {edge.target for edge in self.edges if edge.source in grown} - found
            found |= grown
        return found

    def job(self, own, me, number):
        yield f"job {number} {own.place}"

    def new(self, own, me, place, scope):
        need(len(self.vertices) < self.vertex_rows, 31)
        yield f"new {len(self.vertices)}"
        own.made[own.phase] = len(self.vertices)
        self.vertices.append(Vertex(NEW, place, scope, future=own.future))
        del self.spare[0][:VERTEX_WORDS]

    def edge(self, own, me, a, b):
        """ "33 spares the caller" """
        source, target = self.named(a), self.named(b)
        need(target.status in (NEW, RELEASED) or b == me, 33)
        held = any((edge.source, edge.target) == (a, b) for edge in self.edges)
        if source.status == FINISHED or held:
            yield f"edge {a} {b}"
            return
        need(a not in self.behind(b) | {b}, 35)
        need(len(self.edges) < self.edge_rows, 32)
        yield f"edge {a} {b}"
        self.edges.append(Edge(a, b))
        target.one_edge(1)
        del self.spare[1][:EDGE_WORDS]

    def edge_from_future(self, own, me, number, target):
        """newEdge from an open future. Its number is how many are nearer: the word of each names the next one out."""
        at = own
        for _ in range(number + 1):
            found = at.future
            need(0 < found < len(self.vertices), 13)
            at = self.vertices[found]
        return self.edge(own, me, found, target)

    def release(self, own, me, number):
        vertex = self.named(number)
        need(vertex.status == NEW, 36)
        yield f"release {number}"
        vertex.status = RELEASED

    def transfer(self, own, me, number):
        need(self.named(number).status == NEW, 37)
        need(not [1 for edge in self.edges if edge.source == number], 38)
        need(number not in self.behind(me), 35)
        yield f"transfer {number}"
        for edge in self.edges:
            if edge.source == me:
                edge.source = number

    def yields(self, own, me):
        """ "yield, which turns the executing caller released" """
        yield "yield"
        own.status = RELEASED

    def stop(self, own, me):
        yield "stop"
        own.status = FINISHED
        kept = [edge for edge in self.edges if edge.source != me]
        for edge in self.edges:
            if edge.source == me:
                self.vertices[edge.target].one_edge(-1)
        self.spare[1] = [0, 0] * (len(self.edges) - len(kept)) + self.spare[1]
        self.edges = kept

    def start(self, own):
        """ "For .. a step of a released vertex, 12 then looks at the tally and that vertex's row only; on altered tables 21 follows the
        word." """
        need(own.in_count == 0, 21)
        yield "start"
        own.status = EXECUTING

    def taken(self, me):
        """A step, as a command is: it yields its answer, and does the rest when it is resumed."""
        self.need_tally()
        if me < len(self.vertices) and self.vertices[me].status == RELEASED:
            yield from self.start(self.vertices[me])
        else:
            self.need_sound()
            own = self.named(me)
            need(own.status != NEW, 22)
            need(own.status != FINISHED, 23)
            yield from self.command(own, me)
        self.steps += 1

    def step(self, me):
        (answer,) = self.taken(me)
        return answer

    def command(self, own, me):
        try:
            kind, place, past, *contents = starting(self.data, self.edition)[own.place]
        except (Refused, KeyError):
            raise Refused(13)
        last = len(self.data) - 1
        yielding = kind == "fork" and self.edition == SECOND
        commands = list((second_fork if yielding else COMMANDS[kind])(past, last, me, own, *contents))
        need(own.phase < len(commands), 13)
        word, *numbers = commands[own.phase]
        yield from getattr(self, word)(own, me, *numbers)
        if word == "stop":
            return
        own.phase += 1
        if own.phase == len(commands):
            if kind == "future":
                own.future = own.made[0]
            own.phase, own.made = 0, [0, 0, 0]
            own.place = past if yielding or kind in GOES_PAST else last

    def counted(self):
        """Whether the word of each vertex is the number of edges into it."""
        targets = [edge.target for edge in self.edges]
        return all(vertex.in_count == targets.count(me) for me, vertex in enumerate(self.vertices))

    def can(self, me):
        """Whether a step would be accepted: one that is not resumed changes nothing."""
        return self.vertices[me].status in (RELEASED, EXECUTING) and not isinstance(attempt(next, self.taken(me)), Refused)

    def lowest(self):
        self.need_sound()
        return next((me for me in range(len(self.vertices)) if self.can(me)), None)

    def run(self, budget):
        """The ending, the last step and the steps taken."""
        self.need_sound()
        last, taken = "none", 0
        while True:
            if all(vertex.status == FINISHED for vertex in self.vertices):
                return "done", last, taken
            me = self.lowest() if self.steps < 8192 else None
            if me is None:
                return "stuck", last, taken
            if taken == budget:
                return "spent", last, taken
            last, taken = self.step(me), taken + 1


def left(shop):
    return "| {} {} {} | {} {}".format(*shop.numbers(), *map(total, shop.words()))


def attempt(call, *args):
    try:
        return call(*args)
    except Refused as refusal:
        return refusal


def ran(shop, budget):
    answer = attempt(shop.run, budget)
    if isinstance(answer, Refused):
        answer = answer, "none", 0
    print("{}, last {}, taken {}".format(*answer), left(shop))


def looked(shop):
    lowest = attempt(shop.lowest)
    print("lowest", "none" if lowest is None else lowest)


def drawn(length, seed):
    words = []
    for k in range(length):
        seed = next_state(seed)
        draw = seed // 4096 % 40
        words.append((draw // 2 % 4 + 1 if draw % 2 else 3) if k % VERTEX_WORDS == 0 else draw % 5)
    return words


def run(text, edition, vertex_rows, edge_rows, seed):
    print(" ".join([f"edition {edition} program"] + text.split()).lower())
    words = drawn(VERTEX_WORDS * vertex_rows + 3, seed), drawn(EDGE_WORDS * edge_rows + 1, seed)
    shop = Shop(bytes.fromhex(text), edition, *words, 5, 6, 8172)
    print(attempt(shop.load), left(shop))
    looked(shop)
    ran(shop, 3)
    turned(shop)


def turned(shop):
    counts, mixed = {}, 0
    for turn in range(1200):
        vertex, number = (turn * 5 + turn // 9) % (shop.numbers()[0] + 2), 0
        try:
            print(vertex, shop.step(vertex), left(shop))
        except Refused as refusal:
            number = refusal.args[0]
            mixed = (mixed * 31 + number * 2**32 % 1000003 + vertex * 64 + sum(map(total, shop.words())) + sum(shop.numbers())) % 1000003
        counts[number] = counts.get(number, 0) + 1
    print("counts", *[f"{number}:{counts[number]}" for number in sorted(counts)], "sum", mixed, left(shop))
    ran(shop, 60)


def loaded(program, edition, vertex_rows, edge_rows, budget):
    shop = Shop(program, edition, [0] * VERTEX_WORDS * vertex_rows, [0] * EDGE_WORDS * edge_rows, 0, 0, 0)
    print(f"edition {edition} {attempt(shop.load)}", left(shop))
    ran(shop, budget)
    return shop


def called(shop, stepped):
    """A look, a step of each of these vertices, a look and a run."""
    looked(shop)
    each_stepped(shop, stepped)
    looked(shop)
    ran(shop, 60)


def each_stepped(shop, stepped):
    for vertex in stepped:
        print(vertex, attempt(shop.step, vertex), left(shop))


ASYNC = bytes.fromhex("02 01 01 00 01 02 00")
FORK = bytes.fromhex("04 01 01 00 01 02 00 01 03 00")
# how many items, the byte of each, how far apart the next one is, the length of all, and the edition; 8,192 steps are a run to the end
REPEATED = [
    ("asyncs", 31, 2, 1, 63, FIRST, 8192),
    ("asyncs", 32, 2, 1, 65, SECOND, 8192),
    ("asyncs", 1022, 2, 2, 2045, FIRST, 8192),
    ("asyncs", 1023, 2, 2, 2047, SECOND, 8192),
    ("forks", 340, 4, 3, 1021, FIRST, 8192),
    ("forks", 341, 4, 3, 1024, FIRST, 8192),
    ("forks", 341, 4, 3, 1024, SECOND, 3),
    ("forks", 511, 4, 3, 1534, SECOND, 8192),
    ("forks", 512, 4, 3, 1537, SECOND, 8192),
]
# programs with a force of number 0 and of number 1: futures are vertices 2 and, in the second, 4
FORCED, FORCED_FURTHER = "05 00 06 00 00", "05 00 05 00 06 01 00"
# a program, the steps of a run, the vertex whose word is altered then, and the word
ALTERED_FUTURES = [
    (FORCED, 1, 0, 9),
    (FORCED, 5, 0, 9),
    (FORCED, 6, 0, 0),
    (FORCED, 7, 0, 0),
    (FORCED, 7, 0, 1),
    (FORCED, 7, 0, 3),
    (FORCED, 7, 0, 4),
    (FORCED, 7, 0, 5),
    (FORCED, 7, 0, 4294967295),
    (FORCED, 8, 0, 0),
    (FORCED_FURTHER, 12, 0, 0),
    (FORCED_FURTHER, 12, 0, 1),
    (FORCED_FURTHER, 12, 0, 6),
    (FORCED_FURTHER, 12, 0, 7),
    (FORCED_FURTHER, 12, 4, 0),
    (FORCED_FURTHER, 12, 4, 1),
    (FORCED_FURTHER, 12, 4, 4),
    (FORCED_FURTHER, 12, 4, 7),
    (FORCED_FURTHER, 12, 2, 9),
    (FORCED_FURTHER, 13, 4, 0),
]


def repeated(count, byte, apart, length):
    program = bytearray(length)
    program[: apart * count : apart] = bytes([byte]) * count
    return bytes(program)


def examples():
    for name, count, byte, apart, length, edition, budget in REPEATED:
        print(f"{name} {count} ", end="")
        loaded(repeated(count, byte, apart, length), edition, USABLE, USABLE, budget)
    print("altered: ", end="")
    shop = loaded(bytes([1, 1, 0]), FIRST, 2, 1, 1)
    shop.vertices[0].place = 1
    turned(shop)
    for name, edge_rows, written in ("held already: ", 2, [(2, 1)]), ("held with a cycle: ", 4, [(2, 1), (1, 2)]):
        print(name, end="")
        shop = loaded(ASYNC, FIRST, 3, edge_rows, 2)
        for ends in written:
            shop.edges.append(Edge(*ends))
            del shop.spare[1][:EDGE_WORDS]
        turned(shop)
    for program, steps, vertex, word in ALTERED_FUTURES:
        print(f"after {steps} steps vertex {vertex} names {word}: ", end="")
        shop = loaded(bytes.fromhex(program), FIRST, 8, 8, steps)
        shop.vertices[vertex].future = word
        turned(shop)


# the vertices of a fork in the second edition, in some orders
ORDERS = [
    [0] * 9 + [2, 2, 0, 2, 0, 3, 3, 0, 3, 0, 0, 0, 1, 1],
    [0] * 6 + [2, 2, 2, 0, 3, 3, 3, 0, 0, 0, 0, 1, 1],
    [0] * 7 + [3, 3, 3, 0, 0, 2, 2, 2, 0, 0, 0, 1, 1],
]


def editions():
    """Orders of a fork in the second edition, and calls of the other edition."""
    for stepped in ORDERS:
        print("in order: ", end="")
        each_stepped(loaded(FORK, SECOND, 4, 3, 0), stepped)
    for steps in range(11):
        for edition in FIRST, SECOND:
            print(f"after {steps} steps the other: ", end="")
            shop = loaded(FORK, edition, 5, 3, steps)
            shop.edition = FIRST + SECOND - edition
            called(shop, [2, 1, 0, 3])
    print("too many forks for the other: ", end="")
    shop = loaded(repeated(341, 4, 3, 1024), SECOND, USABLE, USABLE, 0)
    shop.edition = FIRST
    called(shop, [0, 0])


LARGEST = 2**32 - 1
# a program, its edition, steps of a run, and what is altered then: a vertex's or an edge's word, by its number and name, or the tally
MOMENTS = [
    (ASYNC, FIRST, 4, "vertex", 1, "status", 0),
    (ASYNC, FIRST, 4, "vertex", 1, "status", 5),
    (ASYNC, FIRST, 4, "vertex", 0, "status", LARGEST),
    (ASYNC, FIRST, 4, "vertex", 2, "status", 5),
    (ASYNC, FIRST, 2, "vertex", 1, "status", EXECUTING),
    (FORK, SECOND, 3, "vertex", 2, "status", FINISHED),
    (FORK, SECOND, 7, "vertex", 0, "status", RELEASED),
    (FORK, SECOND, 8, "vertex", 0, "status", EXECUTING),
    (FORK, SECOND, 8, "vertex", 0, "status", NEW),
    (ASYNC, FIRST, 4, "edge", 1, "source", 3),
    (ASYNC, FIRST, 4, "edge", 0, "target", 3),
    (ASYNC, FIRST, 4, "edge", 0, "target", LARGEST),
    (FORK, SECOND, 3, "edge", 0, "target", 0),
    (FORK, SECOND, 4, "edge", 1, "source", 3),
    (FORK, SECOND, 4, "edge", 0, "target", 3),
    (ASYNC, FIRST, 4, "tally", 3, 2, 8192),
    (ASYNC, FIRST, 4, "tally", 3, 2, 8191),
    (ASYNC, FIRST, 4, "tally", 6, 2, 4),
    (ASYNC, FIRST, 4, "tally", 3, 4, 4),
    (ASYNC, FIRST, 4, "tally", 2, 2, 4),
    (FORK, SECOND, 7, "tally", 4, 3, 8191),
    (ASYNC, FIRST, 4, "vertex", 2, "in_count", 5),
    (ASYNC, FIRST, 4, "vertex", 1, "in_count", 0),
    (ASYNC, FIRST, 2, "vertex", 1, "in_count", LARGEST),
    (ASYNC, FIRST, 2, "vertex", 1, "in_count", LARGEST - 1),
    (ASYNC, FIRST, 6, "vertex", 2, "in_count", 5),
    (ASYNC, FIRST, 6, "vertex", 1, "in_count", 0),
    (ASYNC, FIRST, 6, "vertex", 1, "in_count", LARGEST),
    (FORK, SECOND, 3, "vertex", 0, "in_count", LARGEST),
    (FORK, SECOND, 3, "vertex", 0, "in_count", LARGEST - 1),
    (FORK, SECOND, 5, "vertex", 0, "in_count", 0),
    (FORK, SECOND, 8, "vertex", 0, "in_count", 0),
    (FORK, SECOND, 8, "vertex", 0, "in_count", 1),
    (FORK, SECOND, 8, "vertex", 0, "in_count", 5),
    (FORK, FIRST, 9, "vertex", 0, "phase", 9),
    (FORK, SECOND, 1, "vertex", 0, "phase", 6),
    (FORK, SECOND, 3, "vertex", 0, "phase", 6),
    (FORK, SECOND, 7, "vertex", 0, "phase", 5),
    (FORK, SECOND, 7, "vertex", 0, "phase", 7),
    (FORK, SECOND, 7, "vertex", 0, "phase", 8),
    (FORK, SECOND, 7, "vertex", 0, "phase", LARGEST),
    (ASYNC, FIRST, 2, "vertex", 0, "scope", 0),
    (ASYNC, SECOND, 2, "vertex", 0, "scope", 0),
    (ASYNC, FIRST, 2, "vertex", 0, "scope", 2),
    (FORK, SECOND, 3, "vertex", 0, "first", 0),
    (FORK, SECOND, 3, "vertex", 0, "first", 1),
    (FORK, SECOND, 3, "vertex", 0, "first", 3),
    (FORK, SECOND, 3, "vertex", 0, "first", 4),
]
WORDS = {"status": 0, "scope": 2, "phase": 3, "first": 4, "in_count": 8, "source": 0, "target": 1}


def moments():
    for program, edition, steps, what, a, b, c in MOMENTS:
        print(f"after {steps} steps {what} {a} {WORDS.get(b, b)} {c}: ", end="")
        shop = loaded(program, edition, 5, 3, steps)
        if what == "tally":
            shop = Shop(program, edition, *shop.words(), a, b, c)
        else:
            make, rows = {"vertex": (Vertex, shop.vertices), "edge": (Edge, shop.edges)}[what]
            words = rows[a].words()
            words[WORDS[b]] = c
            rows[a] = make(*words)
        called(shop, [2, 1, 0, 3])


def draw_program(seed, room):
    program, futures = bytearray(), [0]  # of each body that is not closed, how many futures are open in it
    while futures:
        seed = next_state(seed)
        kind = "00000011112234455666"[seed // 4096 % 20]
        here, left = futures[-1], room - len(program) - len(futures)
        if kind in "2345" and len(futures) > 12 or kind == "6" and not here:
            kind = "1"
        if kind == "0" and len(futures) == 1 and left >= 40:
            kind = "3"
        if left < 6:
            kind = "0"
        program.append(int(kind))
        if kind == "0":
            futures.pop()
        if kind == "1":
            program += number_bytes(drawn_number(seed))
        if kind == "5":
            futures[-1] += 1
        if kind in "2345":
            futures += [here] * (1 + (kind == "4"))
        if kind == "6":
            program += number_bytes(seed // 65536 % here)
    return bytes(program)


def drawn_number(seed):
    number = seed * 48271 if seed // 524288 % 8 else -1
    return number % 2 ** (7, 14, 21, 28, 32)[seed // 65536 % 5]


def number_bytes(number):
    groups = [number >> shift & 127 for shift in range(0, max(number.bit_length(), 1), 7)]
    return bytes([128 + group for group in groups[:-1]] + groups[-1:])


def ways(body, reading, way=()):
    """Each job's offset, with the bodies and items on the way down to it: to its own place, and where forces are read, to the places that
    it has in their readings, too. "A force is read as a finish around its future's body, forces inside it likewise." """
    for index, item in enumerate(body[1:]):
        kind = "finish" if item[0] == "force" else item[0]
        here = way + ((body[0], index, kind),)
        if kind == "job":
            yield item[1], here
        for inner in item[4:] if item[0] == "force" and reading else bodies(item):
            yield from ways(inner, reading, here)


def is_ahead(p, q):
    """Of the ways to two jobs. "A future on the way counts as an async that no finish closes." """
    depth = next(d for d, (a, b) in enumerate(zip(p, q)) if a != b)
    (body, index, _), (other, later, _) = p[depth], q[depth]
    if body != other or later < index:
        return False
    kinds = [kind for _, _, kind in p[depth:]]
    return "future" not in kinds and ("async" not in kinds or "finish" in kinds[: kinds.index("async")])


def ordered(main):
    """The pairs of jobs the first of which is ahead of the second: "p is ahead of q if the old rule says so with q at its own place and p
    at its own or in such a reading". Editions share it."""
    own = dict(ways(main, False))
    return {(p, q) for p, way in ways(main, True) for q in own if p != q and is_ahead(way, own[q])}


def check(shop, jobs):
    main = parse(shop.data, shop.edition)
    assert shop.steps == needed(shop.data, shop.edition)
    assert sorted(jobs) == sorted(offset for offset, _ in ways(main, False))
    for p, q in ordered(main):
        assert jobs.index(p) < jobs.index(q)


@lru_cache
def needed(program, edition):
    return 4 + cost(parse(program, edition), edition)[2]


def turns(shop, order, seed):
    jobs, refused, counted, loaded_by = [], 0, 0, shop.edition
    for turn in range(30000 if order < 4 else 600):
        if order < 4 and shop.steps == needed(shop.data, shop.edition):
            break
        seed, made = next_state(seed), len(shop.vertices)
        vertex = [None, turn % (made + 2), made + 1 - turn % (made + 2)][order] if order < 3 else seed // 4096 % (made + 2)
        if order == 4:
            shop.edition = edition_of(loaded_by + (seed // 65536 % 8 == 0))
        answer = attempt(shop.step, shop.lowest() if order == 0 else vertex)
        if isinstance(answer, Refused):
            refused += 1
            continue
        counted += shop.counted()
        if answer.startswith("job"):
            _, number, offset = answer.split()
            jobs.append((int(offset), int(number)))
    assert counted == shop.steps
    shop.edition = loaded_by
    print(f"order {order} jobs", *[f"{offset}:{number}" for offset, number in jobs], "refused", refused, "counted", counted, left(shop))
    if order < 4:
        check(shop, [offset for offset, _ in jobs])


def edition_of(number):
    return FIRST if number % 2 else SECOND


def soak():
    for k in range(30):
        seed = k * 7919 + 11
        program, edition = draw_program(seed, 160), edition_of(next_state(seed) // 1048576)
        print(f"edition {edition} program", program.hex(" "))
        for order in range(6):
            shop = Shop(program, edition, [0] * 300 * VERTEX_WORDS, [0] * 300 * EDGE_WORDS, 0, 0, 0)
            shop.load()
            if order < 5:
                turns(shop, order, seed)
                continue
            print("order 5 runs")
            counted = 0
            for turn in range(300):
                ran(shop, turn * 5 % 17)
                counted += shop.counted()
                if shop.steps == needed(program, edition):
                    break
            assert counted == turn + 1
            print("counted", counted)


# bytes | vertex rows, edge rows, tables that it is tried on, and the edition on the first of them; on the next it is the other
PROGRAMS = """
00 | 40 20 1 1
01 00 00 | 40 20 1 2
02 01 01 00 01 02 00 | 40 20 1 1
04 01 01 00 01 02 00 01 03 00 | 40 20 2 1
04 01 01 00 01 02 00 01 03 00 | 4 3 2 1
04 01 01 00 01 02 00 01 03 00 | 5 2 2 1
04 01 01 00 01 02 00 01 03 00 | 3 3 1 2
03 02 01 05 00 00 01 06 00 | 40 20 1 1
04 02 00 03 04 01 7F 00 00 00 00 01 80 01 02 04 00 00 00 00 | 40 20 1 1
04 02 00 03 04 01 7F 00 00 00 00 01 80 01 02 04 00 00 00 00 00 | 40 20 2 1
04 02 00 03 04 01 7F 00 00 00 00 01 80 01 02 04 00 00 00 00 00 | 15 10 1 1
04 02 00 03 04 01 7F 00 00 00 00 01 80 01 02 04 00 00 00 00 00 | 12 10 2 1
04 02 00 03 04 01 7F 00 00 00 00 01 80 01 02 04 00 00 00 00 00 | 11 10 1 2
04 02 00 03 04 01 7F 00 00 00 00 01 80 01 02 04 00 00 00 00 00 | 15 9 30 1
04 02 00 03 04 01 7F 00 00 00 00 01 80 01 02 04 00 00 00 00 00 | 7 8 30 1
02 02 02 01 81 02 00 00 03 02 00 00 00 00 | 40 20 1 2
05 | 40 20 1 1
06 | 40 20 1 2
07 | 40 20 1 1
06 00 | 40 20 1 2
05 00 06 01 00 | 40 20 1 1
05 00 06 01 00 | 5 6 6 1
05 00 06 00 00 | 40 20 1 1
05 00 06 00 00 | 5 3 1 2
05 00 06 00 00 | 4 3 1 1
05 00 06 00 00 | 5 2 1 2
05 01 01 00 01 02 00 | 40 20 1 1
05 01 01 00 01 02 06 00 01 03 00 | 40 20 1 2
05 02 01 01 00 01 02 00 05 06 00 01 03 00 05 01 04 00 06 01 01 05 06 02 01 06 00 | 40 20 1 1
05 01 01 00 03 02 06 00 01 02 00 05 01 03 00 06 00 00 04 06 00 00 01 04 00 01 05 00 | 15 10 2 1
04 02 01 01 00 04 01 02 00 01 03 00 00 03 02 01 04 00 00 01 05 00 05 01 06 00 04 06 00 01 07 00 05 00 06 00 06 01 00 01 08 00 | 22 15 1 1
04 02 01 01 00 04 01 02 00 01 03 00 00 03 02 01 04 00 00 01 05 00 05 01 06 00 04 06 00 01 07 00 05 00 06 00 06 01 00 01 08 00 | 19 15 2 1
03 00 | 40 20 1 1
| 40 20 1 2
00 00 | 5 6 2 1
01 00 00 | 1 20 1 1
01 00 00 | 2 0 1 2
02 04 00 03 00 00 00 00 | 6 7 30 1
03 02 00 02 04 00 00 00 00 00 | 6 7 30 1
04 03 02 00 00 03 00 00 00 00 | 8 6 30 1
01 02 03 00 04 00 00 00 | 5 8 30 1
05 00 06 00 06 00 06 00 00 | 6 7 30 1
05 00 05 00 06 01 06 00 00 | 6 7 30 1
05 00 05 00 06 01 04 00 00 06 00 00 | 9 8 30 1
"""



def main():
    for line in PROGRAMS.strip().splitlines():
        text, lent = line.split("|")
        vertex_rows, edge_rows, tables, edition = map(int, lent.split())
        for seed in range(tables):
            run(text.strip(), edition_of(edition + seed), vertex_rows, edge_rows, seed)
    examples()
    editions()
    moments()
    soak()


if __name__ == "__main__":
    main()
