#!/usr/bin/env python3
"""The lines that the program `lister_cases` must write, and those of `lister` and `second_lister`, which read a program, from a model of
docs/ENGINE.md that shares no code with the lister.

    tests/lister_cases.py > crates/lister_cases/stdout
    tests/lister_cases.py 1 < crates/lister/stdin > crates/lister/stdout
    tests/lister_cases.py 2 < crates/second_lister/stdin > crates/second_lister/stdout

A vertex is a generator of its steps: it does a command to the graph and yields the command's text. It holds the list of the futures
open to it, where the engine follows words from row to row."""

import sys

FIRST_EDITION = """
07
05
06
06 00
05 00 06 01 00
05 06 00 00 00
06 80 80 80 80 10 00
05 00 06 00 00
05 01 01 00 01 02 00
05 01 01 00 01 02 06 00 01 03 00
05 02 01 01 00 01 02 00 05 06 00 01 03 00 05 01 04 00 06 01 01 05 06 02 01 06 00
05 01 01 00 03 02 06 00 01 02 00 05 01 03 00 06 00 00 04 06 00 00 01 04 00 01 05 00

00
03 00
02 00 00
04 02 01 01 00 00 02 01 02 00 01 03 00 02 01 04 00 01 05 00
02 01 90 81 db 06 00 01 ff ff ff ff 0f 00
01 80 80 80 80 10 00
01 80 80 80 80 80 00
01 80 80 80 80
"""
SECOND_EDITION = """
07
04 00 00 00
03 02 01 05 00 00 01 06 00
04 02 01 01 00 00 02 01 02 00 01 03 00 02 01 04 00 01 05 00
05 01 01 00 03 02 06 00 01 02 00 05 01 03 00 06 00 00 04 06 00 00 01 04 00 01 05 00
04 02 01 01 00 04 01 02 00 01 03 00 00 03 02 01 04 00 00 01 05 00 05 01 06 00 04 06 00 01 07 00 05 00 06 00 06 01 00 01 08 00
"""
FIRST, SECOND = 1, 2  # editions
JOB, ASYNC, FINISH, FORK, FUTURE, FORCE = 1, 2, 3, 4, 5, 6


class Refused(Exception):
    pass


def number(data, at):
    """The number that starts there, and where it ends."""
    end = at
    while end < min(len(data), at + 5) and data[end] >= 128:
        end += 1
    if end == at + 5:
        raise Refused(2, at)
    if end == len(data):
        raise Refused(5, end)
    value = 0
    for group in data[end : at - 1 : -1]:
        value = value * 128 + group % 128
    if data[end] == 0 and end > at:
        raise Refused(2, at)
    if value >= 2**32:
        raise Refused(7, at)
    return value, end + 1


def body(data, at, open_futures):
    """The items of the body that starts there, each its kind and contents, and where the body ends."""
    items = []
    while True:
        if at == len(data):
            raise Refused(5, at)
        kind, at = data[at], at + 1
        if kind == 0:
            return items, at
        if kind > FORCE:
            raise Refused(3, at - 1)
        first, contents = at, []
        for _ in range(2 if kind == FORK else 1):
            part, at = number(data, at) if kind in (JOB, FORCE) else body(data, at, open_futures)
            contents.append(part)
        if kind == FORCE and contents[0] >= open_futures:
            raise Refused(43, first)
        open_futures += kind == FUTURE
        items.append((kind, *contents))


def parse(data):
    if not 0 < len(data) <= 4096:
        raise Refused(1, 0)
    items, end = body(data, 0, 0)
    if end < len(data):
        raise Refused(6, end)
    return items


def count(items, edition):
    """Vertices, jobs and steps that items come to."""
    total = [0, 0, 0]
    fork = {FIRST: (3, 0, 15), SECOND: (2, 0, 12)}[edition]
    for kind, *contents in items:
        own = {JOB: (0, 1, 1), ASYNC: (1, 0, 5), FINISH: (2, 0, 10), FORK: fork, FUTURE: (2, 0, 9), FORCE: (1, 0, 6)}[kind]
        inner = [count(part, edition) for part in contents if kind not in (JOB, FORCE)]
        total = [sum(numbers) for numbers in zip(total, own, *inner)]
    return total


def listing(data, edition):
    try:
        main = parse(data)
    except Refused as refusal:
        yield "refused {} {}".format(*refusal.args)
        return
    vertices, jobs, steps = count(main, edition)
    yield f"vertices {vertices + 2} jobs {jobs} steps {steps + 4}"

    lives, status, edges = [], [], [(0, 1)]

    def new(items, scope, futures):
        lives.append(life(len(lives), items, scope, futures))
        status.append("new")
        return f"new {len(lives) - 1}"

    def edge(a, b):
        if status[a] != "finished":
            edges.append((a, b))
        return f"edge {a} {b}"

    def release(v):
        status[v] = "released"
        return f"release {v}"

    def transfer(v, to):
        edges[:] = [(to if a == v else a, b) for a, b in edges]
        return f"transfer {to}"

    def life(v, items, scope, futures):
        status[v] = "executing"
        yield "start"
        for i, (kind, *contents) in enumerate(items):
            # no other vertex steps before this one stops or yields, since its commands make no lower one able to
            a, b, c = range(len(lives), len(lives) + 3)
            if kind == JOB:
                yield f"job {contents[0]}"
            elif kind == ASYNC:
                yield new(contents[0], scope, futures)
                yield edge(a, scope)
                yield release(a)
            elif kind == FUTURE:
                yield new([], scope, futures)
                yield new(contents[0], a, futures)
                yield edge(b, a)
                yield release(a)
                yield release(b)
                futures = [a, *futures]
            elif kind == FORCE:
                yield new(items[i + 1 :], scope, futures)
                yield edge(futures[contents[0]], a)
                yield transfer(v, a)
                yield release(a)
                break
            elif kind == FINISH:
                yield new(items[i + 1 :], scope, futures)
                yield new(contents[0], a, futures)
                yield edge(b, a)
                yield transfer(v, a)
                yield release(a)
                yield release(b)
                break
            elif edition == SECOND:
                yield new(contents[0], scope, futures)
                yield new(contents[1], scope, futures)
                yield edge(a, v)
                yield edge(b, v)
                yield release(a)
                yield release(b)
                status[v] = "released"
                yield "yield"
                status[v] = "executing"
                yield "start"
            else:
                yield new(contents[0], scope, futures)
                yield new(contents[1], scope, futures)
                yield new(items[i + 1 :], scope, futures)
                yield edge(a, c)
                yield edge(b, c)
                yield transfer(v, c)
                yield release(c)
                yield release(a)
                yield release(b)
                break
        status[v] = "finished"
        edges[:] = [e for e in edges if e[0] != v]
        yield "stop"

    def can_step(v):
        return status[v] == "executing" or status[v] == "released" and all(b != v for _, b in edges)

    new(main, 1, [])
    new([], 1, [])
    release(0)
    release(1)
    while able := list(filter(can_step, range(len(lives)))):
        yield f"{able[0]} {next(lives[able[0]])}"
        steps -= 1
    assert steps == -4


def all_listings():
    for edition, programs in (FIRST, FIRST_EDITION), (SECOND, SECOND_EDITION):
        for program in programs.strip("\n").split("\n"):
            print(f"edition {edition} program {program}".strip())
            print(*listing(bytes.fromhex(program), edition), sep="\n")
    print("edition 2 program of 4097 bytes")
    print(*listing(bytes(4097), SECOND), sep="\n")


if len(sys.argv) == 1:
    all_listings()
else:
    print(*listing(sys.stdin.buffer.read(), int(sys.argv[1])), sep="\n")
