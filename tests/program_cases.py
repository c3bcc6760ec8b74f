#!/usr/bin/env python3
"""The lines that the program `program_cases` must write, from a reader of docs/ENGINE.md's "Program bytes" that shares no code
with the engine.

    tests/program_cases.py > crates/program_cases/stdout

The reader goes over the bytes once with a stack of the bodies that are open; the engine reads by recursion."""

ENDED, JOB, ASYNC, FINISH, FORK, FUTURE, FORCE = range(7)
NAMES = ("end", "job", "async", "finish", "fork", "future", "force")

# What an item of a kind adds, by the edition: vertices, edge rows and steps. A fork of the second "makes 2 vertices and 2 edges and costs 12
# steps in place of 15" (note 10).
FIRST = {"job": (0, 0, 1), "async": (1, 1, 5), "finish": (2, 1, 10), "fork": (3, 2, 15), "future": (2, 1, 9), "force": (1, 1, 6)}
NEEDS = {1: FIRST, 2: {**FIRST, "fork": (2, 2, 12)}}
WITHOUT_ITEMS = (2, 1, 4)


class Refused(Exception):
    pass


def read_number(data, start):
    """The number at `start`, and the place behind it."""
    value = 0
    for i in range(5):
        if start + i == len(data):
            raise Refused(5, len(data))
        byte = data[start + i]
        value |= (byte & 127) << (7 * i)
        if byte < 128:
            if byte == 0 and i > 0:
                raise Refused(2, start)
            if value > 4294967295:
                raise Refused(7, start)
            return value, start + i + 1
    raise Refused(2, start)


def needed(count, edition):
    """The vertices, edge rows and steps of a program with so many items of each kind."""
    return [first + sum(count[kind] * adds[i] for kind, adds in NEEDS[edition].items()) for i, first in enumerate(WITHOUT_ITEMS)]


def read(data, edition=1):
    """The items by place and how many there are of each kind, or a refusal."""
    if not 1 <= len(data) <= 4096:
        raise Refused(1, 0)
    items, open_bodies, at = {}, ["main"], 0
    open_futures = [0]  # in each open body, so far
    while open_bodies:
        if at == len(data):
            raise Refused(5, at)
        first = data[at]
        if first == ENDED:
            items[at] = ["end"]
            owner = open_bodies.pop()
            open_futures.pop()
            at += 1
            if owner != "main":
                item, bodies_left = owner
                item.append(at)
                if bodies_left:
                    open_bodies.append((item, bodies_left - 1))
                    open_futures.append(open_futures[-1])
                elif item[0] == "future":
                    open_futures[-1] += 1
        elif first in (JOB, FORCE):
            value, past = read_number(data, at + 1)
            if first == FORCE and value >= open_futures[-1]:
                raise Refused(43, at + 1)
            items[at] = [NAMES[first], value, past]
            at = past
        elif first <= FORCE:
            if len(open_bodies) == 32:
                raise Refused(4, at)
            items[at] = [NAMES[first], at + 1]
            open_bodies.append((items[at], first == FORK))
            open_futures.append(open_futures[-1])
            at += 1
        else:
            raise Refused(3, at)
    if at < len(data):
        raise Refused(6, at)
    count = {kind: sum(item[0] == kind for item in items.values()) for kind in NAMES}
    if needed(count, edition)[0] > 1024:
        raise Refused(8, 0)
    return items, count


def answer(data, edition):
    try:
        _, count = read(data, edition)
        plurals = {"jobs": "job", "asyncs": "async", "finishes": "finish", "forks": "fork", "futures": "future", "forces": "force"}
        counted = " ".join(f"{name} {count[kind]}" for name, kind in plurals.items())
        return counted + ", vertices {} edge rows {} steps {}".format(*needed(count, edition))
    except Refused as refusal:
        return "refused {} {}".format(*refusal.args)


def answers(data):
    """In either edition, the second's on a line of its own."""
    return f": {answer(data, 1)}\n  second edition: {answer(data, 2)}"


def standing(data, edition, place):
    """What stands at a place: its word and its numbers."""
    nothing = ["refused", 13, 0]
    try:
        found = read(data, edition)[0].get(place, nothing)
    except Refused:
        found = nothing
    return " ".join(map(str, found))


EXAMPLES = """
00
01 00 00
02 01 01 00 01 02 00
04 01 01 00 01 02 00 01 03 00

05
01 80 00 00
00 00
03 00
01 FF FF 03 00
01 80 80 04 00
03 02 01 05 00 00 01 06 00
01 01 00
04 00 00 00
04 02 00 03 04 01 7F 00 00 00 00 01 80 01 02 04 00 00 00 00
01
01 80
01 80 80
01 80 80 80
01 80 80 80 80
01 80 80 80 80 80
01 80 80 00 00
01 80 80 80 00 00
01 80 80 80 80 00 00
01 80 80 80 80 80 00
01 80 80 80 80 80 01 00
01 FF 7F 00
01 80 80 01 00
01 FF FF 7F 00
01 80 80 80 01 00
01 FF FF FF 7F 00
01 80 80 80 80 01 00
01 FF FF FF FF 0F 00
01 80 80 80 80 10 00
01 FF FF FF FF 10 00
01 FF FF FF FF 7F 00
02 01 FF FF FF FF 0F 00 01 90 81 DB 06 00
01 80 01
02
04 00
04 00 00
02 00 00 07
02 05
04 00 06
03 01 80 00 00
00 05
06
07
06 00
05 00
05 00 06
05 00 06 00 00
05 00 06 00
05 00 06 01 00
05 06 00 00 00
05 01 05 00 06 00 00
05 00 06 80
05 00 06 80 00 00
05 00 06 80 80 80 80 00 00
05 00 06 80 80 80 80 80 00
05 00 06 80 01 00
05 00 06 FF FF FF FF 0F 00
05 00 06 80 80 80 80 10 00
06 80 80 80 80 10 00
06 80 00 00
06 80 80 80 80
02 07
04 00 07
05 07
05 00 07
02 05 00 00 06 00 00
02 05 00 06 00 00 00
05 00 02 06 00 00 06 00 00
05 00 03 06 00 00 00
05 00 04 06 00 00 06 00 00 00
05 00 04 05 00 06 01 00 06 00 00 06 00 00
05 00 04 05 00 00 06 01 00 00
05 00 05 06 00 00 06 01 06 00 00
05 00 05 06 01 00 00
05 05 00 06 00 00 06 00 00
05 05 00 00 06 01 00
05 00 05 00 05 00 06 00 06 01 06 02 00
05 00 05 00 05 00 06 03 00
03 05 01 01 00 01 02 06 00 00 05 01 03 00 02 06 00 01 04 00 06 00 00
05 00 06 01 07
05 00 06 00 00 06
"""


def programs():
    return [bytes.fromhex(line) for line in EXAMPLES.strip("\n").split("\n")]


def limits():
    yield "nested 31", b"\2" * 31 + b"\0" * 32
    yield "openers 32", b"\2" * 32
    yield "nested 32", b"\2" * 32 + b"\0" * 33
    for depth in (31, 32):
        yield f"nested futures {depth}", b"\5" * depth + b"\0" * (depth + 1)
    for count in (1022, 1023):
        yield f"asyncs {count}", b"\2\0" * count + b"\0"
    for count in (511, 512):
        yield f"futures {count}", b"\5\0" * count + b"\0"
    for count in (1020, 1021):
        yield f"forces {count}", b"\5\0" + b"\6\0" * count + b"\0"
    for count, asyncs in ((340, 0), (340, 2), (340, 3), (341, 0), (511, 0), (511, 1), (512, 0)):
        yield f"forks {count} asyncs {asyncs}", b"\4\0\0" * count + b"\2\0" * asyncs + b"\0"
    for count in (128, 129):
        yield f"force 128 of {count}", b"\5\0" * count + b"\6\x80\1\0"
    jobs = b"\1\x80\1" + b"\1\0" * 2046 + b"\0\0"
    for length in (4096, 4097):
        yield f"jobs in {length}", jobs[:length]


def alike(start):
    """The answers of the programs that begin so and have one byte more, alike ones together."""
    answers = []
    for last in range(256):
        try:
            read(start + bytes([last]))
            answers.append("0 0")
        except Refused as refusal:
            answers.append("{} {}".format(*refusal.args))
    runs, since = "", 0
    for last in range(1, 257):
        if last == 256 or answers[last] != answers[since]:
            runs += f" {since:02x}-{last - 1:02x} {answers[since]}"
            since = last
    return runs


def main():
    for program in programs():
        print("".join(f" {byte:02x}" for byte in program) + answers(program))
        for place in range(len(program) + 1):
            print(f"  {place} {standing(program, 1, place)}")
    for name, program in limits():
        if not name.startswith("forks"):
            print(f"{name}: {answer(program, 1)}")
            continue
        print(name + answers(program))
        past = 3 * program.count(FORK)
        for edition in (1, 2):
            print(f"  {past} {standing(program, edition, past)}")
    print(alike(b""))
    for first in range(256):
        print(f"{first:02x}" + alike(bytes([first])))
    for first in (JOB, FORCE):
        for others in (0x80, 0xFF):
            print(f"{first:02x} and four times {others:02x}" + alike(bytes([first] + 4 * [others])))


if __name__ == "__main__":
    main()
