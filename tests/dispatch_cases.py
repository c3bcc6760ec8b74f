#!/usr/bin/env python3
"""The lines that the program `dispatch_cases` must write, from the model of tests/engine_cases.py and a dispatch of its own, which shares no code
with the engine.

    tests/dispatch_cases.py > crates/dispatch_cases/stdout"""

from cases import total
from engine_cases import ASYNC, EXECUTING, FINISHED, FIRST, FORK, LARGEST, NEW, RELEASED, SECOND, WORDS, Edge, Refused, Shop, Vertex, left, need
from rows import EDGE_WORDS, USABLE, VERTEX_WORDS

JOB_WORDS, ENOUGH = 3, 8192


def dispatch(shop, budget, busy, jobs):
    """ "steps the lowest vertex that can step and is not busy, again and again; where a step answers a job, it marks that vertex busy in a lent table
    and writes vertex, number and offset into a lent list". The ending, the steps taken, and the jobs handed out."""
    shop.need_sound()
    need(len(busy) >= min(shop.vertex_rows, USABLE), 44)
    taken, handed = 0, []
    while True:
        could = [me for me in range(len(shop.vertices)) if shop.can(me)]
        free = [me for me in could if not busy[me]]
        if all(vertex.status == FINISHED for vertex in shop.vertices):
            return "done", taken, handed
        if not could:
            return "stuck", taken, handed
        if not free:
            return "waiting", taken, handed
        if len(handed) == len(jobs) // JOB_WORDS:
            return "full", taken, handed
        if taken == budget:
            return "spent", taken, handed
        word, *numbers = shop.step(free[0]).split()
        taken += 1
        if word == "job":
            row = [free[0], *map(int, numbers)]
            jobs[JOB_WORDS * len(handed) : JOB_WORDS * (len(handed) + 1)] = row
            handed.append(row)
            busy[free[0]] = 1


def dispatched(shop, budget, busy, jobs):
    try:
        ending, taken, handed = dispatch(shop, budget, busy, jobs)
    except Refused as refusal:
        ending, taken, handed = refusal, 0, []
    rows = "".join(", {} {} {}".format(*row) for row in handed)
    print(f"{ending}, taken {taken}, handed {len(handed)}{rows} | {total(busy)} {total(jobs)}", left(shop))
    return ending, handed


def loaded(program, edition, vertex_words, edge_rows):
    shop = Shop(program, edition, [0] * vertex_words, [0] * EDGE_WORDS * edge_rows, 0, 0, 0)
    shop.load()
    return shop


# programs, and the edition of their hosts
HOSTED = """
00 | 1
01 00 01 FF FF FF FF 0F 01 80 01 00 | 2
02 01 01 00 01 02 00 | 1
02 01 01 00 02 01 02 01 03 00 02 01 04 00 01 05 00 | 2
04 01 01 00 01 02 00 01 03 00 | 1
04 01 01 00 01 02 00 01 03 00 | 2
04 04 01 01 00 01 02 00 00 04 01 03 00 01 04 00 00 01 05 00 | 1
04 04 01 01 00 01 02 00 00 04 01 03 00 01 04 00 00 01 05 00 | 2
03 02 01 05 00 00 01 06 00 | 1
03 02 01 01 00 03 02 01 02 00 02 01 03 00 00 01 04 00 01 05 00 | 2
05 01 01 00 02 06 00 01 02 00 01 03 06 00 01 04 00 | 1
05 01 01 00 05 06 00 01 02 00 01 03 06 01 06 00 01 04 00 | 2
"""
CALLS = 30


def hosts():
    for line in HOSTED.strip().splitlines():
        text, edition = line.split("|")
        print(f"edition {int(edition)} program {text.strip().lower()}")
        for words in JOB_WORDS, 2 * JOB_WORDS + 1, 5 * JOB_WORDS:
            for ends in range(1 if words == JOB_WORDS else 2):
                print(f"list {words} ends {ends}: ", end="")
                host(loaded(bytes.fromhex(text), int(edition), 11 * VERTEX_WORDS, 7), [0] * 11, [9] * words, ends)


def host(shop, busy, jobs, ends):
    """It ends all jobs, or the last one handed out, or that of the highest busy vertex."""
    for turn in range(CALLS):
        ending, handed = dispatched(shop, 3 if turn % 4 == 1 else ENOUGH, busy, jobs)
        if ending == "done":
            return
        running = [me for me, mark in enumerate(busy) if mark]
        for me in running if ends == 0 else [handed[-1][0]] if handed else running[-1:]:
            busy[me] = 0
    print("not done")


NOTHING = None
# steps of the async in the first edition; what is altered then, as in tests/engine_cases.py; and what is lent: the marked vertices as a sum of
# powers of two, the words of marks and of the list, and the budget
REFUSED_0 = "vertex", 0, "place", 2
REFUSED_2 = "vertex", 2, "place", 2
FREE_1 = "vertex", 1, "in_count", 0
OF_ASYNC = [
    (4, NOTHING, 5, 5, 15, ENOUGH),
    (4, NOTHING, 7, 5, 15, ENOUGH),
    (7, NOTHING, 5, 5, 15, ENOUGH),
    (0, NOTHING, 1, 5, 15, ENOUGH),
    (0, NOTHING, 0, 5, 0, ENOUGH),
    (0, NOTHING, 0, 5, 2, ENOUGH),
    (5, NOTHING, 0, 5, 2, ENOUGH),
    (0, NOTHING, 0, 5, 15, 0),
    (4, NOTHING, 0, 5, 15, 1),
    (4, NOTHING, 0, 5, 3, 1),
    (4, NOTHING, 0, 5, 3, 2),
    ("finished", NOTHING, 0, 5, 15, 0),
    ("finished", NOTHING, 7, 5, 0, 0),
    ("finished", NOTHING, LARGEST, 7, 2, ENOUGH),
    # stuck
    (1, REFUSED_0, 0, 5, 15, ENOUGH),
    (1, REFUSED_0, 3, 5, 0, 0),
    (1, ("vertex", 0, "status", NEW), 0, 5, 15, 0),
    (0, ("vertex", 0, "in_count", 1), 1, 5, 15, ENOUGH),
    (4, REFUSED_0, 4, 5, 15, ENOUGH),
    (4, REFUSED_0, 4, 5, 0, 0),
    (4, REFUSED_0, 1, 5, 15, ENOUGH),
    (7, REFUSED_2, 5, 5, 15, ENOUGH),
    (7, REFUSED_2, 4, 5, 15, ENOUGH),
    (4, ("tally", 3, 2, 8191), 0, 5, 15, ENOUGH),
    (4, ("tally", 3, 2, 8190), 0, 5, 15, ENOUGH),
    (4, ("tally", 3, 2, 8191), 5, 5, 0, 0),
    (4, ("tally", 3, 2, 8191), 1, 5, 0, 0),
    # the order of the looks
    (4, NOTHING, 5, 5, 0, ENOUGH),
    (4, NOTHING, 5, 5, 15, 0),
    (4, NOTHING, 5, 5, 2, 0),
    (4, NOTHING, 1, 5, 2, 0),
    (4, NOTHING, 4, 5, 0, 0),
    (4, NOTHING, 1, 5, 3, 0),
    (4, NOTHING, 4, 5, 3, 1),
    (4, NOTHING, 1, 5, 3, 2),
    # refusals
    (4, ("vertex", 1, "status", 0), 0, 5, 15, ENOUGH),
    (4, ("vertex", 1, "status", FINISHED + 1), 7, 4, 15, ENOUGH),
    (4, ("edge", 1, "source", 3), 0, 5, 0, 0),
    (4, ("edge", 0, "target", LARGEST), 0, 0, 15, ENOUGH),
    (4, ("tally", 3, 2, 8192), 5, 5, 15, ENOUGH),
    (4, ("tally", 3, 2, 8192), 5, 4, 15, 0),
    (4, ("tally", 6, 2, 4), 0, 7, 15, ENOUGH),
    (4, ("tally", 3, 5, 4), 0, 5, 15, ENOUGH),
    (4, NOTHING, 0, 4, 15, ENOUGH),
    (4, NOTHING, 5, 4, 0, 0),
    (4, NOTHING, 0, 0, 15, ENOUGH),
    (4, NOTHING, 0, 3, 15, ENOUGH),
    (4, NOTHING, 0, 5, 15, ENOUGH),
    (4, NOTHING, 0, 6, 15, ENOUGH),
    (4, NOTHING, 0, 7, 15, ENOUGH),
    ("finished", NOTHING, 0, 4, 15, 0),
    (1, REFUSED_0, 0, 4, 15, ENOUGH),
    # marks that no dispatch made
    (2, NOTHING, 4, 5, 15, ENOUGH),
    (2, NOTHING, 2, 5, 15, ENOUGH),
    (2, NOTHING, 6, 5, 15, ENOUGH),
    (0, NOTHING, 4, 5, 15, ENOUGH),
    (0, NOTHING, 126, 7, 15, ENOUGH),
    (2, NOTHING, 120, 7, 15, ENOUGH),
    (4, ("vertex", 0, "status", FINISHED), 1, 5, 15, ENOUGH),
    (4, ("vertex", 0, "status", RELEASED), 1, 5, 15, ENOUGH),
    (4, ("vertex", 2, "status", EXECUTING), 4, 5, 15, ENOUGH),
    # below and above the lowest that can step
    (4, FREE_1, 1, 5, 15, ENOUGH),
    (4, FREE_1, 2, 5, 15, ENOUGH),
    (4, FREE_1, 4, 5, 15, ENOUGH),
    (4, FREE_1, 3, 5, 15, ENOUGH),
    (4, FREE_1, 5, 5, 15, 1),
    (4, FREE_1, 7, 5, 0, 0),
    # passed over
    (4, REFUSED_0, 0, 5, 15, ENOUGH),
    (4, ("vertex", 0, "place", LARGEST), 0, 5, 15, 2),
    (4, ("vertex", 0, "phase", 1), 0, 5, 15, ENOUGH),
    (4, REFUSED_2, 0, 5, 15, ENOUGH),
    (6, REFUSED_2, 1, 5, 15, ENOUGH),
    (6, REFUSED_2, 0, 5, 15, ENOUGH),
    (6, REFUSED_0, 0, 5, 15, ENOUGH),
    (3, ("vertex", 0, "first", 1), 0, 5, 15, ENOUGH),
    # lists
    (4, NOTHING, 0, 5, 1, ENOUGH),
    (4, NOTHING, 0, 5, 4, ENOUGH),
    (4, NOTHING, 0, 5, 5, ENOUGH),
    (4, NOTHING, 0, 5, 7, ENOUGH),
    (4, NOTHING, 0, 5, 16, ENOUGH),
]
# the same of the fork, in either edition
OF_FORK = [
    (7, NOTHING, 1, 5, 15, ENOUGH),
    (10, NOTHING, 4, 5, 15, ENOUGH),
    (10, NOTHING, 8, 5, 15, ENOUGH),
    (15, NOTHING, 4, 5, 3, 2),
    (15, NOTHING, 8, 5, 3, 2),
    (7, ("vertex", 0, "phase", 9), 0, 5, 15, ENOUGH),
    (9, ("vertex", 0, "phase", 9), 0, 5, 15, ENOUGH),
    (11, ("vertex", 3, "place", 2), 0, 5, 15, ENOUGH),
    (12, ("vertex", 2, "place", 2), 0, 5, 15, ENOUGH),
    (15, ("vertex", 3, "place", 2), 0, 5, 15, ENOUGH),
    (3, ("edge", 0, "target", 2), 0, 5, 15, ENOUGH),
    (5, ("vertex", 3, "status", RELEASED), 0, 5, 15, ENOUGH),
    (5, ("vertex", 3, "status", RELEASED), 1, 5, 15, ENOUGH),
]
MARKS, LIST = 7, 16
PLACES = {**WORDS, "place": 1}


def moments():
    for steps, *rest in OF_ASYNC:
        if steps == "finished":
            moment(bytes(1), SECOND, 4, *rest)
        else:
            moment(ASYNC, FIRST, steps, *rest)
    for edition in FIRST, SECOND:
        for case in OF_FORK:
            moment(FORK, edition, *case)
    for marks in USABLE - 1, USABLE, USABLE + 1:
        shop, busy, jobs = loaded(ASYNC, FIRST, VERTEX_WORDS * (USABLE + 1), 4), [0] * (USABLE + 1), [9] * LIST
        print("1025 rows" + lending(0, marks, LIST, ENOUGH), end="")
        on(shop, busy, jobs, 0, marks, LIST, ENOUGH)
        again(shop, busy, jobs)


def moment(program, edition, steps, change, marked, marks, words, budget):
    shop, busy, jobs = begun(program, edition, VERTEX_WORDS * 5 + 3, steps), [0] * MARKS, [9] * LIST
    changed = ""
    if change:
        what, a, b, c = change
        changed = f" {what} {a} {PLACES.get(b, b)} {c}"
    print(f"edition {edition} after {steps}{changed}" + lending(marked, marks, words, budget), end="")
    if change:
        shop = altered(shop, *change)
    on(shop, busy, jobs, marked, marks, words, budget)
    again(shop, busy, jobs)


def begun(program, edition, vertex_words, steps):
    shop = loaded(program, edition, vertex_words, 4)
    dispatch(shop, steps, [0] * shop.vertex_rows, [0] * 2 * JOB_WORDS)
    return shop


def lending(marked, marks, words, budget):
    return f" marked {marked} marks {marks} list {words} budget {budget}: "


def altered(shop, what, a, b, c):
    if what == "tally":
        return Shop(shop.data, shop.edition, *shop.words(), a, b, c)
    make, rows = {"vertex": (Vertex, shop.vertices), "edge": (Edge, shop.edges)}[what]
    words = rows[a].words()
    words[PLACES[b]] = c
    rows[a] = make(*words)
    return shop


def on(shop, busy, jobs, marked, marks, words, budget):
    """A dispatch with so many words of marks and of the list."""
    busy[:] = [LARGEST - (marked >> me) // 2 if marked >> me & 1 else 0 for me in range(len(busy))]
    lent, listed = busy[:marks], jobs[:words]
    dispatched(shop, budget, lent, listed)
    busy[:marks], jobs[:words] = lent, listed


def again(shop, busy, jobs):
    print("again: ", end="")
    busy[:] = [0] * len(busy)
    dispatched(shop, ENOUGH, busy, jobs)


# a program, its edition, steps, edges that are written then, and the marked vertices
TWO_ASYNCS, INNER_ASYNC = bytes.fromhex("02 01 01 00 02 01 02 00 01 03 00"), bytes.fromhex("02 02 01 01 00 00 01 02 00")
CYCLES = [
    (TWO_ASYNCS, FIRST, 5, [(1, 2), (2, 3)], 0),
    (TWO_ASYNCS, SECOND, 5, [(1, 2), (2, 3)], 4),
    (INNER_ASYNC, FIRST, 7, [(1, 0), (0, 3)], 0),
    (INNER_ASYNC, SECOND, 7, [(1, 0), (0, 3)], 1),
]


def cycles():
    for program, edition, steps, written, marked in CYCLES:
        shop, busy, jobs = begun(program, edition, VERTEX_WORDS * 4, steps), [0] * MARKS, [9] * LIST
        print(f"edition {edition} after {steps}" + lending(marked, MARKS, LIST, 100), end="")
        for ends in written:
            shop.edges.append(Edge(*ends))
            del shop.spare[1][:EDGE_WORDS]
        on(shop, busy, jobs, marked, MARKS, LIST, 100)
        again(shop, busy, jobs)
        host(shop, busy, jobs, 0)


def main():
    hosts()
    moments()
    cycles()


if __name__ == "__main__":
    main()
