#!/usr/bin/env python3
"""The lines that the program `chain_cases` must write, from a model of docs/ENGINE.md's "Chains" that shares no code with the engine.

    tests/chain_cases.py > crates/chain_cases/stdout

The model keeps whole chains, and compares them as that does: first by their number of vertices, then word by word."""

import heapq

from cases import next_state, total
from rows import EDGE_TABLE, EDGE_WORDS, USABLE, VERTEX_TABLE, VERTEX_WORDS

NEW = 1


def first_shortest(edges, source, target):
    """The first of the shortest chains from the target to the source. A chain of k vertices to the source is complete before any of k + 1
    is looked at, so the first that is met for a vertex is its own."""
    before, best, todo = {}, {}, [(1, [source])]
    for a, b in edges:
        before.setdefault(b, set()).add(a)
    while todo:
        vertices, chain = heapq.heappop(todo)
        if chain[0] not in best:
            best[chain[0]] = chain
            for a in before.get(chain[0], ()):
                heapq.heappush(todo, (vertices + 1, [a] + chain))
    return best.get(target)


def chain(vertices, edges, made, held, source, target, words):
    """What is answered, and the list afterwards: a number of vertices, or a refusal."""
    rows = [tuple(edges[EDGE_WORDS * i : EDGE_WORDS * (i + 1)]) for i in range(held)]
    if not (
        made <= min(USABLE, len(vertices) // VERTEX_WORDS)
        and held <= min(USABLE, len(edges) // EDGE_WORDS)
        and all(1 <= vertices[VERTEX_WORDS * k] <= 4 for k in range(made))
        and all(a < made and b < made for a, b in rows)
    ):
        return "refused", 12, words
    if source >= made or target >= made:
        return "refused", 20, words
    found = first_shortest(rows, source, target)
    if found is None:
        return "refused", 41, words
    if len(found) > len(words):
        return "refused", 42, words
    return "chain", len(found), found + words[len(found) :]


def said(word, number):
    return f"refused {number} 0" if word == "refused" else f"chain {number}"


def call(vertices, edges, made, held, source, target, words):
    word, number, words = chain(vertices, edges, made, held, source, target, words)
    print(f"from {target} to {source}: {said(word, number)} |" + "".join(f" {w}" for w in words))


EDGES = [0, 1, 1, 4, 1, 3, 1, 2, 4, 5, 3, 5, 2, 6, 6, 5, 0, 7, 7, 2, 5, 8, 8, 8]


def asked(made, held, source, target, words):
    call([NEW] * (9 * VERTEX_WORDS), EDGES, made, held, source, target, [77] * words)


print("small")
asked(9, 12, 5, 0, 8)
asked(9, 12, 5, 1, 8)
asked(9, 12, 2, 0, 8)
asked(9, 12, 6, 0, 8)
asked(9, 12, 8, 0, 8)
asked(9, 12, 8, 8, 8)
asked(9, 12, 3, 3, 8)
asked(9, 0, 3, 3, 8)
asked(9, 12, 0, 5, 8)
asked(9, 12, 5, 0, 4)
asked(9, 12, 5, 0, 3)
asked(9, 12, 4, 4, 1)
asked(9, 12, 4, 4, 0)
print("refused")
asked(10, 12, 10, 10, 0)
asked(9, 13, 9, 9, 0)
asked(8, 12, 8, 8, 0)
asked(9, 12, 9, 0, 0)
asked(9, 12, 0, 9, 0)
asked(9, 12, 4294967295, 4294967295, 0)
asked(9, 12, 0, 5, 0)
asked(9, 11, 7, 8, 0)
statuses = [NEW] * (2 * VERTEX_WORDS)
statuses[VERTEX_WORDS] = 5
call(statuses, EDGES, 2, 1, 1, 0, [77] * 2)
call(statuses, EDGES, 1, 0, 0, 0, [77] * 2)

print("long")
for reversed in (False, True):
    edges = []
    for row in range(USABLE):
        source = (2 * USABLE - 2 - row) % USABLE if reversed else row
        edges += [source, (source + 1) % USABLE]
    for source, target, lent in ((1023, 0, 1023), (1023, 0, 1024), (1022, 5, 1026), (0, 1023, 1026)):
        word, number, left = chain([NEW] * VERTEX_TABLE, edges, 1024, 1023, source, target, [77] * lent)
        print(f"from {target} to {source}: {said(word, number)} | {total(left)}")


def draws(state):
    while True:
        yield state
        state = next_state(state)


def drawn(seed):
    states = draws(seed)
    next(states)
    below = lambda limit: next(states) // 4096 % limit
    made, held, status = 2 + below(7), below(15), below(40)
    vertices, edges = [NEW] * (8 * VERTEX_WORDS), []
    vertices[VERTEX_WORDS] = 1 + status % 4 if status < 36 else 5
    for _ in range(14 * EDGE_WORDS):
        outside, inside = below(400) == 0, below(made)
        edges.append(made if outside else inside)
    lengths = draws(seed)
    next(lengths)
    answers, lists = [], []
    for source in range(9):
        for target in range(9):
            words = next(lengths) // 4096 % 11
            word, number, left = chain(vertices, edges, made, held, source, target, [77] * words)
            answers.append(100 + number if word == "refused" else number)
            lists += left + [77] * (10 - words)
    print(f"{made} {held} | {total(answers)} {total(lists)}")


print("drawn")
for seed in range(300):
    drawn(seed)
