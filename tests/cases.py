"""What the models share, as the crate `cases` has it for the programs: a sum over a table, and numbers that look drawn."""


def total(words):
    sum = 0
    for w in words:
        sum = (sum * 31 + w + 1) % 1000003
    return sum


def next_state(state):
    return (state % 2**31 * 1103515245 + 12345) % 2**31
