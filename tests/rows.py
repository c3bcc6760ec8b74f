"""The rows of the lent tables, for the models: how wide they are, how many are used, and the words of a table with all of them."""

VERTEX_WORDS, EDGE_WORDS, USABLE = 9, 2, 1024
VERTEX_TABLE, EDGE_TABLE = VERTEX_WORDS * USABLE, EDGE_WORDS * USABLE
