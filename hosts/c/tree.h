/* A program's bytes as a tree, and which job comes ahead of which: read and computed here without the engine, so that its answers can
 * be held against something else than itself. */
#ifndef TREE_H
#define TREE_H

#include <stdbool.h>
#include <stddef.h>
#include <stdint.h>

#include "keshtiwol.h"

/* An item's first byte. */
enum { END = 0, JOB = 1, ASYNC = 2, FINISH = 3, FORK = 4, FUTURE = 5, FORCE = 6 };

enum {
    LEVELS = 32,
    MOST_ITEMS = KESHTIWOL_PROGRAM_BYTES / 2 /* the shortest item has two bytes */
};

struct item {
    uint8_t kind;
    uint8_t branch;  /* 1 in the right body of a fork, else 0 */
    int above;       /* the item whose body this one stands in, -1 in the main body */
    uint32_t offset;
    uint32_t number; /* of a job or a force */
    int future;      /* of a force: the item of its future */
};

struct tree {
    struct item items[MOST_ITEMS];
    int item_count;
    uint32_t job_count, asyncs, finishes, forks, futures, forces;
    int jobs[MOST_ITEMS];                /* the jobs' items, in the order of the text; a job is its place in this list */
    int job_at[KESHTIWOL_PROGRAM_BYTES]; /* the job at an offset, or -1 */
    uint16_t *ahead;                     /* from ahead[from[q]] to before ahead[from[q + 1]]: the jobs ahead of job q */
    size_t from[MOST_ITEMS + 1];
};

/* Reads a program. Null where the bytes are none. */
struct tree *tree_read(const uint8_t *bytes, size_t length);
void tree_drop(struct tree *tree);

const struct item *tree_job(const struct tree *tree, int job);

/* What the program needs and takes. The edition counts for its forks. */
uint32_t tree_vertices(const struct tree *tree, uint32_t edition);
uint32_t tree_edges(const struct tree *tree);
uint32_t tree_steps(const struct tree *tree, uint32_t edition);

#endif
