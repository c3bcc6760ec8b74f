#include "tree.h"

#include <stdlib.h>
#include <string.h>

struct reader {
    const uint8_t *bytes;
    size_t length;
    size_t at;
    int open[MOST_ITEMS]; /* the futures open here, the nearest last */
};

static bool next_byte(struct reader *reader, uint8_t *byte)
{
    if (reader->at == reader->length) {
        return false;
    }
    *byte = reader->bytes[reader->at++];
    return true;
}

/* Groups of seven bits, lowest first; the top bit says that more follow. Five groups hold 35 bits, of which a number has 32. */
static bool read_number(struct reader *reader, uint32_t *number)
{
    uint64_t value = 0;
    for (int shift = 0; shift < 35; shift += 7) {
        uint8_t byte;
        if (!next_byte(reader, &byte)) {
            return false;
        }
        value |= (uint64_t)(byte & 0x7F) << shift;
        if (byte < 0x80) {
            *number = (uint32_t)value;
            return value <= UINT32_MAX && (byte > 0 || shift == 0);
        }
    }
    return false;
}

/* Reads items up to the end byte. The first `open` futures are open where the body begins. */
static bool read_body(struct tree *tree, struct reader *reader, int above, uint8_t branch, int level, uint32_t open)
{
    if (level > LEVELS) {
        return false;
    }
    for (;;) {
        uint32_t offset = (uint32_t)reader->at;
        uint8_t kind;
        if (!next_byte(reader, &kind)) {
            return false;
        }
        if (kind == END) {
            return true;
        }
        if (tree->item_count == MOST_ITEMS) {
            return false;
        }
        int item = tree->item_count++;
        uint32_t number = 0;
        int future = -1;
        bool whole;
        switch (kind) {
        case JOB:
            whole = read_number(reader, &number);
            tree->job_at[offset] = (int)tree->job_count;
            tree->jobs[tree->job_count++] = item;
            break;
        case ASYNC:
            whole = read_body(tree, reader, item, 0, level + 1, open);
            tree->asyncs++;
            break;
        case FINISH:
            whole = read_body(tree, reader, item, 0, level + 1, open);
            tree->finishes++;
            break;
        case FORK:
            whole = read_body(tree, reader, item, 0, level + 1, open) && read_body(tree, reader, item, 1, level + 1, open);
            tree->forks++;
            break;
        case FUTURE:
            whole = read_body(tree, reader, item, 0, level + 1, open);
            reader->open[open++] = item;
            tree->futures++;
            break;
        case FORCE:
            whole = read_number(reader, &number) && number < open;
            future = whole ? reader->open[open - 1 - number] : -1;
            tree->forces++;
            break;
        default:
            return false;
        }
        if (!whole) {
            return false;
        }
        tree->items[item] = (struct item){kind, branch, above, offset, number, future};
    }
}

/* The items from the main body down to this one, which is the last; answers how many. */
static int way_down(const struct tree *tree, int item, int way[LEVELS])
{
    int length = 0;
    for (int i = item; i >= 0; i = tree->items[i].above) {
        length++;
    }
    int left = length;
    for (int i = item; i >= 0; i = tree->items[i].above) {
        way[--left] = i;
    }
    return length;
}

/* "Take the innermost body with both jobs in different items, p in the earlier. p is ahead of q if each async on the way from that
 * earlier item (itself counted) down to p has a finish above it on that way. No other pairs are ordered." "A future on the way counts as
 * an async that no finish closes." Here p is an item that is a job or a force, and both stand at their own places. */
static bool is_ahead_in_place(const struct tree *tree, int p, int q)
{
    int to_p[LEVELS], to_q[LEVELS];
    int length = way_down(tree, p, to_p);
    way_down(tree, q, to_q);

    int i = 0;
    while (to_p[i] == to_q[i]) { /* they part before either way ends, since neither holds items */
        i++;
    }
    const struct item *of_p = &tree->items[to_p[i]];
    const struct item *of_q = &tree->items[to_q[i]];
    if (of_p->branch != of_q->branch || of_p->offset > of_q->offset) {
        return false;
    }
    bool finish_above = false;
    for (; i < length; i++) {
        uint8_t kind = tree->items[to_p[i]].kind;
        if (kind == FUTURE || (kind == ASYNC && !finish_above)) {
            return false;
        }
        finish_above = finish_above || kind == FINISH;
    }
    return true;
}

/* The innermost future that the item stands in, or -1. */
static int future_around(const struct tree *tree, int item)
{
    do {
        item = tree->items[item].above;
    } while (item >= 0 && tree->items[item].kind != FUTURE);
    return item;
}

/* Marks a future, and the jobs that its force waits for: "a force is read as a finish around its future's body, forces inside it
 * likewise", and in a finish only the bodies of futures are left out. */
static void mark_reading(const struct tree *tree, int future, bool *marked)
{
    if (marked[future]) {
        return;
    }
    marked[future] = true;
    for (int i = future + 1; i < tree->item_count && tree->items[i].above >= future; i++) {
        const struct item *item = &tree->items[i];
        if (future_around(tree, i) != future) {
            continue;
        }
        if (item->kind == JOB) {
            marked[i] = true;
        } else if (item->kind == FORCE) {
            mark_reading(tree, item->future, marked);
        }
    }
}

/* Marks the jobs ahead of the job q, and futures. "p is ahead of q if the old rule says so with q at its own place and p at its own or
 * in such a reading." */
static void mark_ahead(const struct tree *tree, int q, bool *marked)
{
    memset(marked, 0, MOST_ITEMS * sizeof *marked);
    for (int i = 0; i < q; i++) { /* nothing later in the text is ahead */
        const struct item *item = &tree->items[i];
        if (item->kind == JOB && is_ahead_in_place(tree, i, q)) {
            marked[i] = true;
        } else if (item->kind == FORCE && is_ahead_in_place(tree, i, q)) {
            mark_reading(tree, item->future, marked);
        }
    }
}

struct tree *tree_read(const uint8_t *bytes, size_t length)
{
    struct reader reader = {bytes, length, 0, {0}};
    struct tree *tree = calloc(1, sizeof *tree);
    if (tree == NULL) {
        abort();
    }
    for (size_t i = 0; i < KESHTIWOL_PROGRAM_BYTES; i++) {
        tree->job_at[i] = -1;
    }
    if (length > KESHTIWOL_PROGRAM_BYTES || !read_body(tree, &reader, -1, 0, 1, 0) || reader.at != length) {
        free(tree);
        return NULL;
    }

    int jobs = (int)tree->job_count;
    tree->ahead = malloc(((size_t)jobs * (size_t)jobs / 2 + 1) * sizeof *tree->ahead);
    if (tree->ahead == NULL) {
        abort();
    }
    size_t pairs = 0;
    for (int q = 0; q < jobs; q++) {
        bool marked[MOST_ITEMS];
        mark_ahead(tree, tree->jobs[q], marked);
        tree->from[q] = pairs;
        for (int p = 0; p < q; p++) {
            if (marked[tree->jobs[p]]) {
                tree->ahead[pairs++] = (uint16_t)p;
            }
        }
    }
    tree->from[jobs] = pairs;
    return tree;
}

void tree_drop(struct tree *tree)
{
    free(tree->ahead);
    free(tree);
}

const struct item *tree_job(const struct tree *tree, int job)
{
    return &tree->items[tree->jobs[job]];
}

uint32_t tree_vertices(const struct tree *tree, uint32_t edition)
{
    uint32_t of_fork = edition == KESHTIWOL_FIRST_EDITION ? 3 : 2;
    return 2 + tree->asyncs + 2 * tree->finishes + of_fork * tree->forks + 2 * tree->futures + tree->forces;
}

uint32_t tree_edges(const struct tree *tree)
{
    return 1 + tree->asyncs + tree->finishes + 2 * tree->forks + tree->futures + tree->forces;
}

uint32_t tree_steps(const struct tree *tree, uint32_t edition)
{
    uint32_t of_fork = edition == KESHTIWOL_FIRST_EDITION ? 15 : 12;
    return 4 + tree->job_count + 5 * tree->asyncs + 10 * tree->finishes + of_fork * tree->forks + 9 * tree->futures + 6 * tree->forces;
}
