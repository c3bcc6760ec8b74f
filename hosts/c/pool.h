/* What the pool's workers share, whether they go by steps (pool.c) or by dispatch (dispatching.c). */
#ifndef POOL_H
#define POOL_H

#include <pthread.h>
#include <stdbool.h>
#include <stdint.h>

#include "dice.h"
#include "keshtiwol.h"
#include "programs.h"
#include "tree.h"

enum {
    GUARD_WORDS = 8, /* behind each lent table, which has just the rows that the program needs */
    GUARD = 0x5EA1ED,
    MOST_ROWS = 64, /* of the list that is lent to a dispatch */
    LIST_WORDS = KESHTIWOL_JOB_WORDS * MOST_ROWS + KESHTIWOL_JOB_WORDS - 1
};

/* The pool's mistake. */
enum breaking { NOTHING, JOBS, YIELDS };

/* How often dispatches ended so. */
struct endings {
    uint32_t done, waiting, full, spent;
};

/* One run of a program. */
struct run {
    const struct program *program;
    const struct tree *tree;
    uint32_t edition;
    bool dispatches;      /* and takes no steps itself */
    bool yields_late;     /* when both branches have finished; in runs by steps */
    uint32_t stamp;       /* makes this run's words differ from those of others */
    enum breaking breaking;
    struct block *blocks; /* one for each job; no lock */

    pthread_mutex_t lock; /* for all that follows */
    pthread_cond_t changed;
    uint32_t *vertices, *edges;
    struct keshtiwol_tally tally;
    uint32_t *busy;       /* of a vertex: 1 where its job is running, else 0; the table of marks that is lent to dispatches */
    uint32_t *blocked;    /* of a vertex: 1 + the count of stops at which an edge led into it, 0 if none did */
    bool *named, *ended;  /* of a job */
    uint32_t stops;
    uint32_t running;     /* jobs */
    uint32_t most;        /* of them at once */
    uint32_t asleep;      /* workers, until the next wake */
    uint32_t wakes;
    uint32_t yields;
    uint32_t ready;       /* of them by a vertex that could start again at once */
    uint64_t order;       /* a digest of the order in which jobs were named */
    char fault[160];      /* the first thing found wrong */

    /* In runs by dispatch. */
    uint32_t *list;       /* lent to dispatches */
    uint32_t handed;      /* rows of it that the latest filled */
    uint32_t begun;       /* of these jobs, by workers */
    bool *held;           /* of a vertex: its job was handed out and has not ended */
    struct endings endings;
};

struct worker {
    struct run *run;
    uint64_t dice;
};

/* What is lent at each call, and the edition. */
#define LENT(run)                                                                                                                       \
    (run)->program->bytes, (run)->program->length, (run)->vertices, vertex_words(run), (run)->edges, edge_words(run), &(run)->tally,    \
        (run)->edition

static inline uint32_t vertex_words(const struct run *run)
{
    return KESHTIWOL_VERTEX_WORDS * tree_vertices(run->tree, run->edition);
}

static inline uint32_t edge_words(const struct run *run)
{
    return KESHTIWOL_EDGE_WORDS * tree_edges(run->tree);
}

/* Notes something wrong, which ends the run. */
__attribute__((format(printf, 2, 3))) void fault(struct run *run, const char *form, ...);

/* Whether a step of this vertex would be accepted, busy or not. */
bool can_step(const struct run *run, uint32_t vertex);

void wake_all(struct run *run);
void sleep_until_woken(struct run *run);

/* The job that a step named, or -1 where there is none. */
int named_job(struct run *run, uint32_t number, uint32_t offset);

/* Runs a job that was named, of a busy vertex, and clears the vertex's mark. Gives the lock up meanwhile. */
void do_job(struct worker *worker, uint32_t vertex, int job);

bool is_over(const struct run *run);

/* A worker's thread in a run by dispatch. */
void *work_by_dispatch(void *worker);

#endif
