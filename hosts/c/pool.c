/* A pool of workers that runs programs under the engine, and shows that no job starts early.
 *
 * One lock guards the engine: its tables, its tally and the pool's notes about vertices. Jobs run outside the lock and use none. Each
 * fills a block of words, and first reads the blocks of all jobs that the text puts ahead of it. Were one of these still running, the
 * reader would see a block filled by half, and the thread sanitizer a race. While a worker sleeps no vertex can step; that is looked at
 * too.
 *
 * Programs that are built in run in both editions, those drawn in a drawn one. Half of the runs, drawn, have the engine hand out their jobs
 * (dispatching.c). In the others workers step the vertices themselves, in drawn orders, and in half of these a vertex of the second edition
 * yields only when both branches have finished, so that it can start again at once.
 *
 *     pool [--break jobs | --break yields] [--by steps | --by dispatch] [--edition N] [--rounds N] [--seed N]
 *
 * With --break the pool makes a mistake on purpose, which must be noticed: it says of some jobs that they have ended before they have; or
 * it lets a vertex that has yielded start while a branch's job is running, by clearing its in-count, in runs by steps. */
#include <sched.h>
#include <stdarg.h>
#include <stdio.h>
#include <stdlib.h>
#include <string.h>
#include <time.h>

#include "pool.h"

enum {
    BLOCK_WORDS = 16,
    MOST_WORKERS = 8,
    MOST_ORDERS = 1000, /* told apart */
    DRAWN = 14,
    ROUNDS = 5,
    YIELD_PHASE = 6 /* of a fork in the second edition: the yield is the last of its seven commands */
};

/* What a job leaves: written by that job alone, read by those that it is ahead of. */
struct block {
    uint32_t words[BLOCK_WORDS];
    uint32_t runs;
};

/* WHAT WAS FOUND WRONG */

void fault(struct run *run, const char *form, ...)
{
    if (run->fault[0] == '\0') {
        va_list values;
        va_start(values, form);
        vsnprintf(run->fault, sizeof run->fault, form, values);
        va_end(values);
    }
}

/* JOBS, outside the lock */

static uint32_t word_of(const struct run *run, int job, uint32_t i)
{
    return (run->stamp + (uint32_t)job * BLOCK_WORDS + i) * 2654435761u | 1u; /* never 0, which is a word not yet filled */
}

static bool is_filled(const struct run *run, int job)
{
    const struct block *block = &run->blocks[job];
    bool filled = true;
    for (uint32_t i = 0; i < BLOCK_WORDS; i++) {
        filled = filled && block->words[i] == word_of(run, job, i);
    }
    return filled && block->runs == 1;
}

static void pause_between(uint64_t *dice, bool long_one)
{
    struct timespec nap = {0, long_one ? 3000000 : 1000};
    if (long_one || draw(dice, 3) == 0) {
        nanosleep(&nap, NULL);
    } else {
        sched_yield();
    }
}

/* Runs a job. Answers the job ahead of it whose block was not whole; its own where that was not empty; or -1. */
static int run_job(struct run *run, int job, uint64_t *dice, bool long_one)
{
    const struct tree *tree = run->tree;
    struct block *own = &run->blocks[job];
    int wrong = -1;
    for (size_t i = tree->from[job]; i < tree->from[job + 1]; i++) {
        if (!is_filled(run, tree->ahead[i])) {
            wrong = tree->ahead[i];
        }
    }
    for (uint32_t i = 0; i < BLOCK_WORDS; i++) {
        if (own->words[i] != 0) {
            wrong = job;
        }
        own->words[i] = ~word_of(run, job, i);
    }
    pause_between(dice, long_one);
    for (uint32_t i = 0; i < BLOCK_WORDS; i++) {
        own->words[i] = word_of(run, job, i);
    }
    own->runs++;
    return wrong;
}

/* WORKERS, under the lock but for their jobs */

static uint32_t *word(const struct run *run, uint32_t vertex, uint32_t which)
{
    return &run->vertices[KESHTIWOL_VERTEX_WORDS * vertex + which];
}

static uint32_t status(const struct run *run, uint32_t vertex)
{
    return *word(run, vertex, KESHTIWOL_STATUS);
}

static uint32_t in_count(const struct run *run, uint32_t vertex)
{
    return *word(run, vertex, KESHTIWOL_IN_COUNT);
}

bool can_step(const struct run *run, uint32_t vertex)
{
    uint32_t now = status(run, vertex);
    return now == KESHTIWOL_VERTEX_EXECUTING || (now == KESHTIWOL_VERTEX_RELEASED && in_count(run, vertex) == 0);
}

/* Whether a yield is this vertex's next command. */
static bool yields_next(const struct run *run, uint32_t vertex)
{
    return run->edition == KESHTIWOL_SECOND_EDITION && status(run, vertex) == KESHTIWOL_VERTEX_EXECUTING &&
           run->program->bytes[*word(run, vertex, KESHTIWOL_PLACE)] == FORK && *word(run, vertex, KESHTIWOL_PHASE) == YIELD_PHASE;
}

/* Whether the pool leaves this vertex alone, though a step of it might be accepted. */
static bool is_left_alone(const struct run *run, uint32_t vertex)
{
    return run->busy[vertex] || (run->yields_late && yields_next(run, vertex) && in_count(run, vertex) > 0);
}

/* SLEEP: a worker sleeps while no vertex can step and jobs are running. */

void wake_all(struct run *run)
{
    run->asleep = 0;
    run->wakes++;
    pthread_cond_broadcast(&run->changed);
}

void sleep_until_woken(struct run *run)
{
    uint32_t wakes = run->wakes;
    run->asleep++;
    while (run->wakes == wakes) {
        pthread_cond_wait(&run->changed, &run->lock);
    }
}

static void look_at_sleepers(struct run *run)
{
    for (uint32_t vertex = 0; run->asleep > 0 && vertex < run->tally.made; vertex++) {
        if (can_step(run, vertex) && !is_left_alone(run, vertex)) {
            fault(run, "vertex %u can step, and workers that sleep are not woken: %u", vertex, run->asleep);
        }
    }
}

/* STEPS AND JOBS */

/* Steps the first vertex that can, from a drawn place on, up or down. False if none can. */
static bool step_one(struct run *run, uint64_t *dice, uint32_t *stepped, struct keshtiwol_reply *reply)
{
    uint32_t made = run->tally.made;
    uint32_t vertex = draw(dice, made);
    uint32_t stride = draw(dice, 2) == 0 ? 1 : made - 1;
    for (uint32_t i = 0; i < made; i++, vertex = (vertex + stride) % made) {
        uint32_t before = status(run, vertex);
        if (before == KESHTIWOL_VERTEX_NEW || before == KESHTIWOL_VERTEX_FINISHED || is_left_alone(run, vertex) ||
            run->blocked[vertex] == run->stops + 1) {
            continue;
        }
        uint32_t steps = run->tally.steps;
        uint32_t edges_in = in_count(run, vertex);
        bool yields = yields_next(run, vertex);
        *reply = keshtiwol_step(LENT(run), vertex);
        *stepped = vertex;
        if (before == KESHTIWOL_VERTEX_RELEASED && (edges_in == 0) != (reply->said == KESHTIWOL_START)) {
            fault(run, "a step of vertex %u, released with %u edges into it, said %u", vertex, edges_in, reply->said);
            return true;
        }
        if (yields != (reply->said == KESHTIWOL_YIELD)) {
            fault(run, "a step of vertex %u said %u where a yield was%s due", vertex, reply->said, yields ? "" : " not");
            return true;
        }
        if (reply->said != KESHTIWOL_REFUSED) {
            if (run->tally.steps != steps + 1) {
                fault(run, "the tally has %u steps after step %u", run->tally.steps, steps + 1);
            }
            return true;
        }
        if (reply->first != KESHTIWOL_EDGE_LEADS_IN || before != KESHTIWOL_VERTEX_RELEASED) {
            fault(run, "a step of vertex %u was refused: %u at %u", vertex, reply->first, reply->second);
            return true;
        }
        run->blocked[vertex] = run->stops + 1; /* only a stop can change this */
    }
    return false;
}

/* A job named too early is still run, so that its reading shows it as well. */
int named_job(struct run *run, uint32_t number, uint32_t offset)
{
    const struct tree *tree = run->tree;
    int job = offset < run->program->length ? tree->job_at[offset] : -1;
    if (job < 0 || tree_job(tree, job)->number != number) {
        fault(run, "no job %u stands at %u", number, offset);
        return -1;
    }
    if (run->named[job]) {
        fault(run, "the job at %u was named a second time", offset);
    }
    for (size_t i = tree->from[job]; i < tree->from[job + 1]; i++) {
        if (!run->ended[tree->ahead[i]]) {
            fault(run, "the job at %u was named before the job at %u had ended", offset, tree_job(tree, tree->ahead[i])->offset);
        }
    }
    run->named[job] = true;
    run->order = (run->order ^ (uint64_t)(job + 1)) * 0x100000001B3u;
    return job;
}

static void end_job(struct run *run, int job, uint32_t vertex)
{
    run->ended[job] = true;
    run->held[vertex] = false;
    run->busy[vertex] = 0;
    run->running--;
    wake_all(run);
}

void do_job(struct worker *worker, uint32_t vertex, int job)
{
    struct run *run = worker->run;
    bool early = run->breaking == JOBS && draw(&worker->dice, 3) == 0;
    run->running++;
    run->most = run->running > run->most ? run->running : run->most;
    if (early) {
        end_job(run, job, vertex); /* a lie */
    }

    pthread_mutex_unlock(&run->lock);
    int wrong = run_job(run, job, &worker->dice, early || run->breaking == YIELDS);
    pthread_mutex_lock(&run->lock);

    if (!early) {
        end_job(run, job, vertex);
    }
    if (wrong == job) {
        fault(run, "the job at %u ran a second time", tree_job(run->tree, job)->offset);
    } else if (wrong >= 0) {
        fault(run, "the job at %u found the block of the job at %u not filled", tree_job(run->tree, job)->offset,
              tree_job(run->tree, wrong)->offset);
    }
}

/* Whether a job is running in a branch that this vertex waits for. */
static bool waits_for_job(const struct run *run, uint32_t vertex)
{
    for (const uint32_t *edge = run->edges; edge < run->edges + KESHTIWOL_EDGE_WORDS * run->tally.held; edge += KESHTIWOL_EDGE_WORDS) {
        if (edge[KESHTIWOL_TARGET] == vertex && run->busy[edge[KESHTIWOL_SOURCE]]) {
            return true;
        }
    }
    return false;
}

/* Of a step that named no job. */
static void note_step(struct run *run, uint32_t vertex, uint32_t said)
{
    if (said == KESHTIWOL_STOP) {
        run->stops++;
    }
    if (said == KESHTIWOL_YIELD) {
        run->yields++;
        run->ready += in_count(run, vertex) == 0;
        if (run->breaking == YIELDS && waits_for_job(run, vertex)) {
            *word(run, vertex, KESHTIWOL_IN_COUNT) = 0; /* a lie */
        }
    }
    if (said == KESHTIWOL_STOP || said == KESHTIWOL_RELEASE || said == KESHTIWOL_YIELD) {
        wake_all(run); /* others may be able to step now; of a yield, the vertex itself where both branches have finished */
    }
}

bool is_over(const struct run *run)
{
    return run->fault[0] != '\0' || run->tally.steps == tree_steps(run->tree, run->edition);
}

static void *work_by_steps(void *argument)
{
    struct worker *worker = argument;
    struct run *run = worker->run;
    pthread_mutex_lock(&run->lock);
    while (!is_over(run)) {
        uint32_t vertex;
        struct keshtiwol_reply reply;
        if (step_one(run, &worker->dice, &vertex, &reply)) {
            if (reply.said == KESHTIWOL_JOB) {
                int job = named_job(run, reply.first, reply.second);
                if (job >= 0) {
                    run->busy[vertex] = 1;
                    do_job(worker, vertex, job);
                }
                look_at_sleepers(run);
                continue;
            }
            note_step(run, vertex, reply.said);
            look_at_sleepers(run);
            pthread_mutex_unlock(&run->lock);
            if (draw(&worker->dice, 4) == 0) {
                sched_yield();
            }
            pthread_mutex_lock(&run->lock);
        } else if (run->running > 0) {
            sleep_until_woken(run);
        } else {
            fault(run, "no vertex can step after %u of %u steps", run->tally.steps, tree_steps(run->tree, run->edition));
        }
    }
    wake_all(run);
    pthread_mutex_unlock(&run->lock);
    return NULL;
}

/* A WHOLE RUN */

static void *lend(size_t count, size_t size)
{
    void *room = calloc(count + 1, size);
    if (room == NULL) {
        abort();
    }
    return room;
}

/* A table of so many words, with a guard behind them. */
static uint32_t *lend_table(uint32_t words)
{
    uint32_t *table = lend(words + GUARD_WORDS, sizeof *table);
    for (uint32_t i = 0; i < words + GUARD_WORDS; i++) {
        table[i] = GUARD;
    }
    return table;
}

static bool is_guarded(const uint32_t *table, uint32_t words)
{
    for (uint32_t i = words; i < words + GUARD_WORDS; i++) {
        if (table[i] != GUARD) {
            return false;
        }
    }
    return true;
}

/* The state at the full count, and what the engine says of it. */
static void look_at_end(struct run *run)
{
    const struct tree *tree = run->tree;
    for (int job = 0; job < (int)tree->job_count; job++) {
        if (!run->ended[job] || !is_filled(run, job)) {
            fault(run, "the job at %u ran %u times", tree_job(tree, job)->offset, run->blocks[job].runs);
        }
    }
    if (run->tally.made != tree_vertices(tree, run->edition) || run->tally.held != 0) {
        fault(run, "at the end %u vertices are made and %u edges held", run->tally.made, run->tally.held);
    }
    for (uint32_t vertex = 0; vertex < run->tally.made; vertex++) {
        if (status(run, vertex) != KESHTIWOL_VERTEX_FINISHED || in_count(run, vertex) != 0) {
            fault(run, "at the end vertex %u has status %u and %u edges into it", vertex, status(run, vertex), in_count(run, vertex));
        }
    }
    if (!run->dispatches && run->yields != (run->edition == KESHTIWOL_SECOND_EDITION ? tree->forks : 0)) {
        fault(run, "%u yields were made", run->yields);
    }
    struct keshtiwol_reply lowest = keshtiwol_lowest(LENT(run));
    struct keshtiwol_run_reply rest = keshtiwol_run(LENT(run), 1);
    if (lowest.said != KESHTIWOL_NONE || rest.ending.said != KESHTIWOL_DONE || rest.last.said != KESHTIWOL_NONE || rest.taken != 0) {
        fault(run, "at the end the engine says %u, and %u after %u more steps", lowest.said, rest.ending.said, rest.taken);
    }
    if (!is_guarded(run->vertices, vertex_words(run)) || !is_guarded(run->edges, edge_words(run)) ||
        !is_guarded(run->busy, tree_vertices(tree, run->edition))) {
        fault(run, "words behind a lent table were written");
    }
}

/* What a program's runs came to. */
struct summary {
    uint32_t runs;
    uint64_t orders[MOST_ORDERS]; /* the different ones */
    uint32_t order_count;
    uint32_t most; /* jobs at once */
    uint32_t yields, ready;
    struct endings endings; /* of dispatches */
};

static void add_endings(struct endings *sum, struct endings endings)
{
    sum->done += endings.done;
    sum->waiting += endings.waiting;
    sum->full += endings.full;
    sum->spent += endings.spent;
}

static void add_run(struct summary *summary, const struct run *run)
{
    uint32_t seen = 0;
    while (seen < summary->order_count && summary->orders[seen] != run->order) {
        seen++;
    }
    if (seen == summary->order_count && seen < MOST_ORDERS) {
        summary->orders[summary->order_count++] = run->order;
    }
    summary->runs++;
    summary->most = run->most > summary->most ? run->most : summary->most;
    summary->yields += run->yields;
    summary->ready += run->ready;
    add_endings(&summary->endings, run->endings);
}

/* How a run goes. */
enum way { DRAWN_WAY, STEPS, DISPATCH };

struct options {
    enum breaking breaking;
    enum way way;
    uint32_t edition; /* 0: both */
    uint32_t rounds;
    uint64_t seed;
};

/* Runs a program with so many workers. False, and says why, if anything was wrong. */
static bool run_program(const struct program *program, const struct tree *tree, uint32_t edition, uint32_t workers, uint64_t *dice,
                        const struct options *options, struct summary *summary)
{
    uint32_t vertices = tree_vertices(tree, edition);
    bool dispatches = options->way == DRAWN_WAY ? draw(dice, 2) == 0 : options->way == DISPATCH;
    struct run run = {
        .program = program,
        .tree = tree,
        .edition = edition,
        .dispatches = dispatches,
        .yields_late = !dispatches && draw(dice, 2) == 0,
        .stamp = draw(dice, UINT32_MAX),
        .breaking = options->breaking,
        .blocks = lend(tree->job_count, sizeof *run.blocks),
        .lock = PTHREAD_MUTEX_INITIALIZER,
        .changed = PTHREAD_COND_INITIALIZER,
        .vertices = lend_table(KESHTIWOL_VERTEX_WORDS * vertices),
        .edges = lend_table(KESHTIWOL_EDGE_WORDS * tree_edges(tree)),
        .busy = lend_table(vertices),
        .blocked = lend(vertices, sizeof *run.blocked),
        .named = lend(tree->job_count, sizeof *run.named),
        .ended = lend(tree->job_count, sizeof *run.ended),
        .list = lend_table(LIST_WORDS),
        .held = lend(vertices, sizeof *run.held),
    };
    memset(run.busy, 0, vertices * sizeof *run.busy);
    struct keshtiwol_reply reply = keshtiwol_load(LENT(&run));
    bool is_too_large = vertices > KESHTIWOL_ROWS;
    if (is_too_large && (reply.said != KESHTIWOL_REFUSED || reply.first != KESHTIWOL_TOO_MANY_VERTICES)) {
        fault(&run, "loading %u vertices said %u, %u", vertices, reply.said, reply.first);
    } else if (!is_too_large && reply.said != KESHTIWOL_READY) {
        fault(&run, "loading was refused: %u at %u", reply.first, reply.second);
    } else if (!is_too_large) {
        struct worker hands[MOST_WORKERS];
        pthread_t threads[MOST_WORKERS];
        for (uint32_t i = 0; i < workers; i++) {
            hands[i] = (struct worker){&run, (uint64_t)draw(dice, UINT32_MAX) << 32 | i};
            if (pthread_create(&threads[i], NULL, dispatches ? work_by_dispatch : work_by_steps, &hands[i]) != 0) {
                abort();
            }
        }
        for (uint32_t i = 0; i < workers; i++) {
            pthread_join(threads[i], NULL);
        }
        look_at_end(&run);
    }
    if (run.fault[0] != '\0') {
        printf("pool: %s (edition %u), %u workers, by %s: %s\n", program->name, edition, workers, dispatches ? "dispatch" : "steps",
               run.fault);
    }
    add_run(summary, &run);
    pthread_mutex_destroy(&run.lock);
    pthread_cond_destroy(&run.changed);
    free(run.blocks);
    free(run.vertices);
    free(run.edges);
    free(run.busy);
    free(run.blocked);
    free(run.named);
    free(run.ended);
    free(run.list);
    free(run.held);
    return run.fault[0] == '\0';
}

/* ALL PROGRAMS */

/* What all programs came to. */
struct totals {
    uint64_t jobs, yields, ready;
    struct endings endings;
};

/* Every round with 1, 2, 4 and 8 workers. Prints the program's line, and adds to the totals. */
static bool try_program(const struct program *program, uint32_t edition, const struct options *options, uint64_t *dice,
                        struct totals *totals)
{
    struct tree *tree = tree_read(program->bytes, program->length);
    if (tree == NULL) {
        printf("pool: %s is no program\n", program->name);
        return false;
    }
    struct summary summary = {.runs = 0};
    bool good = true;
    for (uint32_t round = 0; good && round < options->rounds; round++) {
        for (uint32_t workers = 1; good && workers <= MOST_WORKERS; workers *= 2) {
            good = run_program(program, tree, edition, workers, dice, options, &summary);
        }
    }
    uint32_t vertices = tree_vertices(tree, edition);
    if (good && vertices > KESHTIWOL_ROWS) {
        printf("%s (edition %u): vertices %u, refused\n", program->name, edition, vertices);
    } else if (good) {
        totals->jobs += (uint64_t)summary.runs * tree->job_count;
        totals->yields += summary.yields;
        totals->ready += summary.ready;
        add_endings(&totals->endings, summary.endings);
        printf("%s (edition %u): vertices %u jobs %u steps %u pairs ahead %zu, runs %u orders of jobs %u at once %u\n", program->name,
               edition, vertices, tree->job_count, tree_steps(tree, edition), tree->from[tree->job_count],
               summary.runs, summary.order_count, summary.most);
    }
    fflush(stdout);
    tree_drop(tree);
    return good;
}

static bool read_options(int count, char **words, struct options *options)
{
    for (int i = 1; i < count; i++) {
        if (strcmp(words[i], "--break") == 0 && i + 1 < count) {
            options->breaking = strcmp(words[++i], "jobs") == 0 ? JOBS : strcmp(words[i], "yields") == 0 ? YIELDS : NOTHING;
            if (options->breaking == NOTHING) {
                return false;
            }
        } else if (strcmp(words[i], "--by") == 0 && i + 1 < count) {
            options->way = strcmp(words[++i], "steps") == 0 ? STEPS : strcmp(words[i], "dispatch") == 0 ? DISPATCH : DRAWN_WAY;
            if (options->way == DRAWN_WAY) {
                return false;
            }
        } else if (strcmp(words[i], "--edition") == 0 && i + 1 < count) {
            options->edition = (uint32_t)strtoul(words[++i], NULL, 10);
            if (options->edition != KESHTIWOL_FIRST_EDITION && options->edition != KESHTIWOL_SECOND_EDITION) {
                return false;
            }
        } else if (strcmp(words[i], "--rounds") == 0 && i + 1 < count) {
            options->rounds = (uint32_t)strtoul(words[++i], NULL, 10);
        } else if (strcmp(words[i], "--seed") == 0 && i + 1 < count) {
            options->seed = strtoull(words[++i], NULL, 10);
        } else {
            return false;
        }
    }
    if (options->breaking == YIELDS && options->way == DRAWN_WAY) {
        options->way = STEPS;
    }
    return options->rounds > 0 && !(options->breaking == YIELDS && options->way == DISPATCH);
}

/* Whether the programs met all that they are there for. */
static bool all_was_met(const struct options *options, const struct totals *totals)
{
    struct endings endings = totals->endings;
    bool all_yields = options->edition == KESHTIWOL_FIRST_EDITION || (totals->ready > 0 && totals->ready < totals->yields);
    bool all_endings = endings.done > 0 && endings.waiting > 0 && endings.full > 0 && endings.spent > 0;
    return (options->way == DISPATCH || all_yields) && (options->way == STEPS || all_endings);
}

int main(int count, char **words)
{
    struct options options = {NOTHING, DRAWN_WAY, 0, ROUNDS, 1};
    if (!read_options(count, words, &options)) {
        fprintf(stderr, "usage: pool [--break jobs | --break yields] [--by steps | --by dispatch] [--edition N] [--rounds N] [--seed N]\n");
        return 2;
    }
    static struct program program;
    uint64_t dice = options.seed;
    struct totals totals = {.jobs = 0};
    for (int i = 0; i < BUILT_IN + DRAWN; i++) {
        uint32_t drawn = KESHTIWOL_FIRST_EDITION + draw(&dice, 2);
        if (i < BUILT_IN) {
            program_built_in(&program, i);
        } else {
            program_drawn(&program, options.seed * 1000 + (uint64_t)(i - BUILT_IN));
        }
        for (uint32_t edition = KESHTIWOL_FIRST_EDITION; edition <= KESHTIWOL_SECOND_EDITION; edition++) {
            bool is_asked_for = options.edition != 0 ? edition == options.edition : i < BUILT_IN || edition == drawn;
            if (is_asked_for && !try_program(&program, edition, &options, &dice, &totals)) {
                return 1;
            }
        }
    }
    printf("pool: %d programs, %llu jobs, all in order; %llu yields, %llu of them when both branches had finished\n", BUILT_IN + DRAWN,
           (unsigned long long)totals.jobs, (unsigned long long)totals.yields, (unsigned long long)totals.ready);
    printf("pool: dispatches ended %u times with done, %u waiting, %u full, %u spent\n", totals.endings.done, totals.endings.waiting,
           totals.endings.full, totals.endings.spent);
    if (!all_was_met(&options, &totals)) {
        printf("pool: not all ways to yield or to end were met\n");
        return 1;
    }
    return 0;
}
