/* Workers that have the engine hand out jobs.
 *
 * A worker that finds a job handed out runs it, and then clears the mark of the job's vertex. One that finds none calls dispatch, with a
 * list of a drawn length and sometimes a small budget, and looks at all that it left: the list, the marks and how it ended. */
#include "pool.h"

enum { MOST_PAIRS = 16384 /* of jobs, one ahead of the other, looked at where nothing more can start */ };

/* THE LIST AND THE MARKS */

/* Few rows as often as many, sometimes none, and sometimes one that is not full behind them. */
static uint32_t draw_list_words(uint64_t *dice)
{
    uint32_t rows = draw(dice, 2) == 0 ? draw(dice, 4) : draw(dice, MOST_ROWS + 1);
    return KESHTIWOL_JOB_WORDS * rows + draw(dice, KESHTIWOL_JOB_WORDS);
}

static void guard_list(struct run *run)
{
    for (uint32_t i = 0; i < LIST_WORDS + GUARD_WORDS; i++) {
        run->list[i] = GUARD;
    }
}

/* Notes the jobs that were handed out. None may be early, and none of a vertex whose job is running. */
static void look_at_list(struct run *run)
{
    for (uint32_t row = 0; row < run->handed; row++) {
        const uint32_t *words = &run->list[KESHTIWOL_JOB_WORDS * row];
        uint32_t vertex = words[KESHTIWOL_JOB_VERTEX];
        named_job(run, words[KESHTIWOL_JOB_NUMBER], words[KESHTIWOL_JOB_OFFSET]);
        if (vertex >= run->tally.made || run->held[vertex]) {
            fault(run, "a job of vertex %u was handed out, which %s", vertex, vertex < run->tally.made ? "is busy" : "is none");
            return;
        }
        run->held[vertex] = true;
    }
    for (uint32_t i = KESHTIWOL_JOB_WORDS * run->handed; i < LIST_WORDS + GUARD_WORDS; i++) {
        if (run->list[i] != GUARD) {
            fault(run, "word %u of the list was written, behind %u jobs", i, run->handed);
        }
    }
}

/* They are set at the vertices whose job was handed out and has not ended, and nowhere else. */
static void look_at_marks(struct run *run)
{
    for (uint32_t vertex = 0; vertex < tree_vertices(run->tree, run->edition); vertex++) {
        if (run->busy[vertex] != run->held[vertex]) {
            fault(run, "vertex %u has the mark %u, and its job is%s running", vertex, run->busy[vertex], run->held[vertex] ? "" : " not");
        }
    }
}

/* ENDINGS */

/* Nothing waits needlessly: each job that was not handed out has one ahead of it that is still running. */
static void look_at_jobs_waiting(struct run *run)
{
    const struct tree *tree = run->tree;
    for (uint32_t job = 0; tree->from[tree->job_count] <= MOST_PAIRS && job < tree->job_count; job++) {
        bool waits = run->named[job];
        for (size_t i = tree->from[job]; !waits && i < tree->from[job + 1]; i++) {
            waits = run->named[tree->ahead[i]] && !run->ended[tree->ahead[i]];
        }
        if (!waits) {
            fault(run, "the job at %u is not handed out, and no job ahead of it is running", tree_job(tree, (int)job)->offset);
        }
    }
}

static void look_at_ending(struct run *run, struct keshtiwol_dispatch_reply reply, uint32_t rows, uint32_t budget)
{
    bool is_done = run->tally.steps == tree_steps(run->tree, run->edition);
    uint32_t free = 0, busy = 0; /* vertices that can step */
    for (uint32_t vertex = 0; vertex < run->tally.made; vertex++) {
        if (can_step(run, vertex)) {
            *(run->busy[vertex] ? &busy : &free) += 1;
        }
    }
    bool is_right = false;
    switch (reply.ending.said) {
    case KESHTIWOL_DONE:
        is_right = is_done;
        run->endings.done++;
        break;
    case KESHTIWOL_WAITING:
        is_right = !is_done && free == 0 && busy > 0;
        run->endings.waiting++;
        look_at_jobs_waiting(run);
        break;
    case KESHTIWOL_FULL:
        is_right = !is_done && free > 0 && reply.handed == rows;
        run->endings.full++;
        break;
    case KESHTIWOL_SPENT:
        is_right = !is_done && free > 0 && reply.handed < rows && reply.taken == budget;
        run->endings.spent++;
        break;
    }
    if (!is_right) {
        fault(run, "a dispatch said %u, %u after %u of %u steps and %u of %u jobs, at step %u, with %u vertices that can step and %u busy ones",
              reply.ending.said, reply.ending.first, reply.taken, budget, reply.handed, rows, run->tally.steps, free, busy);
    }
}

/* WORKERS, under the lock but for their jobs */

/* Has jobs handed out, where none are left to begin. False if nothing more can start before a job has ended. */
static bool dispatch(struct run *run, uint64_t *dice)
{
    uint32_t words = draw_list_words(dice);
    uint32_t budget = draw(dice, 3) == 0 ? draw(dice, 20) : UINT32_MAX;
    uint32_t steps = run->tally.steps;
    guard_list(run);
    struct keshtiwol_dispatch_reply reply =
        keshtiwol_dispatch(LENT(run), budget, run->busy, tree_vertices(run->tree, run->edition), run->list, words);
    if (run->tally.steps != steps + reply.taken || reply.taken > budget || reply.handed > words / KESHTIWOL_JOB_WORDS) {
        fault(run, "a dispatch took %u of %u steps from step %u to %u, and handed out %u jobs in %u words", reply.taken, budget, steps,
              run->tally.steps, reply.handed, words);
        return true;
    }
    run->handed = reply.handed;
    run->begun = 0;
    look_at_list(run);
    look_at_marks(run);
    look_at_ending(run, reply, words / KESHTIWOL_JOB_WORDS, budget);
    if (run->handed > 0) {
        wake_all(run);
    }
    return run->handed > 0 || reply.ending.said != KESHTIWOL_WAITING;
}

static void begin_job(struct worker *worker)
{
    struct run *run = worker->run;
    const uint32_t *words = &run->list[KESHTIWOL_JOB_WORDS * run->begun++];
    do_job(worker, words[KESHTIWOL_JOB_VERTEX], run->tree->job_at[words[KESHTIWOL_JOB_OFFSET]]);
}

void *work_by_dispatch(void *argument)
{
    struct worker *worker = argument;
    struct run *run = worker->run;
    pthread_mutex_lock(&run->lock);
    while (!is_over(run)) {
        if (run->begun < run->handed) {
            begin_job(worker);
        } else if (!dispatch(run, &worker->dice) && !is_over(run)) {
            sleep_until_woken(run);
        }
    }
    wake_all(run);
    pthread_mutex_unlock(&run->lock);
    return NULL;
}
