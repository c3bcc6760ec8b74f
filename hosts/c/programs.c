#include "programs.h"

#include <stdio.h>
#include <stdlib.h>
#include <string.h>

#include "dice.h"
#include "tree.h"

/* WRITING BYTES */

static void put(struct program *program, uint8_t byte)
{
    if (program->length == sizeof program->bytes) {
        abort();
    }
    program->bytes[program->length++] = byte;
}

static void put_number(struct program *program, uint32_t number)
{
    while (number >= 0x80) {
        put(program, (uint8_t)(number | 0x80));
        number >>= 7;
    }
    put(program, (uint8_t)number);
}

static void put_job(struct program *program, uint32_t number)
{
    put(program, JOB);
    put_number(program, number);
}

/* A force of the nearest future open there but so many. */
static void put_force(struct program *program, uint32_t number)
{
    put(program, FORCE);
    put_number(program, number);
}

static void end(struct program *program)
{
    put(program, END);
}

static void put_all(struct program *program, const uint8_t *bytes, size_t length)
{
    for (size_t i = 0; i < length; i++) {
        put(program, bytes[i]);
    }
}

/* THOSE BUILT IN */

#define BYTES(...) put_all(program, (const uint8_t[]){__VA_ARGS__}, sizeof(const uint8_t[]){__VA_ARGS__})

static void deep_asyncs(struct program *program)
{
    for (int i = 0; i < 31; i++) {
        put(program, ASYNC);
    }
    for (int i = 0; i < 32; i++) {
        end(program);
    }
}

static void most_asyncs(struct program *program)
{
    for (int i = 0; i < 1022; i++) {
        put(program, ASYNC);
        end(program);
    }
    end(program);
}

/* Three bands: retune, a job whose number is the frequency, then filter and decode eight blocks side by side, then log, which the next
 * band does not wait for. The last job writes the logbook when all of this is over. */
static void receiver(struct program *program)
{
    enum { FILTER = 200, DECODE = 300, LOG = 400, LOGBOOK = 500, BANDS = 3, BLOCKS = 8 };
    static const uint32_t hertz[BANDS] = {14074000, 144174000, 3400100000};
    put(program, FINISH);
    for (uint32_t band = 0; band < BANDS; band++) {
        put_job(program, hertz[band]);
        put(program, FINISH);
        for (uint32_t block = 0; block < BLOCKS; block++) {
            put(program, ASYNC);
            put_job(program, FILTER + BLOCKS * band + block);
            put_job(program, DECODE + BLOCKS * band + block);
            end(program);
        }
        end(program);
        put(program, ASYNC);
        put_job(program, LOG + band);
        end(program);
    }
    end(program);
    put_job(program, LOGBOOK);
    end(program);
}

/* A job, two forked halves of the same kind, a job. */
static void halves(struct program *program, int depth, uint32_t *number)
{
    put_job(program, (*number)++);
    if (depth > 0) {
        put(program, FORK);
        halves(program, depth - 1, number);
        halves(program, depth - 1, number);
        put_job(program, (*number)++);
    }
    end(program);
}

static void nested_forks(struct program *program)
{
    uint32_t number = 1;
    halves(program, 5, &number);
}

static void wide_asyncs(struct program *program)
{
    put(program, FINISH);
    for (uint32_t i = 0; i < 200; i++) {
        put(program, ASYNC);
        put_job(program, i);
        end(program);
    }
    end(program);
    put_job(program, 200);
    end(program);
}

/* Jobs before each of 30 finishes, one in the other, and at the end of each an async and a job. */
static void deep_finishes(struct program *program)
{
    for (uint32_t i = 0; i < 30; i++) {
        put_job(program, i);
        put(program, FINISH);
    }
    for (uint32_t i = 0; i < 30; i++) {
        put(program, ASYNC);
        put_job(program, 100 + i);
        end(program);
        put_job(program, 200 + i);
        end(program);
    }
    end(program);
}

/* Forks whose halves leave asyncs behind: what comes after such a fork does not wait for them, what comes after the finish does. */
static void left_behind(struct program *program)
{
    uint32_t number = 1;
    for (int i = 0; i < 6; i++) {
        put(program, FINISH);
        for (int j = 0; j < 3; j++) {
            put(program, FORK);
            for (int half = 0; half < 2; half++) {
                put(program, ASYNC);
                put_job(program, number++);
                put_job(program, number++);
                end(program);
                put_job(program, number++);
                end(program);
            }
            put_job(program, number++);
        }
        end(program);
        put_job(program, number++);
    }
    end(program);
}

static void long_line(struct program *program)
{
    for (uint32_t i = 0; i < 150; i++) {
        put_job(program, 1000 + i);
    }
    end(program);
}

/* Twelve blocks: each is filtered, and a long decode of it begun, which in half of them leaves an async behind. Then the calls are
 * logged, from the last block to the first, as soon as each is decoded; the odd ones' futures are forced by an async of their own. */
static void begun_early(struct program *program)
{
    enum { FILTER = 200, DECODE = 300, STORE = 400, LOG = 500, BLOCKS = 12 };
    for (uint32_t block = 0; block < BLOCKS; block++) {
        put_job(program, FILTER + block);
        put(program, FUTURE);
        put_job(program, DECODE + block);
        if (block % 2 == 0) {
            put(program, ASYNC);
            put_job(program, STORE + block);
            end(program);
        }
        end(program);
    }
    for (uint32_t block = BLOCKS; block-- > 0;) {
        if (block % 2 != 0) {
            put(program, ASYNC);
        }
        put_force(program, BLOCKS - 1 - block);
        put_job(program, LOG + block);
        if (block % 2 != 0) {
            end(program);
        }
    }
    end(program);
}

/* Futures each of which forces the one before twice: read as finishes, the first one's body would stand there half a million times. */
static void force_before(struct program *program)
{
    enum { FUTURES = 20 };
    for (uint32_t i = 0; i < FUTURES; i++) {
        put(program, FUTURE);
        for (uint32_t j = 0; j < 2; j++) {
            if (i > 0) {
                put_force(program, 0);
            }
            put_job(program, 2 * i + j);
        }
        end(program);
    }
    put_job(program, 2 * FUTURES);
    put_force(program, 0);
    put_job(program, 2 * FUTURES + 1);
    end(program);
}

/* Futures that nothing forces, and others inside them; what is behind the finish waits for none of them. */
static void unforced(struct program *program)
{
    uint32_t number = 1;
    for (int i = 0; i < 10; i++) {
        put(program, FINISH);
        put(program, FUTURE);
        put_job(program, number++);
        put(program, FUTURE);
        put_job(program, number++);
        end(program);
        put_job(program, number++);
        end(program);
        put_job(program, number++);
        end(program);
        put_job(program, number++);
    }
    end(program);
}

static void most_futures(struct program *program)
{
    for (int i = 0; i < 511; i++) {
        put(program, FUTURE);
        end(program);
    }
    end(program);
}

static void most_forces(struct program *program)
{
    put(program, FUTURE);
    put_job(program, 1);
    end(program);
    for (int i = 0; i < 1020; i++) {
        put_force(program, 0);
    }
    put_job(program, 2);
    end(program);
}

/* One body with many forks: in the second edition its vertex starts as many times again. */
static void forks_in_a_line(struct program *program)
{
    uint32_t number = 1;
    for (int i = 0; i < 30; i++) {
        put(program, FORK);
        put_job(program, number++);
        end(program);
        put_job(program, number++);
        put_job(program, number++);
        end(program);
        if (i % 2 == 0) {
            put_job(program, number++);
        }
    }
    end(program);
}

/* Branches without a job, so that they may end before what forks them has done its part. */
static void empty_forks(struct program *program)
{
    for (uint32_t i = 0; i < 40; i++) {
        put(program, FORK);
        end(program);
        put(program, FORK);
        end(program);
        end(program);
        end(program);
        put_job(program, i);
    }
    end(program);
}

/* A job before each of 31 forks, one in the first branch of the other, one at the end of each branch, and one behind the fork. */
static void deep_forks(struct program *program)
{
    for (uint32_t i = 0; i < 31; i++) {
        put_job(program, i);
        put(program, FORK);
    }
    for (uint32_t i = 0; i < 31; i++) {
        put_job(program, 100 + i);
        end(program);
        put_job(program, 200 + i);
        end(program);
        put_job(program, 300 + i);
    }
    end(program);
}

/* Just as many as the second edition has vertices for. The first refuses them. */
static void most_forks(struct program *program)
{
    for (int i = 0; i < 511; i++) {
        put(program, FORK);
        end(program);
        end(program);
    }
    end(program);
}

/* In one branch an async that is left behind and a finish around another; in the other a future, which a fork's branch forces and then
 * the branch itself. What comes after the outer finish waits for all asyncs. */
static void mixed_branches(struct program *program)
{
    uint32_t number = 1;
    for (int i = 0; i < 5; i++) {
        put(program, FINISH);
        put(program, FORK);
        put(program, ASYNC);
        put_job(program, number++);
        put_job(program, number++);
        end(program);
        put(program, FINISH);
        put(program, ASYNC);
        put_job(program, number++);
        end(program);
        put_job(program, number++);
        end(program);
        put_job(program, number++);
        end(program);

        put(program, FUTURE);
        put_job(program, number++);
        put(program, ASYNC);
        put_job(program, number++);
        end(program);
        end(program);
        put(program, FORK);
        put_job(program, number++);
        end(program);
        put_force(program, 0);
        put_job(program, number++);
        end(program);
        put_job(program, number++);
        put_force(program, 0);
        put_job(program, number++);
        end(program);
        put_job(program, number++);
        end(program);
        put_job(program, number++);
    }
    end(program);
}

/* Futures that fork, with a force of the one before in a branch; then both branches of a fork force some, and so does what comes after. */
static void forks_in_futures(struct program *program)
{
    enum { FUTURES = 8 };
    uint32_t number = 1;
    for (uint32_t i = 0; i < FUTURES; i++) {
        put(program, FUTURE);
        put(program, FORK);
        put_job(program, number++);
        end(program);
        if (i > 0) {
            put_force(program, 0);
        }
        put_job(program, number++);
        end(program);
        put_job(program, number++);
        end(program);
    }
    put(program, FORK);
    put_force(program, FUTURES - 1);
    put_job(program, number++);
    end(program);
    put_force(program, FUTURES / 2);
    put_job(program, number++);
    end(program);
    put_job(program, number++);
    put_force(program, 0);
    put_job(program, number++);
    end(program);
}

void program_built_in(struct program *program, int which)
{
    static const char *const names[BUILT_IN] = {
        "nothing", "one job", "async beside a job", "fork, then a job", "largest job number", "finish around an async",
        "31 asyncs, one in the other", "1,022 asyncs", "receiver", "nested forks", "wide asyncs", "deep finishes", "asyncs left behind",
        "150 jobs in a line", "future, forced where it is used", "decodes begun early", "futures that force the one before",
        "futures that nothing forces", "511 futures", "1,020 forces", "forks in a line", "forks of nothing", "31 forks, one in the other",
        "511 forks", "all kinds in branches", "forks in futures",
    };
    memset(program, 0, sizeof *program);
    snprintf(program->name, sizeof program->name, "%s", names[which]);
    switch (which) {
    case 0: BYTES(0); break;
    case 1: BYTES(1, 0, 0); break;
    case 2: BYTES(2, 1, 1, 0, 1, 2, 0); break;
    case 3: BYTES(4, 1, 1, 0, 1, 2, 0, 1, 3, 0); break;
    case 4: BYTES(1, 0xFF, 0xFF, 0xFF, 0xFF, 0x0F, 0); break;
    case 5: BYTES(3, 2, 1, 5, 0, 0, 1, 6, 0); break;
    case 6: deep_asyncs(program); break;
    case 7: most_asyncs(program); break;
    case 8: receiver(program); break;
    case 9: nested_forks(program); break;
    case 10: wide_asyncs(program); break;
    case 11: deep_finishes(program); break;
    case 12: left_behind(program); break;
    case 13: long_line(program); break;
    case 14: BYTES(5, 1, 1, 0, 1, 2, 6, 0, 1, 3, 0); break;
    case 15: begun_early(program); break;
    case 16: force_before(program); break;
    case 17: unforced(program); break;
    case 18: most_futures(program); break;
    case 19: most_forces(program); break;
    case 20: forks_in_a_line(program); break;
    case 21: empty_forks(program); break;
    case 22: deep_forks(program); break;
    case 23: most_forks(program); break;
    case 24: mixed_branches(program); break;
    case 25: forks_in_futures(program); break;
    }
}

/* THOSE DRAWN */

/* What is left to spend, and how likely each kind of item is, in hundredths; the rest are jobs. */
struct plan {
    uint64_t dice;
    uint32_t vertices, jobs;
    uint32_t async, finish, fork, future, force;
    uint32_t items; /* of a body, at most */
    int levels;
};

static void draw_job(struct program *program, struct plan *plan)
{
    static const uint32_t greatest[5] = {0x7F, 0x3FFF, 0x1FFFFF, 0xFFFFFFF, UINT32_MAX}; /* of one to five bytes */
    if (plan->jobs > 0) {
        plan->jobs--;
        uint32_t most = greatest[draw(&plan->dice, 5)];
        put_job(program, draw(&plan->dice, 8) == 0 ? most : draw(&plan->dice, most));
    }
}

/* Puts an item's first byte if there are vertices for it. */
static bool begin_item(struct program *program, struct plan *plan, uint8_t kind, uint32_t vertices)
{
    if (plan->vertices < vertices) {
        return false;
    }
    plan->vertices -= vertices;
    put(program, kind);
    return true;
}

/* Whether the pick is of this kind. Where it is not, it is made one among the other kinds. */
static bool is_picked(uint32_t *pick, uint32_t likely)
{
    bool picked = *pick < likely;
    *pick -= picked ? 0 : likely;
    return picked;
}

/* In it so many futures are open from its beginning on. */
static void draw_body(struct program *program, struct plan *plan, int level, uint32_t least, uint32_t futures)
{
    uint32_t items = least + draw(&plan->dice, plan->items + 1);
    for (uint32_t i = 0; i < items; i++) {
        uint32_t pick = draw(&plan->dice, 100);
        int inner = level + 1;
        if (is_picked(&pick, plan->force)) {
            if (futures > 0 && begin_item(program, plan, FORCE, 1)) {
                put_number(program, draw(&plan->dice, 2) == 0 ? 0 : draw(&plan->dice, futures));
            }
        } else if (inner > plan->levels) {
            draw_job(program, plan);
        } else if (is_picked(&pick, plan->async)) {
            if (begin_item(program, plan, ASYNC, 1)) {
                draw_body(program, plan, inner, 0, futures);
            }
        } else if (is_picked(&pick, plan->finish)) {
            if (begin_item(program, plan, FINISH, 2)) {
                draw_body(program, plan, inner, 0, futures);
            }
        } else if (is_picked(&pick, plan->fork)) {
            if (begin_item(program, plan, FORK, 3)) {
                draw_body(program, plan, inner, 0, futures);
                draw_body(program, plan, inner, 0, futures);
            }
        } else if (is_picked(&pick, plan->future)) {
            if (begin_item(program, plan, FUTURE, 2)) {
                draw_body(program, plan, inner, 0, futures);
                futures++;
            }
        } else {
            draw_job(program, plan);
        }
    }
    end(program);
}

void program_drawn(struct program *program, uint64_t seed)
{
    struct plan plan = {.dice = seed, .vertices = 298, .jobs = 200};
    plan.async = 5 + draw(&plan.dice, 20);
    plan.finish = 5 + draw(&plan.dice, 10);
    plan.fork = 5 + draw(&plan.dice, 10);
    plan.future = 5 + draw(&plan.dice, 20);
    plan.force = 5 + draw(&plan.dice, 20);
    plan.items = 3 + draw(&plan.dice, 6);
    plan.levels = 3 + (int)draw(&plan.dice, LEVELS - 2);

    memset(program, 0, sizeof *program);
    snprintf(program->name, sizeof program->name, "drawn %llu", (unsigned long long)seed);
    draw_body(program, &plan, 1, 12, 0);
}
