/* The task-graph engine: which job of a program may start now.
 *
 * A program is bytes: numbered jobs with async, finish, fork, future and force. A job's number reaches 4,294,967,295, so that a retune job
 * can carry its frequency in hertz. The engine turns the program into vertices and edges of a task graph and moves it one step at a time,
 * in whatever order the host picks. It keeps nothing: everything that it knows stands in the tables and the tally that the host lends.
 *
 * Each call ends in an accepted step or in a numbered refusal that changed nothing, whatever was handed in. That each answer, table and
 * tally is the one that the engine's definitions give is proved; what this file declares, and that the compiler keeps it, is trusted.
 *
 * The host's part of the bargain:
 *   - lend the same bytes, tables and tally each time, with their true lengths, name the same edition, and let nothing else write to
 *     them during a call;
 *   - make one call at a time for the same tables (one lock around the engine is enough); only calls that have all of them const may
 *     go at once;
 *   - after a step says KESHTIWOL_JOB, run that job and do not step its vertex again before the job has ended; hosts with threads may have
 *     keshtiwol_dispatch take the steps, and keep what it asks for in place of this;
 *   - go on stepping a vertex whose step said KESHTIWOL_YIELD: a step starts it again, like any released one, when no edge leads in.
 * Pointers must not be null, also where a length is 0, and what a call may change must not overlap what else it is lent.
 *
 * A PROGRAM'S BYTES, hexadecimal; two dots give a range, braces mean any number of times, none included:
 *
 *     program = body               1 to 4,096 bytes, and none behind the body's end
 *     body    = { item } 00        the program's is level 1, a body in an item one level deeper, to 32
 *     item    = job | async | finish | fork | future | force
 *     job     = 01 number          the host runs it
 *     async   = 02 body            goes on beside what follows it
 *     finish  = 03 body            what follows it waits for its body and all asyncs in it, and not for futures in it
 *     fork    = 04 body body       both beside each other; what follows it waits for both, and not for asyncs and futures in them
 *     future  = 05 body            goes on beside what follows it; nothing waits for it but forces
 *     force   = 06 number          what follows it waits for the future that it names, and for all asyncs in that: 0 is the nearest
 *                                  future open there, 1 the next one out, and so on
 *     number  = { more } last      1 to 5 bytes, the lowest seven bits first; at most 4,294,967,295
 *     more    = 80..FF             seven bits, and another byte follows
 *     last    = 00..7F             the highest seven bits; 00 only where it is the number's only byte
 *
 * 01 90 81 DB 06 is job 14,074,000. A future is open behind its item, to the end of the body in which the item stands and in the bodies of
 * later items, and not in its own body. One that is never forced still ends: a program is done when all its vertices are finished.
 *
 * The repository's docs/ENGINE.md says all that the engine does with a program. */
#ifndef KESHTIWOL_H
#define KESHTIWOL_H

#include <stddef.h>
#include <stdint.h>

#ifdef __cplusplus
extern "C" {
#endif

/* THE VERSION of this header. The first number grows where hosts must be compiled anew (a call's parameters, the shape of what is lent, the
 * meaning of an answer), the second where something is added, the third otherwise. */
#define KESHTIWOL_VERSION_MAJOR 4
#define KESHTIWOL_VERSION_MINOR 2
#define KESHTIWOL_VERSION_PATCH 1
/* As one number. */
#define KESHTIWOL_VERSION (10000 * KESHTIWOL_VERSION_MAJOR + 100 * KESHTIWOL_VERSION_MINOR + KESHTIWOL_VERSION_PATCH)

/* The version of the library that is linked, likewise. Its first number must be that of the header. */
uint32_t keshtiwol_version(void);

/* THE TABLES, of 32-bit words. Only full rows among the first 1,024 of each are used; other words are never touched.
 * A vertex row: status, place (byte offset in the program), scope (a vertex), phase (commands of the item at hand already done), the
 * three vertices that this item made, 0 where none, the latest open future, 0 where none (the vertex that finishes when that future has
 * ended, and whose own word names the next future out), and the in-count, the number of edges held into it. An edge row: source, target.
 *
 * MAY IT START? A host may read that from the row, between calls: a released vertex with the in-count 0 can start, and no other can. That
 * is so while only the engine writes the tables. (Edges may lead into an executing vertex, which waits for them when it has yielded.) A
 * host must not alter in-counts: a start, and the step of a released vertex, believe the word, and for 12 they look at the tally and at
 * that vertex's row only. */
enum {
    KESHTIWOL_VERTEX_WORDS = 9,
    KESHTIWOL_STATUS = 0,
    KESHTIWOL_PLACE = 1,
    KESHTIWOL_SCOPE = 2,
    KESHTIWOL_PHASE = 3,
    KESHTIWOL_MADE = 4,
    KESHTIWOL_FUTURE = 7,
    KESHTIWOL_IN_COUNT = 8,

    KESHTIWOL_EDGE_WORDS = 2,
    KESHTIWOL_SOURCE = 0,
    KESHTIWOL_TARGET = 1,

    /* A row of the list into which a dispatch writes the jobs that it hands out. */
    KESHTIWOL_JOB_WORDS = 3,
    KESHTIWOL_JOB_VERTEX = 0,
    KESHTIWOL_JOB_NUMBER = 1,
    KESHTIWOL_JOB_OFFSET = 2,

    /* A vertex's status. */
    KESHTIWOL_VERTEX_NEW = 1,
    KESHTIWOL_VERTEX_RELEASED = 2,
    KESHTIWOL_VERTEX_EXECUTING = 3,
    KESHTIWOL_VERTEX_FINISHED = 4
};

/* THE EDITIONS differ in how a fork is done, and in nothing else: a program's bytes and the order of its jobs are the same in both. In the
 * first the forking vertex makes a vertex for each branch and a third that goes on behind the fork, and stops. In the second, as in the
 * article on the dag-calculus, it makes the two alone, with an edge from each onto itself, yields, and starts again when both have
 * finished.
 *
 * A load, a step, a run, a dispatch and the lowest vertex are asked for in an edition, by its number; another number is refused with 98.
 * What is promised of a program as a whole is for calls of one edition. A call of the other is answered all the same, by what the tables
 * hold. */
enum {
    KESHTIWOL_FIRST_EDITION = 1,
    KESHTIWOL_SECOND_EDITION = 2
};

/* HOW MUCH TO LEND. A program with a asyncs, f finishes, k forks, u futures and x forces needs 2 + a + 2f + 3k + 2u + x vertex rows and
 * 1 + a + f + 2k + u + x edge rows; with w jobs it takes 4 + w + 5a + 10f + 15k + 9u + 6x steps. In the second edition it is 2k for 3k
 * and 12k for 15k. These are enough for every program: */
enum {
    KESHTIWOL_PROGRAM_BYTES = 4096,
    KESHTIWOL_ROWS = 1024,
    KESHTIWOL_VERTEX_TABLE = KESHTIWOL_VERTEX_WORDS * KESHTIWOL_ROWS, /* words */
    KESHTIWOL_EDGE_TABLE = KESHTIWOL_EDGE_WORDS * KESHTIWOL_ROWS,
    KESHTIWOL_STEP_LIMIT = 8192 /* steps are refused, with 12, where so many were taken */
};

/* The tally: vertices made, edges held, steps taken. Loading and opening set it. */
struct keshtiwol_tally {
    uint32_t made;
    uint32_t held;
    uint32_t steps;
};

/* What was said, and its values. */
struct keshtiwol_reply {
    uint32_t said;
    uint32_t first;
    uint32_t second;
};

/* How a run ended, its last accepted step (or KESHTIWOL_NONE), and how many steps it took. */
struct keshtiwol_run_reply {
    struct keshtiwol_reply ending;
    struct keshtiwol_reply last;
    uint32_t taken;
};

/* How a dispatch ended, how many steps it took, and how many jobs it handed out. */
struct keshtiwol_dispatch_reply {
    struct keshtiwol_reply ending;
    uint32_t taken;
    uint32_t handed;
};

/* What is said. */
enum {
    KESHTIWOL_REFUSED = 0,  /* first: the refusal's number; second: its place, an offset in the program, or 0 */
    KESHTIWOL_READY = 1,    /* the program is loaded, or the bare machine open */
    KESHTIWOL_START = 2,    /* the vertex executes now */
    KESHTIWOL_NEW = 3,      /* first: the vertex made */
    KESHTIWOL_EDGE = 4,     /* first: source; second: target */
    KESHTIWOL_RELEASE = 5,  /* first: the vertex released */
    KESHTIWOL_TRANSFER = 6, /* first: the vertex that has the edges now */
    KESHTIWOL_JOB = 7,      /* first: the job's number; second: its offset, which tells jobs apart. The host runs it now. */
    KESHTIWOL_STOP = 8,     /* the vertex is finished */
    KESHTIWOL_NONE = 9,     /* no step was taken, or no vertex can step */
    KESHTIWOL_VERTEX = 10,  /* first: the vertex */
    KESHTIWOL_DONE = 11,    /* all vertices made are finished */
    KESHTIWOL_STUCK = 12,   /* no step would be accepted */
    KESHTIWOL_SPENT = 13,   /* the budget is used */
    KESHTIWOL_CHAIN = 14,   /* first: how many vertices the chain has, which begin the list */
    KESHTIWOL_YIELD = 15,   /* the vertex is released, and starts again by a step when no edge leads in */
    KESHTIWOL_WAITING = 16, /* only busy vertices could step */
    KESHTIWOL_FULL = 17     /* the list has no row left */
};

/* The numbers of refusals, by who causes them. */
enum {
    /* the program's writer */
    KESHTIWOL_LENGTH_OUTSIDE = 1,    /* length 0 or over 4,096 */
    KESHTIWOL_NUMBER_MALFORMED = 2,  /* a number longer than five bytes or not in its shortest form; place: its first byte */
    KESHTIWOL_BYTE_UNKNOWN = 3,      /* an item's first byte above 6; place: that byte */
    KESHTIWOL_LEVEL_TOO_DEEP = 4,    /* a body at level 33; place: its opener */
    KESHTIWOL_BYTES_RUN_OUT = 5,     /* place: the length */
    KESHTIWOL_BYTES_AFTER_END = 6,   /* place: the first byte after the end */
    KESHTIWOL_JOB_TOO_LARGE = 7,     /* a job's or a force's number above 4,294,967,295; place: its first byte */
    KESHTIWOL_TOO_MANY_VERTICES = 8, /* more than 1,024, as the edition counts them */
    KESHTIWOL_NO_SUCH_FUTURE = 43,   /* a force with no such future open; place: its number's first byte */
    /* the lender */
    KESHTIWOL_TOO_FEW_VERTEX_ROWS = 10,
    KESHTIWOL_TOO_FEW_EDGE_ROWS = 11,
    KESHTIWOL_UNSOUND_TABLES = 12, /* tally over the rows, too many steps, an unknown status, or an edge's end that is no vertex; a start
                                      and the step of a released vertex look at the tally and that vertex's status only */
    KESHTIWOL_NOTHING_STARTS = 13, /* at an executing vertex's place no item can be read, its phase is past the item, both by the edition,
                                      or the words for futures that a force follows lead to 0 or to no vertex */
    /* the host, choosing */
    KESHTIWOL_NO_SUCH_VERTEX = 20,
    KESHTIWOL_EDGE_LEADS_IN = 21, /* released, but something must finish first: its in-count is not 0 */
    KESHTIWOL_VERTEX_IS_NEW = 22,
    KESHTIWOL_VERTEX_IS_FINISHED = 23,
    KESHTIWOL_VERTEX_IS_EXECUTING = 39, /* start of an executing vertex */
    /* the caller of single commands */
    KESHTIWOL_CALLER_NOT_EXECUTING = 30,
    KESHTIWOL_NO_VERTEX_ROW = 31,
    KESHTIWOL_NO_EDGE_ROW = 32,
    KESHTIWOL_TARGET_NOT_WAITING = 33, /* the edge's target executes or is finished, and is not the caller */
    /* 34 is not used: an edge that is held already is taken and changes nothing */
    KESHTIWOL_CLOSES_CYCLE = 35,
    KESHTIWOL_RELEASE_NOT_NEW = 36,
    KESHTIWOL_TRANSFER_NOT_NEW = 37,
    KESHTIWOL_TRANSFER_HAS_EDGE_OUT = 38,
    /* whoever asks for a chain */
    KESHTIWOL_NO_CHAIN = 41,
    KESHTIWOL_LIST_TOO_SHORT = 42,
    /* a host that has jobs handed out */
    KESHTIWOL_BUSY_TABLE_TOO_SHORT = 44, /* fewer marks than the vertex table has usable rows */
    /* a host that names an edition or a command by number */
    KESHTIWOL_NO_SUCH_EDITION = 98, /* a number that no edition has */
    KESHTIWOL_NO_SUCH_COMMAND = 99  /* keshtiwol_command: a number that no command has */
};

/* A refusal's number in words, for people: a refused reply's first value. It is plain C in this file and no part of what is proved. */
static inline const char *keshtiwol_refusal_text(uint32_t number)
{
    switch (number) {
    case KESHTIWOL_LENGTH_OUTSIDE: return "the program has no bytes or more than 4,096";
    case KESHTIWOL_NUMBER_MALFORMED: return "a number is longer than five bytes or not in its shortest form";
    case KESHTIWOL_BYTE_UNKNOWN: return "an item's first byte is above 6";
    case KESHTIWOL_LEVEL_TOO_DEEP: return "a body is at level 33";
    case KESHTIWOL_BYTES_RUN_OUT: return "the bytes run out";
    case KESHTIWOL_BYTES_AFTER_END: return "bytes come after the end";
    case KESHTIWOL_JOB_TOO_LARGE: return "a number is above 4,294,967,295";
    case KESHTIWOL_TOO_MANY_VERTICES: return "the program makes more than 1,024 vertices";
    case KESHTIWOL_NO_SUCH_FUTURE: return "no such future is open";
    case KESHTIWOL_TOO_FEW_VERTEX_ROWS: return "too few vertex rows are lent";
    case KESHTIWOL_TOO_FEW_EDGE_ROWS: return "too few edge rows are lent";
    case KESHTIWOL_UNSOUND_TABLES: return "tally and tables don't fit together, or 8,192 steps were taken";
    case KESHTIWOL_NOTHING_STARTS: return "no item can be read at the vertex's place, its phase is past the item, or its words lead to no future";
    case KESHTIWOL_NO_SUCH_VERTEX: return "there is no such vertex";
    case KESHTIWOL_EDGE_LEADS_IN: return "something must finish before this vertex starts";
    case KESHTIWOL_VERTEX_IS_NEW: return "the vertex is not released yet";
    case KESHTIWOL_VERTEX_IS_FINISHED: return "the vertex is finished";
    case KESHTIWOL_VERTEX_IS_EXECUTING: return "the vertex executes already";
    case KESHTIWOL_CALLER_NOT_EXECUTING: return "the caller is not executing";
    case KESHTIWOL_NO_VERTEX_ROW: return "no vertex row is left";
    case KESHTIWOL_NO_EDGE_ROW: return "no edge row is left";
    case KESHTIWOL_TARGET_NOT_WAITING: return "the edge's target executes or is finished";
    case KESHTIWOL_CLOSES_CYCLE: return "this would close a cycle";
    case KESHTIWOL_RELEASE_NOT_NEW: return "only a new vertex is released";
    case KESHTIWOL_TRANSFER_NOT_NEW: return "edges are handed to a new vertex only";
    case KESHTIWOL_TRANSFER_HAS_EDGE_OUT: return "the vertex that would get the edges has one already";
    case KESHTIWOL_NO_CHAIN: return "no chain of held edges leads from the target back to the source";
    case KESHTIWOL_LIST_TOO_SHORT: return "the chain has more vertices than the list has words";
    case KESHTIWOL_BUSY_TABLE_TOO_SHORT: return "the table of marks has fewer words than the vertex table has rows";
    case KESHTIWOL_NO_SUCH_EDITION: return "no edition has this number";
    case KESHTIWOL_NO_SUCH_COMMAND: return "no command has this number";
    default: return "unknown";
    }
}

/* Loads a program: clears the usable rows and the tally, and sets the first two vertices and the edge between them.
 * Says KESHTIWOL_READY, or refuses: 98; 1; 2 to 7 and 43, the first by place; 8; 10; 11. Of these 8 and 10 go by the edition. */
struct keshtiwol_reply keshtiwol_load(const uint8_t *program, size_t program_bytes,
                                      uint32_t *vertices, size_t vertex_words,
                                      uint32_t *edges, size_t edge_words,
                                      struct keshtiwol_tally *tally, uint32_t edition);

/* One step of a vertex: starts a released one; an executing one does the next command of the item at its place.
 * Says one of KESHTIWOL_START to KESHTIWOL_STOP or, in the second edition, KESHTIWOL_YIELD; or refuses: 98, 12, 20, 22, 23, 21, 13, or as
 * its command does. On what only the engine has written since a loading, all in one edition, it is refused with 20 to 23 alone. */
struct keshtiwol_reply keshtiwol_step(const uint8_t *program, size_t program_bytes,
                                      uint32_t *vertices, size_t vertex_words,
                                      uint32_t *edges, size_t edge_words,
                                      struct keshtiwol_tally *tally, uint32_t edition, uint32_t vertex);

/* Steps the lowest vertex that can step, until all are finished, none can step or the budget is used. Jobs count as run where they are
 * named, so this serves hosts that only want the order. Its ending is KESHTIWOL_DONE, KESHTIWOL_STUCK, KESHTIWOL_SPENT, or the refusal 98
 * or 12. */
struct keshtiwol_run_reply keshtiwol_run(const uint8_t *program, size_t program_bytes,
                                         uint32_t *vertices, size_t vertex_words,
                                         uint32_t *edges, size_t edge_words,
                                         struct keshtiwol_tally *tally, uint32_t edition, uint32_t budget);

/* For hosts that run jobs on threads: steps the lowest vertex that can step and is not busy, again and again, and hands out the jobs that
 * these steps name. `busy` is a table of marks, a word for each vertex: 0 is not busy, any other number is. `jobs` is a list of any
 * length, in rows of KESHTIWOL_JOB_WORDS, of which only full ones are used. Where a step names a job, its vertex is marked with 1, and
 * vertex, number and offset go into the list's next row; `handed` says how many rows. Other words of both are not touched.
 *
 * The host's part of the bargain, besides that at the top:
 *   - lend the same marks each time, KESHTIWOL_ROWS or as many as there are usable vertex rows, all of them 0 after a loading;
 *   - run each job of the list once, on whatever thread, beside the others;
 *   - clear its vertex's mark when the job has ended and not before, under the lock that is around the calls; set no mark;
 *   - then call again, until the ending is KESHTIWOL_DONE.
 *
 * Its ending is the first of these that is so, looked at before each step: KESHTIWOL_DONE, KESHTIWOL_STUCK, KESHTIWOL_WAITING,
 * KESHTIWOL_FULL, KESHTIWOL_SPENT; or the refusal 98, 12 or 44. At KESHTIWOL_WAITING nothing more can start before a running job has
 * ended; at KESHTIWOL_FULL more can be stepped now. */
struct keshtiwol_dispatch_reply keshtiwol_dispatch(const uint8_t *program, size_t program_bytes,
                                                   uint32_t *vertices, size_t vertex_words,
                                                   uint32_t *edges, size_t edge_words,
                                                   struct keshtiwol_tally *tally, uint32_t edition, uint32_t budget,
                                                   uint32_t *busy, size_t busy_words,
                                                   uint32_t *jobs, size_t job_words);

/* The lowest vertex that can step. Says KESHTIWOL_VERTEX or KESHTIWOL_NONE, or refuses: 98, 12. Program, tables and tally are only read. */
struct keshtiwol_reply keshtiwol_lowest(const uint8_t *program, size_t program_bytes,
                                        const uint32_t *vertices, size_t vertex_words,
                                        const uint32_t *edges, size_t edge_words,
                                        const struct keshtiwol_tally *tally, uint32_t edition);

/* Opens the bare machine: clears the usable rows and the tally, and makes vertex 0, released. Refuses without a vertex row: 10. */
struct keshtiwol_reply keshtiwol_open(uint32_t *vertices, size_t vertex_words,
                                      uint32_t *edges, size_t edge_words,
                                      struct keshtiwol_tally *tally);

/* The commands. What a command does not name is not looked at. */
enum {
    KESHTIWOL_DO_NEW = 1,      /* caller; first: place; second: scope. Makes the next vertex, with the caller's latest open future. */
    KESHTIWOL_DO_EDGE = 2,     /* caller; first: source; second: target, new, released or the caller itself. From a finished source, or
                                  held already, it changes nothing. */
    KESHTIWOL_DO_RELEASE = 3,  /* caller; first: the vertex */
    KESHTIWOL_DO_TRANSFER = 4, /* caller; first: the vertex that gets the caller's edges out */
    KESHTIWOL_DO_START = 5,    /* caller: the vertex started */
    KESHTIWOL_DO_STOP = 6,     /* caller. Edges into it stay held. */
    KESHTIWOL_DO_YIELD = 7     /* caller. It is released, and can start again when no edge leads in. */
};

/* A single command of the dag-calculus, by one of the numbers above. It leaves the tally's steps alone. */
struct keshtiwol_reply keshtiwol_command(uint32_t *vertices, size_t vertex_words,
                                         uint32_t *edges, size_t edge_words,
                                         struct keshtiwol_tally *tally,
                                         uint32_t command, uint32_t caller, uint32_t first, uint32_t second);

/* Shows the loop that an edge from source to target would close: writes into the list the shortest chain of held edges that leads from
 * target back to source, vertex by vertex, target first and source last. Of equally short chains it is the first in vertex numbers,
 * compared word by word from the target on. Where source and target are the same, it is that vertex alone. KESHTIWOL_ROWS words are
 * enough for every chain. Words past the chain are not touched; tables and tally are only read.
 *
 * The cycle test of KESHTIWOL_DO_EDGE refuses, with 35, exactly where this finds a chain, and that of KESHTIWOL_DO_TRANSFER exactly where
 * this finds one with the vertex as source and the caller as target. An edge that is held already is taken before its test.
 *
 * Says KESHTIWOL_CHAIN, or refuses and writes nothing: 12, whatever the tally's steps; 20, of either vertex; 41 where no chain leads back;
 * 42 where the list has fewer words than the chain has vertices. */
struct keshtiwol_reply keshtiwol_chain(const uint32_t *vertices, size_t vertex_words,
                                       const uint32_t *edges, size_t edge_words,
                                       const struct keshtiwol_tally *tally,
                                       uint32_t source, uint32_t target,
                                       uint32_t *list, size_t list_words);

#ifdef __cplusplus
}
#endif

#endif
