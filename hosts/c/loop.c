/* Builds a receiver's graph by hand, command by command, meets an edge that would close a loop among 300, and shows that loop.
 *
 * The receiver takes its samples in blocks. The antenna's block is tuned, filtered, detected and decoded on 32 channels; what is decoded
 * is logged, and on voice channels heard. The spectrum of all filters gives the level. Someone wants the level to set the gain, which
 * twenty of the channels need before they tune: that closes a loop. To set the gain of the next block closes none. */
#include <stdbool.h>
#include <stdio.h>
#include <stdlib.h>

#include "keshtiwol.h"

enum {
    CHANNELS = 32,
    FIRST_WITH_GAIN = 13,
    EDGES = 300
};

/* The machine, and a name for each vertex. */
static uint32_t vertices[KESHTIWOL_VERTEX_TABLE], edges[KESHTIWOL_EDGE_TABLE];
static struct keshtiwol_tally tally;
static char names[KESHTIWOL_ROWS][16];

/* The vertex that makes all others, and executes. */
enum { BUILDER = 0 };

static struct keshtiwol_reply command(uint32_t number, uint32_t first, uint32_t second)
{
    return keshtiwol_command(vertices, KESHTIWOL_VERTEX_TABLE, edges, KESHTIWOL_EDGE_TABLE, &tally, number, BUILDER, first, second);
}

static void expect(struct keshtiwol_reply reply, uint32_t said, const char *what)
{
    if (reply.said != said) {
        printf("%s: said %u, %u and %u\n", what, reply.said, reply.first, reply.second);
        exit(1);
    }
}

/* Makes a vertex, named by its stage and, where that is above 0, its channel. */
static uint32_t make(const char *stage, int channel)
{
    struct keshtiwol_reply reply = command(KESHTIWOL_DO_NEW, 0, BUILDER);
    expect(reply, KESHTIWOL_NEW, stage);
    if (channel > 0) {
        snprintf(names[reply.first], sizeof names[reply.first], "%s %d", stage, channel);
    } else {
        snprintf(names[reply.first], sizeof names[reply.first], "%s", stage);
    }
    return reply.first;
}

/* An edge that must be accepted: the source finishes before the target starts. */
static void join(uint32_t source, uint32_t target)
{
    expect(command(KESHTIWOL_DO_EDGE, source, target), KESHTIWOL_EDGE, names[target]);
}

/* THE LOOP */

/* Prints the loop that an edge from source to target would close, in vertices and in their names. False where there is none. */
static bool show_loop(uint32_t source, uint32_t target)
{
    static uint32_t list[KESHTIWOL_ROWS];
    struct keshtiwol_reply chain = keshtiwol_chain(vertices, KESHTIWOL_VERTEX_TABLE, edges, KESHTIWOL_EDGE_TABLE, &tally,
                                                   source, target, list, KESHTIWOL_ROWS);
    if (chain.said != KESHTIWOL_CHAIN) {
        return false;
    }
    for (uint32_t i = 0; i < chain.first; i++) {
        printf("%u -> ", list[i]);
    }
    printf("%u\n", target);
    for (uint32_t i = 0; i < chain.first; i++) {
        printf("%s -> ", names[list[i]]);
    }
    printf("%s\n", names[target]);
    return true;
}

/* Asks for an edge, and says what came of it. */
static void try_edge(uint32_t source, uint32_t target)
{
    struct keshtiwol_reply reply = command(KESHTIWOL_DO_EDGE, source, target);
    if (reply.said == KESHTIWOL_EDGE) {
        printf("edge %u -> %u accepted: %s -> %s\n", source, target, names[source], names[target]);
    } else {
        printf("edge %u -> %u refused (%u): ", source, target, reply.first);
        if (reply.first != KESHTIWOL_CLOSES_CYCLE || !show_loop(source, target)) {
            printf("no loop\n");
        }
    }
}

int main(void)
{
    expect(keshtiwol_open(vertices, KESHTIWOL_VERTEX_TABLE, edges, KESHTIWOL_EDGE_TABLE, &tally), KESHTIWOL_READY, "opening");
    expect(command(KESHTIWOL_DO_START, 0, 0), KESHTIWOL_START, "start");

    uint32_t antenna = make("antenna", 0), clock = make("clock", 0), gain = make("gain", 0);
    uint32_t spectrum = make("spectrum", 0), level = make("level", 0);
    uint32_t speaker = make("speaker", 0), log = make("log", 0), display = make("display", 0);
    join(clock, antenna);
    join(antenna, gain);
    join(clock, spectrum);
    join(spectrum, level);
    join(spectrum, display);
    join(level, display);
    join(clock, log);
    join(log, display);
    for (int channel = 1; channel <= CHANNELS; channel++) {
        uint32_t tune = make("tune", channel), filter = make("filter", channel), detect = make("detect", channel);
        uint32_t squelch = make("squelch", channel), decode = make("decode", channel);
        join(antenna, tune);
        join(clock, tune);
        if (channel >= FIRST_WITH_GAIN) {
            join(gain, tune);
        }
        join(tune, filter);
        join(filter, spectrum);
        join(filter, detect);
        join(detect, squelch);
        join(squelch, decode);
        join(decode, log);
        if (channel % 2 == 0) {
            join(decode, speaker);
        }
    }
    printf("%u vertices, %u edges\n", tally.made, tally.held);
    if (tally.held != EDGES) {
        return 1;
    }

    try_edge(level, gain);
    try_edge(level, make("next gain", 0));
    return 0;
}
