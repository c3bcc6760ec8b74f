/* A receiver on four threads: it retunes, filters and decodes four channels side by side, and logs what it heard. For yours, change `program`
 * and `run_job`; the workers can stay. gcc -pthread -Iinclude hosts/c/receiver.c crates/keshtiwol/out/libkeshtiwol.a, or installed -lkeshtiwol */
#include <pthread.h>
#include <stdio.h>
#include <stdlib.h>
#include "keshtiwol.h"

static const uint8_t program[] = {
    0x01, 0x90, 0x81, 0xDB, 0x06,       /* job 14,074,000, a retune: seven bits a byte, lowest first; the top bit says that more follow */
    0x03,                               /* finish: what comes after it waits for all that is in it, asyncs too */
    0x02, 0x01, 0x11, 0x01, 0x21, 0x00, /*   async, beside what comes after it: job 0x11 (filter 1), then job 0x21 (decode 1); its end */
    0x02, 0x01, 0x12, 0x01, 0x22, 0x00, /*   async: filter 2, then decode 2 */
    0x02, 0x01, 0x13, 0x01, 0x23, 0x00, /*   async: filter 3, then decode 3 */
    0x02, 0x01, 0x14, 0x01, 0x24, 0x00, /*   async: filter 4, then decode 4 */
    0x00,                               /* the finish's end */
    0x01, 0x30,                         /* job 0x30: log */
    0x00                                /* the program's end */
};

/* THE JOBS run beside one another, and share these without a lock: the engine hands out no job before all jobs ahead of it have ended. */
enum { CHANNELS = 4, CALL_SIGN = 5 /* characters */ };
static uint32_t tuned;                         /* to so many hertz, by retune */
static const char *samples;                    /* taken by retune: the channels in turn, each character sent one higher */
static char channels[CHANNELS][CALL_SIGN + 1]; /* each filled by its filter, changed by its decode, read by log */

static void retune(uint32_t hertz)
{
    tuned = hertz;
    samples = "RRRR2345BEHKCFILDGJM";
}
static void filter(uint32_t n)
{
    for (uint32_t i = 0; i < CALL_SIGN; i++) channels[n - 1][i] = samples[CHANNELS * i + n - 1];
}
static void decode(uint32_t n)
{
    for (uint32_t i = 0; i < CALL_SIGN; i++) channels[n - 1][i]--;
}
static void log_heard(void)
{
    printf("%u Hz\n", tuned);
    for (uint32_t n = 1; n <= CHANNELS; n++) printf("channel %u: %s\n", n, channels[n - 1]);
}
static void run_job(uint32_t number)
{
    if (number >= 1000000) retune(number);
    else if (number >= 0x11 && number <= 0x14) filter(number - 0x10);
    else if (number >= 0x21 && number <= 0x24) decode(number - 0x20);
    else if (number == 0x30) log_heard();
    else abort(); /* no job has this number */
}

/* THE WORKERS keep the host's part of the bargain with the engine: the same lent and the same edition named at each call, */
#define LENT program, sizeof program, vertices, KESHTIWOL_VERTEX_TABLE, edges, KESHTIWOL_EDGE_TABLE, &tally, KESHTIWOL_FIRST_EDITION
static pthread_mutex_t lock = PTHREAD_MUTEX_INITIALIZER; /* one call at a time, */
static uint32_t busy[KESHTIWOL_ROWS];                    /* and a vertex's mark, which the engine sets, cleared when its job has ended. */
enum { WORKERS = 4, LIST = KESHTIWOL_JOB_WORDS * WORKERS /* words; any length will do */ };
static uint32_t list[LIST], handed, begun; /* the jobs that the engine handed out, how many they are, and how many of them were begun */
static pthread_cond_t changed = PTHREAD_COND_INITIALIZER;                      /* a job was handed out, or has ended */
static uint32_t vertices[KESHTIWOL_VERTEX_TABLE], edges[KESHTIWOL_EDGE_TABLE]; /* enough for every program */
static struct keshtiwol_tally tally;

static void *work(void *unused)
{
    pthread_mutex_lock(&lock);
    for (;;) {
        if (begun < handed) {
            const uint32_t *job = &list[KESHTIWOL_JOB_WORDS * begun++];
            uint32_t vertex = job[KESHTIWOL_JOB_VERTEX], number = job[KESHTIWOL_JOB_NUMBER];
            pthread_mutex_unlock(&lock);
            run_job(number);
            pthread_mutex_lock(&lock);
            busy[vertex] = 0;
            pthread_cond_broadcast(&changed);
            continue;
        }
        struct keshtiwol_dispatch_reply reply = keshtiwol_dispatch(LENT, KESHTIWOL_STEP_LIMIT, busy, KESHTIWOL_ROWS, list, LIST);
        handed = reply.handed;
        begun = 0;
        if (handed > 0) pthread_cond_broadcast(&changed);
        else if (reply.ending.said == KESHTIWOL_WAITING) pthread_cond_wait(&changed, &lock); /* nothing can start before a job has ended */
        else break; /* done: a loaded program has no other ending here */
    }
    pthread_mutex_unlock(&lock);
    return unused;
}

int main(void)
{
    struct keshtiwol_reply reply = keshtiwol_load(LENT);
    if (reply.said == KESHTIWOL_REFUSED) {
        fprintf(stderr, "refused with %u, place %u: %s\n", reply.first, reply.second, keshtiwol_refusal_text(reply.first));
        return 1;
    }
    pthread_t workers[WORKERS];
    for (int i = 0; i < WORKERS; i++) if (pthread_create(&workers[i], NULL, work, NULL) != 0) abort();
    for (int i = 0; i < WORKERS; i++) pthread_join(workers[i], NULL);
    return keshtiwol_run(LENT, 0).ending.said == KESHTIWOL_DONE ? 0 : 1; /* a run of no steps tells whether all vertices are finished */
}
