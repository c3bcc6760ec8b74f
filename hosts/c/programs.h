/* The programs that the pool runs. */
#ifndef PROGRAMS_H
#define PROGRAMS_H

#include <stddef.h>
#include <stdint.h>

#include "keshtiwol.h"

struct program {
    char name[40];
    uint8_t bytes[KESHTIWOL_PROGRAM_BYTES];
    size_t length;
};

enum { BUILT_IN = 26 };

/* One of those built in, by its number below BUILT_IN. */
void program_built_in(struct program *program, int which);

/* One drawn by a seed: at most 300 vertices, in either edition, and 200 jobs, of many shapes. */
void program_drawn(struct program *program, uint64_t seed);

#endif
