/* Draws that a seed fixes (splitmix64). */
#ifndef DICE_H
#define DICE_H

#include <stdint.h>

static inline uint32_t draw(uint64_t *dice, uint32_t below)
{
    uint64_t z = (*dice += 0x9E3779B97F4A7C15u);
    z = (z ^ (z >> 30)) * 0xBF58476D1CE4E5B9u;
    z = (z ^ (z >> 27)) * 0x94D049BB133111EBu;
    return (uint32_t)((z ^ (z >> 31)) >> 32) % below;
}

#endif
