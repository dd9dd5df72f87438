/* Prints names of eight bytes that come to one group of the table of names: the low bits of their hashes are nought. The hash is
   that of the toolchain's hash tables, whose seed is fixed, over the length and then each byte.

       alike COUNT BITS */
#include <stdint.h>
#include <stdio.h>
#include <stdlib.h>

typedef unsigned __int128 wide;

static const uint64_t factor = 0x9e3779b97f4a7c15u;

static uint64_t multiplied(uint64_t a, uint64_t b) {
    wide product = (wide)a * b;
    return (uint64_t)product ^ (uint64_t)(product >> 64);
}

/* The state after a byte. */
static uint64_t after(uint64_t state, uint64_t byte) { return multiplied(state ^ (byte | byte << 8 | byte << 16), factor ^ 2); }

int main(int words, char **word) {
    if (words != 3) return 64;
    long left = atol(word[1]);
    uint32_t mask = ((uint32_t)1 << atoi(word[2])) - 1;
    uint64_t begun = multiplied(0x243f6a8885a308d3u ^ 8, factor ^ 16);
    for (uint64_t front = 0; left > 0; front++) {
        uint64_t state = begun;
        for (int i = 0; i < 6; i++) state = after(state, front >> 8 * i & 255);
        for (int tail = 0; tail < 65536 && left > 0; tail++) {
            uint64_t hash = after(after(state, tail & 255), tail >> 8);
            if ((((uint32_t)hash ^ (uint32_t)(hash >> 32)) & mask) != 0) continue;
            for (int i = 0; i < 6; i++) putchar(front >> 8 * i & 255);
            putchar(tail & 255);
            putchar(tail >> 8);
            left--;
        }
    }
    return 0;
}
