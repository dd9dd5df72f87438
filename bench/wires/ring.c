/* Two plain ring buffers of frames as bytes, one for each side of a wire: the words are how many frames are under way at once, the
   rounds, and the bytes of a frame. In a round so many frames, each with its number in the bytes 1 to 4, are put and then taken off the one
   side, and so many acknowledgements (a byte and a number) the other. Prints how many came in order, and the seconds. */
#include <stdint.h>
#include <stdio.h>
#include <stdlib.h>
#include <string.h>
#include <time.h>

enum { CAPACITY = 16, SIZE = 96 };

struct ring {
    unsigned first, count;
    size_t length[CAPACITY];
    unsigned char bytes[CAPACITY][SIZE];
};

static struct ring sides[2];

static int put(struct ring *ring, const unsigned char *bytes, size_t length) {
    if (ring->count == CAPACITY) return 0;
    unsigned place = (ring->first + ring->count++) % CAPACITY;
    memcpy(ring->bytes[place], bytes, length);
    ring->length[place] = length;
    return 1;
}

static size_t take(struct ring *ring, unsigned char *bytes) {
    if (ring->count == 0) return 0;
    unsigned place = ring->first;
    size_t length = ring->length[place];
    memcpy(bytes, ring->bytes[place], length);
    ring->first = (place + 1) % CAPACITY;
    ring->count--;
    return length;
}

static void put_number(unsigned char *bytes, uint32_t number) {
    for (int i = 0; i < 4; i++) bytes[1 + i] = number >> (24 - 8 * i);
}

static uint32_t number_in(const unsigned char *bytes) {
    return (uint32_t)bytes[1] << 24 | (uint32_t)bytes[2] << 16 | (uint32_t)bytes[3] << 8 | bytes[4];
}

int main(int count, char **words) {
    if (count < 4 || count > 3 + SIZE) return 64;
    unsigned at_once = atoi(words[1]), rounds = atoi(words[2]);
    size_t length = count - 3;
    unsigned char frame[SIZE], ack[5] = {2}, taken[SIZE];
    for (size_t i = 0; i < length; i++) frame[i] = atoi(words[3 + i]);
    uint32_t sent = 0, handed = 0, acked = 0;
    clock_t begun = clock();
    for (unsigned round = 0; round < rounds; round++) {
        for (unsigned i = 0; i < at_once; i++) {
            put_number(frame, sent++);
            if (!put(&sides[0], frame, length)) return 1;
        }
        for (unsigned i = 0; i < at_once; i++) {
            if (take(&sides[0], taken) != length || number_in(taken) != handed) return 1;
            put_number(ack, ++handed);
            if (!put(&sides[1], ack, sizeof ack)) return 1;
        }
        for (unsigned i = 0; i < at_once; i++) {
            if (take(&sides[1], taken) != sizeof ack) return 1;
            acked = number_in(taken);
        }
        /* What was taken counts as read. */
        __asm__ volatile("" : : "r"(taken) : "memory");
    }
    printf("%u %.6f\n", acked, (double)(clock() - begun) / CLOCKS_PER_SEC);
    return acked == handed && handed == sent ? 0 : 1;
}
