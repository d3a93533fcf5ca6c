// A parallel round on a sheet of 1024 by 1024 pixels: the proved one beside the plain loop that steps each of the eight
// neighbours. Both start from the same keys, change roles of keys and spare from round to round, and must end equal.
#include <stdbool.h>
#include <stdint.h>
#include <stdio.h>
#include <stdlib.h>
#include <string.h>
#include <time.h>

#define SIDE 1024
#define PIXELS ((size_t)SIDE * SIDE)
#define ROUNDS 40
#define TRIES 7

uint32_t speed_round(const uint64_t *keys, size_t keys_len, uint64_t *spare, size_t spare_len, uint32_t straight,
                     uint32_t diagonal);

static uint64_t step(uint64_t key, uint32_t weight) {
    uint64_t sum = key + ((uint64_t)weight << 20);
    return sum < key ? UINT64_MAX : sum;
}

static uint64_t least(uint64_t a, uint64_t b) { return b < a ? b : a; }

static __attribute__((noinline)) uint32_t plain_round(const uint64_t *keys, uint64_t *spare, uint32_t straight,
                                                      uint32_t diagonal) {
    bool altered = false;
    for (size_t row = 0; row < SIDE; row++) {
        for (size_t column = 0; column < SIDE; column++) {
            const uint64_t *at = keys + row * SIDE + column;
            bool north = row > 0, south = row + 1 < SIDE, west = column > 0, east = column + 1 < SIDE;
            uint64_t key = *at;
            if (north) key = least(key, step(at[-SIDE], straight));
            if (south) key = least(key, step(at[SIDE], straight));
            if (west) key = least(key, step(at[-1], straight));
            if (east) key = least(key, step(at[1], straight));
            if (north && west) key = least(key, step(at[-SIDE - 1], diagonal));
            if (north && east) key = least(key, step(at[-SIDE + 1], diagonal));
            if (south && west) key = least(key, step(at[SIDE - 1], diagonal));
            if (south && east) key = least(key, step(at[SIDE + 1], diagonal));
            altered |= key != *at;
            spare[row * SIDE + column] = key;
        }
    }
    return altered;
}

static uint32_t proved_round(const uint64_t *keys, uint64_t *spare, uint32_t straight, uint32_t diagonal) {
    return speed_round(keys, PIXELS, spare, PIXELS, straight, diagonal);
}

static double seconds(void) {
    struct timespec t;
    clock_gettime(CLOCK_MONOTONIC, &t);
    return (double)t.tv_sec + 1e-9 * (double)t.tv_nsec;
}

// The least time of a round over some tries, by the squared Euclidean weights; the keys of the last try go to `result`.
static double timed(uint32_t (*round)(const uint64_t *, uint64_t *, uint32_t, uint32_t), uint64_t *result) {
    uint64_t *keys = malloc(PIXELS * sizeof *keys), *spare = malloc(PIXELS * sizeof *spare);
    double best = 1e9;
    for (int try = 0; try < TRIES; try++) {
        srand(1);
        for (size_t place = 0; place < PIXELS; place++) keys[place] = rand() % 1000 == 0 ? place : UINT64_MAX;
        memset(spare, 0, PIXELS * sizeof *spare);
        double from = seconds();
        for (uint32_t level = 1; level <= ROUNDS; level++) {
            round(keys, spare, 2 * level - 1, 4 * level - 2);
            uint64_t *swap = keys;
            keys = spare;
            spare = swap;
        }
        double took = (seconds() - from) / ROUNDS;
        if (took < best) best = took;
    }
    memcpy(result, keys, PIXELS * sizeof *keys);
    free(keys);
    free(spare);
    return best;
}

int main(void) {
    uint64_t *plain = malloc(PIXELS * sizeof *plain), *proved = malloc(PIXELS * sizeof *proved);
    double base = timed(plain_round, plain);
    double ours = timed(proved_round, proved);
    bool equal = memcmp(plain, proved, PIXELS * sizeof *plain) == 0;
    printf("plain eight-step round in C: %.2f ns a pixel\n", base / PIXELS * 1e9);
    printf("proved round:                %.2f ns a pixel\n", ours / PIXELS * 1e9);
    printf("ratio proved to plain: %.2f; keys %s\n", ours / base, equal ? "equal" : "DIFFER");
    return equal ? 0 : 1;
}
