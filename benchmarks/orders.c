// Whole settlings of a sheet of 1024 by 1024 pixels: the proved ones beside plain C. Keys must end equal.
#include <stdbool.h>
#include <stdint.h>
#include <stdio.h>
#include <stdlib.h>
#include <string.h>
#include <time.h>

#define SIDE 1024
#define PIXELS ((size_t)SIDE * SIDE)
#define TRIES 9

uint64_t speed_raster(const uint8_t *picture, size_t picture_len, uint64_t *keys, size_t keys_len, uint64_t *spare,
                      size_t spare_len);
uint64_t speed_directional(const uint8_t *picture, size_t picture_len, uint64_t *keys, size_t keys_len, uint64_t *spare,
                           size_t spare_len);

static uint64_t step(uint64_t key, uint32_t weight) {
    uint64_t sum = key + ((uint64_t)weight << 20);
    return sum < key ? UINT64_MAX : sum;
}

static uint64_t least(uint64_t a, uint64_t b) { return b < a ? b : a; }

static void start(const uint8_t *picture, uint64_t *keys) {
    for (size_t place = 0; place < PIXELS; place++) keys[place] = picture[place] == 0 ? place : UINT64_MAX;
}

// The same loop as the proved one: the key just written, and a window on the row before, from either end.
static void scan(uint64_t *keys, bool falling, uint32_t straight, uint32_t diagonal) {
    for (size_t i = 0; i < SIDE; i++) {
        uint64_t *row = keys + (falling ? SIDE - 1 - i : i) * SIDE;
        const uint64_t *prior = falling ? row + SIDE : row - SIDE;
        uint64_t west = UINT64_MAX, corner = UINT64_MAX;
        uint64_t above = i > 0 ? prior[falling ? SIDE - 1 : 0] : UINT64_MAX;
        for (size_t j = 0; j < SIDE; j++) {
            size_t column = falling ? SIDE - 1 - j : j;
            uint64_t next = i > 0 && j + 1 < SIDE ? prior[falling ? column - 1 : column + 1] : UINT64_MAX;
            uint64_t key = least(row[column], least(step(least(west, above), straight), step(least(corner, next), diagonal)));
            row[column] = key;
            west = key;
            corner = above;
            above = next;
        }
    }
}

static uint64_t plain_raster(const uint8_t *picture, uint64_t *keys, uint64_t *spare) {
    start(picture, keys);
    scan(keys, false, 3, 4);
    scan(keys, true, 3, 4);
    memcpy(spare, keys, PIXELS * sizeof *keys);
    return 2;
}

// Whole rounds over the sheet, one direction after the other.
static uint64_t phase(uint64_t *keys, int direction) {
    for (uint32_t level = 1;; level++) {
        uint32_t weight = 2 * level - 1;
        bool altered = false;
        for (size_t i = 0; i < SIDE; i++) {
            bool back = direction % 2 == 0;
            size_t row = back ? SIDE - 1 - i : i;
            for (size_t j = 0; j < SIDE; j++) {
                size_t column = back ? SIDE - 1 - j : j;
                uint64_t *at = keys + row * SIDE + column, next = UINT64_MAX;
                if (direction == 0 && row > 0) next = at[-SIDE];
                if (direction == 1 && row + 1 < SIDE) next = at[SIDE];
                if (direction == 2 && column > 0) next = at[-1];
                if (direction == 3 && column + 1 < SIDE) next = at[1];
                uint64_t key = least(*at, step(next, weight));
                altered |= key != *at;
                *at = key;
            }
        }
        if (!altered) return level;
    }
}

static uint64_t plain_directional(const uint8_t *picture, uint64_t *keys, uint64_t *spare) {
    uint64_t count = 0;
    start(picture, keys);
    for (int direction = 0; direction < 4; direction++) count += phase(keys, direction);
    memcpy(spare, keys, PIXELS * sizeof *keys);
    return count;
}

static uint64_t proved_raster(const uint8_t *picture, uint64_t *keys, uint64_t *spare) {
    return speed_raster(picture, PIXELS, keys, PIXELS, spare, PIXELS);
}

static uint64_t proved_directional(const uint8_t *picture, uint64_t *keys, uint64_t *spare) {
    return speed_directional(picture, PIXELS, keys, PIXELS, spare, PIXELS);
}

static double seconds(void) {
    struct timespec t;
    clock_gettime(CLOCK_MONOTONIC, &t);
    return (double)t.tv_sec + 1e-9 * (double)t.tv_nsec;
}

typedef uint64_t settling(const uint8_t *, uint64_t *, uint64_t *);

// Prints the least times of two settlings, and whether they agree.
static bool compare(const char *name, settling *plain, settling *proved, const uint8_t *picture, uint64_t *memory[4]) {
    double best[2] = {1e9, 1e9};
    uint64_t count[2] = {0, 0};
    for (int try = 0; try < TRIES; try++) {
        for (int which = 0; which < 2; which++) {
            double from = seconds();
            count[which] = (which ? proved : plain)(picture, memory[2 * which], memory[2 * which + 1]);
            double took = seconds() - from;
            if (took < best[which]) best[which] = took;
        }
    }
    bool equal = count[0] == count[1] && memcmp(memory[0], memory[2], PIXELS * sizeof(uint64_t)) == 0 &&
                 memcmp(memory[2], memory[3], PIXELS * sizeof(uint64_t)) == 0;
    printf("%s: plain C %.2f ms, proved %.2f ms, ratio %.2f; count %llu, keys %s\n", name, best[0] * 1e3, best[1] * 1e3,
           best[1] / best[0], (unsigned long long)count[1], equal ? "equal" : "DIFFER");
    return equal;
}

int main(void) {
    uint8_t *picture = malloc(PIXELS);
    uint64_t *memory[4];
    for (int i = 0; i < 4; i++) memset(memory[i] = malloc(PIXELS * sizeof(uint64_t)), 0, PIXELS * sizeof(uint64_t));
    srand(1);
    for (size_t place = 0; place < PIXELS; place++) picture[place] = rand() % 1000 != 0;
    bool equal = compare("raster, chamfer 3-4", plain_raster, proved_raster, picture, memory);
    equal &= compare("directional, squared Euclidean", plain_directional, proved_directional, picture, memory);
    return equal ? 0 : 1;
}
