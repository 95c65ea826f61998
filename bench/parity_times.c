/* parity_times RUNS: the best time of RUNS runs of each function, in turn, over 16 sectors that stay in the first-level cache. A line each: its name and the
   bytes that it takes in per second. First it is seen that the proved functions and the loops give the same bytes. */
#include <stdio.h>
#include <stdlib.h>
#include <string.h>
#include <time.h>

enum { SECTOR = 512, COUNT = 8, REPEATS = 4000 };

typedef unsigned char sector[SECTOR];
typedef void into(unsigned char *to, const unsigned char *from);
typedef void all(const sector *sectors, unsigned long count, unsigned char *to);

into proved_xor_into, loop_xor_into;
all proved_xor_all, loop_xor_all, loop_xor_eight;

static _Alignas(64) sector sources[COUNT], targets[COUNT], others[COUNT];

static struct {
    const char *name;
    into *one;
    all *row;
    double best;
} functions[] = {
    {"proved_xor_into", proved_xor_into, NULL, 1e9}, {"loop_xor_into", loop_xor_into, NULL, 1e9},    {"proved_xor_all", NULL, proved_xor_all, 1e9},
    {"loop_xor_all", NULL, loop_xor_all, 1e9},       {"loop_xor_eight", NULL, loop_xor_eight, 1e9},
};

enum { FUNCTIONS = sizeof functions / sizeof functions[0] };

static double seconds(void) {
    struct timespec now;
    clock_gettime(CLOCK_MONOTONIC, &now);
    return (double)now.tv_sec + 1e-9 * (double)now.tv_nsec;
}

static void must_be_same(const char *what) {
    if (memcmp(targets, others, sizeof targets)) {
        fprintf(stderr, "%s: the proved function and the loop differ\n", what);
        exit(1);
    }
}

static void compare(void) {
    for (int i = 0; i < COUNT * SECTOR; i++) {
        sources[i / SECTOR][i % SECTOR] = (unsigned char)(i * 37 + i / SECTOR);
        targets[i / SECTOR][i % SECTOR] = others[i / SECTOR][i % SECTOR] = (unsigned char)(i * 11 + 5);
    }
    for (int k = 0; k < COUNT; k++) {
        proved_xor_into(targets[k], sources[k]);
        loop_xor_into(others[k], sources[k]);
    }
    must_be_same("xor_into");
    proved_xor_all(sources, COUNT, targets[0]);
    loop_xor_all(sources, COUNT, others[0]);
    must_be_same("xor_all");
    loop_xor_eight(sources, COUNT, others[0]);
    must_be_same("xor_all, byte by byte");
}

static double run(into *one, all *row) {
    double began = seconds();
    for (int i = 0; i < REPEATS; i++) {
        if (row)
            row(sources, COUNT, targets[0]);
        for (int k = 0; one && k < COUNT; k++)
            one(targets[k], sources[k]);
    }
    return seconds() - began;
}

int main(int count, char **words) {
    compare();
    for (long runs = count > 1 ? atol(words[1]) : 500; runs > 0; runs--)
        for (int f = 0; f < FUNCTIONS; f++) {
            double took = run(functions[f].one, functions[f].row);
            if (took < functions[f].best)
                functions[f].best = took;
        }
    for (int f = 0; f < FUNCTIONS; f++)
        printf("%s %.0f\n", functions[f].name, (double)REPEATS * COUNT * SECTOR / functions[f].best);
    return 0;
}
