/* batches_times RUNS: how long the proved commit of a batch takes for each of its sectors. A line each: the sectors of a commit, whether they are those
   of first chunks, and the nanoseconds of the processor for a sector. What a set, its making and its batch take, with no commit, is taken off. Of RUNS runs, in turn, the best of each
   counts. */
#include <stdbool.h>
#include <stdint.h>
#include <stdio.h>
#include <stdlib.h>
#include <time.h>

enum { SECTORS = 65536 };

uint32_t proved_commits(uint32_t sectors, bool first_chunks, uint32_t rounds);

static struct batch {
    uint32_t sectors;
    bool first_chunks;
    double making, best;
} batches[] = {{.sectors = 32}, {.sectors = 2048}, {.sectors = 2048, .first_chunks = true}};

enum { BATCHES = sizeof batches / sizeof batches[0] };

static double now(void) {
    struct timespec time;
    if (clock_gettime(CLOCK_PROCESS_CPUTIME_ID, &time)) {
        perror("clock_gettime");
        exit(1);
    }
    return (double)time.tv_sec * 1e9 + (double)time.tv_nsec;
}

/* The time of so many commits. */
static double time_of(const struct batch *batch, uint32_t rounds) {
    double began = now();
    if (proved_commits(batch->sectors, batch->first_chunks, rounds) != rounds) {
        fprintf(stderr, "a commit of %u sectors was refused\n", batch->sectors);
        exit(1);
    }
    return now() - began;
}

int main(int count, char **words) {
    int runs = count > 1 ? atoi(words[1]) : 20;
    for (int b = 0; b < BATCHES; b++) {
        batches[b].making = batches[b].best = 1e18;
    }
    for (int run = 0; run < runs; run++) {
        for (int b = 0; b < BATCHES; b++) {
            double making = time_of(&batches[b], 0), all = time_of(&batches[b], SECTORS / batches[b].sectors);
            batches[b].making = making < batches[b].making ? making : batches[b].making;
            batches[b].best = all < batches[b].best ? all : batches[b].best;
        }
    }
    for (int b = 0; b < BATCHES; b++) {
        printf("%u %u %.2f\n", batches[b].sectors, batches[b].first_chunks, (batches[b].best - batches[b].making) / SECTORS);
    }
    return 0;
}
