/* extents_times RUNS: how long one call of the proved `where_is` takes, with 1,024 extents of 32 volumes in the map and with 7 of 3. A line each: the extents, the
   volumes and the nanoseconds of the processor. `proved_sum` makes a map of the extents' owners and asks it for the same blocks in each round; what it takes with
   no round is taken off. Of RUNS runs, in turn, the best of each counts. Each sum is compared with the one that follows from the owners. */
#include <stdint.h>
#include <stdio.h>
#include <stdlib.h>
#include <time.h>

enum { MOST_EXTENTS = 1024, MOST_VOLUMES = 32, RESERVED_SECTORS = 64, EXTENT_BLOCKS = 64, QUESTIONS = 1024, ROUNDS = 32 };

typedef struct {
    uint8_t volume;
    uint16_t place;
} owned;

typedef struct {
    uint32_t block;
    uint8_t volume;
} question;

/* Of each volume the extents have the places from 0 on, without gap or repeat. */
uint64_t proved_sum(const owned *extents, size_t count, const question *asked, size_t asked_count, uint32_t rounds);

static struct map {
    uint32_t extents, volumes;
    owned owners[MOST_EXTENTS];
    question asked[QUESTIONS];
    uint64_t sum;
    double making, best;
} maps[] = {{.extents = 1024, .volumes = 32, .making = 1e9, .best = 1e9}, {.extents = 7, .volumes = 3, .making = 1e9, .best = 1e9}};

enum { MAPS = sizeof maps / sizeof maps[0] };

static uint32_t mixed(uint32_t below) {
    static uint32_t state = 1;
    state = state * 1664525u + 1013904223u;
    return (state >> 16) % below;
}

/* Each volume has one extent, and the others have their owners in a mixed order. The questions go over all extents and blocks in a mixed order. */
static void prepare(struct map *map) {
    uint16_t had[MOST_VOLUMES] = {0};
    for (uint32_t extent = 0; extent < map->extents; extent++) {
        uint32_t volume = extent < map->volumes ? extent : mixed(map->volumes);
        map->owners[extent] = (owned){(uint8_t)volume, had[volume]++};
    }
    for (int k = 0; k < QUESTIONS; k++) {
        uint32_t extent = mixed(map->extents), within = mixed(EXTENT_BLOCKS);
        map->asked[k] = (question){map->owners[extent].place * EXTENT_BLOCKS + within, map->owners[extent].volume};
        map->sum += RESERVED_SECTORS + extent * EXTENT_BLOCKS + within;
    }
}

static double seconds(void) {
    struct timespec now;
    clock_gettime(CLOCK_PROCESS_CPUTIME_ID, &now);
    return (double)now.tv_sec + 1e-9 * (double)now.tv_nsec;
}

static void run(const struct map *map, uint32_t rounds, double *best) {
    double began = seconds();
    uint64_t sum = proved_sum(map->owners, map->extents, map->asked, QUESTIONS, rounds);
    double took = seconds() - began;
    if (sum != rounds * map->sum) {
        fprintf(stderr, "%u extents: the sectors are not those of the blocks\n", map->extents);
        exit(1);
    }
    if (took < *best)
        *best = took;
}

int main(int count, char **words) {
    for (int m = 0; m < MAPS; m++)
        prepare(&maps[m]);
    for (long runs = count > 1 ? atol(words[1]) : 3000; runs > 0; runs--)
        for (int m = 0; m < MAPS; m++) {
            run(&maps[m], 0, &maps[m].making);
            run(&maps[m], ROUNDS, &maps[m].best);
        }
    for (int m = 0; m < MAPS; m++)
        printf("%u %u %.3f\n", maps[m].extents, maps[m].volumes, 1e9 * (maps[m].best - maps[m].making) / (ROUNDS * QUESTIONS));
    return 0;
}
