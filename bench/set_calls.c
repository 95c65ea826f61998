/* set_calls make|rebuild|scrub FOLDER ROWS: what making a set of 4 members with so many rows, a whole rebuild of it, or a scrub has to do with its files, 64 KiB
   at a time.

   A make writes zeros to the rows of each member, syncs it, and reads them once. A scrub reads each member's rows, XORs them and looks whether that is zero. A
   rebuild of slot 1 reads the rows of the other members, and goes in steps of 64 rows. A step writes their XOR to slot 1, which is synced. Then the table is
   published: the sector of the superblock is written on each other slot, each of these is synced, and slot 1 gets it last, with a sync. */
#define _GNU_SOURCE
#include <fcntl.h>
#include <stdint.h>
#include <stdio.h>
#include <stdlib.h>
#include <string.h>
#include <unistd.h>

enum { SECTOR = 512, MEMBERS = 4, SLOTS = MEMBERS + 2, REBUILT = 1, FIRST_ROW = 8, STEP = 64, PART = 128, WORDS = PART * SECTOR / 8 };

static int files[SLOTS];
static uint64_t sum[WORDS], part[WORDS];

static void must(int ok, const char *call) {
    if (!ok) {
        perror(call);
        exit(1);
    }
}

static void read_rows(int slot, void *to, long row, long rows) {
    must(pread(files[slot], to, rows * SECTOR, (FIRST_ROW + row) * SECTOR) == rows * SECTOR, "pread");
}

static void write_rows(int slot, const void *from, long row, long rows) {
    must(pwrite(files[slot], from, rows * SECTOR, (FIRST_ROW + row) * SECTOR) == rows * SECTOR, "pwrite");
}

static void write_sector(int slot, off_t at) { must(pwrite(files[slot], part, SECTOR, at * SECTOR) == SECTOR, "pwrite"); }

static void sync_file(int slot) { must(fdatasync(files[slot]) == 0, "fdatasync"); }

/* The XOR of so many rows of each member but one. */
static void sum_rows(int without, long row, long rows) {
    memset(sum, 0, sizeof sum);
    for (int m = 0; m < MEMBERS; m++)
        if (m != without) {
            read_rows(m, part, row, rows);
            for (long at = 0; at < rows * SECTOR / 8; at++)
                sum[at] ^= part[at];
        }
}

static long least(long a, long b) { return a < b ? a : b; }

static void make(long rows) {
    for (int m = 0; m < MEMBERS; m++) {
        for (long row = 0; row < rows; row += PART)
            write_rows(m, sum, row, least(PART, rows - row));
        sync_file(m);
    }
    for (int m = 0; m < MEMBERS; m++)
        for (long row = 0; row < rows; row += PART)
            read_rows(m, part, row, least(PART, rows - row));
}

static void scrub(long rows) {
    long bad = 0;
    for (long row = 0; row < rows; row += PART) {
        sum_rows(MEMBERS, row, least(PART, rows - row));
        for (long at = 0; at < least(PART, rows - row) * SECTOR / 8; at++)
            bad += sum[at] != 0;
    }
    must(bad == 0, "scrub");
}

static void publish(long generation) {
    for (int slot = 0; slot < SLOTS; slot++)
        if (slot != REBUILT)
            write_sector(slot, generation % 2);
    for (int slot = 0; slot < SLOTS; slot++)
        if (slot != REBUILT)
            sync_file(slot);
    write_sector(REBUILT, generation % 2);
    sync_file(REBUILT);
}

static void rebuild(long rows) {
    for (long row = 0; row < rows; row += PART) {
        long here = least(PART, rows - row);
        sum_rows(REBUILT, row, here);
        for (long done = 0; done < here; done += STEP) {
            write_rows(REBUILT, sum + done * SECTOR / 8, row + done, least(STEP, here - done));
            sync_file(REBUILT);
            publish((row + done) / STEP);
        }
    }
}

int main(int count, char **words) {
    if (count != 4) {
        fprintf(stderr, "usage: set_calls make|rebuild|scrub FOLDER ROWS\n");
        return 2;
    }
    int is_make = strcmp(words[1], "make") == 0;
    for (int slot = 0; slot < SLOTS; slot++) {
        char path[4096];
        snprintf(path, sizeof path, "%s/dev%d.img", words[2], slot);
        files[slot] = open(path, is_make ? O_RDWR | O_CREAT : O_RDWR, 0666);
        must(files[slot] >= 0, path);
    }
    if (is_make)
        make(atol(words[3]));
    else if (strcmp(words[1], "rebuild") == 0)
        rebuild(atol(words[3]));
    else
        scrub(atol(words[3]));
    return 0;
}
