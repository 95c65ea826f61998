/* calls reads|scattered|replies|lines|writes FOLDER COUNT MEMBERS: the device calls of COUNT commands of one block on a set of so many members, chunk 8 and 32 stripes.

   Command number k, from 0, is of block k mod 448 of a volume over the first seven extents in order: logical sector 64 + k mod 448. A read is one pread, and
   nothing else, `scattered` one of block 97 * k mod 448; with `replies` it is that and a write of 7 bytes to standard output. With `lines` it is what no program of lines can leave out: COUNT lines
   `read a K 1` are found on standard input, each is read, and its block comes as `5a*512` or as 1,024 digits into a buffer of 64 KiB, which is written when it
   is full. A write is the commit of one block: it reads the row's old data and old parity, or with 3 members its other data, which is fewer sectors. The
   entry holds two sectors, the block and the parity, in the order of their members: on each journal they are written as the body, by one call, with a sync,
   then on each the seal, with a sync, as docs/FORMATS.md places them, and then on each of the two members its sector, with a sync. */
#define _GNU_SOURCE
#include <fcntl.h>
#include <stdio.h>
#include <stdlib.h>
#include <string.h>
#include <unistd.h>

enum { SECTOR = 512, MOST_MEMBERS = 8, CHUNK = 8, JOURNALS = 2, BLOCKS = 448, FIRST_LOGICAL = 64, FIRST_ROW = 8, ENTRY_SECTORS = 256 };

static int members, files[MOST_MEMBERS + JOURNALS];
static char sector[SECTOR], body[2 * SECTOR];

static void must(int ok, const char *call) {
    if (!ok) {
        perror(call);
        exit(1);
    }
}

static void read_sector(int slot, off_t at) { must(pread(files[slot], sector, SECTOR, at * SECTOR) == SECTOR, "pread"); }

static void write_sector(int slot, off_t at) { must(pwrite(files[slot], sector, SECTOR, at * SECTOR) == SECTOR, "pwrite"); }

static void write_body(int slot, off_t at) { must(pwrite(files[slot], body, sizeof body, at * SECTOR) == sizeof body, "pwrite"); }

static void sync_file(int slot) { must(fdatasync(files[slot]) == 0, "fdatasync"); }

/* Where a logical sector lies: its member and its row, and the member of the row's parity. */
static void place(long logical, int *member, int *parity, long *row) {
    long chunk = logical / CHUNK, stripe = chunk / (members - 1);
    *member = (int)(chunk % members);
    *parity = (int)(members - 1 - stripe % members);
    *row = stripe * CHUNK + logical % CHUNK;
}

static void write_reply(void) { must(write(STDOUT_FILENO, "5a*512\n", 7) == 7, "write"); }

static void read_block(long k) {
    int member, parity;
    long row;
    place(FIRST_LOGICAL + k % BLOCKS, &member, &parity, &row);
    read_sector(member, FIRST_ROW + row);
}

enum { BUFFER = 1 << 16, REPLY = 2 * SECTOR + 1 };

static char input[BUFFER], output[BUFFER];
static size_t held, taken, formed;

/* The next line, without its end; it stands until the next call. */
static const char *next_line(size_t *length) {
    char *end;
    while (!(end = memchr(input + taken, '\n', held - taken))) {
        memmove(input, input + taken, held -= taken);
        taken = 0;
        ssize_t count = read(STDIN_FILENO, input + held, BUFFER - held);
        must(count > 0, "read");
        held += (size_t)count;
    }
    const char *line = input + taken;
    *length = (size_t)(end - line);
    taken += *length + 1;
    return line;
}

static void write_formed(void) {
    must(write(STDOUT_FILENO, output, formed) == (ssize_t)formed, "write");
    formed = 0;
}

/* Puts the block that was read last into the buffer, as a reply. */
static void form_reply(void) {
    static const char digits[] = "0123456789abcdef";
    if (formed + REPLY > BUFFER)
        write_formed();
    int is_even = memcmp(sector, sector + 1, SECTOR - 1) == 0;
    for (int at = 0; at < (is_even ? 1 : SECTOR); at++) {
        output[formed++] = digits[(unsigned char)sector[at] >> 4];
        output[formed++] = digits[sector[at] & 15];
    }
    if (is_even) {
        memcpy(output + formed, "*512", 4);
        formed += 4;
    }
    output[formed++] = '\n';
}

static void serve_line(void) {
    size_t length;
    const char *line = next_line(&length);
    must(length > 9 && memcmp(line, "read a ", 7) == 0, "line");
    long k = 0;
    for (size_t at = 7; at < length && line[at] != ' '; at++)
        k = 10 * k + (line[at] - '0');
    read_block(k);
    form_reply();
}

/* Reads a row's sectors of two members, or of all others. */
static void read_row(long row, int first, int second, int others) {
    for (int m = 0; m < members; m++)
        if ((m != first && m != second) == others)
            read_sector(m, FIRST_ROW + row);
}

static void write_block(long k) {
    int member, parity;
    long row, entry = k + 1, side = entry % 2;
    place(FIRST_LOGICAL + k % BLOCKS, &member, &parity, &row);
    int held[] = {member < parity ? member : parity, member < parity ? parity : member};
    read_row(row, held[0], held[1], members - 2 < 2);
    memset(sector, (int)(k % 256), SECTOR);
    memset(body, (int)(k % 256), sizeof body);
    for (int journal = members; journal < members + JOURNALS; journal++) {
        write_body(journal, FIRST_ROW + ENTRY_SECTORS * side);
        sync_file(journal);
    }
    for (int journal = members; journal < members + JOURNALS; journal++) {
        write_sector(journal, 2 + side);
        sync_file(journal);
    }
    for (int at = 0; at < 2; at++) {
        write_sector(held[at], FIRST_ROW + row);
        sync_file(held[at]);
    }
}

int main(int count, char **words) {
    members = count == 5 ? atoi(words[4]) : 0;
    if (members < 3 || members > MOST_MEMBERS) {
        fprintf(stderr, "usage: calls reads|scattered|replies|lines|writes FOLDER COUNT MEMBERS\n");
        return 2;
    }
    for (int slot = 0; slot < members + JOURNALS; slot++) {
        char path[4096];
        snprintf(path, sizeof path, "%s/dev%d.img", words[2], slot);
        files[slot] = open(path, O_RDWR);
        must(files[slot] >= 0, path);
    }
    long apart = strcmp(words[1], "scattered") == 0 ? 97 : 1;
    int writes = strcmp(words[1], "writes") == 0, replies = strcmp(words[1], "replies") == 0, lines = strcmp(words[1], "lines") == 0;
    for (long k = 0, all = atol(words[3]); k < all; k++) {
        if (writes)
            write_block(k);
        else if (lines)
            serve_line();
        else
            read_block(apart * k);
        if (replies)
            write_reply();
    }
    if (lines)
        write_formed();
    return 0;
}
