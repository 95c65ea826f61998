/* Makes calls on the device files of a folder, as a program has made them: bench/nbd builds it.

   replay FOLDER CALLS

   CALLS has a record for each call: its kind (R read, W write, Y sync, P a read of which the bytes
   go to standard output), the slot, the place and the number of bytes, all of 8 bytes. */
#define _GNU_SOURCE
#include <fcntl.h>
#include <stdint.h>
#include <stdio.h>
#include <stdlib.h>
#include <unistd.h>

enum { SLOTS = 10, MOST_BYTES = 1 << 22 };
struct call { uint64_t kind, slot, at, bytes; };

static int files[SLOTS];
static char buffer[MOST_BYTES];

static int is_done(const struct call *call)
{
    int file = files[call->slot];
    ssize_t bytes = call->bytes;
    if (call->kind == 'W')
        return pwrite(file, buffer, bytes, call->at) == bytes;
    if (call->kind == 'Y')
        return fdatasync(file) == 0;
    if (pread(file, buffer, bytes, call->at) != bytes)
        return 0;
    for (ssize_t put = 0, now = 1; call->kind == 'P' && put < bytes && now > 0; put += now)
        now = write(1, buffer + put, bytes - put);
    return 1;
}

int main(int count, char **words)
{
    struct call call;
    char path[4096];
    FILE *calls = count == 3 ? fopen(words[2], "rb") : NULL;
    for (int slot = 0; slot < SLOTS && calls != NULL; slot++) {
        snprintf(path, sizeof path, "%s/dev%d.img", words[1], slot);
        files[slot] = open(path, O_RDWR | O_CLOEXEC);
    }
    while (calls != NULL && fread(&call, sizeof call, 1, calls) == 1)
        if (call.slot >= SLOTS || call.bytes > MOST_BYTES || !is_done(&call))
            return 2;
    return calls == NULL;
}
