/* The calls of a program on device files, in the order in which it makes them. .ci/power_cuts
   builds this library and has it loaded before the system's (LD_PRELOAD), with what is to happen in
   variables:

   CALLS_LOG     the file to whose end a record of each call goes, once it was made.
   CALLS_STOP    a number: the process is killed right after the call with this number, counted
                 from 1, or right before it where a `-` stands before the number.
   CALLS_FAULT   `SLOT:NUMBER`: each call on the file of this slot ends with EIO, from the call with
                 this number on.

   A record has a kind, a slot (255: none), the place and the number of bytes, and then the bytes of
   a write or of a reply. All numbers are little-endian. Kinds, of which all but the first two are
   counted:

   S start of the process     O a device file that was there was opened     R read
   C it was created           W write            T length set               Y sync of a device file
   D sync of a folder         U unlinked         M another name was changed (rename, mkdir, ..)
   A sync of all there is     E something was written to standard output */
#define _GNU_SOURCE
#include <dlfcn.h>
#include <errno.h>
#include <fcntl.h>
#include <signal.h>
#include <stdarg.h>
#include <stdint.h>
#include <stdlib.h>
#include <string.h>
#include <sys/stat.h>
#include <sys/syscall.h>
#include <sys/uio.h>
#include <unistd.h>

#define REAL(name) \
    static __typeof__(&name) real; \
    if (!real) real = (__typeof__(&name))dlsym(RTLD_NEXT, #name)

/* LONGEST: the seconds after which the process is ended. */
enum { FILES = 4096, NONE = 255, LONGEST = 60 };
struct record { uint8_t kind, slot, zeros[6]; uint64_t at; uint64_t bytes; };
/* Of each open file its slot plus 1, or 0 where it is no device file. */
static uint8_t slots[FILES];
static long made, stop, fault_from;
static int fault_slot = -1, out = -1;

/* The record of a call goes to the log by the system's own calls, as no other would get past this
   library. */
static void note(int kind, int slot, uint64_t at, uint64_t bytes, const void *data) {
    struct record record = {(uint8_t)kind, (uint8_t)slot, {0}, at, bytes};
    struct iovec parts[2] = {{&record, sizeof record}, {(void *)data, data ? bytes : 0}};
    if (out >= 0 && syscall(SYS_writev, out, parts, data ? 2 : 1) < 0) abort();
}
__attribute__((constructor)) static void begin(void) {
    const char *log = getenv("CALLS_LOG"), *at = getenv("CALLS_STOP");
    const char *fault = getenv("CALLS_FAULT");
    if (!log) return;
    int low = (int)syscall(SYS_openat, AT_FDCWD, log, O_WRONLY | O_CREAT | O_APPEND, 0600);
    out = (int)syscall(SYS_fcntl, low, F_DUPFD_CLOEXEC, 500);
    syscall(SYS_close, low);
    if (out < 0) abort();
    alarm(LONGEST);
    if (at) stop = atol(at);
    if (fault) {
        fault_slot = atoi(fault);
        fault_from = atol(strchr(fault, ':') + 1);
    }
    note('S', NONE, 0, 0, NULL);
}

static void end(void) { kill(getpid(), SIGKILL); }
/* Right before a call that is counted. */
static void before(void) {
    if (++made == -stop) end();
}
/* Right after it, with what is noted of it where it was done. */
static void note_after(int done, int kind, int slot, uint64_t at, uint64_t bytes, const void *data) {
    if (done) note(kind, slot, at, bytes, data);
    if (made == stop) end();
}

static int slot_of(int fd) { return fd >= 0 && fd < FILES && slots[fd] ? slots[fd] - 1 : NONE; }
/* The slot of a path that ends with `devK.img`. */
static int slot_in(const char *path) {
    const char *last = strrchr(path, '/');
    last = last ? last + 1 : path;
    if (strncmp(last, "dev", 3) || last[3] < '0' || last[3] > '9') return NONE;
    return strcmp(last + 4, ".img") ? NONE : last[3] - '0';
}
static int has_fault(int slot) {
    int is_it = slot == fault_slot && made >= fault_from;
    if (is_it) errno = EIO;
    return is_it;
}

#define MODE(flags) \
    va_list more; \
    va_start(more, flags); \
    int mode = flags & (O_CREAT | __O_TMPFILE) ? va_arg(more, int) : 0; \
    va_end(more)
/* An open of a device file: it is created where there was none at this path. */
#define OPENED(call) \
    int slot = out >= 0 ? slot_in(path) : NONE; \
    if (slot == NONE) return call; \
    struct stat there; \
    int is_new = flags & O_CREAT && fstatat(AT_FDCWD, path, &there, 0); \
    if (is_new) before(); \
    int fd = call; \
    if (fd >= 0 && fd < FILES) slots[fd] = (uint8_t)(slot + 1); \
    if (fd >= 0 && !is_new) note('O', slot, 0, 0, NULL); \
    if (is_new) note_after(fd >= 0, 'C', slot, 0, 0, NULL); \
    return fd
#define OPENS(name) \
    int name(const char *path, int flags, ...) { \
        REAL(name); \
        MODE(flags); \
        OPENED(real(path, flags, mode)); \
    }
#define OPENS_AT(name) \
    int name(int at, const char *path, int flags, ...) { \
        REAL(name); \
        MODE(flags); \
        OPENED(real(at, path, flags, mode)); \
    }
OPENS(open)
OPENS(open64)
OPENS_AT(openat)
OPENS_AT(openat64)
int close(int fd) {
    REAL(close);
    if (fd >= 0 && fd < FILES) slots[fd] = 0;
    return real(fd);
}

/* A read of a device file is noted without its bytes. */
#define READS(name, offset) \
    ssize_t name(int fd, void *to, size_t n, offset at) { \
        REAL(name); \
        int slot = slot_of(fd); \
        if (slot == NONE) return real(fd, to, n, at); \
        before(); \
        ssize_t got = has_fault(slot) ? -1 : real(fd, to, n, at); \
        note_after(1, 'R', slot, (uint64_t)at, n, NULL); \
        return got; \
    }
READS(pread, off_t)
READS(pread64, off64_t)

#define WRITES(name, offset) \
    ssize_t name(int fd, const void *from, size_t n, offset at) { \
        REAL(name); \
        int slot = slot_of(fd); \
        if (slot == NONE) return real(fd, from, n, at); \
        before(); \
        ssize_t put = has_fault(slot) ? -1 : real(fd, from, n, at); \
        note_after(put > 0, 'W', slot, (uint64_t)at, (uint64_t)put, from); \
        return put; \
    }
WRITES(pwrite, off_t)
WRITES(pwrite64, off64_t)

/* A write goes to standard output, or to where a device file stands. */
ssize_t write(int fd, const void *from, size_t n) {
    REAL(write);
    int slot = slot_of(fd);
    if (out < 0 || (fd != 1 && slot == NONE)) return real(fd, from, n);
    before();
    off_t at = fd == 1 ? 0 : lseek(fd, 0, fcntl(fd, F_GETFL) & O_APPEND ? SEEK_END : SEEK_CUR);
    ssize_t put = has_fault(slot) ? -1 : real(fd, from, n);
    note_after(put > 0, fd == 1 ? 'E' : 'W', slot, (uint64_t)at, (uint64_t)put, from);
    return put;
}

/* A call that has no bytes, and ends with 0 where it was done. */
#define CALLS(name, is_noted, slot, kind, size, parameters, arguments) \
    int name parameters { \
        REAL(name); \
        int of = slot; \
        if (out < 0 || !(is_noted)) return real arguments; \
        before(); \
        int status = has_fault(of) ? -1 : real arguments; \
        note_after(!status, kind, of, 0, size, NULL); \
        return status; \
    }
static int is_folder(int fd) {
    struct stat here;
    return !fstat(fd, &here) && S_ISDIR(here.st_mode);
}
#define SYNCS(name) \
    CALLS(name, of != NONE || is_folder(fd), slot_of(fd), of == NONE ? 'D' : 'Y', 0, (int fd), (fd))
SYNCS(fsync)
SYNCS(fdatasync)
CALLS(syncfs, 1, NONE, 'A', 0, (int fd), (fd))
CALLS(ftruncate, of != NONE, slot_of(fd), 'T', (uint64_t)size, (int fd, off_t size), (fd, size))
CALLS(ftruncate64, of != NONE, slot_of(fd), 'T', (uint64_t)size, (int fd, off64_t size), (fd, size))
CALLS(unlink, of != NONE, slot_in(path), 'U', 0, (const char *path), (path))
CALLS(unlinkat, of != NONE, slot_in(path), 'U', 0, (int at, const char *path, int how),
    (at, path, how))
CALLS(rename, 1, NONE, 'M', 0, (const char *from, const char *to), (from, to))
CALLS(mkdir, 1, NONE, 'M', 0, (const char *path, mode_t mode), (path, mode))
void sync(void) {
    REAL(sync);
    before();
    real();
    note_after(1, 'A', NONE, 0, 0, NULL);
}
