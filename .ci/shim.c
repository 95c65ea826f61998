/* Calls of the system that fail. .ci/faulty_calls.py builds this library and has it loaded before
   the system's (LD_PRELOAD), with what is to happen in variables:

   FAULTS   a list of `KIND:NUMBER:ERRNO`, with a space between two: the call of that kind with this
            number fails, counted from 1; with `NUMBER+` also each one after it. Kinds: `open`,
            `create` (an open that may create), `lock`, `stat`, `sync` of a file, `names` (a sync of
            a folder), `cut`, `read`, `write`, `unlink`, `path` (what a link leads to), `memory`.
   SEEN     a file to which a line goes each time that a call failed, or what else is asked for here
            was done.
   OPEN_NAME, OPEN_FAULT   an open of this path, or of one whose last part this is, fails, unless it
            may create.
   OPENED   a file to which the names of device files go that are opened.
   SYNCED   a file to which the paths of folders go that were synced.
   COUNTED  a file to which each call goes that FAULTS counts, in order, as its kind, but no `memory`.
   CALLED   a file to which the calls on device files go, and the syncs of folders, in order, each
            as its kind and the last part of the path: `open`, `create`, `lock`, `fsync`,
            `fdatasync`, `read`, `write`, `cut`.
   PUT_NAME, PUT_FROM   right before an open that may create a path whose last part is PUT_NAME, the
            file PUT_FROM takes that path.
   LOCK_TO, LOCK_FROM   right after the lock of the file LOCK_TO the file LOCK_FROM takes its name,
            or it has none.
   LOCK_STOP   the process stops right after its lock of this number. */
#define _GNU_SOURCE
#include <dlfcn.h>
#include <errno.h>
#include <fcntl.h>
#include <limits.h>
#include <signal.h>
#include <stdarg.h>
#include <stdio.h>
#include <stdlib.h>
#include <string.h>
#include <sys/file.h>
#include <sys/stat.h>
#include <unistd.h>

#define REAL(name) \
    static __typeof__(&name) real; \
    if (!real) real = (__typeof__(&name))dlsym(RTLD_NEXT, #name)

enum { OPEN, CREATE, LOCK, STAT, SYNC, NAMES, CUT, READ, WRITE, UNLINK, PATH, MEMORY, KINDS };
static const char *const KIND[KINDS] = {"open", "create", "lock", "stat", "sync", "names",
    "cut", "read", "write", "unlink", "path", "memory"};
enum { MOST = 8 };
static struct { int kind, is_on, number; long at; } faults[MOST];
static int many;
static long made[KINDS];
static int is_begun;

static void add(const char *text) {
    for (int kind = 0; kind < KINDS && many < MOST; kind++) {
        size_t length = strlen(KIND[kind]);
        char *end;
        if (strncmp(text, KIND[kind], length) || text[length] != ':') continue;
        faults[many].kind = kind;
        faults[many].at = strtol(text + length + 1, &end, 10);
        faults[many].is_on = *end == '+';
        faults[many].number = atoi(end + 1 + (*end == '+'));
        many++;
        return;
    }
    abort();
}
__attribute__((constructor)) static void begin(void) {
    const char *text = getenv("FAULTS");
    while (text && *text) {
        add(text);
        text += strcspn(text, " ");
        text += *text == ' ';
    }
    memset(made, 0, sizeof made);
    is_begun = 1;
}

/* The system's own open, whatever is to happen to the program's. */
static int opened(const char *path, int flags) {
    REAL(open);
    return real(path, flags | O_CLOEXEC, 0600);
}
static void note(const char *to, const char *text) {
    const char *path = getenv(to);
    int out = path ? opened(path, O_WRONLY | O_CREAT | O_APPEND) : -1;
    if (out >= 0) { dprintf(out, "%s\n", text); close(out); }
}
static int seen(void) {
    note("SEEN", "");
    return 1;
}

/* Whether this call of a kind fails, with its number in errno. */
static int fails(int kind) {
    if (!is_begun) return 0;
    long number = __sync_add_and_fetch(&made[kind], 1);
    if (kind != MEMORY) note("COUNTED", KIND[kind]);
    for (int each = 0; each < many; each++) {
        long at = faults[each].at;
        int is_it = number == at || (number > at && faults[each].is_on);
        if (faults[each].kind != kind || !is_it) continue;
        seen();
        errno = faults[each].number;
        return 1;
    }
    return 0;
}

static const char *last_of(const char *path) {
    const char *last = strrchr(path, '/');
    return last ? last + 1 : path;
}
static int is_named(const char *variable, const char *path) {
    const char *name = getenv(variable);
    return name && (!strcmp(path, name) || !strcmp(last_of(path), name));
}
static int is_device(const char *path) {
    const char *last = last_of(path);
    return !strncmp(last, "dev", 3) && strstr(last, ".img");
}
static void called(const char *kind, const char *path) {
    char text[PATH_MAX];
    snprintf(text, sizeof text, "%s %s", kind, last_of(path));
    note("CALLED", text);
}
static int path_of(int fd, char *path) {
    char place[40];
    snprintf(place, sizeof place, "/proc/self/fd/%d", fd);
    ssize_t length = readlink(place, path, PATH_MAX - 1);
    path[length > 0 ? length : 0] = 0;
    return length > 0;
}
/* A call on an open file goes to the log where that is a device file, or anything at all. */
static void called_on(const char *kind, int fd, int is_any) {
    char path[PATH_MAX];
    if (getenv("CALLED") && path_of(fd, path) && (is_any || is_device(path))) called(kind, path);
}
static int is_unopened(const char *path, int flags) {
    const char *last = last_of(path);
    if (is_device(path)) {
        note("OPENED", last);
        called(flags & O_CREAT ? "create" : "open", path);
    }
    if (!(flags & O_CREAT) && is_named("OPEN_NAME", path) && seen()) {
        errno = atoi(getenv("OPEN_FAULT"));
        return 1;
    }
    if (flags & O_CREAT && is_named("PUT_NAME", path) && seen()) rename(getenv("PUT_FROM"), path);
    return fails(OPEN) || (flags & O_CREAT && fails(CREATE));
}
#define MODE(flags) \
    va_list more; \
    va_start(more, flags); \
    int mode = flags & (O_CREAT | __O_TMPFILE) ? va_arg(more, int) : 0; \
    va_end(more)
#define OPENS(name) \
    int name(const char *path, int flags, ...) { \
        REAL(name); \
        MODE(flags); \
        return is_unopened(path, flags) ? -1 : real(path, flags, mode); \
    }
#define OPENS_AT(name) \
    int name(int at, const char *path, int flags, ...) { \
        REAL(name); \
        MODE(flags); \
        return is_unopened(path, flags) ? -1 : real(at, path, flags, mode); \
    }
OPENS(open)
OPENS(open64)
OPENS_AT(openat)
OPENS_AT(openat64)

/* A call that is looked at by its kind alone. */
#define CALLS(type, name, kind, failed, parameters, arguments) \
    type name parameters { \
        REAL(name); \
        return fails(kind) ? failed : real arguments; \
    }
/* Such a call on an open file. */
#define CALLS_ON(type, name, kind, parameters, arguments) \
    type name parameters { \
        REAL(name); \
        called_on(KIND[kind], fd, 0); \
        return fails(kind) ? -1 : real arguments; \
    }
CALLS(int, statx, STAT, -1, (int at, const char *path, int flags, unsigned mask, struct statx *to),
    (at, path, flags, mask, to))
CALLS(int, fstatat, STAT, -1, (int at, const char *path, struct stat *to, int flags),
    (at, path, to, flags))
CALLS_ON(int, ftruncate, CUT, (int fd, off_t size), (fd, size))
CALLS_ON(int, ftruncate64, CUT, (int fd, off64_t size), (fd, size))
CALLS_ON(ssize_t, pread, READ, (int fd, void *to, size_t n, off_t at), (fd, to, n, at))
CALLS_ON(ssize_t, pread64, READ, (int fd, void *to, size_t n, off64_t at), (fd, to, n, at))
CALLS_ON(ssize_t, pwrite, WRITE, (int fd, const void *from, size_t n, off_t at), (fd, from, n, at))
CALLS_ON(ssize_t, pwrite64, WRITE, (int fd, const void *from, size_t n, off64_t at),
    (fd, from, n, at))
CALLS(int, unlink, UNLINK, -1, (const char *path), (path))
CALLS(int, unlinkat, UNLINK, -1, (int at, const char *path, int flags), (at, path, flags))
CALLS(char *, realpath, PATH, NULL, (const char *path, char *to), (path, to))
CALLS(void *, malloc, MEMORY, NULL, (size_t n), (n))
CALLS(void *, realloc, MEMORY, NULL, (void *p, size_t n), (p, n))
CALLS(void *, aligned_alloc, MEMORY, NULL, (size_t a, size_t n), (a, n))
CALLS(int, posix_memalign, MEMORY, ENOMEM, (void **p, size_t a, size_t n), (p, a, n))

int flock(int fd, int how) {
    REAL(flock);
    static long locks;
    const char *to = getenv("LOCK_TO"), *from = getenv("LOCK_FROM"), *stop = getenv("LOCK_STOP");
    struct stat here, there;
    called_on("lock", fd, 0);
    if (fails(LOCK)) return -1;
    int is_there = to && !fstat(fd, &here) && !stat(to, &there);
    int is_it = is_there && here.st_dev == there.st_dev && here.st_ino == there.st_ino;
    int locked = real(fd, how);
    if (is_it && seen()) from ? rename(from, to) : unlink(to);
    if (stop && ++locks == atol(stop) && seen()) raise(SIGSTOP);
    return locked;
}

static int is_folder(int fd) {
    struct stat here;
    return !fstat(fd, &here) && S_ISDIR(here.st_mode);
}
static int synced(int fd, int status) {
    char path[PATH_MAX];
    if (!status && path_of(fd, path)) note("SYNCED", path);
    return status;
}
#define SYNCS(name) \
    int name(int fd) { \
        REAL(name); \
        int folder = is_folder(fd); \
        called_on(#name, fd, folder); \
        if (fails(folder ? NAMES : SYNC)) return -1; \
        int status = real(fd); \
        return folder ? synced(fd, status) : status; \
    }
SYNCS(fsync)
SYNCS(fdatasync)
