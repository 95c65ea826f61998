/* Counts the syncs of a program, and makes them slower. .ci/large and bench/nbd build this library
   and have it loaded before the system's (LD_PRELOAD), with what is to happen in variables:

   SYNCS_LOG    a file that gets a byte for each call of fsync and fdatasync, once it was made.
   SYNCS_STOP   a number: the process is killed right after the call with this number, counted
                from 1.
   SYNCS_WAIT   microseconds that each of these calls takes more. */
#define _GNU_SOURCE
#include <dlfcn.h>
#include <fcntl.h>
#include <signal.h>
#include <stdlib.h>
#include <sys/syscall.h>
#include <unistd.h>

static long made, stop, wait;
static int out = -1;

__attribute__((constructor)) static void begin(void) {
    const char *log = getenv("SYNCS_LOG"), *at = getenv("SYNCS_STOP"), *more = getenv("SYNCS_WAIT");
    if (more) wait = atol(more);
    if (!log) return;
    /* A number that no file of the program gets. */
    int low = (int)syscall(SYS_openat, AT_FDCWD, log, O_WRONLY | O_CREAT | O_APPEND, 0600);
    out = (int)syscall(SYS_fcntl, low, F_DUPFD_CLOEXEC, 500);
    syscall(SYS_close, low);
    if (out < 0) abort();
    if (at) stop = atol(at);
}

static int counted(int status) {
    if (wait) usleep(wait);
    if (out >= 0 && syscall(SYS_write, out, "s", 1) != 1) abort();
    if (out >= 0 && ++made == stop) kill(getpid(), SIGKILL);
    return status;
}

#define SYNCS(name) \
    int name(int fd) { \
        static __typeof__(&name) real; \
        if (!real) real = (__typeof__(&name))dlsym(RTLD_NEXT, #name); \
        return counted(real(fd)); \
    }
SYNCS(fsync)
SYNCS(fdatasync)
