/* A plugin of nbdkit that serves a set: each of its volumes is an export, a block device for any number of clients.
 *
 * Beside nbdkit runs `raidtool serve FOLDER --id H`, and only that program touches the set. Lines go into its one pipe, and replies come out of the other in
 * the order of lines, as docs/FORMATS.md says. A reply is durable, so a flush has nothing to do. Where the program is killed it is started again.
 *
 * No thread stands between. Each takes the replies to its own lines, in its turn; and one that has none under way gives what may be sent, also for others. So
 * who waits with a full pipe owes the program no large reply. A write that comes while others have no reply yet waits, and those that wait go together.
 */
#define _GNU_SOURCE
#define NBDKIT_API_VERSION 2
#include <nbdkit-plugin.h>

#include <fcntl.h>
#include <inttypes.h>
#include <poll.h>
#include <pthread.h>
#include <signal.h>
#include <stdbool.h>
#include <stdio.h>
#include <stdlib.h>
#include <string.h>
#include <sys/prctl.h>
#include <sys/queue.h>
#include <sys/wait.h>
#include <time.h>
#include <unistd.h>

#define THREAD_MODEL NBDKIT_THREAD_MODEL_PARALLEL

enum { BLOCK_BYTES = 512, PREFERRED_BYTES = 4096, MOST_BYTES = 1 << 20, MOST_VOLUMES = 64, LINE_BYTES = 112 };
/* So much at most has no reply yet. A plugin that is killed leaves no more for the program to do before it lets the set go. */
enum { ROOM_BLOCKS = (16 << 20) / BLOCK_BYTES, ROOM_LINES = 256 };
/* So many lines without blocks are given at once: less than a page, which fits into any pipe. */
enum { SHORT_LINES = 32, PIPE_BYTES = 1 << 20, BUFFER_BYTES = 1 << 14 };
/* So often the program is started again without a reply in between, with so many seconds between two starts; and so often it is looked for a reply. */
enum { STARTS = 3, SECONDS_BETWEEN_STARTS = 10, LOOKS = 50, LOOKS_LEFT_OUT = 15, MEMORY = 14 };

struct volumes {
    unsigned many;
    struct volume {
        char name[64];
        uint64_t blocks;
    } all[MOST_VOLUMES];
};

/* What is asked for: blocks of a volume, which `bytes` hold or take, or all volumes. Lines of one request are of one word. */
struct line {
    enum word { READ, WRITE, ZERO, LIST } word;
    const char *volume;
    uint64_t at;
    unsigned count;
    char *bytes;
    struct volumes *found;
    TAILQ_ENTRY(line) entry;
    /* The last line of the request, which has its first error, how many of its lines are to be done and are under way, and what wakes its thread. */
    struct line *last;
    unsigned left, under_way;
    int error;
    pthread_cond_t woken;
};

static const char *const forms[] = {
    [READ] = "read %s %" PRIu64 " %u\n", [WRITE] = "write %s %" PRIu64 " %u\n", [ZERO] = "zero %s %" PRIu64 " %u\n", [LIST] = "list\n"};
/* The most blocks of a line, and the most lines of a request, which has 64 MiB and a block at most. A large read is several, so that the program reads while
 * what it read goes on. */
static const unsigned most[] = {[READ] = 256, [WRITE] = 2048, [ZERO] = 32768};
enum { MOST_LINES = (64 << 20) / (256 * BLOCK_BYTES) + 1 };

#define SERVE "exec \"$0\" serve \"$1\" --id \"$2\""
/* A program whose plugin was killed has the set until its last lines are done, which is waited for. */
#define WHEN_FREE "n=0; while \"$0\" status \"$1\" --id \"$2\" 2>&1 | grep -q '^in use ' && [ $((n += 1)) -lt 16 ]; do sleep 0.3; done; "
/* Each device is waited for that the set counts on, for half a minute at most, by a look at the files: a start marks what is absent as missing. */
#define WHEN_THERE "n=0; until \"$0\" examine \"$1\" --id \"$2\" 2>&1 | grep -q '^would assemble: ' || [ $((n += 1)) -gt 90 ]; do sleep 0.3; done; "

static const char *program_path = "raidtool", *set_folder, *set_id;
/* The process, and its pipes. They change only where nobody else uses them. */
static _Atomic pid_t process;
static FILE *to_program, *replies;
static _Atomic bool is_ending;
static pthread_t keeper;

/* A write that reads first is alone; others are not, since of two writes to one block that are under way at once either may be the last. Who waits has the
 * turn, so that nobody waits for ever. */
static pthread_mutex_t turn = PTHREAD_MUTEX_INITIALIZER;
static pthread_rwlock_t writes = PTHREAD_RWLOCK_INITIALIZER;

/* All that follows is under the lock. */
static pthread_mutex_t lock = PTHREAD_MUTEX_INITIALIZER;
static pthread_cond_t is_given = PTHREAD_COND_INITIALIZER;
static enum { DOWN, UP, LOST } state;
static TAILQ_HEAD(lines, line) waiting = TAILQ_HEAD_INITIALIZER(waiting), sent = TAILQ_HEAD_INITIALIZER(sent);
/* The first of the lines that are given just now, if any are; and how many lines are sent, of which so many are writes, and their blocks. */
static struct line *giving;
static struct { unsigned lines, writes, blocks; } many;
static unsigned starts;

/* A pipe's end, of which the other one was given away. A smaller pipe serves as well. */
static FILE *opened(int end, int given, const char *mode)
{
    close(given);
    (void)fcntl(end, F_SETPIPE_SZ, PIPE_BYTES);
    FILE *file = fdopen(end, mode);
    return file == NULL || setvbuf(file, NULL, _IOFBF, BUFFER_BYTES) != 0 ? NULL : file;
}

/* Starts the program between two pipes: in a session of its own, so that no signal of the terminal ends it before nbdkit. */
static bool start(const char *command)
{
    int input[2] = {-1, -1}, output[2] = {-1, -1};
    process = pipe2(input, O_CLOEXEC) == 0 && pipe2(output, O_CLOEXEC) == 0 ? fork() : -1;
    if (process == 0) {
        setsid();
        if (dup2(input[0], 0) != -1 && dup2(output[1], 1) != -1)
            execl("/bin/sh", "sh", "-c", command, program_path, set_folder, set_id, NULL);
        _exit(1);
    }
    if (process == -1)
        nbdkit_error("%s can't be started: %m", program_path);
    to_program = opened(input[1], input[0], "w");
    replies = opened(output[0], output[1], "r");
    return process != -1 && to_program != NULL && replies != NULL;
}

/* Waits for the end of the program, whose replies are at an end or none, and starts it again where it was killed. An end by itself is a fault or a refusal, and
 * after 15 syncs may have failed. */
static bool start_again(void)
{
    static time_t next_start;
    struct timespec now;
    int status, is_at_end = feof(replies);
    waitpid(process, &status, 0);
    fclose(to_program);
    fclose(replies);
    if (!is_at_end || !WIFSIGNALED(status) || starts == STARTS) {
        nbdkit_error("the set serves no more: the program %s", is_at_end ? "has ended" : "gives a reply that is none");
        return false;
    }
    nbdkit_error("%s was ended by signal %d, and is started again", program_path, WTERMSIG(status));
    while (clock_gettime(CLOCK_MONOTONIC, &now) == 0 && now.tv_sec <= next_start && !is_ending)
        poll(NULL, 0, 20);
    next_start = now.tv_sec + SECONDS_BETWEEN_STARTS;
    starts++;
    return !is_ending && start(WHEN_THERE SERVE);
}

static bool take_volumes(struct volumes *found, char *text)
{
    unsigned count = 0;
    bool is_taken = sscanf(text, "volumes %u", &count) == 1 && count <= MOST_VOLUMES;
    for (found->many = 0; is_taken && found->many < count; found->many++) {
        struct volume *volume = &found->all[found->many];
        is_taken = fgets(text, LINE_BYTES, replies) != NULL && sscanf(text, "%63s %" SCNu64, volume->name, &volume->blocks) == 2;
    }
    return is_taken;
}

/* Takes the reply to a line, if there is one. */
static bool take_reply(const struct line *line, int *error)
{
    char text[LINE_BYTES], wanted[32] = "ok\n";
    unsigned number;
    if (line->word == READ)
        sprintf(wanted, "blocks %u\n", line->count);
    if (fgets(text, LINE_BYTES, replies) == NULL)
        return false;
    if (sscanf(text, "refused %u", &number) == 1) {
        nbdkit_error("a request was answered: %.*s", (int)strcspn(text, "\n"), text);
        *error = number == MEMORY ? ENOMEM : EIO;
        return true;
    }
    bool is_reply = line->word == LIST ? take_volumes(line->found, text) : strcmp(text, wanted) == 0;
    return is_reply && (line->word != READ || fread(line->bytes, BLOCK_BYTES, line->count, replies) == line->count);
}

static void wake(const struct line *line)
{
    if (line != NULL)
        pthread_cond_signal(&line->last->woken);
}

static void end_line(struct lines *from, struct line *line, int error)
{
    TAILQ_REMOVE(from, line, entry);
    line->last->left--;
    line->last->error = line->last->error != 0 ? line->last->error : error;
}

static void refuse_if_lost(void)
{
    for (struct line *line; state == LOST && (line = TAILQ_FIRST(&waiting)) != NULL; wake(line))
        end_line(&waiting, line, EIO);
}

/* After the end of replies, or one that is none: what was sent waits again, in its order and before all else, for a program that is started again, or all is
 * lost. */
static void recover(void)
{
    struct line *line;
    state = DOWN;
    if (!feof(replies))
        kill(process, SIGKILL);
    /* Who gives finds nobody at the other end. */
    while (giving != NULL)
        pthread_cond_wait(&is_given, &lock);
    pthread_mutex_unlock(&lock);
    bool is_started = start_again();
    pthread_mutex_lock(&lock);
    TAILQ_FOREACH(line, &sent, entry)
        line->last->under_way = 0;
    memset(&many, 0, sizeof many);
    TAILQ_CONCAT(&sent, &waiting, entry);
    TAILQ_CONCAT(&waiting, &sent, entry);
    state = is_started ? UP : LOST;
    refuse_if_lost();
}

/* Takes the reply to the line that was sent first. Where that is the only one, and a read, it is looked for before the thread sleeps, which on a free processor
 * is quicker than to be woken; after looks in vain some are left out. */
static void await_reply(struct line *line)
{
    static unsigned left_out;
    int error = 0, looks = many.lines > 1 || line->word != READ || (left_out > 0 && left_out--) ? 0 : LOOKS;
    pthread_mutex_unlock(&lock);
    while (looks > 0 && poll(&(struct pollfd){fileno(replies), POLLIN, 0}, 1, 0) == 0)
        left_out = --looks > 0 ? 0 : LOOKS_LEFT_OUT;
    bool is_taken = take_reply(line, &error);
    pthread_mutex_lock(&lock);
    if (!is_taken) {
        recover();
        return;
    }
    /* Who gives it, and those after it, is done with their memory then. */
    while (giving == line)
        pthread_cond_wait(&is_given, &lock);
    many.lines--;
    many.writes -= line->word == WRITE;
    many.blocks -= line->count;
    line->last->under_way--;
    starts = 0;
    end_line(&sent, line, error);
    wake(TAILQ_FIRST(&sent));
}

/* The first line that may be sent now, if there is one. */
static struct line *first_to_send(void)
{
    struct line *line = state == UP && giving == NULL ? TAILQ_FIRST(&waiting) : NULL;
    while (line != NULL && line->word == WRITE && many.writes > 0)
        line = TAILQ_NEXT(line, entry);
    return line != NULL && many.lines < ROOM_LINES && many.blocks + line->count <= ROOM_BLOCKS ? line : NULL;
}

/* Gives the program lines, without the lock, unless it has ended, which the end of its replies tells. */
static void give(const struct line *line, unsigned together)
{
    if (together > 1)
        fprintf(to_program, "together %u\n", together);
    for (; line != NULL && !ferror(to_program); line = TAILQ_NEXT(line, entry)) {
        fprintf(to_program, forms[line->word], line->volume, line->at, line->count);
        if (line->word == WRITE)
            fwrite(line->bytes, BLOCK_BYTES, line->count, to_program);
    }
    fflush(to_program);
}

/* Sends a line and those of its kind that wait right behind it, writes together. */
static void send_from(struct line *line)
{
    struct line *first = line;
    bool are_writes = line->word == WRITE;
    unsigned added = 0, most_added = are_writes ? ROOM_LINES : SHORT_LINES;
    do {
        TAILQ_REMOVE(&waiting, line, entry);
        TAILQ_INSERT_TAIL(&sent, line, entry);
        line->last->under_way++;
        many.lines++;
        many.blocks += line->count;
        line = first_to_send();
    } while (++added < most_added && line != NULL && (line->word == WRITE) == are_writes);
    many.writes += are_writes ? added : 0;
    giving = first;
    wake(TAILQ_FIRST(&sent));
    pthread_mutex_unlock(&lock);
    give(first, are_writes ? added : 0);
    pthread_mutex_lock(&lock);
    giving = NULL;
    pthread_cond_broadcast(&is_given);
    wake(first_to_send());
}

/* Waits until lines of one word are done, does meanwhile what is to be done for all, and returns the first error, 0 for none. */
static int ask_program(struct line *lines, unsigned count)
{
    struct line *last = lines + count - 1, *next;
    last->left = count;
    pthread_cond_init(&last->woken, NULL);
    pthread_mutex_lock(&lock);
    for (struct line *line = lines; line <= last; line++) {
        line->last = last;
        TAILQ_INSERT_TAIL(&waiting, line, entry);
    }
    refuse_if_lost();
    for (;;) {
        if (last->under_way == 0 && (next = first_to_send()) != NULL)
            send_from(next);
        else if (last->left == 0)
            break;
        else if ((next = TAILQ_FIRST(&sent)) != NULL && next->last == last)
            await_reply(next);
        else
            pthread_cond_wait(&last->woken, &lock);
    }
    pthread_mutex_unlock(&lock);
    pthread_cond_destroy(&last->woken);
    return last->error;
}

/* What nbdkit is told of the end of a request. */
static int ended(int error)
{
    if (error != 0)
        nbdkit_set_error(error);
    return error == 0 ? 0 : -1;
}

static int list(struct volumes *found) { return ended(ask_program(&(struct line){.word = LIST, .found = found}, 1)); }

/* Sees to it that a program that is killed is started again, also where nobody asks for anything. */
static void *keep(void *nothing)
{
    struct volumes found;
    siginfo_t how;
    while (!is_ending && list(&found) == 0)
        waitid(P_PID, process, &how, WEXITED | WNOWAIT);
    return nothing;
}

static int begin(void)
{
    struct volumes found;
    /* Else nbdkit in the foreground ends with the process that started it, and what is not written yet with it. */
    prctl(PR_SET_PDEATHSIG, 0);
    state = start(WHEN_FREE SERVE) ? UP : LOST;
    return list(&found) == 0 && pthread_create(&keeper, NULL, keep, NULL) == 0 ? 0 : -1;
}

static void end(void)
{
    pthread_mutex_lock(&lock);
    is_ending = true;
    /* A program that was started again, and has not answered yet, may wait for devices. */
    if (state == UP && !TAILQ_EMPTY(&sent))
        kill(process, SIGKILL);
    else if (state == UP)
        close(fileno(to_program));
    pthread_mutex_unlock(&lock);
    if (keeper != 0)
        pthread_join(keeper, NULL);
}

/* A word of the command line. nbdkit leaves the folder where it was started, so paths are kept from the root on. */
static int config(const char *key, const char *word)
{
    bool is_folder = strcmp(key, "folder") == 0, is_program = strcmp(key, "program") == 0;
    const char **to = is_folder ? &set_folder : is_program ? &program_path : strcmp(key, "id") == 0 ? &set_id : NULL;
    if (to != NULL)
        *to = is_folder || (is_program && strchr(word, '/') != NULL) ? nbdkit_realpath(word) : strdup(word);
    else
        nbdkit_error("there is no parameter %s", key);
    return to != NULL && *to != NULL ? 0 : -1;
}

static int config_complete(void)
{
    if (set_folder != NULL && set_id != NULL)
        return 0;
    nbdkit_error("folder= and id=, the id of the set, have to be given");
    return -1;
}

static int list_exports(int is_readonly, int is_tls, struct nbdkit_exports *exports)
{
    struct volumes found;
    int fault = list(&found);
    for (unsigned at = 0; fault == 0 && at < found.many; at++)
        fault = nbdkit_add_export(exports, found.all[at].name, NULL);
    return fault;
}

/* The volume that the client names, or the only one where it names none. What it names goes into a line only where it is, whole, the name of a volume. */
static void *open_volume(int is_readonly)
{
    struct volumes found;
    char names[sizeof found.all] = "";
    const char *name = nbdkit_export_name();
    if (name == NULL || list(&found) == -1)
        return NULL;
    for (const struct volume *it = found.all; it < found.all + found.many; it++) {
        struct volume *volume = strcmp(it->name, name) == 0 || (*name == 0 && found.many == 1) ? malloc(sizeof *it) : NULL;
        if (volume != NULL)
            return memcpy(volume, it, sizeof *it);
        strcat(strcat(names, *names ? ", " : ""), it->name);
    }
    nbdkit_error("an export has to be named by a volume of the set: %s", names);
    return NULL;
}

static int sizes_of_requests(void *volume, uint32_t *least, uint32_t *preferred, uint32_t *largest)
{
    *least = BLOCK_BYTES;
    *preferred = PREFERRED_BYTES;
    *largest = MOST_BYTES;
    return 0;
}

/* Has lines done for these blocks, and returns the error. */
static int ask(enum word word, const char *volume, uint64_t at, uint64_t after, char *bytes)
{
    struct line lines[MOST_LINES];
    unsigned lines_now = 0;
    for (; at < after; at += lines[lines_now++].count) {
        unsigned count = after - at < most[word] ? after - at : most[word];
        lines[lines_now] = (struct line){.word = word, .volume = volume, .at = at, .count = count, .bytes = bytes};
        bytes += word == ZERO ? 0 : count * BLOCK_BYTES;
    }
    return ask_program(lines, lines_now);
}

/* Reads or writes what begins or ends within a block: reads the blocks, and gives a part of them, or changes it and writes them. */
static int ask_part(enum word word, const char *volume, uint64_t at, uint64_t after, char *bytes, uint32_t count, uint64_t offset)
{
    char *whole = malloc((after - at) * BLOCK_BYTES), *part = whole + offset % BLOCK_BYTES;
    int error = whole == NULL ? ENOMEM : ask(READ, volume, at, after, whole);
    if (error == 0)
        memcpy(word == READ ? bytes : part, word == READ ? part : bytes, count);
    if (error == 0 && word == WRITE)
        error = ask(WRITE, volume, at, after, whole);
    free(whole);
    return error;
}

/* Does what is asked for. */
static int done(enum word word, const struct volume *volume, char *bytes, uint32_t count, uint64_t offset)
{
    uint64_t at = offset / BLOCK_BYTES, after = (offset + count + BLOCK_BYTES - 1) / BLOCK_BYTES;
    bool is_whole = offset % BLOCK_BYTES == 0 && count % BLOCK_BYTES == 0;
    if (word != READ) {
        pthread_mutex_lock(&turn);
        (is_whole ? pthread_rwlock_rdlock : pthread_rwlock_wrlock)(&writes);
        pthread_mutex_unlock(&turn);
    }
    int error = is_whole ? ask(word, volume->name, at, after, bytes) : ask_part(word, volume->name, at, after, bytes, count, offset);
    if (word != READ)
        pthread_rwlock_unlock(&writes);
    return ended(error);
}

/* Zeros that are wanted only where they are quicker than a write are refused, and those of parts of blocks: nbdkit writes these then. */
static int write_zeros(void *volume, uint32_t count, uint64_t offset, uint32_t flags)
{
    bool is_refused = flags & NBDKIT_FLAG_FAST_ZERO || count % BLOCK_BYTES != 0 || offset % BLOCK_BYTES != 0;
    return is_refused ? ended(EOPNOTSUPP) : done(ZERO, volume, NULL, count, offset);
}

/* The rest of what nbdkit asks. A reply is durable, and a flush has nothing to do. */
static int read_bytes(void *volume, void *to, uint32_t count, uint64_t at, uint32_t flags) { return done(READ, volume, to, count, at); }
static int write_bytes(void *volume, const void *from, uint32_t count, uint64_t at, uint32_t flags) { return done(WRITE, volume, (char *)from, count, at); }
static int flush(void *volume, uint32_t flags) { return 0; }
static int64_t size_of(void *volume) { return ((struct volume *)volume)->blocks * BLOCK_BYTES; }
static int by_itself(void *volume) { return NBDKIT_FUA_NATIVE; }
static int yes(void *volume) { return 1; }

static struct nbdkit_plugin plugin = {
    .name = "raidtool",
    .description = "the volumes of a RAID 5 set with a mirrored stripe journal",
    .config = config,
    .config_complete = config_complete,
    .config_help = "folder=FOLDER  the folder of the device files\nid=H           the id of the set\n"
                   "program=PATH   the program, if it is not the raidtool on the path",
    .magic_config_key = "folder",
    .after_fork = begin,
    .cleanup = end,
    .list_exports = list_exports,
    .open = open_volume,
    .close = free,
    .get_size = size_of,
    .block_size = sizes_of_requests,
    .can_fua = by_itself,
    /* Else nbdkit 1.32 ends by an assertion of its own when a client asks for it all the same. */
    .can_fast_zero = yes,
    .can_multi_conn = yes,
    .pread = read_bytes,
    .pwrite = write_bytes,
    .zero = write_zeros,
    .flush = flush,
};

NBDKIT_REGISTER_PLUGIN(plugin)
