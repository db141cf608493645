/* Has calls of the system fail in the program that it is preloaded into.
 *
 * READS, WRITES, TELLS, RECEIVES and SENDS are for reads of standard input, writes of standard output and standard
 * error, and reads and writes of sockets. Each is the most bytes that a call moves (0: as many as it asks for), and
 * then threes of numbers, counted over the calls of its kind: from the call of this number on, so many calls end with
 * this errno, or with no byte where it is 0. STORES is the same for calls that read, write, cut or sync a database file
 * or its log (their names end in .db and .db-wal). TRACE is a file to which each of these is appended that changes or
 * syncs one, or that fails: `write LOG PLACE SIZE FAILED` with the bytes behind the line, `cut LOG SIZE 0 FAILED`,
 * `sync LOG 0 0 FAILED`, `read LOG PLACE SIZE 1`, where LOG is 1 of a log.
 *
 * LIMITS is a file to which each limit of time that a socket gets is appended, and each call that reads or writes one:
 * `receive MICROSECONDS` and `send MICROSECONDS`, `read 0` and `write 0`. JUMP is two numbers of seconds: so long after
 * the program began, the clocks that can be set go on so much later; no other clock does.
 *
 * REFUSE_AT is the number of the allocation that finds no memory, from 1 on, over malloc, calloc, realloc,
 * posix_memalign and aligned_alloc; where the program comes to it, the file named by REFUSED is made.
 *
 * Build: cc -O1 -shared -fPIC -o failing_calls.so failing_calls.c */
#define _GNU_SOURCE
#include <errno.h>
#include <fcntl.h>
#include <stdio.h>
#include <stdlib.h>
#include <string.h>
#include <sys/socket.h>
#include <sys/stat.h>
#include <sys/syscall.h>
#include <sys/time.h>
#include <time.h>
#include <unistd.h>

extern void *__libc_malloc(size_t), *__libc_calloc(size_t, size_t), *__libc_realloc(void *, size_t),
    *__libc_memalign(size_t, size_t);

/* The calls of one kind: what they are told to do, and how many there were. */
struct kind {
    const char *name;
    long calls;
};

static struct kind reads = {"READS", 0}, writes = {"WRITES", 0}, tells = {"TELLS", 0},
    receives = {"RECEIVES", 0}, sends = {"SENDS", 0};

static struct kind *kind_of(int file, int is_read) {
    struct stat about;
    if (file == 0) return is_read ? &reads : NULL;
    if (file == 1) return is_read ? NULL : &writes;
    if (file == 2) return is_read ? NULL : &tells;
    if (fstat(file, &about) != 0 || !S_ISSOCK(about.st_mode)) return NULL;
    return is_read ? &receives : &sends;
}

/* Counts a call of a kind: whether it is one that fails, and then *result is what it answers; if not, *size is what it
 * may move. */
static int fails(struct kind *kind, size_t *size, ssize_t *result) {
    char *rest = kind ? getenv(kind->name) : NULL;
    if (!rest) return 0;
    size_t piece = strtoul(rest, &rest, 10);
    if (piece && piece < *size) *size = piece;
    kind->calls += 1;
    while (*rest) {
        long from = strtol(rest, &rest, 10), times = strtol(rest, &rest, 10), why = strtol(rest, &rest, 10);
        if (from <= kind->calls && kind->calls < from + times) {
            errno = why;
            *result = why ? -1 : 0;
            return 1;
        }
    }
    return 0;
}

/* Appends what is asked of a socket to the file of LIMITS, where there is one. */
static void note_limit(const char *what, long micros) {
    char line[64];
    int count = snprintf(line, sizeof line, "%s %ld\n", what, micros);
    int to = getenv("LIMITS") ? open(getenv("LIMITS"), O_CREAT | O_WRONLY | O_APPEND, 0600) : -1;
    if (to < 0) return;
    if (syscall(SYS_write, to, line, count) != count) abort();
    close(to);
}

static int file_fails(int file, int is_read, size_t *size, ssize_t *result) {
    struct kind *kind = kind_of(file, is_read);
    if (kind == &receives || kind == &sends) note_limit(is_read ? "read" : "write", 0);
    return fails(kind, size, result);
}

int setsockopt(int file, int level, int name, const void *value, socklen_t size) {
    const struct timeval *limit = value;
    if (level == SOL_SOCKET && (name == SO_RCVTIMEO || name == SO_SNDTIMEO))
        note_limit(name == SO_RCVTIMEO ? "receive" : "send", limit->tv_sec * 1000000L + limit->tv_usec);
    return syscall(SYS_setsockopt, file, level, name, value, size);
}

ssize_t read(int file, void *bytes, size_t size) {
    ssize_t result;
    return file_fails(file, 1, &size, &result) ? result : syscall(SYS_read, file, bytes, size);
}

ssize_t write(int file, const void *bytes, size_t size) {
    ssize_t result;
    return file_fails(file, 0, &size, &result) ? result : syscall(SYS_write, file, bytes, size);
}

ssize_t __write(int file, const void *bytes, size_t size) { return write(file, bytes, size); }

ssize_t recv(int file, void *bytes, size_t size, int flags) {
    ssize_t result;
    return file_fails(file, 1, &size, &result) ? result : recvfrom(file, bytes, size, flags, NULL, NULL);
}

ssize_t send(int file, const void *bytes, size_t size, int flags) {
    ssize_t result;
    return file_fails(file, 0, &size, &result) ? result : sendto(file, bytes, size, flags, NULL, 0);
}

static struct kind stores = {"STORES", 0};

/* 1 of a log, 0 of a database file, -1 of any other file. */
static int log_of(int file) {
    char link[64], name[4096];
    snprintf(link, sizeof link, "/proc/self/fd/%d", file);
    ssize_t length = readlink(link, name, sizeof name);
    if (length > 7 && memcmp(name + length - 7, ".db-wal", 7) == 0) return 1;
    return length > 3 && memcmp(name + length - 3, ".db", 3) == 0 ? 0 : -1;
}

/* Appends a call to the trace. */
static void trace(const char *what, int is_log, long place, long size, int failed, const void *bytes) {
    char line[128];
    int count = snprintf(line, sizeof line, "%s %d %ld %ld %d\n", what, is_log, place, size, failed);
    int to = open(getenv("TRACE"), O_CREAT | O_WRONLY | O_APPEND, 0600);
    if (to < 0 || write(to, line, count) != count || (bytes && write(to, bytes, size) != size)) abort();
    close(to);
}

/* Whether this call of a store fails, and then errno says why. */
static int store_fails(const char *what, int file, long place, long size, const void *bytes) {
    size_t any = 1;
    ssize_t result;
    int is_log = log_of(file);
    int failed = is_log >= 0 && fails(&stores, &any, &result);
    int why = errno;
    if (is_log >= 0 && getenv("TRACE") && (failed || *what != 'r')) trace(what, is_log, place, size, failed, bytes);
    errno = why;
    return failed;
}

ssize_t pread(int file, void *bytes, size_t size, off_t place) {
    return store_fails("read", file, place, size, NULL) ? -1 : syscall(SYS_pread64, file, bytes, size, place);
}

ssize_t pwrite(int file, const void *bytes, size_t size, off_t place) {
    return store_fails("write", file, place, size, bytes) ? -1 : syscall(SYS_pwrite64, file, bytes, size, place);
}

int ftruncate(int file, off_t size) {
    return store_fails("cut", file, size, 0, NULL) ? -1 : syscall(SYS_ftruncate, file, size);
}

int fdatasync(int file) { return store_fails("sync", file, 0, 0, NULL) ? -1 : syscall(SYS_fdatasync, file); }

int fsync(int file) { return store_fails("sync", file, 0, 0, NULL) ? -1 : syscall(SYS_fsync, file); }

static struct timespec begun;

__attribute__((constructor)) static void begin(void) { syscall(SYS_clock_gettime, CLOCK_MONOTONIC, &begun); }

/* How many seconds the clocks that can be set have jumped by now. */
static long jumped(void) {
    char *rest = getenv("JUMP");
    if (!rest) return 0;
    struct timespec now;
    syscall(SYS_clock_gettime, CLOCK_MONOTONIC, &now);
    long after = strtol(rest, &rest, 10), seconds = strtol(rest, &rest, 10);
    return now.tv_sec - begun.tv_sec < after ? 0 : seconds;
}

int clock_gettime(clockid_t clock, struct timespec *now) {
    int status = syscall(SYS_clock_gettime, clock, now);
    if (clock == CLOCK_REALTIME || clock == CLOCK_REALTIME_COARSE || clock == CLOCK_TAI) now->tv_sec += jumped();
    return status;
}

int gettimeofday(struct timeval *restrict now, void *restrict zone) {
    int status = syscall(SYS_gettimeofday, now, zone);
    now->tv_sec += jumped();
    return status;
}

time_t time(time_t *now) {
    struct timespec shown;
    clock_gettime(CLOCK_REALTIME, &shown);
    if (now) *now = shown.tv_sec;
    return shown.tv_sec;
}

static int refuses(void) {
    static long calls, refused_at = -1;
    if (refused_at < 0) {
        const char *at = getenv("REFUSE_AT");
        refused_at = at ? atol(at) : 0;
    }
    if (++calls != refused_at) return 0;
    const char *name = getenv("REFUSED");
    int made = name ? open(name, O_CREAT | O_WRONLY, 0600) : -1;
    if (made >= 0) close(made);
    errno = ENOMEM;
    return 1;
}

void *malloc(size_t size) { return refuses() ? NULL : __libc_malloc(size); }

void *calloc(size_t count, size_t size) { return refuses() ? NULL : __libc_calloc(count, size); }

void *realloc(void *old, size_t size) { return refuses() ? NULL : __libc_realloc(old, size); }

void *aligned_alloc(size_t align, size_t size) { return refuses() ? NULL : __libc_memalign(align, size); }

int posix_memalign(void **out, size_t align, size_t size) {
    void *made = refuses() ? NULL : __libc_memalign(align, size);
    if (!made) return ENOMEM;
    *out = made;
    return 0;
}
