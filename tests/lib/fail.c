/* Makes calls of the process that loads this (by LD_PRELOAD) fail, as its variables say:
 *
 *   FAIL_KIND   alloc, read, write, sync or truncate: which calls fail. read and write are those at an offset, as of an index
 *               file.
 *   FAIL_AT     the number of the first call of the kind that fails, from 1
 *   FAIL_MANY   how many fail from that one on; 1 where it is not there
 *   FAIL_TORN   a write that fails has written the front half of its bytes where this is there
 *   FAIL_DEADLY the process is killed in place of the failure, where this is there
 *   FAIL_ERROR  the number of the error of a failed read, write or sync; 5, of input and output, where it is not there
 *   PIECE_MOST  no read or write moves more bytes than this at once
 *   FAIL_TALLY  a file that gets the numbers of calls of each kind, five times 8 bytes
 *   CUT_AT      standard input gives so many bytes, and then its reads fail
 *   SINK_ROOM   standard output takes so many bytes, and then its writes fail
 */
#define _GNU_SOURCE
#include <dlfcn.h>
#include <errno.h>
#include <fcntl.h>
#include <signal.h>
#include <stdlib.h>
#include <string.h>
#include <sys/mman.h>
#include <sys/syscall.h>
#include <sys/types.h>
#include <unistd.h>

enum kind { ALLOC, READ, WRITE, SYNC, TRUNCATE, KINDS };

static const char *const names[KINDS] = {"alloc", "read", "write", "sync", "truncate"};
static long own[KINDS];
static long *seen = own;
static int failing = KINDS;
static long first = 0, many = 1, error = EIO, most = 1L << 40, input_left = -1, output_left = -1;
static int is_torn = 0, is_deadly = 0;

/* What was called before the process began in earnest is not counted. */
static int is_live = 0;

static void *(*real_malloc)(size_t);
static void *(*real_realloc)(void *, size_t);

static long number_of(const char *name, long otherwise) {
    const char *text = getenv(name);
    return text ? atol(text) : otherwise;
}

__attribute__((constructor)) static void begin(void) {
    real_malloc = dlsym(RTLD_NEXT, "malloc");
    real_realloc = dlsym(RTLD_NEXT, "realloc");
    const char *kind = getenv("FAIL_KIND");
    for (int i = 0; kind && i < KINDS; i++)
        if (!strcmp(kind, names[i]))
            failing = i;
    first = number_of("FAIL_AT", 0);
    many = number_of("FAIL_MANY", 1);
    error = number_of("FAIL_ERROR", EIO);
    is_torn = getenv("FAIL_TORN") != 0;
    is_deadly = getenv("FAIL_DEADLY") != 0;
    most = number_of("PIECE_MOST", most);
    input_left = number_of("CUT_AT", -1);
    output_left = number_of("SINK_ROOM", -1);
    const char *tally = getenv("FAIL_TALLY");
    int file = tally ? open(tally, O_RDWR | O_CREAT, 0600) : -1;
    if (file >= 0 && !ftruncate(file, sizeof own)) {
        void *shared = mmap(0, sizeof own, PROT_READ | PROT_WRITE, MAP_SHARED, file, 0);
        if (shared != MAP_FAILED)
            seen = shared;
    }
    if (file >= 0)
        close(file);
    is_live = 1;
}

static void end_if_deadly(void) {
    if (is_deadly)
        kill(getpid(), SIGKILL);
}

static int is_due(enum kind kind) {
    if (!is_live)
        return 0;
    long number = __atomic_add_fetch(&seen[kind], 1, __ATOMIC_RELAXED);
    if (kind != failing || number < first || number - first >= many)
        return 0;
    if (!is_torn)
        end_if_deadly();
    errno = kind == ALLOC ? ENOMEM : error;
    return 1;
}

void *malloc(size_t size) {
    if (!real_malloc)
        real_malloc = dlsym(RTLD_NEXT, "malloc");
    return is_due(ALLOC) ? 0 : real_malloc(size);
}

void *realloc(void *place, size_t size) {
    if (!real_realloc)
        real_realloc = dlsym(RTLD_NEXT, "realloc");
    return is_due(ALLOC) ? 0 : real_realloc(place, size);
}

static size_t least(size_t size, long bound) { return size < (size_t)bound ? size : (size_t)bound; }

ssize_t pread64(int file, void *into, size_t size, off64_t offset) {
    return is_due(READ) ? -1 : syscall(SYS_pread64, file, into, least(size, most), offset);
}

ssize_t pread(int file, void *into, size_t size, off_t offset) { return pread64(file, into, size, offset); }

ssize_t pwrite64(int file, const void *from, size_t size, off64_t offset) {
    if (!is_due(WRITE))
        return syscall(SYS_pwrite64, file, from, least(size, most), offset);
    if (is_torn) {
        syscall(SYS_pwrite64, file, from, size / 2, offset);
        end_if_deadly();
    }
    errno = error;
    return -1;
}

ssize_t pwrite(int file, const void *from, size_t size, off_t offset) { return pwrite64(file, from, size, offset); }

int fdatasync(int file) { return is_due(SYNC) ? -1 : syscall(SYS_fdatasync, file); }

int fsync(int file) { return is_due(SYNC) ? -1 : syscall(SYS_fsync, file); }

int ftruncate64(int file, off64_t size) { return is_due(TRUNCATE) ? -1 : syscall(SYS_ftruncate, file, size); }

int ftruncate(int file, off_t size) { return ftruncate64(file, size); }

/* How many of these bytes pass where so many are left; below 0 where the call fails. */
static ssize_t passing(long left, size_t size) {
    if (left == 0) {
        errno = EIO;
        return -1;
    }
    return least(size, left > 0 && left < most ? left : most);
}

ssize_t read(int file, void *into, size_t size) {
    ssize_t passed = file == STDIN_FILENO ? passing(input_left, size) : (ssize_t)size;
    if (passed < 0)
        return -1;
    ssize_t got = syscall(SYS_read, file, into, passed);
    if (file == STDIN_FILENO && input_left > 0 && got > 0)
        input_left -= got;
    return got;
}

ssize_t write(int file, const void *from, size_t size) {
    ssize_t passed = file == STDOUT_FILENO ? passing(output_left, size) : (ssize_t)size;
    if (passed < 0)
        return -1;
    ssize_t put = syscall(SYS_write, file, from, passed);
    if (file == STDOUT_FILENO && output_left > 0 && put > 0)
        output_left -= put;
    return put;
}
