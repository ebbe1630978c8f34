/* Refuses one request for memory, or fails or shortens one read or one write, of the program that it is loaded into by
   LD_PRELOAD. REFUSE names what and which, as in "memory 5", "read 3", "short-read 3", "write 1" or "short-write 1".
   COUNTS names a file of numbers of 8 bytes: how many requests, reads and writes there have been, how many of them all
   were refused, and for each mark one more than there had been requests, 0 behind the last mark. The file is mapped, so
   that the numbers stand in it however the program ends.

   With KEPT, the name of a file, it is linked into a program whose requests for memory are wrapped, and counts and
   refuses these alone. A request for MARK bytes is a mark: it is granted and not counted. The first process of the
   program then leaves the program in that file. */
#define _GNU_SOURCE
#include <errno.h>
#include <fcntl.h>
#include <stdatomic.h>
#include <stdlib.h>
#include <string.h>
#include <sys/mman.h>
#include <sys/sendfile.h>
#include <sys/syscall.h>
#include <sys/uio.h>
#include <unistd.h>

enum { MEMORY, READS, WRITES, KINDS, MARKS = 32, MARK = 1048573 };
/* the exit status if REFUSE or COUNTS cannot be understood: nothing would be tried */
enum { NO_TRIAL = 125 };

#ifdef KEPT
#define malloc __wrap_malloc
#define realloc __wrap_realloc
#define __libc_malloc __real_malloc
#define __libc_realloc __real_realloc
#endif

void *__libc_malloc(size_t);
void *__libc_calloc(size_t, size_t);
void *__libc_realloc(void *, size_t);
void *__libc_memalign(size_t, size_t);

/* one for each kind, one for those that were refused, and one for each mark */
static atomic_ulong own[KINDS + 1 + MARKS];
static atomic_ulong *counts;
static int refused = KINDS;
static int shortens;
static unsigned long place;

__attribute__((constructor)) static void begin(void) {
    static const char *const names[] = {"memory", "read", "write"};
    const char *file = getenv("COUNTS"), *words = getenv("REFUSE");
    atomic_ulong *kept = own;
    if (file) {
        int opened = open(file, O_RDWR | O_CLOEXEC);
        void *mapped = mmap(0, sizeof own, PROT_READ | PROT_WRITE, MAP_SHARED, opened, 0);
        close(opened);
        if (mapped == MAP_FAILED)
            _exit(NO_TRIAL);
        kept = mapped;
    }
    if (words) {
        shortens = !strncmp(words, "short-", 6);
        words += shortens ? 6 : 0;
        for (int kind = 0; kind < KINDS; kind++) {
            size_t length = strlen(names[kind]);
            if (!strncmp(words, names[kind], length) && words[length] == ' ') {
                refused = kind;
                place = strtoul(words + length, 0, 10);
            }
        }
        if (!place)
            _exit(NO_TRIAL);
    }
    counts = kept;
}

/* Whether this call is the one. What comes before the program begins is not counted. */
static int is_refused(int kind) {
    int is_one = counts && atomic_fetch_add(&counts[kind], 1) + 1 == place && kind == refused;
    if (is_one)
        atomic_fetch_add(&counts[KINDS], 1);
    return is_one;
}

static void *nothing(void) {
    errno = ENOMEM;
    return 0;
}

#ifdef KEPT
/* Whether this request is a mark, which is noted in the next place. */
static int is_mark(size_t size) {
    static atomic_int marked;
    if (size != MARK || !counts)
        return 0;
    int next = atomic_fetch_add(&marked, 1);
    if (next >= MARKS)
        _exit(NO_TRIAL);
    counts[KINDS + 1 + next] = counts[MEMORY] + 1;
    return 1;
}
#else
static int is_mark(size_t size) { return 0 * size; }
#endif

void *malloc(size_t size) { return !is_mark(size) && is_refused(MEMORY) ? nothing() : __libc_malloc(size); }

void *realloc(void *old, size_t size) {
    return !is_mark(size) && is_refused(MEMORY) ? nothing() : __libc_realloc(old, size);
}

#ifdef KEPT
/* The program may run under the loader, so that its first word names it, and not /proc/self/exe. */
__attribute__((constructor)) static void keep(int count, char **words) {
    int from = count ? open(words[0], O_RDONLY | O_CLOEXEC) : -1;
    int to = open(KEPT, O_WRONLY | O_CREAT | O_EXCL | O_CLOEXEC, 0755);
    while (from >= 0 && to >= 0 && sendfile(to, from, 0, 1 << 20) > 0) {
    }
    close(from);
    close(to);
}
#else
void *calloc(size_t count, size_t size) { return is_refused(MEMORY) ? nothing() : __libc_calloc(count, size); }

void *aligned_alloc(size_t align, size_t size) {
    return is_refused(MEMORY) ? nothing() : __libc_memalign(align, size);
}

int posix_memalign(void **to, size_t align, size_t size) {
    void *made = is_refused(MEMORY) ? 0 : __libc_memalign(align, size);
    if (!made)
        return ENOMEM;
    *to = made;
    return 0;
}

/* How many bytes may be moved; -1 if the call fails. */
static long allowed(int kind, size_t size) {
    if (!is_refused(kind))
        return size;
    if (shortens)
        return size ? 1 : 0;
    errno = EIO;
    return -1;
}

static ssize_t input(int file, void *to, size_t size, int flags, int is_socket) {
    long most = allowed(READS, size);
    if (most < 0)
        return -1;
    return is_socket ? syscall(SYS_recvfrom, file, to, most, flags, 0, 0) : syscall(SYS_read, file, to, most);
}

static ssize_t output(int file, const void *from, size_t size, int flags, int is_socket) {
    long most = allowed(WRITES, size);
    if (most < 0)
        return -1;
    return is_socket ? syscall(SYS_sendto, file, from, most, flags, 0, 0) : syscall(SYS_write, file, from, most);
}

/* Moves as much as is allowed, from the first part that has room: a call may move less than it was asked for. */
static ssize_t parts(int kind, long call, int file, const struct iovec *all, int count) {
    size_t size = 0;
    int first = 0;
    for (int part = count - 1; part >= 0; part--) {
        size += all[part].iov_len;
        first = all[part].iov_len ? part : first;
    }
    long most = allowed(kind, size);
    if (most < 0)
        return -1;
    struct iovec one = {count ? all[first].iov_base : 0, most};
    return most == (long) size ? syscall(call, file, all, count) : syscall(call, file, &one, 1);
}

ssize_t read(int file, void *to, size_t size) { return input(file, to, size, 0, 0); }
ssize_t __read(int file, void *to, size_t size) { return input(file, to, size, 0, 0); }
ssize_t recv(int file, void *to, size_t size, int flags) { return input(file, to, size, flags, 1); }
ssize_t write(int file, const void *from, size_t size) { return output(file, from, size, 0, 0); }
ssize_t __write(int file, const void *from, size_t size) { return output(file, from, size, 0, 0); }
ssize_t send(int file, const void *from, size_t size, int flags) { return output(file, from, size, flags, 1); }
ssize_t readv(int file, const struct iovec *all, int count) { return parts(READS, SYS_readv, file, all, count); }
ssize_t writev(int file, const struct iovec *all, int count) { return parts(WRITES, SYS_writev, file, all, count); }
#endif
