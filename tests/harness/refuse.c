/* refuse.c: stands between a program and the C library, and refuses what it is told to.

   Built:  cc -O2 -shared -fPIC -o refuse.so refuse.c
   Used:   LD_PRELOAD=./refuse.so REFUSE_GROWTH=3 crates/totem/out/totem audit < some.run

   A program that Rattle builds gets all its memory from malloc and realloc, its threads from pthread_create,
   and its streams from read, write and writev, each through the dynamic linker. So a library that is loaded
   before the C library sees each request.

   Variables, all optional (k counts from 1, b counts bytes from 0):
     REFUSE_GROWTH=k      the k-th request for memory gets none; with k+ it and all that follow
     REFUSE_THREAD=k      the same for threads (EAGAIN)
     FAIL_READ=b          standard input gives b bytes, and then fails with EIO, again and again
     FAIL_WRITE=b         standard output takes b bytes, and then fails with EIO
     FAIL_ERRORS=b        standard error takes b bytes, and then fails with EIO
     SHORT_IO=1           each read and write of these three moves one byte at most
     INTERRUPT=k          the k-th read or write of these three fails with EINTR
     REFUSE_REPORT=file   the counts, kept up to date in this file as it goes: so they can be read in whatever
                          way the program ends. Seven numbers of 8 bytes: growths asked for, refused, threads
                          asked for, refused, reads, writes, failures made

   Only what the program asks for once it is loaded is counted: what the dynamic linker asks for before that
   is not. glibc alone (it names __libc_malloc and its sisters). */
#define _GNU_SOURCE
#include <dlfcn.h>
#include <errno.h>
#include <fcntl.h>
#include <pthread.h>
#include <stdatomic.h>
#include <stdlib.h>
#include <sys/mman.h>
#include <sys/syscall.h>
#include <sys/uio.h>
#include <unistd.h>

extern void *__libc_malloc(size_t), *__libc_calloc(size_t, size_t), *__libc_realloc(void *, size_t);
extern void *__libc_memalign(size_t, size_t);

enum { GROWTHS, REFUSED, THREADS, REFUSED_THREADS, READS, WRITES, FAILURES, COUNTS };

/* What is to be refused: the `at`-th, and the later ones too if `on`. None where `at` is 0. */
struct which { unsigned long at; int on; };

static _Atomic unsigned long own[COUNTS], *counts = own;
static struct which growth, thread_no, interrupt_no;
static long limits[3] = { -1, -1, -1 };
static atomic_long moved[3];
static int is_short, is_on;

static struct which which_of(const char *name) {
    const char *text = getenv(name);
    char *end = 0;
    struct which it = { 0, 0 };
    if (text) { it.at = strtoul(text, &end, 10); it.on = *end == '+'; }
    return it;
}

static long number_of(const char *name) {
    const char *text = getenv(name);
    return text ? atol(text) : -1;
}

__attribute__((constructor)) static void begin(void) {
    const char *file = getenv("REFUSE_REPORT");
    growth = which_of("REFUSE_GROWTH");
    thread_no = which_of("REFUSE_THREAD");
    interrupt_no = which_of("INTERRUPT");
    limits[0] = number_of("FAIL_READ");
    limits[1] = number_of("FAIL_WRITE");
    limits[2] = number_of("FAIL_ERRORS");
    is_short = getenv("SHORT_IO") != 0;
    if (file) {
        int at = open(file, O_RDWR | O_CREAT | O_TRUNC, 0600);
        if (at < 0 || ftruncate(at, sizeof own)) syscall(SYS_exit_group, 125);
        void *page = mmap(0, sizeof own, PROT_READ | PROT_WRITE, MAP_SHARED, at, 0);
        if (page == MAP_FAILED) syscall(SYS_exit_group, 125);
        close(at);
        counts = page;
    }
    is_on = 1;
}

/* One more of this kind. Whether it is refused. */
static int one_more(int kind, struct which it) {
    if (!is_on) return 0;
    unsigned long nth = atomic_fetch_add(&counts[kind], 1) + 1;
    return it.at && (nth == it.at || (it.on && nth > it.at));
}

static int refuses(void) {
    if (!one_more(GROWTHS, growth)) return 0;
    atomic_fetch_add(&counts[REFUSED], 1);
    errno = ENOMEM;
    return 1;
}

void *malloc(size_t n) { return refuses() ? 0 : __libc_malloc(n); }
void *calloc(size_t n, size_t m) { return refuses() ? 0 : __libc_calloc(n, m); }
void *realloc(void *p, size_t n) { return refuses() ? 0 : __libc_realloc(p, n); }
void *memalign(size_t a, size_t n) { return refuses() ? 0 : __libc_memalign(a, n); }
void *aligned_alloc(size_t a, size_t n) { return refuses() ? 0 : __libc_memalign(a, n); }
int posix_memalign(void **p, size_t a, size_t n) {
    if (refuses() || !(*p = __libc_memalign(a, n))) return ENOMEM;
    return 0;
}

int pthread_create(pthread_t *t, const pthread_attr_t *a, void *(*f)(void *), void *x) {
    if (one_more(THREADS, thread_no)) {
        atomic_fetch_add(&counts[REFUSED_THREADS], 1);
        return EAGAIN;
    }
    int (*real)(pthread_t *, const pthread_attr_t *, void *(*)(void *), void *);
    real = dlsym(RTLD_NEXT, "pthread_create");
    return real(t, a, f, x);
}

/* How many of n bytes may move on this stream now; below 0 where it fails, errno being set. */
static ssize_t may_move(int stream, size_t n, int kind) {
    if (!is_on || stream < 0 || stream > 2) return n;
    atomic_fetch_add(&counts[kind], 1);
    static atomic_ulong calls;
    unsigned long nth = atomic_fetch_add(&calls, 1) + 1;
    if (interrupt_no.at && nth == interrupt_no.at) {
        atomic_fetch_add(&counts[FAILURES], 1);
        errno = EINTR;
        return -1;
    }
    if (limits[stream] >= 0) {
        long left = limits[stream] - atomic_load(&moved[stream]);
        if (left <= 0 && n > 0) {
            atomic_fetch_add(&counts[FAILURES], 1);
            errno = EIO;
            return -1;
        }
        if ((size_t)left < n) n = left;
    }
    return is_short && n > 1 ? 1 : (ssize_t)n;
}

static ssize_t moves(int stream, ssize_t n) {
    if (is_on && n > 0 && stream >= 0 && stream <= 2) atomic_fetch_add(&moved[stream], n);
    return n;
}

ssize_t read(int stream, void *p, size_t n) {
    ssize_t may = may_move(stream, n, READS);
    return may < 0 ? -1 : moves(stream, syscall(SYS_read, stream, p, (size_t)may));
}

ssize_t write(int stream, const void *p, size_t n) {
    ssize_t may = may_move(stream, n, WRITES);
    return may < 0 ? -1 : moves(stream, syscall(SYS_write, stream, p, (size_t)may));
}

/* The first part that is not empty, alone: a writev may always move less than it was given. */
ssize_t writev(int stream, const struct iovec *parts, int n) {
    for (int i = 0; i < n; i++)
        if (parts[i].iov_len) return write(stream, parts[i].iov_base, parts[i].iov_len);
    return write(stream, "", 0);
}
