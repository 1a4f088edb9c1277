// Counts the calls of one program by kind, and refuses or shortens the one whose number the environment gives.
#define _GNU_SOURCE
#include <dlfcn.h>
#include <errno.h>
#include <fcntl.h>
#include <pthread.h>
#include <stdatomic.h>
#include <stdlib.h>
#include <string.h>
#include <sys/mman.h>
#include <sys/syscall.h>
#include <sys/uio.h>
#include <unistd.h>
extern void *__libc_malloc(size_t), *__libc_calloc(size_t, size_t);
extern void *__libc_realloc(void *, size_t), *__libc_memalign(size_t, size_t);
enum { ALLOC, THREAD, READ, WRITE, KINDS };
static const char *const names[KINDS] = {"alloc", "thread", "read", "write"};
static atomic_long *counts;  // the calls that were hit, and those of each kind, in a file that outlives the program
static long at[KINDS];
static int is_short;
static int (*start_thread)(pthread_t *, const pthread_attr_t *, void *(*)(void *), void *);

__attribute__((constructor)) static void begin(void) {
    const char *program = getenv("HOSTILE_PROGRAM"), *kind = getenv("HOSTILE_KIND"), *number = getenv("HOSTILE_CALL");
    start_thread = dlsym(RTLD_NEXT, "pthread_create");
    is_short = getenv("HOSTILE_SHORT") != NULL;
    if (!program || strcmp(program, program_invocation_short_name) != 0) return;
    for (int i = 0; i < KINDS; i++)
        if (kind && number && strcmp(kind, names[i]) == 0) at[i] = atol(number);
    int file = open(getenv("HOSTILE_COUNTS"), O_RDWR);
    void *shared = mmap(NULL, 4096, PROT_READ | PROT_WRITE, MAP_SHARED, file, 0);
    if (shared != MAP_FAILED) counts = shared;
}

static int is_hit(int kind) {
    if (!counts || atomic_fetch_add(&counts[1 + kind], 1) + 1 != at[kind]) return 0;
    atomic_fetch_add(&counts[0], 1);
    return 1;
}
static void *none(void) { errno = ENOMEM; return NULL; }
void *malloc(size_t n) { return is_hit(ALLOC) ? none() : __libc_malloc(n); }
void *calloc(size_t n, size_t m) { return is_hit(ALLOC) ? none() : __libc_calloc(n, m); }
void *realloc(void *p, size_t n) { return is_hit(ALLOC) ? none() : __libc_realloc(p, n); }
void *memalign(size_t a, size_t n) { return is_hit(ALLOC) ? none() : __libc_memalign(a, n); }
void *aligned_alloc(size_t a, size_t n) { return memalign(a, n); }
int posix_memalign(void **p, size_t a, size_t n) {
    void *made = memalign(a, n);
    return made ? (*p = made, 0) : ENOMEM;
}
int pthread_create(pthread_t *t, const pthread_attr_t *a, void *(*f)(void *), void *x) {
    return is_hit(THREAD) ? EAGAIN : start_thread(t, a, f, x);
}
static ssize_t moved(int kind, long number, int file, void *octets, size_t size) {
    if (file == kind - READ && is_hit(kind)) {  // reads of standard input, writes of standard output
        if (!is_short) { errno = EIO; return -1; }
        if (size > 1) size = 1;
    }
    return syscall(number, file, octets, size);
}
ssize_t read(int file, void *octets, size_t size) { return moved(READ, SYS_read, file, octets, size); }
ssize_t write(int file, const void *octets, size_t size) { return moved(WRITE, SYS_write, file, (void *)octets, size); }
ssize_t readv(int file, const struct iovec *v, int n) {
    return file == 0 && n ? read(file, v->iov_base, v->iov_len) : syscall(SYS_readv, file, v, n);
}
ssize_t writev(int file, const struct iovec *v, int n) {
    return file == 1 && n ? write(file, v->iov_base, v->iov_len) : syscall(SYS_writev, file, v, n);
}
