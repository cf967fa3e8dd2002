// Preloaded under a program: counts what it asks of the system, and refuses some of it.
//
// REFUSE names a file of five records, one for each kind of call. It is mapped here, so that the
// counts can be read however the program ends. No header is needed, so any C compiler will do.
typedef unsigned long size_t;
typedef long ssize_t;

enum { MEMORY, THREAD, OPEN, READ, WRITE, KINDS };

// The calls numbered first to last, counted from 1, are refused. A refused read or write answers
// the error number `how`, or 0 bytes where that is 0, or takes 1 byte where it is -1. Standard
// output has room for so many bytes, or for all where that is -1.
struct kind { long first, last, how, room, calls, refused; };

enum { EAGAIN = 11, ENOMEM = 12, EMFILE = 24, ENOSPC = 28, READ_CALL = 0, WRITE_CALL = 1, OPEN_CALL = 2 };

extern void *__libc_malloc(size_t), *__libc_calloc(size_t, size_t), *__libc_realloc(void *, size_t);
extern void *dlsym(void *, const char *), *mmap(void *, size_t, int, int, int, long);
extern char *getenv(const char *);
extern int *__errno_location(void);
extern long syscall(long, ...);

typedef int pthread_create_type(void *, const void *, void *(*)(void *), void *);
static pthread_create_type *real_pthread_create;
static struct kind *kinds;

__attribute__((constructor)) static void begin(void) {
    const char *path = getenv("REFUSE");
    real_pthread_create = (pthread_create_type *)dlsym((void *)-1, "pthread_create");
    long file = path ? syscall(OPEN_CALL, path, 2, 0) : -1;
    void *mapped = file < 0 ? (void *)-1 : mmap(0, KINDS * sizeof(struct kind), 3, 1, file, 0);
    if (mapped != (void *)-1) kinds = mapped;
}

static int is_refused(int which) {
    if (!kinds) return 0;
    struct kind *kind = &kinds[which];
    long number = __atomic_add_fetch(&kind->calls, 1, __ATOMIC_SEQ_CST);
    if (number < kind->first || number > kind->last) return 0;
    __atomic_add_fetch(&kind->refused, 1, __ATOMIC_SEQ_CST);
    return 1;
}

static long fails(int error) { *__errno_location() = error; return -1; }

static void *no_memory(void) { fails(ENOMEM); return 0; }

void *malloc(size_t bytes) { return is_refused(MEMORY) ? no_memory() : __libc_malloc(bytes); }

void *calloc(size_t count, size_t bytes) { return is_refused(MEMORY) ? no_memory() : __libc_calloc(count, bytes); }

void *realloc(void *block, size_t bytes) { return is_refused(MEMORY) ? no_memory() : __libc_realloc(block, bytes); }

int pthread_create(void *thread, const void *attributes, void *(*code)(void *), void *argument) {
    return is_refused(THREAD) ? EAGAIN : real_pthread_create(thread, attributes, code, argument);
}

int open(const char *path, int flags, ...) {
    return is_refused(OPEN) ? fails(EMFILE) : syscall(OPEN_CALL, path, flags, 0666);
}

ssize_t read(int file, void *bytes, size_t count) {
    if (is_refused(READ)) {
        long how = kinds[READ].how;
        if (how > 0) return fails(how);
        count = how < 0 && count > 0;
    }
    return syscall(READ_CALL, file, bytes, count);
}

ssize_t write(int file, const void *bytes, size_t count) {
    if (is_refused(WRITE)) {
        long how = kinds[WRITE].how;
        if (how > 0) return fails(how);
        count = how < 0 && count > 0;
    }
    if (kinds && file == 1 && kinds[WRITE].room >= 0 && count > 0) {
        if (kinds[WRITE].room == 0) return fails(ENOSPC);
        if (count > (size_t)kinds[WRITE].room) count = kinds[WRITE].room;
        kinds[WRITE].room -= count;
    }
    return syscall(WRITE_CALL, file, bytes, count);
}
