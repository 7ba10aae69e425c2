/* Preloaded into a program by tests/refused_memory.py: refuses some of its requests for memory, or the start of a thread.
   No part of the product. Requests are counted from 1, from the start of `main` on. The environment says what is refused:

     REFUSE_NTH=n       the n-th request for memory
     REFUSE_FROM=n      the n-th and all later ones
     REFUSE_EACH=n      each n-th
     REFUSE_THREAD=n    the n-th call of pthread_create
     REFUSE_REPORT=F    the file F, of 24 bytes, has the counts: requests, those refused, calls of pthread_create

   It needs the C library of the program alone, and is built with -nostdlib where there is no other. */
typedef __SIZE_TYPE__ size_t;

void *__libc_malloc(size_t size);
void *__libc_calloc(size_t count, size_t size);
void *__libc_realloc(void *old, size_t size);
void *__libc_memalign(size_t align, size_t size);
char *getenv(const char *name);
long atol(const char *digits);
int open(const char *name, int flags, ...);
void *mmap(void *wanted, size_t length, int protection, int flags, int file, long at);
void *dlsym(void *library, const char *name);
int *__errno_location(void);

#define NEXT_LIBRARY ((void *)-1L)
#define NOT_MAPPED ((void *)-1L)
#define READ_WRITE 2
#define READABLE_WRITABLE 3
#define SHARED 1
#define NO_MEMORY 12
#define TRY_AGAIN 11

struct counts {
    long requests, refused, threads;
};

static long nth, from, each, thread;
static struct counts own, *counts = &own;
static int ready;

/* Returns a number of the environment, or 0. */
static long number_of(const char *name) {
    const char *digits = getenv(name);
    return digits ? atol(digits) : 0;
}

__attribute__((constructor)) static void begin(void) {
    nth = number_of("REFUSE_NTH");
    from = number_of("REFUSE_FROM");
    each = number_of("REFUSE_EACH");
    thread = number_of("REFUSE_THREAD");
    const char *report = getenv("REFUSE_REPORT");
    int file = report ? open(report, READ_WRITE) : -1;
    if (file >= 0) {
        void *mapped = mmap(0, sizeof own, READABLE_WRITABLE, SHARED, file, 0);
        if (mapped != NOT_MAPPED) counts = mapped;
    }
    ready = 1;
}

/* Counts a request, and returns whether it is refused. A refusal sets `errno`, as the C library does: its own start of a
   thread relies on that. */
static int is_refused(void) {
    if (!ready) return 0;
    long at = __atomic_add_fetch(&counts->requests, 1, __ATOMIC_RELAXED);
    int is = at == nth || (from && from <= at) || (each && at % each == 0);
    if (is) {
        __atomic_add_fetch(&counts->refused, 1, __ATOMIC_RELAXED);
        *__errno_location() = NO_MEMORY;
    }
    return is;
}

void *malloc(size_t size) { return is_refused() ? 0 : __libc_malloc(size); }

void *calloc(size_t count, size_t size) { return is_refused() ? 0 : __libc_calloc(count, size); }

void *realloc(void *old, size_t size) { return is_refused() ? 0 : __libc_realloc(old, size); }

void *memalign(size_t align, size_t size) { return is_refused() ? 0 : __libc_memalign(align, size); }

void *aligned_alloc(size_t align, size_t size) { return memalign(align, size); }

int posix_memalign(void **place, size_t align, size_t size) {
    void *given = memalign(align, size);
    if (!given) return NO_MEMORY;
    *place = given;
    return 0;
}

int pthread_create(void *thread_id, const void *attributes, void *(*body)(void *), void *argument) {
    typedef int create(void *, const void *, void *(*)(void *), void *);
    static create *real;
    if (__atomic_add_fetch(&counts->threads, 1, __ATOMIC_RELAXED) == thread) return TRY_AGAIN;
    if (!real) real = (create *)dlsym(NEXT_LIBRARY, "pthread_create");
    return real(thread_id, attributes, body, argument);
}
