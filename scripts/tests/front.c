/* Stands in front of the system's library in a program that a test runs (LD_PRELOAD). It refuses
   memory and threads where the test says so, and tells how much memory the program took at most.

   What the test says, and what it is told, are numbers in a file that both have mapped: its path
   stands in MVO_FRONT. No header is used, since the toolchain's compiler has none. */
typedef unsigned long number;

struct shared {
    /* How often memory was asked for, and how often that was refused: from the time numbered
       `first` on, the first one being 1, up to before the one numbered `behind`. */
    number asked, first, behind, refused;
    /* The same of threads. */
    number threads, first_thread, behind_thread, refused_threads;
    /* How many bytes were asked for at once, at most: memory that isn't used isn't taken. */
    number largest;
    /* What the system says of the program at its end. */
    char status[4024];
};

extern char *getenv(const char *);
extern int open(const char *, int, ...), close(int);
extern long read(int, void *, number);
extern void *mmap(void *, number, int, int, int, long);
extern void *dlsym(void *, const char *);
extern int *__errno_location(void);
extern void *__libc_malloc(number), *__libc_calloc(number, number);
extern void *__libc_realloc(void *, number), *__libc_memalign(number, number);

enum { NO_MEMORY = 12, TRY_AGAIN = 11, READ_WRITE = 2, MAP_SHARED = 1 };

/* What comes behind this library under a name. */
static void *next(const char *name) { return dlsym((void *)-1, name); }

/* What is asked for before the file is mapped isn't the program's. */
static struct shared unmapped;
static struct shared *shared = &unmapped;

__attribute__((constructor)) static void map(void) {
    const char *path = getenv("MVO_FRONT");
    int file = path ? open(path, READ_WRITE) : -1;
    void *mapped = mmap(0, sizeof *shared, 1 | 2, MAP_SHARED, file, 0);
    if (mapped != (void *)-1) {
        shared = mapped;
    }
    close(file);
}

/* Whether this time is refused. */
static int is_refused(number *asked, number first, number behind, number *refused) {
    number now = __atomic_add_fetch(asked, 1, __ATOMIC_SEQ_CST);
    if (now < first || now >= behind) {
        return 0;
    }
    __atomic_add_fetch(refused, 1, __ATOMIC_SEQ_CST);
    return 1;
}

static int is_memory_refused(number size) {
    number largest = __atomic_load_n(&shared->largest, __ATOMIC_SEQ_CST);
    while (largest < size && !__atomic_compare_exchange_n(&shared->largest, &largest, size, 0,
                                                          __ATOMIC_SEQ_CST, __ATOMIC_SEQ_CST)) {
    }
    if (!is_refused(&shared->asked, shared->first, shared->behind, &shared->refused)) {
        return 0;
    }
    *__errno_location() = NO_MEMORY;
    return 1;
}

void *malloc(number size) { return is_memory_refused(size) ? 0 : __libc_malloc(size); }

void *calloc(number count, number size) {
    return is_memory_refused(count * size) ? 0 : __libc_calloc(count, size);
}

void *realloc(void *old, number size) {
    return is_memory_refused(size) ? 0 : __libc_realloc(old, size);
}

void *aligned_alloc(number align, number size) {
    return is_memory_refused(size) ? 0 : __libc_memalign(align, size);
}

int posix_memalign(void **made, number align, number size) {
    void *block = is_memory_refused(size) ? 0 : __libc_memalign(align, size);
    if (!block) {
        return NO_MEMORY;
    }
    *made = block;
    return 0;
}

typedef int creates(void *, const void *, void *(*)(void *), void *);

int pthread_create(void *thread, const void *form, void *(*body)(void *), void *given) {
    if (is_refused(&shared->threads, shared->first_thread, shared->behind_thread,
                   &shared->refused_threads)) {
        return TRY_AGAIN;
    }
    return ((creates *)next("pthread_create"))(thread, form, body, given);
}

typedef void ends(int);

/* The program ends by this. */
void _exit(int status) {
    int file = open("/proc/self/status", 0);
    read(file, shared->status, sizeof shared->status - 1);
    ((ends *)next("_exit"))(status);
    __builtin_unreachable();
}
