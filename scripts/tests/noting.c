/* Stands in front of the system's library in a program that a test runs (LD_PRELOAD). It notes each
   call that the program makes of the disk below a path, with its bytes and the system's answer, and
   each reply that the program prints between. It fails calls, or leaves syncs out, where the test
   says so.

   What the test says, and what it is told, stands in a file that both have mapped: its path stands
   in MVO_FRONT. No header is used, since the toolchain's compiler has none. */
typedef unsigned long number;
typedef long answer;

enum kind { REPLY, OPEN, MAKE_FOLDER, WRITE, CUT, SYNC_DATA, SYNC, READ, REMOVE };

/* What becomes of a call. FAIL does nothing, HALF some of it, and DONE all, and each answers that
   the call failed. SHORT does some and answers how much. GOES_ON does nothing, as a call that
   failed, but tells the program that it succeeded. KILL ends the process behind the call. */
enum way { NONE, FAIL, HALF, DONE, SHORT, GOES_ON, KILL };

/* Which calls it becomes of: the one with a number, counted from 1, or each, or each other one from
   the second on. So each is failed once that the program makes again at once. The first one is let
   be: in `mvo format` it makes the folder, which the program doesn't try again. */
enum { EACH = 1ul << 32, EACH_OTHER };

/* Which syncs are left out, and answered as if they were made: those of files, of the folder, and
   of what holds the folder. */
enum { NO_FILES = 1, NO_NAMES = 2, NO_PARENT = 4 };

enum { LENGTH = 256, ROOM = 1 << 20 };

struct shared {
    /* The path below which calls are noted, itself among them. */
    char below[LENGTH];
    /* The chosen calls, what becomes of them, and the number of the error that they answer. */
    number chosen, way, error;
    number left_out;
    /* How many calls there were, replies apart, and how many bytes of notes, of which there is room
       for so many. */
    number calls, noted;
    char notes[ROOM];
};

/* A note's head. Behind it stand the path and the bytes. */
struct note {
    number kind, at, asked, did, has_failed, path, bytes;
};

extern char *getenv(const char *);
extern void *mmap(void *, number, int, int, int, long);
extern void *dlsym(void *, const char *);
extern answer readlink(const char *, char *, number);
extern int kill(int, int), getpid(void);
extern int *__errno_location(void);

enum { READ_WRITE = 2, CREATE = 0100, MAP_SHARED = 1, KILLED = 9 };

static struct shared *shared;
static int lock;

/* What comes behind this library under a name. */
static void *next(const char *name) { return dlsym((void *)-1, name); }

typedef int opens(const char *, int, int);
typedef int makes(const char *, int);
typedef int removes(const char *);
typedef int syncs(int);
typedef int cuts(int, long);
typedef answer moves(int, const void *, number, long);
typedef answer prints(int, const void *, number);

static void close_again(int file) { ((syncs *)next("close"))(file); }

__attribute__((constructor)) static void map(void) {
    const char *path = getenv("MVO_FRONT");
    int file = path ? ((opens *)next("open"))(path, READ_WRITE, 0) : -1;
    void *mapped = mmap(0, sizeof *shared, 1 | 2, MAP_SHARED, file, 0);
    if (mapped != (void *)-1) {
        shared = mapped;
    }
    close_again(file);
}

static number length_of(const char *text) {
    number length = 0;
    while (text[length]) {
        length++;
    }
    return length;
}

static void copy(char *to, const char *from, number count) {
    for (number at = 0; at < count; at++) {
        to[at] = from[at];
    }
}

/* Whether a text begins with another. */
static int begins(const char *text, const char *with) {
    number at = 0;
    while (with[at] && text[at] == with[at]) {
        at++;
    }
    return !with[at];
}

/* The path of what a handle leads to. */
static void path_of(int handle, char *path) {
    char link[LENGTH] = "/proc/self/fd/";
    number at = length_of(link);
    for (int left = handle; left >= 10; left /= 10) {
        at++;
    }
    for (int left = handle, is_first = 1; left || is_first; left /= 10, is_first = 0) {
        link[at--] = (char)('0' + left % 10);
    }
    answer length = readlink(link, path, LENGTH - 1);
    path[length < 0 ? 0 : length] = 0;
}

static int is_below(const char *path) {
    number length = shared ? length_of(shared->below) : 0;
    return length && begins(path, shared->below) && (path[length] == '/' || !path[length]);
}

/* Notes a call or a reply. Where there's no room for it, `noted` says so. */
static void note(struct note head, const char *path, const char *bytes) {
    head.path = length_of(path);
    number all = sizeof head + head.path + head.bytes;
    while (__atomic_exchange_n(&lock, 1, __ATOMIC_SEQ_CST)) {
    }
    if (shared->noted <= ROOM && all <= ROOM - shared->noted) {
        char *to = shared->notes + shared->noted;
        copy(to, (const char *)&head, sizeof head);
        copy(to + sizeof head, path, head.path);
        copy(to + sizeof head + head.path, bytes, head.bytes);
    }
    shared->noted += all;
    __atomic_store_n(&lock, 0, __ATOMIC_SEQ_CST);
}

/* What becomes of the next call. */
static enum way way(void) {
    number now = __atomic_add_fetch(&shared->calls, 1, __ATOMIC_SEQ_CST), chosen = shared->chosen;
    int is_chosen = now == chosen || chosen == EACH || (chosen == EACH_OTHER && now % 2 == 0);
    return is_chosen ? (enum way)shared->way : NONE;
}

/* Whether a call is made at all, whether it fails as the program sees it, and how much of it is
   done. */
static int is_made(enum way way) { return way != FAIL && way != GOES_ON; }

static int fails(enum way way) { return way == FAIL || way == HALF || way == DONE; }

static number most(enum way way, number asked) {
    return way == HALF || (way == SHORT && asked > 1) ? asked / 2 : asked;
}

/* Notes a call, with what the system answered where it was made, and gives what the program is
   answered. */
static answer end(enum kind kind, enum way way, const char *path, number at, const char *bytes,
                  number asked, answer did) {
    int error = *__errno_location();
    struct note head = {kind, at, asked, is_made(way) ? (number)did : -1ul,
                        did < 0 || fails(way) || way == GOES_ON, 0, kind == WRITE ? asked : 0};
    note(head, path, bytes);
    if (way == KILL) {
        kill(getpid(), KILLED);
    }
    *__errno_location() = fails(way) ? (int)shared->error : error;
    return fails(way) ? -1 : did;
}

int open(const char *path, int flags, int mode) {
    opens *really = (opens *)next("open");
    if (!is_below(path)) {
        return really(path, flags, mode);
    }
    enum way now = way();
    int handle = now == FAIL ? -1 : really(path, flags, mode);
    char found[LENGTH];
    if (handle >= 0) {
        path_of(handle, found);
        path = found;
    }
    if (handle >= 0 && fails(now)) {
        close_again(handle);
    }
    return (int)end(OPEN, now, path, flags & CREATE, 0, 0, handle);
}

int mkdir(const char *path, int mode) {
    makes *really = (makes *)next("mkdir");
    if (!is_below(path)) {
        return really(path, mode);
    }
    enum way now = way();
    return (int)end(MAKE_FOLDER, now, path, 0, 0, 0, is_made(now) ? really(path, mode) : 0);
}

int unlink(const char *path) {
    removes *really = (removes *)next("unlink");
    if (!is_below(path)) {
        return really(path);
    }
    enum way now = way();
    return (int)end(REMOVE, now, path, 0, 0, 0, is_made(now) ? really(path) : 0);
}

answer pwrite(int file, const void *bytes, number asked, long at) {
    moves *really = (moves *)next("pwrite");
    char path[LENGTH];
    path_of(file, path);
    if (!is_below(path)) {
        return really(file, bytes, asked, at);
    }
    enum way now = way();
    answer did = is_made(now) ? really(file, bytes, most(now, asked), at) : (answer)asked;
    return end(WRITE, now, path, (number)at, bytes, asked, did);
}

answer pread(int file, void *bytes, number asked, long at) {
    moves *really = (moves *)next("pread");
    char path[LENGTH];
    path_of(file, path);
    if (!is_below(path)) {
        return really(file, bytes, asked, at);
    }
    enum way now = way();
    answer did = is_made(now) ? really(file, bytes, most(now, asked), at) : 0;
    return end(READ, now, path, (number)at, 0, asked, did);
}

int ftruncate(int file, long length) {
    cuts *really = (cuts *)next("ftruncate");
    char path[LENGTH];
    path_of(file, path);
    if (!is_below(path)) {
        return really(file, length);
    }
    enum way now = way();
    answer did = is_made(now) ? really(file, length) : 0;
    return (int)end(CUT, now, path, (number)length, 0, 0, did);
}

/* A sync. One that is left out isn't noted. */
static int sync_by(enum kind kind, const char *name, int file) {
    syncs *really = (syncs *)next(name);
    char path[LENGTH];
    path_of(file, path);
    if (!is_below(path)) {
        return really(file);
    }
    number names = begins(shared->below, path) ? NO_PARENT : NO_NAMES;
    if (shared->left_out & (kind == SYNC_DATA ? NO_FILES : names)) {
        return 0;
    }
    enum way now = way();
    return (int)end(kind, now, path, 0, 0, 0, is_made(now) ? really(file) : 0);
}

int fdatasync(int file) { return sync_by(SYNC_DATA, "fdatasync", file); }

int fsync(int file) { return sync_by(SYNC, "fsync", file); }

/* What is printed to standard output. */
answer write(int file, const void *bytes, number asked) {
    answer did = ((prints *)next("write"))(file, bytes, asked);
    if (file == 1 && shared && did > 0) {
        struct note head = {REPLY, 0, asked, (number)did, 0, 0, (number)did};
        note(head, "", bytes);
    }
    return did;
}

answer __write(int file, const void *bytes, number asked) { return write(file, bytes, asked); }
