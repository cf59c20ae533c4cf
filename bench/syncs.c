/* Loaded before a program (LD_PRELOAD), counts its calls of fdatasync in the first eight bytes of
 * the file that SYNCS names, which is made. Where SYNC_NANOS is a number above 0 a call sleeps so
 * long in place of syncing, as a disk would whose syncs take that long.
 *
 *     gcc -O2 -shared -fPIC -o syncs.so syncs.c -ldl
 */
#define _GNU_SOURCE
#include <dlfcn.h>
#include <fcntl.h>
#include <stdatomic.h>
#include <stdlib.h>
#include <sys/mman.h>
#include <time.h>
#include <unistd.h>

static atomic_long none, *calls = &none;
static long nanos;
static int (*real)(int);

__attribute__((constructor)) static void begin(void) {
    const char *word = getenv("SYNC_NANOS"), *path = getenv("SYNCS");
    nanos = word ? atol(word) : 0;
    real = (int (*)(int))dlsym(RTLD_NEXT, "fdatasync");
    int file = path ? open(path, O_RDWR | O_CREAT | O_TRUNC, 0600) : -1;
    if (file < 0 || ftruncate(file, sizeof *calls) != 0) return;
    void *seen = mmap(NULL, sizeof *calls, PROT_READ | PROT_WRITE, MAP_SHARED, file, 0);
    if (seen != MAP_FAILED) calls = seen;
    close(file);
}

int fdatasync(int file) {
    atomic_fetch_add(calls, 1);
    if (nanos == 0) return real(file);
    struct timespec time = {nanos / 1000000000, nanos % 1000000000};
    nanosleep(&time, NULL);
    return 0;
}
