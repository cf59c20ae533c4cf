// Durable transactions a second of clients of `mvo serve`. Each reads two rows and updates them.
//
//     cc -std=c11 -O2 -pthread -o serve serve.c
//     ./serve PIPES CLIENTS SECONDS KEYS
//
// Table 0 has the rows with the keys below KEYS. A transaction is two messages: what is read, and
// then what is written, with the commit and the wait for the disk. It is done again where another
// was in its way. Prints how many are durable, and how many were done again.
#include <pthread.h>
#include <stdint.h>
#include <stdio.h>
#include <stdlib.h>
#include <string.h>
#include <time.h>

static const char *pipes;
static uint64_t keys;
static double end;

struct client { pthread_t thread; int number; uint64_t draw, durable, again; };

static double now(void) {
    struct timespec t;
    timespec_get(&t, TIME_UTC);
    return t.tv_sec + t.tv_nsec / 1e9;
}

static FILE *opened(int number, const char *name, const char *mode) {
    char path[4096];
    snprintf(path, sizeof path, "%s/%d.%s", pipes, number, name);
    FILE *file = fopen(path, mode);
    if (!file) { perror(path); exit(1); }
    return file;
}

static uint64_t key_of(struct client *it) {
    it->draw = it->draw * 6364136223846793005u + 1442695040888963407u;
    return (it->draw >> 33) % keys;
}

// Whether the next reply begins with the word. A row's sort and data are kept.
static int is_next(FILE *from, const char *word, uint64_t *sort, char *data) {
    char line[9000];
    if (!fgets(line, sizeof line, from)) { fputs("the program has ended\n", stderr); exit(1); }
    if (sort && sscanf(line, "row %ju %8192s", sort, data) != 2) return 0;
    return !strncmp(line, word, strlen(word));
}

static void *serve(void *given) {
    struct client *it = given;
    FILE *to = opened(it->number, "in", "w"), *from = opened(it->number, "out", "r");
    static _Thread_local char a[8193], b[8193];
    uint64_t one, two, s = 0, t = 0;
    while (now() < end) {
        do one = key_of(it), two = key_of(it); while (one == two);
        fprintf(to, "begin t\nread t 0 %ju\nread t 0 %ju\n", one, two), fflush(to);
        int is = is_next(from, "began", 0, 0) & is_next(from, "row", &s, a);
        is &= is_next(from, "row", &t, b);
        fprintf(to, "update t 0 %ju %ju %s\nupdate t 0 %ju %ju %s\n", one, s + 1, a, two, t + 1, b);
        fputs("commit t\ndurable\n", to), fflush(to);
        is &= is_next(from, "updated", 0, 0) & is_next(from, "updated", 0, 0);
        is &= is_next(from, "committed", 0, 0) & is_next(from, "durable", 0, 0);
        *(is ? &it->durable : &it->again) += 1;
        if (!is) fputs("leave\n", to), fflush(to), is_next(from, "left", 0, 0);
    }
    fclose(to), fclose(from);
    return 0;
}

int main(int count, char **words) {
    if (count != 5) return 2;
    static struct client all[64];
    int clients = atoi(words[2]);
    uint64_t durable = 0, again = 0;
    pipes = words[1], keys = strtoull(words[4], 0, 10), end = now() + atof(words[3]);
    if (clients < 1 || clients > 64 || keys < 2) return 2;
    for (int i = 0; i < clients; i++) {
        all[i].number = i + 1, all[i].draw = i + 1;
        if (pthread_create(&all[i].thread, 0, serve, &all[i])) return 1;
    }
    for (int i = 0; i < clients; i++) {
        pthread_join(all[i].thread, 0);
        durable += all[i].durable, again += all[i].again;
    }
    printf("%ju %ju\n", durable, again);
    return 0;
}
