// A program beside which others are timed: it walks through memory, in no order that a processor
// foresees, until it is ended, and so takes its share of the caches that processors have in common.
//
//     busy [MEBIBYTES]
//
// It walks through 64 MiB if none are given, or the next power of two. It ends with the program that
// started it.
#include <signal.h>
#include <stdint.h>
#include <stdio.h>
#include <stdlib.h>
#include <sys/prctl.h>

struct line {
    uint64_t next, written, rest[6];
};

int main(int count, char **words) {
    uint64_t bytes = (count > 1 ? strtoull(words[1], NULL, 10) : 64) << 20;
    uint64_t lines = 1 << 14;
    while (lines * sizeof(struct line) < bytes) lines *= 2;
    struct line *memory = aligned_alloc(sizeof(struct line), lines * sizeof(struct line));
    if (!memory) {
        fputs("busy: out of memory\n", stderr);
        return 1;
    }
    prctl(PR_SET_PDEATHSIG, SIGKILL);
    // A linear congruence whose period is all lines.
    for (uint64_t at = 0; at < lines; at++) {
        memory[at].next = (at * 1664525 + 1013904223) & (lines - 1);
    }
    puts("ready");
    fflush(stdout);
    for (uint64_t at = 0;; at = memory[at].next) memory[at].written++;
}
