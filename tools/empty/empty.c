/* Slices of length 0: each call, with every choice of its slices empty, gets the empty ones at a pointer into a buffer, then
 * as null pointers, then on a page that may not be touched. Number, answer words, work and reply must be the same. Prints a
 * line for each call and ends with 1 if something differs. */
#define _DEFAULT_SOURCE
#include <stdio.h>
#include <string.h>
#include <sys/mman.h>
#include "cabbagetier.h"

enum { TICKET = 1, LEVELS = 2, WORK = 4, REPLY = 8 };

static const struct { const char *name; int slices; } calls[] = {
    {"check", TICKET | WORK}, {"levels", TICKET | LEVELS | WORK | REPLY}, {"compact", TICKET | WORK | REPLY},
    {"merge", TICKET | WORK | REPLY}, {"rewrite", TICKET | WORK | REPLY},
};

/* Two inputs, an and, an output. */
static uint8_t ticket[64] = {
    [0] = 1, [4] = 1, [16] = 1, [20] = 2, [32] = 5, [36] = 2, [40] = 3, [48] = 2, [52] = 4, [56] = 9,
};
static uint8_t levels[2] = {1, 1};

/* What a call leaves, and where its slices stand. */
struct left { uint32_t number, answer[8], work[16384]; uint8_t reply[16384]; };

static void run(int call, int empty, void *nothing, struct left *l)
{
    memset(l, 0xa5, sizeof *l);
    const uint8_t *t = empty & TICKET ? nothing : ticket, *s = empty & LEVELS ? nothing : levels;
    uint32_t *w = empty & WORK ? nothing : l->work;
    uint8_t *r = empty & REPLY ? nothing : l->reply;
    size_t tn = empty & TICKET ? 0 : sizeof ticket, sn = empty & LEVELS ? 0 : sizeof levels;
    size_t wn = empty & WORK ? 0 : 16384, rn = empty & REPLY ? 0 : sizeof l->reply;
    switch (call) {
    case 0: l->number = cabbagetier_check(t, tn, w, wn, l->answer); break;
    case 1: l->number = cabbagetier_levels(t, tn, s, sn, w, wn, r, rn, l->answer); break;
    case 2: l->number = cabbagetier_compact(t, tn, w, wn, r, rn, l->answer); break;
    case 3: l->number = cabbagetier_merge(t, tn, w, wn, r, rn, l->answer); break;
    default: l->number = cabbagetier_rewrite(t, tn, w, wn, r, rn, l->answer);
    }
}

int main(void)
{
    static struct left buffered, other;
    static uint32_t buffer[16];
    void *closed = mmap(NULL, 65536, PROT_NONE, MAP_PRIVATE | MAP_ANONYMOUS, -1, 0);
    if (closed == MAP_FAILED)
        return 2;
    int differ = 0;
    for (int call = 0; call < 5; call++) {
        int ways = 0, wrong = 0;
        for (int empty = 0; empty < 16; empty++) {
            if (empty & ~calls[call].slices)
                continue;
            run(call, empty, buffer, &buffered);
            run(call, empty, NULL, &other);
            wrong += memcmp(&buffered, &other, sizeof other) != 0;
            run(call, empty, closed, &other);
            wrong += memcmp(&buffered, &other, sizeof other) != 0;
            ways++;
        }
        printf("%s: %d choices of empty slices, %d differ\n", calls[call].name, ways, wrong);
        differ += wrong;
    }
    return differ != 0;
}
