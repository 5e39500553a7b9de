/* shrink compact|merge|rewrite: shrinks the ticket on standard input and writes the result to standard output; a
 * refusal goes to standard error. */
#include <stdio.h>
#include <string.h>
#include "cabbagetier.h"
#include "refusal.h"

typedef uint32_t call(const uint8_t *, size_t, uint32_t *, size_t, uint8_t *, size_t, uint32_t[8]);

static const struct { const char *name; call *run; } calls[] = {
    {"compact", cabbagetier_compact}, {"merge", cabbagetier_merge}, {"rewrite", cabbagetier_rewrite},
};

/* A ticket has 8,192 bytes at most: of a longer one enough is read for it to be refused. */
static uint8_t ticket[8208], reply[16384];
static uint32_t work[16384];

static int shrink(call *run)
{
    uint32_t answer[8];
    size_t len = fread(ticket, 1, sizeof ticket, stdin);
    uint32_t number = run(ticket, len, work, 16384, reply, sizeof reply, answer);
    if (number != 0)
        return tell_refusal(stderr, number, answer);
    fwrite(reply, 1, answer[1], stdout);
    return 0;
}

int main(int argc, char **argv)
{
    for (size_t i = 0; argc == 2 && i < sizeof calls / sizeof *calls; i++)
        if (strcmp(argv[1], calls[i].name) == 0)
            return shrink(calls[i].run);
    fprintf(stderr, "usage: shrink compact|merge|rewrite < ticket\n");
    return 2;
}
