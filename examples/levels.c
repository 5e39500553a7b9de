/* levels DIGITS: evaluates the ticket on standard input. A digit for each input record in slot order, 0, 1, or 2 for
 * undefined; prints one for each output record, or the refusal. */
#include <stdio.h>
#include <string.h>
#include "cabbagetier.h"
#include "refusal.h"

static uint8_t ticket[8208], levels[512], reply[512];
static uint32_t work[16384];

int main(int argc, char **argv)
{
    uint32_t answer[8];
    size_t count = argc == 2 ? strlen(argv[1]) : sizeof levels + 1;
    if (count > sizeof levels) {
        fprintf(stderr, "usage: levels DIGITS < ticket\n");
        return 2;
    }
    for (size_t i = 0; i < count; i++)
        levels[i] = (uint8_t)(argv[1][i] - '0');
    size_t len = fread(ticket, 1, sizeof ticket, stdin);
    uint32_t number = cabbagetier_levels(ticket, len, levels, count, work, 16384, reply, sizeof reply, answer);
    if (number != 0)
        return tell_refusal(stdout, number, answer);
    for (size_t i = 0; i < answer[1]; i++)
        putchar('0' + reply[i]);
    putchar('\n');
    return 0;
}
