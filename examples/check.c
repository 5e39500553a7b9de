/* Checks the ticket on standard input: `accepted RECORDS GATES`, or the refusal. GATES leaves out bufs and nots. */
#include <stdio.h>
#include "cabbagetier.h"
#include "refusal.h"

static uint8_t ticket[8208];
static uint32_t work[16384];

int main(void)
{
    uint32_t answer[8];
    size_t len = fread(ticket, 1, sizeof ticket, stdin);
    uint32_t number = cabbagetier_check(ticket, len, work, 16384, answer);
    if (number != 0)
        return tell_refusal(stdout, number, answer);
    printf("accepted %u %u\n", answer[1], answer[2]);
    return 0;
}
