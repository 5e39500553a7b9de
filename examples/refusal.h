/* How the examples tell a refusal: `refused NUMBER PLACE`, and after a 7 the field that fails too, 1 for a, 2 for b,
 * 3 for c: `refused 7 PLACE FIELD`. Returns the exit status, 1. */
#ifndef REFUSAL_H
#define REFUSAL_H

#include <stdio.h>
#include "cabbagetier.h"

static int tell_refusal(FILE *out, uint32_t number, const uint32_t answer[8])
{
    fprintf(out, "refused %u %u", number, answer[0]);
    if (number == 7)
        fprintf(out, " %u", answer[3]);
    fputc('\n', out);
    return 1;
}

#endif
