/* The tickets that are measured: those whose calls go deepest, one for each refusal, and drawn ones. */
#ifndef TICKETS_H
#define TICKETS_H

#include <stddef.h>
#include <stdint.h>

enum { MOST_RECORDS = 512, WORK_WORDS = 16384, REPLY_BYTES = 16384 };

enum kind { INPUT = 1, OUTPUT, BUF, NOT, AND, OR, XOR, MUX, AIG };

struct record {
    uint8_t kind, flags;
    uint16_t bit;
    uint32_t a, b, c;
};

/* A ticket, what is lent with it, and the refusal that it is meant for: 0 for none, ANY if nothing is known. A call
 * that cannot give that refusal accepts the ticket. */
struct ticket {
    char name[96];
    struct record records[MOST_RECORDS + 1];
    size_t count;
    size_t torn_bytes;
    size_t work_words;
    size_t levels;
    uint8_t last_level;
    size_t reply_bytes;
    uint32_t refusal;
};

enum { ANY = 13 };

typedef void receiver(const struct ticket *);

/* Hands over each named ticket. */
void named_tickets(receiver *given);

/* Hands over drawn ones, the same in every run. */
void drawn_tickets(receiver *given, uint64_t count);

#endif
