/* stack [--all]: the deepest use of the stack by each call of the library, over the tickets of tickets.c.
 *
 * Every call runs in a thread of its own, on memory that was painted before. Counted is what lies between the frame
 * that makes the call and the lowest word that no longer has the paint, in words of 8 bytes: the frame itself and the
 * look for that word are in it, which a call that does nothing shows, and nothing is subtracted.
 */
#define _GNU_SOURCE
#include <inttypes.h>
#include <pthread.h>
#include <signal.h>
#include <stdio.h>
#include <stdlib.h>
#include <string.h>
#include <sys/mman.h>
#include <unistd.h>

#include "cabbagetier.h"
#include "tickets.h"

enum { MOST_BYTES = 96 * 1024, STACK_BYTES = 1 << 20, STACK_WORDS = STACK_BYTES / 8, GUARD_BYTES = 1 << 16 };

static const uint64_t PAINT = 0xa7c3e19d5b6f8241;

static const uint64_t DRAWN = 25000;

/* Everything that is lent to a call. */
static uint8_t bytes[16 * (MOST_RECORDS + 1) + 16], levels[MOST_RECORDS + 2], reply[REPLY_BYTES];
static uint32_t work[WORK_WORDS], answer[8];
static size_t bytes_len, levels_len, work_len, reply_len;

static uint32_t empty(void) { return 0; }

static uint32_t check(void) { return cabbagetier_check(bytes, bytes_len, work, work_len, answer); }

static uint32_t evaluate(void)
{
    return cabbagetier_levels(bytes, bytes_len, levels, levels_len, work, work_len, reply, reply_len, answer);
}

static uint32_t compact(void)
{
    return cabbagetier_compact(bytes, bytes_len, work, work_len, reply, reply_len, answer);
}

static uint32_t merge(void)
{
    return cabbagetier_merge(bytes, bytes_len, work, work_len, reply, reply_len, answer);
}

static uint32_t rewrite(void)
{
    return cabbagetier_rewrite(bytes, bytes_len, work, work_len, reply, reply_len, answer);
}

enum { UP_TO_8 = 0x1fe };

/* A call, the refusals that it can give, a bit for each number, and its deepest use so far. */
static struct call {
    const char *name;
    uint32_t (*run)(void);
    uint32_t refusals;
    size_t deepest, deepest_drawn;
    char ticket[96];
} calls[] = {
    {.name = "check", .run = check, .refusals = UP_TO_8},
    {.name = "levels", .run = evaluate, .refusals = UP_TO_8 | 1 << 10 | 1 << 11 | 1 << 12},
    {.name = "compact", .run = compact, .refusals = UP_TO_8 | 1 << 12},
    {.name = "merge", .run = merge, .refusals = UP_TO_8 | 1 << 12},
    {.name = "rewrite", .run = rewrite, .refusals = UP_TO_8 | 1 << 9 | 1 << 12},
};

enum { CALLS = sizeof calls / sizeof *calls };

static uint64_t *stack;
static char running[160];
static int all_rows;
static unsigned tickets;

/* What a thread leaves: the number answered, what it used below the call, and what stands above. */
struct measure {
    uint32_t (*run)(void);
    uint32_t number;
    size_t used, above;
};

static void stop(const char *what)
{
    perror(what);
    exit(EXIT_FAILURE);
}

/* The thread touched the guard: there is no figure. It runs on a stack of its own. */
static void overrun(int number)
{
    static const char said[] = ": the stack of 1 MiB is not enough\n";
    (void)number;
    ssize_t wrote = write(STDERR_FILENO, running, strlen(running));
    _exit(wrote < 0 || write(STDERR_FILENO, said, sizeof said - 1) < 0 ? 2 : 1);
}

static void make_stack(void)
{
    size_t size = GUARD_BYTES + STACK_BYTES;
    uint8_t *memory = mmap(NULL, size, PROT_READ | PROT_WRITE, MAP_PRIVATE | MAP_ANONYMOUS, -1, 0);
    if (memory == MAP_FAILED || mprotect(memory, GUARD_BYTES, PROT_NONE) != 0)
        stop("mmap");
    stack = (uint64_t *)(memory + GUARD_BYTES);
    struct sigaction action = {.sa_handler = overrun, .sa_flags = SA_ONSTACK};
    if (sigaction(SIGSEGV, &action, NULL) != 0)
        stop("sigaction");
}

static void paint(void)
{
    for (size_t i = 0; i < STACK_WORDS; i++)
        stack[i] = PAINT;
}

static inline uint64_t *lowest_changed(void)
{
    uint64_t *word = stack;
    while (*(volatile uint64_t *)word == PAINT)
        word++;
    return word;
}

/* Looks before it returns, so that the thread's end is not counted. */
static void *measured(void *given)
{
    static uint8_t spare[1 << 14];
    const stack_t other = {.ss_sp = spare, .ss_size = sizeof spare};
    struct measure *m = given;
    sigaltstack(&other, NULL);
    uint8_t *entry = __builtin_frame_address(0);
    m->number = m->run();
    m->used = (size_t)(entry - (uint8_t *)lowest_changed());
    m->above = (size_t)((uint8_t *)(stack + STACK_WORDS) - entry);
    return NULL;
}

static struct measure measure(uint32_t (*run)(void))
{
    struct measure m = {.run = run};
    pthread_attr_t attributes;
    pthread_t thread;
    paint();
    if (pthread_attr_init(&attributes) != 0 || pthread_attr_setstack(&attributes, stack, STACK_BYTES) != 0)
        stop("pthread_attr_setstack");
    if (pthread_create(&thread, &attributes, measured, &m) != 0 || pthread_join(thread, NULL) != 0)
        stop("pthread_create");
    pthread_attr_destroy(&attributes);
    return m;
}

static void put_number(uint8_t *at, uint32_t number, int count)
{
    for (int i = 0; i < count; i++)
        at[i] = (uint8_t)(number >> 8 * i);
}

static void put_record(uint8_t *at, const struct record *r)
{
    at[0] = r->kind;
    at[1] = r->flags;
    put_number(at + 2, r->bit, 2);
    put_number(at + 4, r->a, 4);
    put_number(at + 8, r->b, 4);
    put_number(at + 12, r->c, 4);
}

/* Work holds litter at entry. */
static void lend(const struct ticket *t)
{
    for (size_t slot = 0; slot < t->count; slot++)
        put_record(bytes + 16 * slot, &t->records[slot]);
    for (size_t i = 0; i < t->levels; i++)
        levels[i] = i + 1 < t->levels ? (uint8_t)(i % 3) : t->last_level;
    memset(work, 0x5a, sizeof work);
    bytes_len = 16 * t->count + t->torn_bytes;
    levels_len = t->levels;
    work_len = t->work_words;
    reply_len = t->reply_bytes;
}

static int is_wiped(void)
{
    size_t i = 0;
    while (i < WORK_WORDS && work[i] == 0)
        i++;
    return i == WORK_WORDS;
}

/* Whether a call may answer a ticket so. Rewriting may find no slot for a ticket that is meant to be accepted. */
static int is_due(const struct call *call, const struct ticket *t, uint32_t number)
{
    if (number != 0 && (number >= 32 || !(call->refusals >> number & 1)))
        return 0;
    if (t->refusal == ANY || (t->refusal == 0 && number == 9))
        return 1;
    return number == (call->refusals >> t->refusal & 1 ? t->refusal : 0);
}

/* A wrong answer ends the run. */
static void fault(uint32_t number, const char *what)
{
    printf("FAILED: %s: number %" PRIu32 ", %s\n", running, number, what);
    exit(EXIT_FAILURE);
}

static struct measure try(struct call *call, const struct ticket *t)
{
    lend(t);
    snprintf(running, sizeof running, "%s on %s", call->name, t->name);
    struct measure m = measure(call->run);
    if (!is_due(call, t, m.number))
        fault(m.number, "which is not its answer");
    if (work_len >= WORK_WORDS && !is_wiped())
        fault(m.number, "work is not wiped");
    if (m.used > call->deepest) {
        call->deepest = m.used;
        snprintf(call->ticket, sizeof call->ticket, "%s", t->name);
    }
    return m;
}

/* Every call on a ticket; a row if all are asked for, with the number of a refusal. */
static void take_named(const struct ticket *t)
{
    tickets++;
    if (all_rows)
        printf("| %s | %zu |", t->name, t->count);
    for (int i = 0; i < CALLS; i++) {
        struct measure m = try(&calls[i], t);
        if (all_rows)
            printf(m.number ? " %zu (%" PRIu32 ") |" : " %zu |", m.used, m.number);
    }
    if (all_rows)
        putchar('\n');
}

static void take_drawn(const struct ticket *t)
{
    tickets++;
    for (int i = 0; i < CALLS; i++) {
        size_t used = try(&calls[i], t).used;
        if (used > calls[i].deepest_drawn)
            calls[i].deepest_drawn = used;
    }
}

static void print_head(void)
{
    printf("| ticket | records |");
    for (int i = 0; i < CALLS; i++)
        printf(" %s |", calls[i].name);
    printf("\n|---|---|---|---|---|---|---|\n");
}

static void print_drawn(void)
{
    printf("| the drawn ones | |");
    for (int i = 0; i < CALLS; i++)
        printf(" %zu |", calls[i].deepest_drawn);
    printf("\n\n");
}

static void print_worst(void)
{
    printf("| call | deepest use, bytes | on the ticket |\n|---|---|---|\n");
    for (int i = 0; i < CALLS; i++)
        printf("| %s | %zu | %s |\n", calls[i].name, calls[i].deepest, calls[i].ticket);
}

/* What the figures count, by a call that does nothing. */
static void print_basis(struct measure nothing)
{
    printf("\n%u tickets, %" PRIu64 " of them drawn. The limit is %d bytes. A call that does nothing uses %zu bytes,\n"
           "which are in each figure; above it the thread's own data and start take %zu, which are in none.\n",
           tickets, DRAWN, MOST_BYTES, nothing.used, nothing.above);
}

static int within_limit(void)
{
    int within = 1;
    for (int i = 0; i < CALLS; i++)
        if (calls[i].deepest > MOST_BYTES) {
            printf("FAILED: %s uses more than %d bytes\n", calls[i].name, MOST_BYTES);
            within = 0;
        }
    return within;
}

int main(int count, char **words)
{
    all_rows = count == 2 && strcmp(words[1], "--all") == 0;
    if (count > 1 && !all_rows) {
        fprintf(stderr, "usage: stack [--all]\n");
        return 2;
    }
    make_stack();
    if (all_rows)
        print_head();
    named_tickets(take_named);
    drawn_tickets(take_drawn, DRAWN);
    if (all_rows)
        print_drawn();
    print_worst();
    print_basis(measure(empty));
    return within_limit() ? EXIT_SUCCESS : EXIT_FAILURE;
}
