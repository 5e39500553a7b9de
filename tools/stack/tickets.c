#include "tickets.h"

#include <stdarg.h>
#include <stdio.h>
#include <string.h>

enum { ZERO = 0, ONE = 1 };

static const uint32_t UNDEF = UINT32_MAX;

static const char *const NAMES[] = {
    [INPUT] = "input", [OUTPUT] = "output", [BUF] = "buf", [NOT] = "not", [AND] = "and",
    [OR] = "or",       [XOR] = "xor",       [MUX] = "mux", [AIG] = "and-inverter",
};

/* The ticket that is being put together, and who gets it. */
static struct ticket made;
static receiver *receive;

/* ---- putting a ticket together */

static void begin(void)
{
    memset(&made, 0, sizeof made);
    made.work_words = WORK_WORDS;
    made.reply_bytes = REPLY_BYTES;
}

/* Adds to the ticket's name. */
__attribute__((format(printf, 1, 2))) static void name(const char *part, ...)
{
    va_list values;
    size_t len = strlen(made.name);
    va_start(values, part);
    vsnprintf(made.name + len, sizeof made.name - len, part, values);
    va_end(values);
}

static uint32_t net_of(size_t slot) { return (uint32_t)slot + 2; }

/* Appends a record and gives its net. */
static uint32_t put_flagged(enum kind kind, unsigned flags, uint32_t a, uint32_t b, uint32_t c)
{
    made.records[made.count] = (struct record){.kind = (uint8_t)kind, .flags = (uint8_t)flags, .a = a, .b = b, .c = c};
    return net_of(made.count++);
}

static uint32_t put(enum kind kind, uint32_t a, uint32_t b, uint32_t c) { return put_flagged(kind, 0, a, b, c); }

static uint32_t put_input(void) { return put(INPUT, net_of(made.count), 0, 0); }

static void put_inputs(size_t count)
{
    for (size_t i = 0; i < count; i++)
        put_input();
}

static uint32_t last_net(void) { return net_of(made.count - 1); }

static size_t left(void) { return MOST_RECORDS - made.count; }

/* How many nets a gate reads. */
static size_t fields_of(enum kind kind) { return kind == MUX ? 3 : kind == BUF || kind == NOT ? 1 : 2; }

/* A gate that reads one net by a field and another by the rest. */
static uint32_t put_gate(enum kind kind, unsigned flags, size_t field, uint32_t net, uint32_t other)
{
    uint32_t nets[3] = {0, 0, 0};
    for (size_t i = 0; i < fields_of(kind); i++)
        nets[i] = i == field ? net : other;
    return put_flagged(kind, flags, nets[0], nets[1], nets[2]);
}

/* Makes the last records one cell. */
static void join(size_t width)
{
    for (size_t bit = 0; bit < width; bit++)
        made.records[made.count - width + bit].bit = (uint16_t)bit;
}

/* With a level for each input. */
static void hand_over(void)
{
    for (size_t slot = 0; slot < made.count; slot++)
        made.levels += made.records[slot].kind == INPUT;
    receive(&made);
}

/* ---- the same ticket in another slot order */

static uint32_t moved_net(uint32_t net, const uint16_t *place)
{
    return net >= 2 && net - 2 < made.count ? net_of(place[net - 2]) : net;
}

static struct record moved(struct record r, const uint16_t *place)
{
    if (r.kind != INPUT)
        r.a = moved_net(r.a, place);
    if (r.kind >= AND)
        r.b = moved_net(r.b, place);
    r.c = moved_net(r.c, place);
    return r;
}

/* Puts each record where its place says. Cells have one bit. */
static void move(const uint16_t *place)
{
    static struct record before[MOST_RECORDS];
    memcpy(before, made.records, sizeof before);
    for (size_t slot = 0; slot < made.count; slot++)
        made.records[place[slot]] = moved(before[slot], place);
}

/* Readers first, if so far they were last. */
static void turn(void)
{
    uint16_t place[MOST_RECORDS];
    for (size_t slot = 0; slot < made.count; slot++)
        place[slot] = (uint16_t)(made.count - 1 - slot);
    move(place);
    name(", readers first");
}

/* In both slot orders. */
static void hand_over_both(void)
{
    struct ticket kept = made;
    hand_over();
    made = kept;
    turn();
    hand_over();
}

/* ---- chains: each gate reads the one before */

/* What the gates of a chain read besides. */
enum other { TWO_INPUTS, BEFORE_LAST, SAME, NOUGHT, UNIT, UNKNOWN, OTHERS };

static const char *const OTHER_NAMES[] = {"inputs", "the gate before that", "the same", "zero", "one", "undefined"};

/* The net that the next gate reads besides the last; the inputs are in slots 0 and 1. */
static uint32_t other_net(enum other other)
{
    uint32_t next = net_of(made.count);
    const uint32_t nets[OTHERS] = {net_of(next % 2), next - 2, next - 1, ZERO, ONE, UNDEF};
    return nets[other];
}

static void chain(enum kind kind, size_t field, unsigned flags, enum other other)
{
    begin();
    name("chain of %s gates", NAMES[kind]);
    if (kind == AIG)
        name(" with flags %u", flags);
    if (fields_of(kind) > 1)
        name(" by field %c beside %s", (char)('a' + field), OTHER_NAMES[other]);
    put_inputs(2);
    while (left() > 1)
        put_gate(kind, flags, field, last_net(), other_net(other));
    put(OUTPUT, last_net(), 0, 0);
    hand_over_both();
}

static void chains_by_field(enum kind kind, size_t field, unsigned flags)
{
    for (enum other other = 0; other < (fields_of(kind) == 1 ? 1 : OTHERS); other++)
        chain(kind, field, flags, other);
}

static void chains_of(enum kind kind)
{
    unsigned most_flags = kind == AIG ? 3 : 0;
    for (size_t variant = 0; variant < fields_of(kind) * (most_flags + 1); variant++)
        chains_by_field(kind, variant % fields_of(kind), (unsigned)(variant / fields_of(kind)));
}

static void chains(void)
{
    for (enum kind kind = BUF; kind <= AIG; kind++)
        chains_of(kind);
}

/* ---- gates that rules take apart form by form */

/* The last gate reads both inputs by another gate, and the end of the chain in a field, inverted or not. */
static uint32_t put_last(enum kind kind, uint32_t both, uint32_t end, int inverted, int exchanged)
{
    uint32_t a = exchanged ? end : both, b = exchanged ? both : end;
    if (kind == AIG)
        return put_flagged(AIG, inverted ? exchanged ? 1 : 2 : 0, a, b, 0);
    return put(AND, a, b, 0);
}

/* The gates of a chain read inputs b1 and b2 in turn, and the last gate reads both: every form of it loses one gate of
 * the chain. The deepest ticket of a rewriter that calls itself for each form. */
static void peeled(enum kind kind, int first, int inverted, int exchanged)
{
    begin();
    name("%s gates peeled off the last, b%d first, ", NAMES[kind], first + 1);
    name("%s in field %c", inverted ? "inverted" : "plain", exchanged ? 'a' : 'b');
    put_inputs(3);
    int inverter = inverted && kind != AIG;
    for (int b = first; left() > (inverter ? 4 : 3); b = !b)
        put(kind, net_of((size_t)b), last_net(), 0);
    uint32_t end = inverter ? put(NOT, last_net(), 0, 0) : last_net();
    uint32_t both = put(AND, net_of(0), net_of(1), 0);
    put(OUTPUT, put_last(kind, both, end, inverted, exchanged), 0, 0);
    hand_over_both();
}

static void peeled_ways(enum kind kind)
{
    for (int way = 0; way < 8; way++)
        peeled(kind, way & 1, way >> 1 & 1, way >> 2);
}

/* Two chains that read the same inputs, each its own at the start: the last gate loses a gate of both in every form. */
static void twins(enum kind kind, enum kind last)
{
    begin();
    name("two chains of %s gates under one %s", NAMES[kind], NAMES[last]);
    put_inputs(5);
    for (size_t i = 0; left() > 3; i++) {
        put(kind, net_of(i % 3), last_net() - 1, 0);
        put(kind, net_of(i % 3), last_net() - 1, 0);
    }
    put(last, last_net() - 1, last_net(), 0);
    put(OUTPUT, last_net(), 0, 0);
    hand_over_both();
}

static void forms(void)
{
    for (enum kind kind = AND; kind <= XOR; kind++) {
        peeled_ways(kind);
        twins(kind, AND);
        twins(kind, OR);
        twins(kind, XOR);
    }
    peeled_ways(AIG);
}

/* ---- wide cells */

/* A field in which the bits of a cell may differ: the bits of a mux have one select. */
static size_t wide_field(enum kind kind) { return kind == MUX ? 1 : 0; }

/* One cell of as many bits as there is room for: each bit reads the bit that stands so far from it, as long as there is
 * one, else an input. */
static void wide(enum kind kind, int away)
{
    begin();
    name("one wide %s cell, bits read %d away", NAMES[kind], away);
    uint32_t input = put_input();
    int width = (int)left() - 1;
    for (int bit = 0; bit < width; bit++) {
        int at = bit + away;
        uint32_t net = away != 0 && 0 <= at && at < width ? net_of(1 + (size_t)at) : input;
        put_gate(kind, 0, wide_field(kind), net, input);
    }
    join((size_t)width);
    put(OUTPUT, away > 0 ? net_of(1) : last_net(), 0, 0);
    hand_over();
}

/* Cells of some bits; each bit reads the bit of its place in the cell before or behind, as long as there is one. */
static void wide_cells(enum kind kind, size_t width, int turned)
{
    begin();
    name("%s cells of %zu bits, readers %s", NAMES[kind], width, turned ? "first" : "after");
    uint32_t input = put_input();
    size_t first = made.count, cells = (left() - 1) / width;
    for (size_t i = 0; i < cells * width; i++) {
        size_t at = turned ? i + width : i - width;
        put_gate(kind, 0, 0, at < cells * width ? net_of(first + at) : input, input);
        if (i % width == width - 1)
            join(width);
    }
    put(OUTPUT, turned ? net_of(first) : last_net(), 0, 0);
    hand_over();
}

/* A wide cell between the output and all other records, each of which it reads once. */
static void wide_reader(enum kind leaf)
{
    begin();
    name("one wide mux that reads %s records", NAMES[leaf]);
    size_t width = (left() - 2) / 3, select = 1 + width;
    put(OUTPUT, net_of(1), 0, 0);
    for (size_t bit = 0; bit < width; bit++)
        put(MUX, net_of(select), net_of(select + 1 + 2 * bit), net_of(select + 2 + 2 * bit));
    join(width);
    while (left() > 0)
        put(leaf, ZERO, 0, 0);
    hand_over();
}

static void wides(void)
{
    for (enum kind kind = BUF; kind <= MUX; kind++) {
        wide(kind, -1);
        wide(kind, 0);
        wide(kind, 1);
        wide(kind, -7);
        wide(kind, 7);
    }
    for (enum kind kind = BUF; kind <= XOR; kind++) {
        wide_cells(kind, 2, 0);
        wide_cells(kind, 2, 1);
        wide_cells(kind, 63, 0);
        wide_cells(kind, 63, 1);
    }
    wide_reader(INPUT);
    wide_reader(BUF);
}

/* ---- combs and trees */

static uint32_t put_tooth(enum kind kind, size_t field, uint32_t last)
{
    uint32_t nets[3] = {0, 0, 0};
    for (size_t i = 0; i < fields_of(kind); i++)
        nets[i] = i == field ? last : put_input();
    return put(kind, nets[0], nets[1], nets[2]);
}

/* A path of gates; each reads besides the one before as many inputs of its own as it has fields left. */
static void comb(enum kind kind, size_t field)
{
    begin();
    name("comb of %s gates by field %c", NAMES[kind], (char)('a' + field));
    uint32_t last = put_input();
    while (left() > fields_of(kind))
        last = put_tooth(kind, field, last);
    put(OUTPUT, last, 0, 0);
    hand_over_both();
}

/* Each gate reads the first records that nobody reads. */
static void tree(enum kind kind)
{
    begin();
    name("tree of %s gates", NAMES[kind]);
    put_inputs(256);
    size_t fields = fields_of(kind);
    for (size_t next = 0; next + fields <= made.count && left() > 1; next += fields)
        put(kind, net_of(next), net_of(next + 1), fields > 2 ? net_of(next + 2) : 0);
    put(OUTPUT, last_net(), 0, 0);
    hand_over_both();
}

static void combs(void)
{
    for (enum kind kind = AND; kind <= AIG; kind++)
        for (size_t field = 0; field < fields_of(kind); field++)
            comb(kind, field);
    for (enum kind kind = AND; kind <= AIG; kind++)
        tree(kind);
}

/* ---- loops: refusal 8 */

/* Rings of so many records, each of which reads the one before. */
static void rings(enum kind kind, size_t field, size_t length)
{
    begin();
    name("rings of %zu %s records by field %c", length, NAMES[kind], (char)('a' + field));
    made.refusal = 8;
    while (left() >= length || made.count % length != 0) {
        size_t first = made.count % length == 0;
        put_gate(kind, 0, field, net_of(first ? made.count + length - 1 : made.count - 1), ZERO);
    }
    hand_over_both();
}

/* A ring, and a chain whose start reads it. */
static void tail(enum kind kind, size_t field, size_t length)
{
    begin();
    name("chain of %s records by field %c into a ring of %zu", NAMES[kind], (char)('a' + field), length);
    made.refusal = 8;
    put_gate(kind, 0, field, net_of(length - 1), ZERO);
    while (left() > 0)
        put_gate(kind, 0, field, last_net(), ZERO);
    hand_over_both();
}

/* A wide cell whose bits read one another in a ring. */
static void wide_ring(enum kind kind, int away)
{
    begin();
    name("one wide %s cell in a ring, bits read %d away", NAMES[kind], away);
    made.refusal = 8;
    for (int bit = 0; bit < MOST_RECORDS; bit++) {
        uint32_t net = net_of((size_t)((bit + away + MOST_RECORDS) % MOST_RECORDS));
        put_gate(kind, 0, wide_field(kind), net, ZERO);
    }
    join(MOST_RECORDS);
    hand_over();
}

/* Cells of some bits in a ring; each bit reads the bit of its place in the next cell, or in the one before. */
static void ring_of_cells(enum kind kind, size_t width, int back)
{
    begin();
    name("%s cells of %zu bits in a ring, readers %s", NAMES[kind], width, back ? "after" : "first");
    made.refusal = 8;
    while (left() > 0) {
        size_t at = made.count + (back ? MOST_RECORDS - width : width);
        put_gate(kind, 0, 0, net_of(at % MOST_RECORDS), ZERO);
        if (made.count % width == 0)
            join(width);
    }
    hand_over();
}

/* Every record reaches all later ones, and only the last reaches itself. */
static void late_loop(void)
{
    begin();
    name("muxes before a loop");
    made.refusal = 8;
    while (left() > 0) {
        uint32_t last = net_of(MOST_RECORDS - 1), own = net_of(made.count);
        put(MUX, own + 1 < last ? own + 1 : last, own + 2 < last ? own + 2 : last, own + 3 < last ? own + 3 : last);
    }
    hand_over_both();
}

static void loops_of(enum kind kind, size_t field)
{
    rings(kind, field, MOST_RECORDS);
    rings(kind, field, 170);
    rings(kind, field, 8);
    rings(kind, field, 1);
    tail(kind, field, 1);
    tail(kind, field, 100);
}

static void loops(void)
{
    for (enum kind kind = BUF; kind <= AIG; kind++)
        for (size_t field = 0; field < fields_of(kind); field++)
            loops_of(kind, field);
    for (enum kind kind = BUF; kind <= MUX; kind++) {
        wide_ring(kind, 1);
        wide_ring(kind, -1);
    }
    for (enum kind kind = BUF; kind <= XOR; kind++) {
        ring_of_cells(kind, 2, 0);
        ring_of_cells(kind, 2, 1);
        ring_of_cells(kind, 64, 0);
        ring_of_cells(kind, 64, 1);
    }
    late_loop();
}

/* ---- tickets that rewriting makes longer */

/* T14: ors of different pairs of 40 inputs. An or takes three slots in all, so 328 are as many as fit. */
static void pairs(size_t ors)
{
    begin();
    name("40 inputs and %zu ors", ors);
    made.refusal = ors > 328 ? 9 : 0;
    put_inputs(40);
    for (size_t a = 0, b = 1; made.count < 40 + ors; b = b < 39 ? b + 1 : ++a + 1)
        put(OR, net_of(a), net_of(b), 0);
    hand_over_both();
}

/* A path of some pairs of an or and a mux, under and-inverters. An or becomes an and-inverter and an inverter, which no
 * mux takes in, so a pair gives three cells of the result's path for five slots, an and-inverter one for one. */
static void long_result(size_t ors, size_t and_inverters)
{
    begin();
    name("%zu ors under muxes, %zu and-inverters", ors, and_inverters);
    put_inputs(2);
    for (size_t i = 0; i < ors; i++)
        put(MUX, put(OR, net_of(0), last_net(), 0), net_of(0), net_of(1));
    for (size_t i = 0; i < and_inverters; i++)
        put(AIG, net_of(i % 2), last_net(), 0);
    put(OUTPUT, last_net(), 0, 0);
    hand_over_both();
}

enum { PAIRED = 13 };

/* A gate of two out of 13 inputs from a slot on: 78 different pairs. */
static void put_pair(enum kind kind, unsigned flags, size_t inputs, size_t number)
{
    size_t a = number % PAIRED, b = (a + 1 + number / PAIRED) % PAIRED;
    put_flagged(kind, flags, net_of(inputs + a), net_of(inputs + b), 0);
}

/* Ors, then inverted xors, then the two and-inverters of each of these, all of the inputs from a slot on. */
static void put_beside(size_t ors, size_t xnors, size_t inputs)
{
    for (size_t i = 0; i < ors; i++)
        put_pair(OR, 0, inputs, i);
    for (size_t i = 0; i < xnors; i++)
        put_flagged(AIG, 3, net_of(ors + xnors + i), net_of(ors + 2 * xnors + i), 0);
    for (size_t i = 0; i < 2 * xnors; i++)
        put_pair(AIG, i < xnors ? 2 : 1, inputs, i % xnors);
}

/* And-inverters that each read one of some records from a slot on, and the next. */
static void put_path(size_t count, size_t beside)
{
    for (size_t i = 0; i < count; i++)
        put(AIG, net_of(beside + i), net_of(made.count + 1), 0);
}

/* The longest result found, as a comb. The walk from the outputs keeps a frame for each cell that it went into from its
 * path, also where it has come back, so the cells beside the path count as those on it, if they stand before. Each mux
 * of the path reads an or that reads the next mux, and beside it an or or an inverted xor, which the or above reads
 * too: in the result the mux reads an inverter there, and the and-inverter above what it inverts. The output stands
 * before the inputs, else those were met first. */
static void combed_result(size_t ors, size_t xnors)
{
    begin();
    name("comb of muxes and ors, %zu ors and %zu inverted xors beside", ors, xnors);
    size_t muxes = ors + xnors, seconds = muxes + xnors, inputs = seconds + xnors + 1;
    put_beside(ors, xnors, inputs);
    put(OUTPUT, net_of(inputs + PAIRED), 0, 0);
    put_inputs(PAIRED);
    put_path(PAIRED, inputs);
    put_path(xnors - ors, seconds + ors);
    for (size_t i = 0; i < muxes; i++) {
        put(MUX, net_of(i), net_of(i < ors ? seconds + i : xnors + i), net_of(made.count + 1));
        put(OR, net_of((i + 1) % muxes), net_of(made.count + 1), 0);
    }
    put_input();
    hand_over();
}

/* Xors of inverted operands, one of which is an and-inverter that reads the other: both inverters are pulled out and
 * the rest becomes an and-inverter, each by adding a cell within the last. No deeper nest was found. */
static void nested(void)
{
    begin();
    name("adds within adds");
    put_inputs(2);
    while (left() > 4) {
        uint32_t last = last_net();
        uint32_t gate = put_flagged(AIG, 1, last, net_of(0), 0);
        uint32_t inverted = put(NOT, gate, 0, 0);
        put(XOR, inverted, put(NOT, last, 0, 0), 0);
    }
    put(OUTPUT, last_net(), 0, 0);
    hand_over_both();
}

static void long_results(void)
{
    combed_result(50, 64);
    combed_result(52, 63);
    combed_result(53, 63);
    pairs(327);
    pairs(328);
    pairs(329);
    long_result(169, 171);
    long_result(170, 169);
    long_result(171, 167);
    long_result(204, 0);
    nested();
}

/* ---- one for each refusal, met as late as can be */

static void faulty(const char *fault, uint32_t refusal)
{
    begin();
    name("refusal %u, %s: chain of not gates", (unsigned)refusal, fault);
    made.refusal = refusal;
    put_input();
    while (left() > 1)
        put(NOT, last_net(), 0, 0);
    put(OUTPUT, last_net(), 0, 0);
    turn();
}

static void refused_by_length(void)
{
    faulty("a word of work too few", 1);
    made.work_words--;
    hand_over();
    faulty("15 bytes of a record", 2);
    made.count--;
    made.torn_bytes = 15;
    hand_over();
    faulty("513 records", 3);
    put_input();
    hand_over();
    faulty("a level too many", 10);
    made.levels++;
    hand_over();
    faulty("the last level is 3", 11);
    made.last_level = 3;
    hand_over();
    faulty("no byte of reply", 12);
    made.reply_bytes = 0;
    hand_over();
}

static void refused_by_record(void)
{
    struct record *last = &made.records[MOST_RECORDS - 1];
    faulty("kind 10", 4);
    last->kind = 10;
    hand_over();
    faulty("a flag on an input", 5);
    last->flags = 1;
    hand_over();
    faulty("a bit out of sequence", 6);
    last->bit = 1;
    hand_over();
    faulty("an operand that names no slot", 7);
    *last = (struct record){.kind = BUF, .a = net_of(MOST_RECORDS)};
    hand_over();
    faulty("a loop", 8);
    *last = (struct record){.kind = BUF, .a = net_of(1)};
    hand_over();
}

/* Nothing, inputs only, outputs only. */
static void plain(void)
{
    begin();
    name("the empty ticket");
    hand_over();
    begin();
    name("inputs only");
    put_inputs(MOST_RECORDS);
    hand_over();
    begin();
    name("outputs only");
    while (left() > 0)
        put(OUTPUT, UNDEF, 0, 0);
    hand_over();
}

void named_tickets(receiver *given)
{
    receive = given;
    plain();
    chains();
    forms();
    wides();
    combs();
    loops();
    long_results();
    refused_by_length();
    refused_by_record();
}

/* ---- drawn tickets */

static uint64_t drawn_from;

/* Splitmix64. */
static uint64_t draw(void)
{
    uint64_t z = drawn_from += 0x9e3779b97f4a7c15;
    z = (z ^ z >> 30) * 0xbf58476d1ce4e5b9;
    z = (z ^ z >> 27) * 0x94d049bb133111eb;
    return z ^ z >> 31;
}

static size_t below(size_t bound) { return (size_t)(draw() % bound); }

static int one_in(size_t times) { return below(times) == 0; }

/* What kinds of gates a ticket is drawn from; a kind named twice comes twice as often. */
static const char MIXES[][8] = {
    {BUF, NOT, AND, OR, XOR, MUX, AIG, AIG},  {AIG, AIG, AIG, AIG, AIG, AIG, AIG, AIG},
    {AIG, AIG, AIG, AIG, XOR, XOR, NOT, NOT}, {AND, AND, AND, AND, AND, XOR, NOT, OR},
    {XOR, XOR, XOR, XOR, XOR, XOR, NOT, AIG}, {MUX, OR, MUX, OR, AIG, AIG, AIG, AIG},
    {BUF, AIG, BUF, AIG, AIG, AIG, XOR, NOT},
};

/* The inputs in turn if nothing is near; else an operand of one of the last gates, such a gate itself, an input or a
 * constant. */
static uint32_t drawn_net(size_t inputs, size_t near)
{
    static const uint32_t constants[] = {ZERO, ONE, UNDEF};
    if (near == 0)
        return net_of(made.count % inputs);
    const struct record *r = &made.records[made.count - 1 - below(near < made.count ? near : made.count)];
    if (one_in(64))
        return constants[below(3)];
    if (r->kind == INPUT || one_in(3))
        return net_of(below(inputs));
    return one_in(3) ? net_of((size_t)(r - made.records)) : fields_of(r->kind) > 1 && one_in(2) ? r->b : r->a;
}

/* Reads the last gate, but for one in so many. */
static void drawn_gate(const char *mix, size_t inputs, size_t near, size_t cut)
{
    uint32_t last = last_net();
    enum kind kind = (enum kind)mix[below(8)];
    uint32_t nets[3] = {0, 0, 0};
    size_t field = below(fields_of(kind));
    for (size_t i = 0; i < fields_of(kind); i++)
        nets[i] = i == field && !one_in(cut) ? last : drawn_net(inputs, near);
    put_flagged(kind, kind == AIG ? (unsigned)below(4) : 0, nets[0], nets[1], nets[2]);
}

static void shuffle(void)
{
    uint16_t place[MOST_RECORDS];
    for (size_t slot = 0; slot < made.count; slot++) {
        size_t other = below(slot + 1);
        place[slot] = place[other];
        place[other] = (uint16_t)slot;
    }
    move(place);
}

/* Makes some neighbours of one kind bits of one cell. */
static void join_alike(void)
{
    for (size_t slot = 1; slot < made.count; slot++) {
        const struct record *before = &made.records[slot - 1];
        struct record *r = &made.records[slot];
        if (r->kind == before->kind && BUF <= r->kind && r->kind <= XOR && !one_in(4))
            r->bit = before->bit + 1;
    }
}

/* Lets an operand read any gate, so that loops come about. */
static void rewire(void)
{
    struct record *r = &made.records[below(made.count)], *other = &made.records[below(made.count)];
    if (r->kind >= BUF && other->kind >= BUF)
        r->a = net_of((size_t)(other - made.records));
}

/* Sometimes a gate at the end that reads two inputs and the chain. */
static void drawn_end(size_t inputs)
{
    uint32_t end = last_net();
    if (one_in(2)) {
        put(AND, net_of(below(inputs)), net_of(inputs - 1), 0);
        put_flagged(AIG, (unsigned)below(4), last_net(), end, 0);
    }
    put(OUTPUT, last_net(), 0, 0);
}

static void drawn_chain(void)
{
    static const size_t cuts[] = {SIZE_MAX, 256, 16};
    const char *mix = MIXES[below(sizeof MIXES / sizeof *MIXES)];
    size_t size = one_in(2) ? MOST_RECORDS : 12 + below(MOST_RECORDS - 12);
    size_t inputs = 1 + below(5), near = one_in(3) ? 0 : 1 + below(6), cut = cuts[below(3)];
    put_inputs(inputs);
    while (made.count < size - 3)
        drawn_gate(mix, inputs, near, cut);
    drawn_end(inputs);
}

/* In some slot order, perhaps with wide cells or a loop. */
static void drawn(uint64_t number)
{
    drawn_from = number;
    begin();
    name("drawn ticket %llu", (unsigned long long)number);
    made.refusal = ANY;
    drawn_chain();
    if (one_in(8))
        rewire();
    if (one_in(2))
        turn();
    else if (one_in(4))
        shuffle();
    if (one_in(4))
        join_alike();
    hand_over();
}

void drawn_tickets(receiver *given, uint64_t count)
{
    receive = given;
    for (uint64_t number = 1; number <= count; number++)
        drawn(number);
}
