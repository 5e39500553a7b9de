/* The gate-ticket calls. Link target/staticlib/libticket.a, which `tools/archive` writes.
 *
 * A ticket is `ticket_len` bytes: records of 16 bytes, little-endian, byte 0 kind, byte 1 flags, bytes 2-3 bit,
 * bytes 4-7 a, 8-11 b, 12-15 c. Record s is slot s and drives net s + 2; an output drives none. Nets 0, 1 and
 * 4,294,967,295 are the constants zero, one and undefined. Kinds and the fields that they use; all others are 0:
 *   1 input             a label
 *   2 output            a net, b label
 *   3 buf, 4 not        a net
 *   5 and, 6 or, 7 xor  a, b nets
 *   8 mux               a select, b taken at one, c taken at zero, all nets
 *   9 and-inverter      a, b nets; flag 1 inverts a, flag 2 inverts b
 * A cell of w bits is w records in a row, of one kind, with bits 0 to w - 1; bits of an input have one label, bits of
 * a mux one select. Outputs and and-inverters have one bit, number 0. Records may read later ones.
 *
 * Every call returns the refusal's number, 0 if it accepts, and fills all eight words of `answer`:
 *   answer[0]  place of the refusal; 0 if accepted
 *   answer[1]  count: records for check, bytes written to the reply for the others; 0 if refused
 *   answer[2]  gate count for check, changed flag for merge; 0 otherwise and if refused
 *   answer[3]  the field that fails if the call returns 7: 1 for a, 2 for b, 3 for c; 0 otherwise
 *   answer[4] to answer[7]  0
 *
 * `work` is lent for the call and may hold anything. A call asks for 16,384 words (refusal 1 otherwise). With as
 * many or more, its first 16,384 words are 0 at return, refused or not, and the others are as they were; a shorter
 * slice is not touched. Nothing is kept between calls.
 *
 * Stack: the deepest use found is 44,000 bytes for rewrite and 41,016 for the other calls (tools/stack/stack; the tool's
 * limit is 98,304). It is measured, not proved, and holds for this build on x86-64. By these
 * figures a thread of 128 KiB does for any call if the caller and the thread's own data need at most 32 KiB of it.
 *
 * The slices of one call must not overlap, nor the answer with any of them. Each pointer must be valid for its length
 * and aligned for its type. A slice of length 0 is not touched: its pointer may be null or lead anywhere
 * (tools/empty/empty tries it). `answer` must not be null.
 *
 * Numbers: 1 work under 16,384 words; 2 length no multiple of 16; 3 over 512 records; 4 unknown kind; 5 unused field
 * or flag not 0; 6 bit not 0, and the record is an output or an and-inverter, or none stands before it, or the one
 * before has another kind, or another bit than one less, or, in an input, another label, or, in a mux, another select;
 * 7 an operand is no constant and names no slot, or an output's; 8 a bit reaches itself through operands. 4 to 7: the
 * lowest faulty record decides, and within it the lowest number; the place is that record. 7: answer[3] is the first
 * of its fields that fails, in the order a, b, c. 8: the place is the lowest record on a loop. 9 rewriting needs more
 * than 1,024 slots, the ticket's and each cell that it adds, also one that is left out in the end; 10 levels given
 * differ in number from input records; 11 a level byte above 2, the place its index, the lowest such; 12 the reply is
 * too short for the result. The place of all others is 0.
 * The first in the order of a call's line below decides.
 *
 * A reply is written from its start, as many bytes as answer[1] says; later bytes keep their content. A refusal changes
 * no byte of it. These replies hold every result, so 12 does not come (theorem `reply-holds`,
 * crates/reply_room/proofs/Room.antt): levels 512 bytes; compact and merge 8,192 bytes, or as many as the ticket has;
 * rewrite 16,384 bytes.
 */
#ifndef CABBAGETIER_H
#define CABBAGETIER_H

#include <stddef.h>
#include <stdint.h>

#ifdef __cplusplus
extern "C" {
#endif

/* Refusals 1 to 8. Accepted: record count and gate count. An and, or, xor, mux or and-inverter record counts 1, so a
 * wide gate counts its bits, and one that nothing reads counts too; a buf, not, input or output counts 0. */
uint32_t cabbagetier_check(const uint8_t *ticket, size_t ticket_len,
                           uint32_t *work, size_t work_len,
                           uint32_t answer[8]);

/* Refusals 1 to 8, 10, 11, 12. One level byte per input record in, in slot order: 0, 1, or 2 for undefined; one per
 * output record out. */
uint32_t cabbagetier_levels(const uint8_t *ticket, size_t ticket_len,
                            const uint8_t *levels, size_t levels_len,
                            uint32_t *work, size_t work_len,
                            uint8_t *reply, size_t reply_len,
                            uint32_t answer[8]);

/* Refusals 1 to 8, 12. The inputs, the outputs and the cells that these reach through operands, each with all its
 * bits, in slot order; the others are left out and nets renumbered. */
uint32_t cabbagetier_compact(const uint8_t *ticket, size_t ticket_len,
                             uint32_t *work, size_t work_len,
                             uint8_t *reply, size_t reply_len,
                             uint32_t answer[8]);

/* Refusals 1 to 8, 12. Cells are taken in the order of the Rust's `iter_cells_topo`. What reads a gate bit that equals
 * one taken before reads that one instead; equal are bits of one kind whose operands, as replaced before their cell's
 * turn, are the same, in and, or, xor and and-inverter (with the flags) in either order. Then as compact, so the bit
 * itself stays where another bit of its cell is reached. answer[2] is 1 if some operand was changed, also of a record
 * that is left out then. */
uint32_t cabbagetier_merge(const uint8_t *ticket, size_t ticket_len,
                           uint32_t *work, size_t work_len,
                           uint8_t *reply, size_t reply_len,
                           uint32_t answer[8]);

/* Refusals 1 to 9, 12. The ticket simplified by `Normalize` and `SimpleAigOpt`, then as compact. A result has at most
 * 1,024 records, so it may be longer than a ticket may be. */
uint32_t cabbagetier_rewrite(const uint8_t *ticket, size_t ticket_len,
                             uint32_t *work, size_t work_len,
                             uint8_t *reply, size_t reply_len,
                             uint32_t answer[8]);

#ifdef __cplusplus
}
#endif

#endif
