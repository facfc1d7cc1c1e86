/* The route mover for sail jobs, for a host in C.
 *
 * Link crates/engine/out/libengine.a, which `rt lib` in crates/engine makes. The functions are total: whatever bytes they are lent, they read and write
 * nothing outside them, end, and return a number of docs/REFUSALS.md, 0 where all went well. They keep nothing between calls, call nothing of the C
 * library but memcpy and memset, and may run in several threads at once, each on buffers of its own.
 *
 * Every pointer is lent for the call and stays the caller's. A buffer that is written (work, out) and the numbers that are stored may not overlap each
 * other or a buffer that is read. A pointer whose length is 0 may be any non-null pointer. The numbers behind second, marking and written are stored on
 * every path.
 *
 * In a sheet a line `(start ..)` follows each of the heads `(old N)` and `(new N)`: the places that hold a token before the first step. Where it is
 * empty the refusal is 7, at its own line. The first layout has no such lines, no cloth marks and names to 65,535 only: reroute_up and reroute_down go
 * between the two layouts.
 */
#ifndef REROUTE_H
#define REROUTE_H

#include <stddef.h>
#include <stdint.h>

#ifdef __cplusplus
extern "C" {
#endif

/* The length that the work buffer needs, one that is always enough for a listing, and the most bytes that a sheet which reads can have, by the present
 * layout and by the first one. */
#define REROUTE_WORK 8192
#define REROUTE_LISTING 7053
#define REROUTE_SHEET 20500
#define REROUTE_SHEET_01 18136

/* Tries an order that somebody hands in for the job of a sheet.
 *
 * sheet, sheet_len   the sheet's bytes; only read.
 * order, order_len   occurrence numbers, one byte each, counted from 1 in the done list; only read. Any bytes and any length will do.
 * second             gets the refusal's place (a line, an offset or a position in the order), and 0 where the order is accepted.
 * marking            gets the places that hold a token after the order, place p at bit p, and 0 where it is refused.
 *
 * Returns 0 where the order is accepted, else 1 to 12, 16, 17, 18 or 23. A refusal changes nothing but the two numbers. */
uint32_t reroute_try(const uint8_t *sheet, size_t sheet_len, const uint8_t *order, size_t order_len, uint64_t *second, uint64_t *marking);

/* Judges the job of a sheet and prints the listing.
 *
 * sheet, sheet_len   the sheet's bytes; only read.
 * work, work_len     a buffer to search in, at least REROUTE_WORK bytes, with any contents. After a search its first REROUTE_WORK bytes are 0; without
 *                    one it is as it was. Bytes past these never change.
 * out, out_len       gets the listing, from its first byte on. Bytes past the listing stay as they were. REROUTE_LISTING bytes are always enough.
 * second             gets the bytes needed where out is too short (15), and else 0.
 * written            gets the length of the listing, and 0 on a refusal.
 *
 * Returns 0 where a listing was written. A job that stays is such a listing too, `(refused NUMBER SECOND)`, with a number from 1 to 13 or 23. Returns 14
 * where work is too short: nothing is changed then but the two numbers. Returns 15 where out is too short: out is as it was. */
uint32_t reroute_print(const uint8_t *sheet, size_t sheet_len, uint8_t *work, size_t work_len, uint8_t *out, size_t out_len, uint64_t *second, uint64_t *written);

/* Takes a sheet of the first layout up to the present one: behind each head it writes a line `(start ..)` with the places that the first layout implies,
 * those that are an out-place of no step. All else stays as it is.
 *
 * sheet, sheet_len   the sheet's bytes, by the first layout; only read.
 * out, out_len       gets the sheet by the present layout, from its first byte on. Bytes past it stay as they were. REROUTE_SHEET bytes are always
 *                    enough.
 * second             gets the refusal's place (a line of the sheet given, or an offset), the bytes needed where out is too short (15), and else 0.
 * written            gets the length of the sheet that was written, and 0 on a refusal.
 *
 * Returns 0 where a sheet was written, else 1 to 7 or 15; 23 isn't looked for. There is no start line to be empty, so 7 is at the head's line as 6 is.
 * On a refusal out is as it was. reroute_down takes what was written back to the bytes given. */
uint32_t reroute_up(const uint8_t *sheet, size_t sheet_len, uint8_t *out, size_t out_len, uint64_t *second, uint64_t *written);

/* Takes a sheet of the present layout down to the first one, if that can say what it says: it leaves out the start lines.
 *
 * sheet, sheet_len   the sheet's bytes, by the present layout; only read.
 * out, out_len       gets the sheet by the first layout, from its first byte on. Bytes past it stay as they were. REROUTE_SHEET_01 bytes are always
 *                    enough.
 * second, written    as for reroute_up.
 *
 * Returns 0 where a sheet was written, else 1 to 7, 15 or 22; 23 isn't looked for. 22 is at the first line that the first layout can't say: a start
 * other than the implied one, a name over 65,535, a cloth mark. On a refusal out is as it was. reroute_up takes what was written back to the bytes given. */
uint32_t reroute_down(const uint8_t *sheet, size_t sheet_len, uint8_t *out, size_t out_len, uint64_t *second, uint64_t *written);

#ifdef __cplusplus
}
#endif

#endif
