/* The cart plan check, for C. Link libcontroller.a (x86-64 Linux).
 *
 * A buffer is lent as a pointer and a length; a null pointer with length 0 is an empty buffer. Nothing is kept after a call
 * returns, nothing is allocated, and no call needs an earlier one. A refusal changes no byte of any buffer.
 *
 * What the caller answers for, since nothing can check it: each pointer is valid for its length, `places` and `groups`
 * are aligned as uint32_t, nothing else writes to the buffers during a call, and a buffer that is written to (`out`, the plan of a
 * replacement) overlaps no other buffer of the call. And h, l, d and s are 16-bit: C narrows a larger argument without a word, so
 * that a drift of 65,536 arrives here as 0.
 */
#ifndef CARTPLAN_H
#define CARTPLAN_H

#include <stddef.h>
#include <stdint.h>

#ifdef __cplusplus
extern "C" {
#endif

/* number: 0 exactly if the operation accepted or was done, else the refusal's number. Ask this one, never about.
 * about: the file that is refused: 1 floor, 2 plan, 3 rules; 0 where nothing is refused.
 * first, second: the refusal's two further numbers. Where nothing is refused both are 0, but that first is the length in bytes of a
 * result that was written to out. */
struct cartplan_verdict {
    uint32_t about, number, first, second;
};

/* Reads a floor. */
struct cartplan_verdict cartplan_read_floor(const uint8_t *floor, size_t floor_len);

/* Reads a floor, and a plan for it. */
struct cartplan_verdict cartplan_read_plan(const uint8_t *floor, size_t floor_len,
                                           const uint8_t *plan, size_t plan_len);

/* Writes a floor to out: a place for each number of places (its 32 marks, m0 lowest), a lane for each three bytes of lanes
 * (from, to, classes), a cart for each two bytes of carts (class, start), a narrow place for each byte of narrow (the place; the
 * same one may stand twice), a group for each number of groups (bit n for cart n; it may be empty). Bytes of out past the result
 * stay. Numbers that no floor can hold are refused as reading them would be, at the offset that they would have in the file;
 * bytes left over in lanes or carts are a record of wrong body length (4). Then 18 with the length needed, if out is shorter. */
struct cartplan_verdict cartplan_write_floor(const uint32_t *places, size_t place_count,
                                             const uint8_t *lanes, size_t lanes_len,
                                             const uint8_t *carts, size_t carts_len,
                                             const uint8_t *narrow, size_t narrow_len,
                                             const uint32_t *groups, size_t group_count,
                                             uint8_t *out, size_t out_len);

/* Writes a plan for a floor to out: its head (h steps, first step l of the lap, drift d) and a row for each h bytes of rows.
 * Bytes of out past the result stay. Refusals as for a floor, the floor's own first. With h = 0 all bytes of rows are left over. */
struct cartplan_verdict cartplan_write_plan(const uint8_t *floor, size_t floor_len,
                                            uint16_t h, uint16_t l, uint16_t d,
                                            const uint8_t *rows, size_t rows_len,
                                            uint8_t *out, size_t out_len);

/* Reads a rule sheet. Refused: 12 (0, 0) for more than 16,384 bytes, 7 (0, 0) for an empty sheet, then at the lowest byte
 * offset 13, 14 or 15. */
struct cartplan_verdict cartplan_read_rules(const uint8_t *rules, size_t rules_len);

/* Checks the moves of a plan. The refusals of reading come first; then, carts in order: 10 (cart, 0) for a row that does not
 * begin at the cart's start, 11 (cart, step) for the lowest step that the cart leaves for another place by no lane open to its
 * class, the move from step h - 1 to l included. Any cart may park: a move from a place to the same place needs no lane. Narrow
 * places are not looked at. */
struct cartplan_verdict cartplan_check_moves(const uint8_t *floor, size_t floor_len,
                                             const uint8_t *plan, size_t plan_len);

/* Checks a plan. The refusals of cartplan_check_moves come first; then, about the plan, 20 (cart, step) if in some run within
 * the drift two carts are in one narrow place at a moment, or two are exchanged between two narrow places in one tick: the lowest
 * cart in any such conflict, and the step of its earliest counter in one, for an exchange the counter before the tick. Then the
 * refusals of cartplan_read_rules; then, about the rules: 21 (clause, group) for the lowest clause that names a group the floor
 * lacks, and the first such group in its text; with a drift above 0, 16 (clause, 0) for the lowest clause with X outside a count;
 * then 17 (clause, step) for the lowest clause that is not true, the step being the lowest at which its body fails if its
 * outermost operator is G, else 0. A count that ends in @0 to @7 counts the carts of that group alone, any other all carts; a
 * percentage and a negation go by how many these are. A percentage is taken to the nearest cart, a half going up; less than half
 * a cart is none, and such a count is always true. With drift, a count with threshold 1 is also true at step s if all carts of
 * the floor satisfy it at s itself, so over a group only if that is all carts. With drift, once negations are driven inward, an
 * or whose sides, through nested ors, are all counts over the same carts is also true at step s if more of these carts than the
 * sum of (threshold - 1) satisfy, at each of counters s to s + d, one of its inner texts, not always the same one; and a U b asks,
 * where b is not yet true, for a or b by this rule. */
struct cartplan_verdict cartplan_check(const uint8_t *floor, size_t floor_len,
                                       const uint8_t *plan, size_t plan_len,
                                       const uint8_t *rules, size_t rules_len);

/* Moves a plan on by s steps and writes the result to out: each cart's place at counter v is that of the plan at counter
 * s + v. For s up to l the first s steps of each row go; beyond it l becomes 0 and each lap is turned by (s - l) mod (h - l);
 * d stays. The result is never longer than the plan, and bytes of out past it stay. The refusals of reading come first, then
 * 18 (needed length, 0) if out is shorter than the result. Starts, lanes and narrow places are not judged. A result that is moved
 * on by u gives the very bytes of the plan moved on by s + u, and with too little room the same 18; moving on by 0 gives the plan's
 * own bytes. A clause is true in step at the start of the result exactly when it was true in step at the step of counter s. */
struct cartplan_verdict cartplan_move_on(const uint8_t *floor, size_t floor_len,
                                         const uint8_t *plan, size_t plan_len,
                                         uint16_t s, uint8_t *out, size_t out_len);

/* Replaces a cart's row in plan, and changes no other byte of it. Refused as cartplan_check_moves would be; then 19 (cart, 0)
 * for no such cart, 4 (0, 0) for a row that is not of h steps, 9 (cart, step) for the lowest step whose place is not on the
 * floor, and 10 and 11 for the new row. Some of these numbers can come from the plan as well: cartplan_check_moves tells them
 * apart. Done is all zeros: the plan keeps its length. */
struct cartplan_verdict cartplan_replace_row(const uint8_t *floor, size_t floor_len,
                                             uint8_t *plan, size_t plan_len,
                                             uint32_t cart, const uint8_t *row, size_t row_len);

/* A part of a sheet: its first byte's offset, and its length in bytes. */
struct cartplan_span {
    size_t offset, length;
};

/* The clause that a verdict picks, from its line's first byte to the last before the line end. verdict: the four numbers of a
 * cartplan_verdict in 16 bytes, each lowest byte first. For a verdict that names no clause (only refusals 16, 17 and 21 of
 * the rules do), for any other length than 16, or for a clause that the sheet lacks: offset 0, length 0. The sheet is not judged. */
struct cartplan_span cartplan_clause(const uint8_t *rules, size_t rules_len,
                                     const uint8_t *verdict, size_t verdict_len);

#ifdef __cplusplus
}
#endif

#endif
