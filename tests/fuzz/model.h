/* What the harness knows by itself of files that the library accepted. */
#ifndef MODEL_H
#define MODEL_H

#include <stddef.h>
#include <stdint.h>

/* A floor's numbers, as cartplan_write_floor takes them. */
struct floor_numbers {
    uint32_t places[256], groups[8];
    uint8_t lanes[3 * 1024], carts[2 * 32], narrow[256];
    size_t place_count, lanes_len, carts_len, narrow_len, group_count;
};

/* The numbers of an accepted floor. */
void take_apart(const uint8_t *floor, size_t floor_len, struct floor_numbers *numbers);

/* The carts of a group, bit n for cart n; all of them for FLEET. How many a set has. */
enum { FLEET = -1 };
uint32_t carts_of(const struct floor_numbers *numbers, int group);
unsigned size_of(uint32_t carts);

/* Leaves the carts of a list alone, in its order; each group keeps those that it has of them. */
void pick_carts(struct floor_numbers *numbers, const uint8_t *list, size_t n);

/* Their rows of an accepted plan, behind its head; the length. */
size_t pick_rows(const uint8_t *plan, const uint8_t *list, size_t n, uint8_t *out);

/* How many rows an accepted plan has: one a cart. */
unsigned fleet_of(const uint8_t *plan, size_t plan_len);

/* An accepted plan moved on by s, move by move; the length. */
size_t moved_plan(const uint8_t *plan, size_t plan_len, unsigned s, uint8_t *out);

/* Whether carts of an accepted plan whose moves are open get into conflict; the lowest one, and the step of its earliest counter. */
int lowest_conflict(const uint8_t *floor, size_t floor_len, const uint8_t *plan, uint32_t *cart, uint32_t *step);

/* A way to round a share of the carts, in hundredths of a cart, for a count that is negated or not. */
typedef unsigned rounding(unsigned share, int negated);

/* The number of carts nearest to a share, a half going up. */
rounding nearest;

/* A readable sheet with numbers of carts, rounded so, in place of its percentages; its length. */
size_t with_numbers(const uint8_t *rules, size_t rules_len, const struct floor_numbers *numbers, rounding *rounded, uint8_t *out);

/* A readable sheet with other groups: for each group, and behind them for counts of the fleet, a group or FLEET. Its length, at most half as
 * long again as the sheet's. */
size_t with_groups(const uint8_t *rules, size_t rules_len, const int other[9], uint8_t *out);

/* Whether a readable sheet names a group that a floor of so many lacks; the first in its text. */
int missing_group(const uint8_t *rules, size_t rules_len, size_t group_count, uint32_t *clause, uint32_t *group);

/* The carts that each count of a readable text is over; how many counts, at most 64 in a clause. */
size_t sets_of(const uint8_t *text, size_t len, const struct floor_numbers *numbers, uint32_t *sets);

/* A clause that is a count of one mark, with G, F or nothing before it. The number may be a percentage; count and mark may be negated. */
struct lone_count {
    unsigned mark, number;
    int is_share, negated, mark_negated, group;
    uint8_t prefix;
};

/* Whether a readable clause, without its line end, is such a one. */
int lone_count_of(const uint8_t *clause, size_t len, struct lone_count *count);

/* A way to tell whether a row, bit s for step s, is true at all of counters s to s + d. */
typedef int window(uint64_t row, const uint8_t *plan, unsigned s);

/* Counter by counter. */
window throughout;

/* Whether such a clause is true of an accepted floor and plan with such windows; the step of 17 if not. */
int is_kept(const uint8_t *floor, size_t floor_len, const uint8_t *plan, const struct lone_count *count, window *held, uint32_t *step);

/* A clause that is an operator with two sides, by itself or in parentheses behind prefix operators. The left side begins, the
 * operator stands and the right side ends at these bytes; prefix is the first of the operators before, or 0. */
struct sides {
    size_t begin, at, end;
    unsigned prefixes;
    uint8_t prefix, op;
};

/* Whether a readable clause, without its line end, is such a one. */
int sides_of(const uint8_t *clause, size_t len, struct sides *sides);

/* A side that is a count by itself, its number no percentage: its inner text, number and group. */
struct plain_count {
    const uint8_t *text;
    size_t len;
    unsigned number;
    int group;
};

/* Whether a readable part of a clause is such a one. */
int plain_count_of(const uint8_t *part, size_t len, struct plain_count *count);

/* The clause with a pattern in place of the operator and its sides, which are a and b in it; its length. */
size_t rewritten(const uint8_t *clause, size_t len, const struct sides *sides, const char *pattern, uint8_t *out);

#endif
