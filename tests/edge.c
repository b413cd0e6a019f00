/* The C interface from C: document 01's floor and plan written, compared with bytes written out by hand and read back, its
 * moves checked, the plan checked, moved on once and twice and a row replaced; a sheet read and a clause picked; percentages of
 * carts; 64 steps, 32 carts, many lanes, marks that no place bears; narrow places written, read and met; groups written, read
 * and counted; empty buffers as null pointers; room one byte short; a refusal of each function. */
#include <stdio.h>
#include <string.h>

#include "cartplan.h"

#define FLOOR_LEN 56
#define PLAN_LEN 26
#define ROOM 80
#define FILL 0xa5

static const uint8_t floor_bytes[FLOOR_LEN] = {
    4, 0, 1, 0, 1, 0, 0, 0, /* place 0: m0 */
    4, 0, 1, 0, 2, 0, 0, 0, /* place 1: m1 */
    3, 0, 2, 0, 0, 1, 255,  /* lanes */
    3, 0, 2, 0, 1, 0, 255,
    3, 0, 2, 0, 0, 0, 255,
    3, 0, 2, 0, 1, 1, 255,
    2, 0, 3, 0, 0, 0, /* carts: class, start */
    2, 0, 3, 0, 0, 0,
};

static const uint8_t plan_bytes[PLAN_LEN] = {
    6, 0, 4, 0, 4, 0, 0, 0, 0, 0, /* h, l, d */
    4, 0, 5, 0, 0, 1, 1, 0,       /* rows */
    4, 0, 5, 0, 0, 0, 1, 1,
};

static const uint32_t places[2] = {1, 2};
static const uint8_t lanes[12] = {0, 1, 255, 1, 0, 255, 0, 0, 255, 1, 1, 255};
static const uint8_t carts[4] = {0, 0, 0, 0};
static const uint8_t rows[8] = {0, 1, 1, 0, 0, 0, 1, 1};

static int checks, failed;

static void check(int holds, const char *name)
{
    checks++;
    if (!holds) {
        failed++;
        printf("edge: %s: wrong\n", name);
    }
}

static void check_numbers(struct cartplan_verdict is, uint32_t about, uint32_t number, uint32_t first, uint32_t second,
                          const char *name)
{
    checks++;
    if (is.about != about || is.number != number || is.first != first || is.second != second) {
        failed++;
        printf("edge: %s: got %u %u %u %u, wanted %u %u %u %u\n", name, (unsigned)is.about, (unsigned)is.number,
               (unsigned)is.first, (unsigned)is.second, (unsigned)about, (unsigned)number, (unsigned)first,
               (unsigned)second);
    }
}

static void check_verdict(struct cartplan_verdict is, uint32_t about, uint32_t number, uint32_t first, const char *name)
{
    check_numbers(is, about, number, first, 0, name);
}

/* Whether bytes from `from` up to ROOM still hold the fill. */
static int untouched(const uint8_t *buffer, size_t from)
{
    for (size_t i = from; i < ROOM; i++)
        if (buffer[i] != FILL)
            return 0;
    return 1;
}

static struct cartplan_verdict write_floor(uint8_t *out, size_t room)
{
    memset(out, FILL, ROOM);
    return cartplan_write_floor(places, 2, lanes, sizeof lanes, carts, sizeof carts, NULL, 0, NULL, 0, out, room);
}

static struct cartplan_verdict write_plan(uint8_t *out, size_t room)
{
    memset(out, FILL, ROOM);
    return cartplan_write_plan(floor_bytes, FLOOR_LEN, 4, 0, 0, rows, sizeof rows, out, room);
}

static void check_layout(void)
{
    check(sizeof(struct cartplan_verdict) == 16, "a verdict is 16 bytes");
    check(offsetof(struct cartplan_verdict, about) == 0, "about stands first");
    check(offsetof(struct cartplan_verdict, number) == 4, "number stands second");
    check(offsetof(struct cartplan_verdict, first) == 8, "first stands third");
    check(offsetof(struct cartplan_verdict, second) == 12, "second stands last");
}

static void check_floor_written(void)
{
    uint8_t out[ROOM];

    check_verdict(write_floor(out, ROOM), 0, 0, FLOOR_LEN, "floor written");
    check(memcmp(out, floor_bytes, FLOOR_LEN) == 0, "floor's bytes");
    check(untouched(out, FLOOR_LEN), "bytes past the floor");
    check_verdict(cartplan_read_floor(out, FLOOR_LEN), 0, 0, 0, "floor read back");
    check(memcmp(out, floor_bytes, FLOOR_LEN) == 0, "floor unchanged by reading");

    check_verdict(write_floor(out, FLOOR_LEN), 0, 0, FLOOR_LEN, "floor written, just room");
    check(memcmp(out, floor_bytes, FLOOR_LEN) == 0, "floor's bytes, just room");
    check(untouched(out, FLOOR_LEN), "bytes past the room");

    check_verdict(write_floor(out, FLOOR_LEN - 1), 1, 18, FLOOR_LEN, "floor, one byte short");
    check(untouched(out, 0), "no byte of a floor refused for room");
}

static void check_plan_written(void)
{
    uint8_t out[ROOM];

    check_verdict(write_plan(out, ROOM), 0, 0, PLAN_LEN, "plan written");
    check(memcmp(out, plan_bytes, PLAN_LEN) == 0, "plan's bytes");
    check(untouched(out, PLAN_LEN), "bytes past the plan");
    check_verdict(cartplan_read_plan(floor_bytes, FLOOR_LEN, out, PLAN_LEN), 0, 0, 0, "plan read back");
    check(memcmp(out, plan_bytes, PLAN_LEN) == 0, "plan unchanged by reading");

    check_verdict(write_plan(out, PLAN_LEN), 0, 0, PLAN_LEN, "plan written, just room");
    check(memcmp(out, plan_bytes, PLAN_LEN) == 0, "plan's bytes, just room");
    check(untouched(out, PLAN_LEN), "bytes past the room");

    check_verdict(write_plan(out, PLAN_LEN - 1), 2, 18, PLAN_LEN, "plan, one byte short");
    check(untouched(out, 0), "no byte of a plan refused for room");
}

static void check_moves(void)
{
    uint8_t plan[PLAN_LEN];

    memcpy(plan, plan_bytes, PLAN_LEN);
    check_verdict(cartplan_check_moves(floor_bytes, FLOOR_LEN, plan, PLAN_LEN), 0, 0, 0, "moves accepted");
    plan[22] = 1; /* cart 1's first place */
    check_verdict(cartplan_check_moves(floor_bytes, FLOOR_LEN, plan, PLAN_LEN), 2, 10, 1, "begins elsewhere");
    check_verdict(cartplan_check_moves(floor_bytes, FLOOR_LEN, plan, 18), 2, 7, 18, "moves with a row missing");
    check_verdict(cartplan_check_moves(plan, PLAN_LEN, floor_bytes, FLOOR_LEN), 1, 3, 0, "files exchanged");
    check_verdict(cartplan_check_moves(NULL, 0, NULL, 0), 1, 7, 0, "moves of nothing");
    check(memcmp(plan, plan_bytes, 22) == 0 && plan[22] == 1 && memcmp(plan + 23, plan_bytes + 23, 3) == 0,
          "plan unchanged by the check");
}

/* The paper's floor without its lanes from a place to itself, 42 bytes: carts park. Then without the lane from place 1 to 0 too. */
static void check_parked(void)
{
    static const uint8_t away[4] = {0, 0, 0, 1}, parked[4] = {0, 1, 1, 1};
    static const uint8_t sheet[] = "F [m1,2]\n";
    uint8_t floor[FLOOR_LEN - 14], plan[PLAN_LEN];

    memcpy(floor, floor_bytes, 30);
    memcpy(floor + 30, floor_bytes + 44, 12);
    memcpy(plan, plan_bytes, PLAN_LEN);
    check_verdict(cartplan_check_moves(floor, sizeof floor, plan, PLAN_LEN), 0, 0, 0, "carts park");
    check_verdict(cartplan_check(floor, sizeof floor, plan, PLAN_LEN, sheet, sizeof sheet - 1), 0, 0, 0, "checked, carts park");
    check_verdict(cartplan_replace_row(floor, sizeof floor, plan, PLAN_LEN, 1, parked, 4), 0, 0, 0, "a row that parks");
    check(memcmp(plan, plan_bytes, 22) == 0 && memcmp(plan + 22, parked, 4) == 0, "the parked row's bytes alone");

    memcpy(floor + 23, floor_bytes + 44, 12);
    check_numbers(cartplan_check_moves(floor, 35, plan, PLAN_LEN), 2, 11, 0, 2, "no lane back");
    plan[6] = 3; /* the lap is the last step alone */
    plan[17] = 1;
    check_verdict(cartplan_check_moves(floor, 35, plan, PLAN_LEN), 0, 0, 0, "parked by the closing move");
    plan[6] = 0;
    memset(plan + 14, 0, 4);
    memset(plan + 22, 0, 4);
    check_numbers(cartplan_replace_row(floor, 35, plan, PLAN_LEN, 1, away, 4), 2, 11, 1, 3, "a row that does not come back");
    check_numbers(cartplan_check(floor, 35, plan_bytes, PLAN_LEN, sheet, sizeof sheet - 1), 2, 11, 0, 2, "checked, no lane back");
    check_verdict(cartplan_check_moves(floor, 35, plan, PLAN_LEN), 0, 0, 0, "all parked");
}

static void check_moved_on(void)
{
    static const uint8_t moved[PLAN_LEN] = {
        6, 0, 4, 0, 4, 0, 0, 0, 0, 0, 4, 0, 5, 0, 1, 0, 0, 1, 4, 0, 5, 0, 1, 1, 0, 0,
    };
    uint8_t out[ROOM];

    memset(out, FILL, ROOM);
    check_verdict(cartplan_move_on(floor_bytes, FLOOR_LEN, plan_bytes, PLAN_LEN, 2, out, 25), 2, 18, 26, "a byte short");
    check_verdict(cartplan_move_on(floor_bytes, FLOOR_LEN, plan_bytes, PLAN_LEN, 2, NULL, 0), 2, 18, 26, "moved to null");
    check_verdict(cartplan_move_on(NULL, 0, plan_bytes, PLAN_LEN, 2, out, ROOM), 1, 7, 0, "moved on a null floor");
    check_verdict(cartplan_move_on(floor_bytes, FLOOR_LEN, NULL, 0, 2, out, ROOM), 2, 7, 0, "null plan moved on");
    check(untouched(out, 0), "no byte of a refused move-on");
    check_verdict(cartplan_move_on(floor_bytes, FLOOR_LEN, plan_bytes, PLAN_LEN, 65534, out, ROOM), 0, 0, 26, "moved on");
    check(memcmp(out, moved, PLAN_LEN) == 0, "the moved plan's bytes");
    check(untouched(out, PLAN_LEN), "bytes past the moved plan");
}

/* Moves a plan on by s; the result has to be these bytes, with the others of out unchanged. */
static void check_moved(const uint8_t *plan, size_t len, uint16_t s, const uint8_t *due, size_t due_len, const char *name)
{
    uint8_t out[ROOM];

    memset(out, FILL, ROOM);
    check_verdict(cartplan_move_on(floor_bytes, FLOOR_LEN, plan, len, s, out, due_len - 1), 2, 18, (uint32_t)due_len, name);
    check(untouched(out, 0), name);
    check_verdict(cartplan_move_on(floor_bytes, FLOOR_LEN, plan, len, s, out, ROOM), 0, 0, (uint32_t)due_len, name);
    check(memcmp(out, due, due_len) == 0 && untouched(out, due_len), name);
}

/* Three steps of run-in and a lap of three: by 2 and then 3, by l and then 2, and by 5 at once. By 0 any plan is given back. */
static void check_added_up(void)
{
    static const uint8_t old[30] = {6, 0, 4, 0, 6, 0, 3, 0, 2, 0, 6, 0, 5, 0, 0, 1, 1, 0, 1, 1, 6, 0, 5, 0, 0, 0, 1, 1, 0, 1};
    static const uint8_t by_2[26] = {6, 0, 4, 0, 4, 0, 1, 0, 2, 0, 4, 0, 5, 0, 1, 0, 1, 1, 4, 0, 5, 0, 1, 1, 0, 1};
    static const uint8_t by_3[24] = {6, 0, 4, 0, 3, 0, 0, 0, 2, 0, 3, 0, 5, 0, 0, 1, 1, 3, 0, 5, 0, 1, 0, 1};
    static const uint8_t by_5[24] = {6, 0, 4, 0, 3, 0, 0, 0, 2, 0, 3, 0, 5, 0, 1, 0, 1, 3, 0, 5, 0, 1, 1, 0};

    check_moved(old, sizeof old, 2, by_2, sizeof by_2, "moved on by 2");
    check_moved(by_2, sizeof by_2, 3, by_5, sizeof by_5, "moved on by 2 and 3");
    check_moved(old, sizeof old, 3, by_3, sizeof by_3, "moved on by l");
    check_moved(by_3, sizeof by_3, 2, by_5, sizeof by_5, "moved on by l and 2");
    check_moved(old, sizeof old, 5, by_5, sizeof by_5, "moved on by 5");
    check_moved(by_5, sizeof by_5, 65530, by_3, sizeof by_3, "moved on by 5 and 65,530");
    check_moved(old, sizeof old, 65535, by_3, sizeof by_3, "moved on by 65,535");
    check_moved(old, sizeof old, 65534, by_5, sizeof by_5, "moved on by 65,534");
    check_moved(old, sizeof old, 0, old, sizeof old, "moved on by 0");
    check_moved(by_5, sizeof by_5, 0, by_5, sizeof by_5, "moved on by 5 and 0");
}

static void check_replaced(void)
{
    static const uint8_t row[5] = {0, 1, 0, 1, 9};
    uint8_t plan[PLAN_LEN];

    memcpy(plan, plan_bytes, PLAN_LEN);
    check_verdict(cartplan_replace_row(floor_bytes, FLOOR_LEN, plan, PLAN_LEN, 2, row, 4), 2, 19, 2, "no cart 2");
    check_verdict(cartplan_replace_row(floor_bytes, FLOOR_LEN, plan, PLAN_LEN, UINT32_MAX, NULL, 0), 2, 19, UINT32_MAX,
                  "no such cart, null row");
    check_verdict(cartplan_replace_row(floor_bytes, FLOOR_LEN, plan, PLAN_LEN, 1, NULL, 0), 2, 4, 0, "null row");
    check_verdict(cartplan_replace_row(floor_bytes, FLOOR_LEN, plan, PLAN_LEN, 1, row, 5), 2, 4, 0, "a step too many");
    check_numbers(cartplan_replace_row(floor_bytes, FLOOR_LEN, plan, PLAN_LEN, 1, row + 1, 4), 2, 9, 1, 3, "absent place");
    check_numbers(cartplan_replace_row(floor_bytes, FLOOR_LEN, plan, PLAN_LEN, 1, plan_bytes + 15, 4), 2, 9, 1, 3, "a row cut askew");
    check_verdict(cartplan_replace_row(NULL, 0, plan, PLAN_LEN, 1, row, 4), 1, 7, 0, "replaced on a null floor");
    check_verdict(cartplan_replace_row(floor_bytes, FLOOR_LEN, NULL, 0, 1, row, 4), 2, 7, 0, "null plan");
    check(memcmp(plan, plan_bytes, PLAN_LEN) == 0, "no byte of a refused replacement");
    check_verdict(cartplan_replace_row(floor_bytes, FLOOR_LEN, plan, PLAN_LEN, 1, row, 4), 0, 0, 0, "row replaced");
    check(memcmp(plan, plan_bytes, 22) == 0 && memcmp(plan + 22, row, 4) == 0, "that row's bytes alone");
}

static const uint8_t sheet[] = "G [m0,1]\n !true\n";
#define SHEET_LEN (sizeof sheet - 1)

static void check_sheet(void)
{
    check_verdict(cartplan_read_rules(sheet, SHEET_LEN), 0, 0, 0, "sheet read");
    check_verdict(cartplan_read_rules(sheet, SHEET_LEN - 1), 3, 13, SHEET_LEN - 1, "no byte 10 at the end");
    check_verdict(cartplan_read_rules(sheet + 2, SHEET_LEN - 2), 0, 0, 0, "a count alone");
    check_verdict(cartplan_read_rules(sheet + 3, SHEET_LEN - 3), 3, 13, 0, "a mark outside a count");
    check_verdict(cartplan_read_rules(NULL, 0), 3, 7, 0, "null sheet");
}

static void check_plan_checked(void)
{
    static const uint8_t always[] = "G [m0,1]\n", ahead[] = "[m0,3]\nX [m1,1]\n", reached[] = "F [m1,2]\n";
    uint8_t plan[PLAN_LEN];
    memcpy(plan, plan_bytes, PLAN_LEN);

    check_verdict(cartplan_check(floor_bytes, FLOOR_LEN, plan, PLAN_LEN, reached, sizeof reached - 1), 0, 0, 0, "plan accepted");
    check_numbers(cartplan_check(floor_bytes, FLOOR_LEN, plan, PLAN_LEN, always, sizeof always - 1), 3, 17, 0, 2, "a G that fails");
    check_verdict(cartplan_check(floor_bytes, FLOOR_LEN, plan, PLAN_LEN, NULL, 0), 3, 7, 0, "checked with a null sheet");
    check_verdict(cartplan_check(floor_bytes, FLOOR_LEN, NULL, 0, reached, sizeof reached - 1), 2, 7, 0, "checked with a null plan");
    check_verdict(cartplan_check(NULL, 0, plan, PLAN_LEN, reached, sizeof reached - 1), 1, 7, 0, "checked on a null floor");
    check_verdict(cartplan_check(floor_bytes, FLOOR_LEN, plan, PLAN_LEN, reached, sizeof reached - 2), 3, 13, 8, "a sheet cut short");
    plan[8] = 1;
    check_numbers(cartplan_check(floor_bytes, FLOOR_LEN, plan, PLAN_LEN, reached, sizeof reached - 1), 3, 17, 0, 0, "with drift 1");
    check_numbers(cartplan_check(floor_bytes, FLOOR_LEN, plan, PLAN_LEN, ahead, sizeof ahead - 1), 3, 16, 1, 0, "16 before 17");
    plan[14] = 1;
    check_numbers(cartplan_check(floor_bytes, FLOOR_LEN, plan, PLAN_LEN, NULL, 0), 2, 10, 0, 0, "moves before the sheet");
}

/* Five parked carts, so many of them on place 1: what the check says of a sheet with percentages. */
static struct cartplan_verdict check_five(size_t on_1, const char *rules)
{
    static const uint8_t head[10] = {6, 0, 4, 0, 1, 0, 0, 0, 0, 0};
    uint8_t floor[ROOM], plan[10 + 5 * 5], starts[10] = {0};

    memcpy(plan, head, sizeof head);
    for (size_t n = 0; n < 5; n++) {
        const uint8_t row[5] = {1, 0, 5, 0, n < on_1};
        memcpy(plan + 10 + 5 * n, row, sizeof row);
        starts[2 * n + 1] = n < on_1;
    }
    check_verdict(cartplan_write_floor(places, 2, NULL, 0, starts, sizeof starts, NULL, 0, NULL, 0, floor, ROOM), 0, 0, 46, "five carts");
    return cartplan_check(floor, 46, plan, sizeof plan, (const uint8_t *)rules, strlen(rules));
}

/* A share is rounded to the nearest cart, a half going up: 25% of 5 is 1, 30% is 2, 50% is 3. */
static void check_percentages(void)
{
    check_verdict(check_five(1, "[m1,25%]\n"), 0, 0, 0, "25% of 5 is 1");
    check_verdict(check_five(0, "[m1,25%]\n"), 3, 17, 0, "25% of 5, none there");
    check_verdict(check_five(2, "[m1,30%]\n"), 0, 0, 0, "30% of 5 is 2");
    check_verdict(check_five(1, "[m1,30%]\n"), 3, 17, 0, "30% of 5, one there");
    check_verdict(check_five(3, "[m1,50%]\n"), 0, 0, 0, "50% of 5 is 3");
    check_verdict(check_five(2, "[m1,50%]\n"), 3, 17, 0, "50% of 5, two there");
    check_verdict(check_five(2, "![m1,50%]\n"), 0, 0, 0, "50% of 5 negated is 3");
    check_verdict(check_five(3, "![m1,50%]\n"), 3, 17, 0, "50% of 5 negated, two elsewhere");
    check_verdict(check_five(0, "G [m1,9%]\n"), 0, 0, 0, "9% of 5 is 0");
    check_verdict(check_five(0, "true\nG ![m1,9%]\n"), 3, 17, 1, "9% of 5 negated");
    check_verdict(check_five(0, "[m1,10%]\n"), 3, 17, 0, "10% of 5 is 1");
    check_verdict(check_five(4, "[m1,100%]\n"), 3, 17, 0, "100% of 5, four there");
    check_verdict(check_five(0, "[m1,101%]\n"), 3, 15, 4, "101%");
}

/* The paper's floor and two carts over 64 steps: both on m0, the first on m1 from step 62 on, the second at step 63. */
static struct cartplan_verdict check_long(uint16_t drift, const char *rules)
{
    uint8_t both[128] = {0}, plan[146];

    both[62] = both[63] = both[127] = 1;
    check_verdict(cartplan_write_plan(floor_bytes, FLOOR_LEN, 64, 32, drift, both, sizeof both, plan, sizeof plan), 0, 0, sizeof plan,
                  "64 steps");
    return cartplan_check(floor_bytes, FLOOR_LEN, plan, sizeof plan, (const uint8_t *)rules, strlen(rules));
}

/* On that plan: true; false, with drift too; the same with texts of 12 and of 13 nodes; with two texts of 11 in a clause of 25 or 26; X outside a
 * count. A leaf put beside itself six times: 64 of them with its truth, a text of 127 nodes that needs all places for tables. */
#define KEPT "[F m1,2]\n"
#define BROKEN "G [m0,1]\n"
#define LARGE "[F m1|m2|m2|m2|m2|m2,2]\n"
#define LARGE_BROKEN "G [m0|m2|m2|m2|m2|m2|m2,1]\n"
#define WIDE "[m0|m2|m2|m2|m2|m2,1] & [m0|m2|m2|m2|m2|m2,2]\n"
#define WIDE_BROKEN "G ([m0|m2|m2|m2|m2|m2,1] & [m0|m1|m2|m2|m2|m2,2])\n"
#define AHEAD "X true\n"
#define TWICE(operator, text) "(" text operator text ")"
#define FULL(text) TWICE("|", TWICE("U", TWICE("&", TWICE("R", TWICE("U", TWICE("|", text))))))

static void check_large_clauses(void)
{
    check_verdict(check_long(0, LARGE KEPT KEPT), 0, 0, 0, "the first clause is large");
    check_verdict(check_long(0, KEPT LARGE KEPT), 0, 0, 0, "the second of three");
    check_verdict(check_long(16, KEPT KEPT LARGE), 0, 0, 0, "the last");
    check_numbers(check_long(0, BROKEN LARGE KEPT), 3, 17, 0, 63, "17 before a large clause");
    check_numbers(check_long(0, KEPT LARGE_BROKEN KEPT), 3, 17, 1, 63, "17 by a large clause");
    check_numbers(check_long(16, KEPT LARGE BROKEN), 3, 17, 2, 62, "17 behind a large clause");
    check_numbers(check_long(0, KEPT BROKEN LARGE LARGE_BROKEN), 3, 17, 1, 63, "17 before it and behind it");
    check_numbers(check_long(1, KEPT AHEAD LARGE_BROKEN), 3, 16, 1, 0, "16 before a large clause");
    check_numbers(check_long(1, BROKEN LARGE AHEAD), 3, 16, 2, 0, "16 behind a large clause, 17 before it");
    check_numbers(check_long(1, LARGE_BROKEN AHEAD), 3, 16, 1, 0, "16 behind a large clause that is false");
    check_verdict(check_long(0, LARGE AHEAD), 0, 0, 0, "no 16 without drift");
    check_verdict(check_long(16, WIDE KEPT WIDE), 0, 0, 0, "large clauses of small texts");
    check_numbers(check_long(0, WIDE WIDE_BROKEN), 3, 17, 1, 63, "17 by a large clause of small texts");
    check_numbers(check_long(16, WIDE LARGE WIDE_BROKEN), 3, 17, 2, 62, "17 by one behind a large text");
    check_verdict(check_long(16, "[" FULL("m0") ",2]\n" KEPT), 0, 0, 0, "64 leaves");
    check_numbers(check_long(0, KEPT "[" FULL("m1") ",1]\n"), 3, 17, 1, 0, "64 leaves, false");
}

/* 32 carts over 64 steps with a lap of one step: cart n is on m0 up to step 31 + n, and then on m1. */
static void check_many_carts(void)
{
    static const uint8_t starts[64] = {0}, last[] = "G [m0,1]\n", all[] = "F G [m1,32]\n[m0 U m1,32]\nG ([m0,1] | [m1,1])\n";
    uint8_t floor[256], plan[2186], steps[2048];

    for (size_t n = 0; n < 32; n++)
        for (size_t s = 0; s < 64; s++)
            steps[64 * n + s] = s >= 32 + n;
    check_verdict(cartplan_write_floor(places, 2, lanes, sizeof lanes, starts, 64, NULL, 0, NULL, 0, floor, sizeof floor), 0, 0, 236, "32 carts");
    check_verdict(cartplan_write_plan(floor, 236, 64, 63, 16, steps, 2048, plan, sizeof plan), 0, 0, sizeof plan, "their plan");
    check_verdict(cartplan_check(floor, 236, plan, sizeof plan, all, sizeof all - 1), 0, 0, 0, "32 carts in turn");
    check_numbers(cartplan_check(floor, 236, plan, sizeof plan, last, sizeof last - 1), 3, 17, 0, 47, "the last one within drift 16");
    plan[8] = 0;
    check_numbers(cartplan_check(floor, 236, plan, sizeof plan, last, sizeof last - 1), 3, 17, 0, 63, "the last one in step");
}

/* So many lanes from place 0 to 1, of which only the last may be open to class 0, and a plan that goes there. */
static void check_many_lanes(size_t count)
{
    static const uint8_t parked[4] = {0, 0, 0, 0}, going[4] = {0, 1, 1, 1}, reached[] = "F [m1,2]\n";
    const size_t len = 16 + 7 * count + 12;
    uint8_t many[3 * 129], floor[1024], plan[PLAN_LEN];

    for (size_t k = 0; k < count; k++)
        memcpy(many + 3 * k, (const uint8_t[3]){0, 1, k + 1 == count ? 1 : 254}, 3);
    check_verdict(cartplan_write_floor(places, 2, many, 3 * count, carts, sizeof carts, NULL, 0, NULL, 0, floor, sizeof floor), 0, 0, (uint32_t)len,
                  "many lanes");
    memcpy(plan, plan_bytes, PLAN_LEN);
    plan[6] = 3; /* the lap is the last step */
    memcpy(plan + 14, going, 4);
    memcpy(plan + 22, parked, 4);
    check_verdict(cartplan_check_moves(floor, len, plan, PLAN_LEN), 0, 0, 0, "the last of many lanes");
    check_verdict(cartplan_replace_row(floor, len, plan, PLAN_LEN, 1, going, 4), 0, 0, 0, "a row by the last of many lanes");
    check(memcmp(plan + 22, going, 4) == 0, "that row's bytes");
    check_verdict(cartplan_check(floor, len, plan, PLAN_LEN, reached, sizeof reached - 1), 0, 0, 0, "checked by the last of many lanes");
    floor[len - 13] = 254; /* the last lane's classes */
    check_numbers(cartplan_check_moves(floor, len, plan, PLAN_LEN), 2, 11, 0, 0, "none of many lanes");
    memcpy(plan + 14, parked, 4);
    memcpy(plan + 22, parked, 4);
    check_numbers(cartplan_replace_row(floor, len, plan, PLAN_LEN, 1, going, 4), 2, 11, 1, 0, "a row by none of many lanes");
    check(memcmp(plan + 22, parked, 4) == 0, "no byte of that row");
}

/* The paper's plan, its first place with one mark or none, its second with none. */
static struct cartplan_verdict check_marks(uint32_t marks, const char *rules)
{
    const uint32_t own[2] = {marks, 0};
    uint8_t floor[FLOOR_LEN];

    check_verdict(cartplan_write_floor(own, 2, lanes, sizeof lanes, carts, sizeof carts, NULL, 0, NULL, 0, floor, FLOOR_LEN), 0, 0, FLOOR_LEN, "marks");
    return cartplan_check(floor, FLOOR_LEN, plan_bytes, PLAN_LEN, (const uint8_t *)rules, strlen(rules));
}

static void check_few_marks(void)
{
    check_verdict(check_marks(0, "G ![m0,1]\nG ![m31,1]\n"), 0, 0, 0, "no mark at all");
    check_verdict(check_marks(0, "true\nF [m0,1]\n"), 3, 17, 1, "m0 on no place");
    check_verdict(check_marks(1, "[m0,2]\nG ![m1,1]\nG ![m2,1]\n"), 0, 0, 0, "m0 alone");
    check_verdict(check_marks(1, "F [m1,1]\n"), 3, 17, 0, "m1 beside m0 alone");
    check_numbers(check_marks(1, "G [m0,1]\n"), 3, 17, 0, 2, "m0 alone, its step");
    check_verdict(check_marks(UINT32_C(1) << 31, "[m31,2]\nG ![m30,1]\n"), 0, 0, 0, "m31 alone");
    check_verdict(check_marks(UINT32_C(1) << 30, "F [m31,1]\n"), 3, 17, 0, "m31 above m30 alone");
}

/* The paper's floor with both places narrow, place 1 named twice: 71 bytes. */
#define NARROW_LEN (FLOOR_LEN + 15)
static const uint8_t narrow[3] = {1, 0, 1};
static const uint8_t narrow_bytes[15] = {1, 0, 6, 0, 1, 1, 0, 6, 0, 0, 1, 0, 6, 0, 1};

static struct cartplan_verdict write_narrow(size_t count, uint8_t *out, size_t room)
{
    memset(out, FILL, ROOM);
    return cartplan_write_floor(places, 2, lanes, sizeof lanes, carts, sizeof carts, narrow, count, NULL, 0, out, room);
}

static void check_narrow_written(void)
{
    static const uint8_t absent[2] = {0, 2};
    uint8_t out[ROOM];

    check_verdict(write_narrow(3, out, NARROW_LEN - 1), 1, 18, NARROW_LEN, "narrow places, one byte short");
    check_verdict(cartplan_write_floor(places, 2, lanes, 12, carts, 4, absent, 2, NULL, 0, out, ROOM), 1, 6, 61, "absent narrow place");
    check_verdict(cartplan_write_floor(places, 2, NULL, 0, NULL, 0, narrow, 1, NULL, 0, out, ROOM), 1, 7, 21, "a narrow place and no cart");
    check(untouched(out, 0), "no byte of refused narrow places");
    check_verdict(write_narrow(3, out, NARROW_LEN), 0, 0, NARROW_LEN, "narrow places, just room");
    check(memcmp(out, floor_bytes, FLOOR_LEN) == 0, "the floor before them");
    check(memcmp(out + FLOOR_LEN, narrow_bytes, sizeof narrow_bytes) == 0, "the narrow places' bytes");
    check(untouched(out, NARROW_LEN), "bytes past the narrow places");
    check(narrow[0] == 1 && narrow[1] == 0 && narrow[2] == 1, "narrow places unchanged");
    check_verdict(cartplan_read_floor(out, NARROW_LEN), 0, 0, 0, "narrow places read back");
    check_verdict(cartplan_read_floor(out, NARROW_LEN - 1), 1, 2, 66, "a narrow place cut short");
    out[NARROW_LEN - 1] = 2;
    check_verdict(cartplan_read_floor(out, NARROW_LEN), 1, 6, 66, "the last narrow place absent");
    out[NARROW_LEN - 3] = 3;
    check_verdict(cartplan_read_floor(out, NARROW_LEN), 1, 3, 66, "a cart behind a narrow place");
}

/* The floor with place 1 narrow: both carts of the paper's plan are there at step 2, with drift 1 at counters 1 and 2. */
static void check_conflicts(void)
{
    static const uint8_t away[4] = {0, 0, 0, 0}, wrong[] = "?";
    uint8_t floor[FLOOR_LEN + 5], plan[PLAN_LEN], kept[PLAN_LEN];

    memcpy(floor, floor_bytes, FLOOR_LEN);
    memcpy(floor + FLOOR_LEN, narrow_bytes, 5);
    memcpy(plan, plan_bytes, PLAN_LEN);
    check_numbers(cartplan_check(floor, sizeof floor, plan, PLAN_LEN, sheet, SHEET_LEN), 2, 20, 0, 2, "met in step");
    check_numbers(cartplan_check(floor, sizeof floor, plan, PLAN_LEN, NULL, 0), 2, 20, 0, 2, "met, with a null sheet");
    plan[8] = 1;
    memcpy(kept, plan, PLAN_LEN);
    check_numbers(cartplan_check(floor, sizeof floor, plan, PLAN_LEN, wrong, 1), 2, 20, 0, 1, "met with drift 1, before the sheet");
    check_verdict(cartplan_check_moves(floor, sizeof floor, plan, PLAN_LEN), 0, 0, 0, "moves of carts that meet");
    check(memcmp(plan, kept, PLAN_LEN) == 0 && memcmp(floor, floor_bytes, FLOOR_LEN) == 0, "files unchanged by 20");
    plan[22] = 1;
    check_numbers(cartplan_check(floor, sizeof floor, plan, PLAN_LEN, sheet, SHEET_LEN), 2, 10, 1, 0, "10 before 20");
    plan[22] = 0;
    check_verdict(cartplan_replace_row(floor, sizeof floor, plan, PLAN_LEN, 1, away, 4), 0, 0, 0, "replaced where carts meet");
    check_numbers(cartplan_check(floor, sizeof floor, plan, PLAN_LEN, sheet, SHEET_LEN), 3, 17, 1, 0, "met no longer");
    floor[FLOOR_LEN + 4] = 0;
    check_numbers(cartplan_check(floor, sizeof floor, plan, PLAN_LEN, sheet, SHEET_LEN), 2, 20, 0, 0, "met at the start");
}

/* Place 0 and 1 narrow, a cart on each: they park, and then change places at drift 0. */
static void check_swap(void)
{
    static const uint8_t apart[4] = {0, 0, 0, 1}, reached[] = "G [m1,1]\n";
    uint8_t floor[ROOM], parked[20] = {6, 0, 4, 0, 1, 0, 0, 0, 16, 0, 1, 0, 5, 0, 0, 1, 0, 5, 0, 1};
    uint8_t swapped[22] = {6, 0, 4, 0, 2, 0, 1, 0, 0, 0, 2, 0, 5, 0, 0, 1, 2, 0, 5, 0, 1, 0};

    check_verdict(cartplan_write_floor(places, 2, lanes, 12, apart, 4, narrow, 2, NULL, 0, floor, ROOM), 0, 0, 66, "a cart on each place");
    check_verdict(cartplan_check(floor, 66, parked, sizeof parked, reached, sizeof reached - 1), 0, 0, 0, "parked in narrow places");
    check_verdict(cartplan_check_moves(floor, 66, swapped, sizeof swapped), 0, 0, 0, "moves that swap");
    check_numbers(cartplan_check(floor, 66, swapped, sizeof swapped, reached, sizeof reached - 1), 2, 20, 0, 0, "swapped");
    check_verdict(cartplan_check(floor, 61, swapped, sizeof swapped, reached, sizeof reached - 1), 0, 0, 0, "one of the two narrow");
}

/* The paper's floor with groups of cart 1, of no cart and of both: 80 bytes. */
#define GROUPS_LEN (FLOOR_LEN + 24)
static const uint32_t groups[3] = {2, 0, 3};
static const uint8_t group_bytes[24] = {4, 0, 7, 0, 2, 0, 0, 0, 4, 0, 7, 0, 0, 0, 0, 0, 4, 0, 7, 0, 3, 0, 0, 0};

static struct cartplan_verdict write_groups(size_t count, uint8_t *out, size_t room)
{
    memset(out, FILL, ROOM);
    return cartplan_write_floor(places, 2, lanes, sizeof lanes, carts, sizeof carts, NULL, 0, groups, count, out, room);
}

static void check_groups_written(void)
{
    static const uint32_t absent[2] = {1, 4}, nine[9] = {0}, last[1] = {UINT32_C(1) << 31};
    uint8_t out[ROOM];

    check_verdict(write_groups(3, out, GROUPS_LEN - 1), 1, 18, GROUPS_LEN, "groups, one byte short");
    check_verdict(cartplan_write_floor(places, 2, lanes, 12, carts, 4, NULL, 0, absent, 2, out, ROOM), 1, 6, 64, "a group of an absent cart");
    check_verdict(cartplan_write_floor(places, 2, lanes, 12, carts, 4, narrow, 1, last, 1, out, ROOM), 1, 6, 61, "a group of cart 31");
    check_verdict(cartplan_write_floor(places, 2, lanes, 12, carts, 4, NULL, 0, nine, 9, out, ROOM), 1, 5, 120, "nine groups");
    check_verdict(cartplan_write_floor(places, 2, NULL, 0, NULL, 0, NULL, 0, nine, 1, out, ROOM), 1, 7, 24, "a group and no cart");
    check(untouched(out, 0), "no byte of refused groups");
    check_verdict(write_groups(2, out, GROUPS_LEN - 8), 0, 0, GROUPS_LEN - 8, "groups, just room");
    check(untouched(out, GROUPS_LEN - 8), "bytes past the groups");
    check_verdict(write_groups(3, out, GROUPS_LEN), 0, 0, GROUPS_LEN, "three groups");
    check(memcmp(out, floor_bytes, FLOOR_LEN) == 0, "the floor before them");
    check(memcmp(out + FLOOR_LEN, group_bytes, sizeof group_bytes) == 0, "the groups' bytes");
    check(groups[0] == 2 && groups[1] == 0 && groups[2] == 3, "groups unchanged");
    check_verdict(cartplan_read_floor(out, GROUPS_LEN), 0, 0, 0, "groups read back");
    check_verdict(cartplan_read_floor(out, GROUPS_LEN - 1), 1, 2, 72, "a group cut short");
    out[GROUPS_LEN - 1] = 128;
    check_verdict(cartplan_read_floor(out, GROUPS_LEN), 1, 6, 72, "the last group of an absent cart");
    memcpy(out + GROUPS_LEN - 8, narrow_bytes, 5);
    check_verdict(cartplan_read_floor(out, GROUPS_LEN - 3), 1, 3, 72, "a narrow place behind a group");
}

/* The paper's plan on that floor; or both carts on m0 up to step 1, and then on m1. */
static struct cartplan_verdict check_grouped(int alike, uint8_t drift, const char *rules)
{
    uint8_t floor[ROOM], plan[PLAN_LEN];

    check_verdict(write_groups(3, floor, ROOM), 0, 0, GROUPS_LEN, "three groups");
    memcpy(plan, plan_bytes, PLAN_LEN);
    if (alike) memcpy(plan + 14, plan_bytes + 22, 4);
    plan[8] = drift;
    return cartplan_check(floor, GROUPS_LEN, plan, PLAN_LEN, (const uint8_t *)rules, strlen(rules));
}

static void check_groups(void)
{
    check_verdict(check_grouped(0, 0, "X [m1,1]\nF [m1,1@0]\n[m0,100%@0]\n[m0,2 @2 ]\n"), 0, 0, 0, "a group's carts alone");
    check_verdict(check_grouped(0, 0, "X [m1,1@0]\n"), 3, 17, 0, "the other cart does not count");
    check_numbers(check_grouped(0, 0, "true\nG [m0,1@0]\n"), 3, 17, 1, 2, "a group's step");
    check_verdict(check_grouped(0, 0, "F [m1,2@0]\n"), 3, 17, 0, "two of a group of one");
    check_verdict(check_grouped(0, 0, "G ![m1,2@0]\nX ![m1,50%@0]\nX [m1,50%]\n"), 0, 0, 0, "negated by the group's size");
    check_verdict(check_grouped(0, 0, "X [m1,50%@0]\n"), 3, 17, 0, "a percentage of the group");
    check_verdict(check_grouped(0, 0, "G [m0,0@1]\nG [m0,100%@1]\nG ![m0,1@1]\n"), 0, 0, 0, "no cart of the empty group");
    check_verdict(check_grouped(0, 0, "[m0,1@1]\n"), 3, 17, 0, "a cart of the empty group");
    check_verdict(check_grouped(0, 0, "![m0,0@1]\n"), 3, 17, 0, "less than no cart of the empty group");
    check_numbers(check_grouped(1, 1, "G [m0,1]\n"), 3, 17, 0, 2, "all carts");
    check_numbers(check_grouped(1, 1, "G [m0,1@2]\n"), 3, 17, 0, 2, "all carts as a group");
    check_numbers(check_grouped(1, 1, "G [m0,1@0]\n"), 3, 17, 0, 1, "all carts of a group are not all");
    check_numbers(check_grouped(0, 0, "[m0,1@3]\n"), 3, 21, 0, 3, "no group 3");
    check_numbers(check_grouped(0, 1, "X true\n[m0,1@0] & [m0,9%@5] | ![m0,1@4]\n[m0,1@7]\n"), 3, 21, 1, 5, "21 before 16, the first in the text");
    check_verdict(check_grouped(0, 0, "[m0,1@3]\n?"), 3, 13, 9, "13 before 21");
    check_verdict(check_grouped(0, 0, "[m0,1@8]\n"), 3, 13, 6, "no group 8 to name");
    check_verdict(check_grouped(0, 0, "[m0,1000@9]\n"), 3, 15, 4, "15 before it");
}

/* Cart 0 on m1, cart 1 there at step 0 and then on m2, cart 2 on m2, drift 1; groups of all carts twice, and of the first two. */
static struct cartplan_verdict check_joined(const char *rules)
{
    static const uint32_t marks[2] = {2, 4}, sets[3] = {7, 7, 3};
    static const uint8_t starts[6] = {0, 0, 0, 0, 0, 1}, steps[6] = {0, 0, 0, 1, 1, 1};
    uint8_t floor[2 * ROOM], plan[28];

    check_verdict(cartplan_write_floor(marks, 2, lanes, 12, starts, 6, NULL, 0, sets, 3, floor, sizeof floor), 0, 0, 86, "two tables");
    check_verdict(cartplan_write_plan(floor, 86, 2, 1, 1, steps, sizeof steps, plan, sizeof plan), 0, 0, sizeof plan, "their plan");
    return cartplan_check(floor, 86, plan, sizeof plan, (const uint8_t *)rules, strlen(rules));
}

static void check_joined_groups(void)
{
    check_verdict(check_joined("[m1,2] | [m2,2]\n[m1,2@0] | [m2,2@1]\n[m1,2@0] | [m2,2]\n"), 0, 0, 0, "joined, the same carts");
    check_verdict(check_joined("[m1,2@2] | [m2,1@2]\n[m1,2@2] U [m2,1@2]\n"), 0, 0, 0, "joined in a group");
    check_verdict(check_joined("[m1,2@2] | [m2,2]\n"), 3, 17, 0, "not joined, other carts");
    check_verdict(check_joined("[m1,2@2] | [m2,2@1]\n"), 3, 17, 0, "not joined, other groups");
    check_verdict(check_joined("([m1,2] | [m2,2]) | [m3,1@2]\n"), 0, 0, 0, "joined within");
    check_verdict(check_joined("[m1,2] | ([m2,2] | [m3,1@2])\n"), 3, 17, 0, "other carts within");
}

static void check_span(struct cartplan_span is, size_t offset, size_t length, const char *name)
{
    check(is.offset == offset && is.length == length, name);
}

static void check_clause(void)
{
    uint8_t verdict[16] = {3, 0, 0, 0, 17, 0, 0, 0, 1, 0, 0, 0, 9, 0, 0, 0};

    check(sizeof(struct cartplan_span) == 2 * sizeof(size_t), "a span is two numbers");
    check(offsetof(struct cartplan_span, offset) == 0, "offset stands first");
    check_span(cartplan_clause(sheet, SHEET_LEN, verdict, 16), 9, 6, "clause 1 with its space");
    check_span(cartplan_clause(sheet, SHEET_LEN, verdict, 15), 0, 0, "a verdict cut");
    check_span(cartplan_clause(sheet, SHEET_LEN, NULL, 0), 0, 0, "null verdict");
    check_span(cartplan_clause(NULL, 0, verdict, 16), 0, 0, "clause of a null sheet");
    verdict[8] = 2;
    check_span(cartplan_clause(sheet, SHEET_LEN, verdict, 16), 0, 0, "no clause 2");
    verdict[8] = 0;
    check_span(cartplan_clause(sheet, SHEET_LEN, verdict, 16), 0, 8, "clause 0");
    verdict[4] = 21;
    check_span(cartplan_clause(sheet, SHEET_LEN, verdict, 16), 0, 8, "clause 0 by 21");
    verdict[4] = 20;
    check_span(cartplan_clause(sheet, SHEET_LEN, verdict, 16), 0, 0, "20 names no clause");
    verdict[4] = 13;
    check_span(cartplan_clause(sheet, SHEET_LEN, verdict, 16), 0, 0, "13 names no clause");
}

static void check_null(void)
{
    uint8_t out[ROOM];

    memset(out, FILL, ROOM);
    check_verdict(cartplan_read_floor(NULL, 0), 1, 7, 0, "null floor");
    check_verdict(cartplan_read_plan(NULL, 0, NULL, 0), 1, 7, 0, "null floor and plan");
    check_verdict(cartplan_read_plan(floor_bytes, FLOOR_LEN, NULL, 0), 2, 7, 0, "null plan");
    check_verdict(cartplan_write_floor(NULL, 0, NULL, 0, NULL, 0, NULL, 0, NULL, 0, NULL, 0), 1, 7, 0, "nothing to write");
    check_verdict(cartplan_write_floor(places, 2, lanes, 12, carts, 4, NULL, 0, NULL, 0, NULL, 0), 1, 18, 56, "floor to null");
    check_verdict(cartplan_write_floor(NULL, 0, lanes, 12, carts, 4, NULL, 0, NULL, 0, out, ROOM), 1, 6, 0, "null places");
    check_verdict(cartplan_write_floor(places, 2, lanes, 12, NULL, 0, NULL, 0, NULL, 0, out, ROOM), 1, 7, 44, "null carts");
    check_verdict(cartplan_write_plan(NULL, 0, 4, 0, 0, rows, 8, out, ROOM), 1, 7, 0, "plan on null floor");
    check_verdict(cartplan_write_plan(floor_bytes, 56, 4, 0, 0, NULL, 0, out, ROOM), 2, 7, 10, "null rows");
    check_verdict(cartplan_write_plan(floor_bytes, 56, 0, 0, 0, NULL, 0, NULL, 0), 2, 8, 0, "no steps, null rows");
    check_verdict(cartplan_write_plan(floor_bytes, 56, 4, 0, 0, rows, 8, NULL, 0), 2, 18, 26, "plan to null");
    check(untouched(out, 0), "no byte of a refused write");
    check_verdict(cartplan_write_floor(places, 2, NULL, 0, carts, 4, NULL, 0, NULL, 0, out, ROOM), 0, 0, 28, "null lanes");
    check_verdict(cartplan_read_floor(out, 28), 0, 0, 0, "floor without lanes");
}

static void check_refusals(void)
{
    static const uint8_t class_8[2] = {8, 0};
    uint8_t out[ROOM];
    uint8_t bad[FLOOR_LEN];

    memset(out, FILL, ROOM);
    memcpy(bad, floor_bytes, FLOOR_LEN);
    bad[21] = 2; /* the first lane's end, a place that isn't there */
    check_verdict(cartplan_read_floor(bad, FLOOR_LEN), 1, 6, 16, "absent place");
    check_verdict(cartplan_read_floor(floor_bytes, FLOOR_LEN - 1), 1, 2, 50, "cut floor");
    check_verdict(cartplan_read_plan(bad, FLOOR_LEN, plan_bytes, PLAN_LEN), 1, 6, 16, "plan on a bad floor");
    check_verdict(cartplan_read_plan(floor_bytes, FLOOR_LEN, plan_bytes, 18), 2, 7, 18, "a row missing");
    check_verdict(cartplan_read_plan(floor_bytes, 50, plan_bytes, PLAN_LEN), 2, 5, 18, "a row too many");
    check_verdict(cartplan_write_floor(places, 2, lanes, 11, carts, 4, NULL, 0, NULL, 0, out, ROOM), 1, 4, 37, "two thirds of a lane");
    check_verdict(cartplan_write_floor(places, 2, lanes, 12, class_8, 2, NULL, 0, NULL, 0, out, ROOM), 1, 6, 44, "class 8");
    check_verdict(cartplan_write_plan(bad, FLOOR_LEN, 4, 0, 0, rows, 8, out, ROOM), 1, 6, 16, "plan for a bad floor");
    check_verdict(cartplan_write_plan(floor_bytes, FLOOR_LEN, 4, 4, 0, rows, 8, out, ROOM), 2, 8, 0, "l is h");
    check_verdict(cartplan_write_plan(floor_bytes, FLOOR_LEN, 4, 3, 17, rows, 8, out, ROOM), 2, 8, 0, "d 17");
    check_verdict(cartplan_write_plan(floor_bytes, FLOOR_LEN, 4, 0, 0, rows, 7, out, ROOM), 2, 4, 18, "a step missing");
    check(untouched(out, 0), "no byte of a refused result");
    check(bad[21] == 2 && memcmp(bad + 22, floor_bytes + 22, FLOOR_LEN - 22) == 0, "a refused floor unchanged");
}

int main(void)
{
    check_layout();
    check_floor_written();
    check_plan_written();
    check_moves();
    check_parked();
    check_moved_on();
    check_added_up();
    check_replaced();
    check_sheet();
    check_plan_checked();
    check_percentages();
    check_large_clauses();
    check_many_carts();
    check_many_lanes(128);
    check_many_lanes(129);
    check_few_marks();
    check_narrow_written();
    check_conflicts();
    check_swap();
    check_groups_written();
    check_groups();
    check_joined_groups();
    check_clause();
    check_null();
    check_refusals();
    printf("edge: %d checks, %d failed\n", checks, failed);
    return failed != 0;
}
