/* Fuzzing of the C functions: an input is one call. Each lent buffer ends or begins directly at a page that can't be touched; after
 * the call every byte is compared with what it should be, and the answer is held against the header's words and the other functions.
 *
 * An input's bytes: the operation; low half, which buffers begin at their page (the others end there), and high half, which are
 * given as null if empty; which buffer is repeated (low two bits) to how many times 1,040 bytes more (the other six). Then, two bytes
 * each, lowest first, the operation's numbers and the length of each buffer but the last, which has the rest. A fifth and a sixth buffer,
 * the narrow places and groups of a floor to write, lie as the first and second do and are repeated for number 3. */
#define _DEFAULT_SOURCE
#include <stdio.h>
#include <stdlib.h>
#include <string.h>
#include <sys/mman.h>

#include "cartplan.h"
#include "model.h"

enum { PAGE = 4096, AREA = 33 * PAGE, SLACK = 64, BUFFERS = 6, HEADER = 3, STRETCH = 1040, MOST = 65535 };

/* The longest file, plan that is accepted, and sheet; the most clauses of a sheet and groups of a floor. */
enum { LONGEST = 65536, LONGEST_PLAN = 10 + 32 * 68, LONGEST_SHEET = 16384, CLAUSES = 32, MOST_GROUPS = 8 };

/* Which buffer holds what. FLOOR, PLAN and RULES are `about` less 1. */
enum { FLOOR = 0, PLAN = 1, RULES = 2, OUT = 3, PLACES = 0, LANES = 1, CARTS = 2, NARROW = 4, GROUPS = 5, ROWS = 1, ROW = 2, VERDICT = 0 };

enum { NONE, READ_FLOOR, READ_PLAN, WRITE_FLOOR, WRITE_PLAN, READ_RULES, CHECK_MOVES, CHECK, MOVE_ON, REPLACE_ROW, CLAUSE, OPERATIONS };

typedef struct cartplan_verdict verdict;

struct operation {
    const char *name;
    verdict (*call)(void);
    void (*after)(const struct operation *, verdict); /* further demands on the answer */
    int numbers, buffers;                             /* how many numbers; bit i for buffer i */
    int before[2];                                    /* operations whose refusals come first */
    uint32_t refusals[4];                             /* its own, by `about`: bit n for number n */
};

static uint8_t *areas[BUFFERS], copies[BUFFERS][AREA + SLACK];
static struct {
    uint8_t *at, *given; /* given: null for some empty buffers */
    size_t len;
} lent[BUFFERS];
static unsigned edges, numbers[4];
static const char *running = "";

static void demand(int holds, const char *what)
{
    if (holds) return;
    fprintf(stderr, "fuzz: %s: not so: %s\n", running, what);
    abort();
}

/* Lent buffers. */

static void map_areas(void)
{
    if (areas[0] != NULL) return;
    for (int i = 0; i < BUFFERS; i++) {
        uint8_t *all = mmap(NULL, AREA + 2 * PAGE, PROT_NONE, MAP_PRIVATE | MAP_ANONYMOUS, -1, 0);
        demand(all != MAP_FAILED && mprotect(all + PAGE, AREA, PROT_READ | PROT_WRITE) == 0, "memory for the buffers");
        areas[i] = all + PAGE;
    }
}

static int begins(int i)
{
    return edges >> (i & 3) & 1;
}

/* The buffer with the SLACK bytes at its open end. */
static uint8_t *whole(int i)
{
    return begins(i) ? lent[i].at : lent[i].at - SLACK;
}

static uint8_t *expected(int i)
{
    return begins(i) ? copies[i] : copies[i] + SLACK;
}

/* Places a buffer of len bytes, the n bytes over and over. */
static void lend(int i, const uint8_t *bytes, size_t n, size_t len)
{
    lent[i].len = len;
    lent[i].at = begins(i) ? areas[i] : areas[i] + AREA - len;
    lent[i].given = len == 0 && (edges >> (4 + (i & 3)) & 1) ? NULL : lent[i].at;
    memset(whole(i), 0xa5, len + SLACK);
    for (size_t k = 0; k < len; k += n) memcpy(lent[i].at + k, bytes, len - k < n ? len - k : n);
    memcpy(copies[i], whole(i), len + SLACK);
}

static void lend_out(size_t room)
{
    static const uint8_t fill[7] = {0x11, 0xd2, 0x93, 0x54, 0xe5, 0xa6, 0x77};
    lend(OUT, fill, sizeof fill, room);
}

static void demand_kept(int i)
{
    demand(memcmp(copies[i], whole(i), lent[i].len + SLACK) == 0, "a byte changed that should stay");
}

/* The calls. */

#define LENT(i) lent[i].given, lent[i].len

static verdict read_floor(void)
{
    return cartplan_read_floor(LENT(FLOOR));
}

static verdict read_plan(void)
{
    return cartplan_read_plan(LENT(FLOOR), LENT(PLAN));
}

static verdict write_floor(void)
{
    const uint32_t *places = (const uint32_t *)(const void *)lent[PLACES].given, *groups = (const uint32_t *)(const void *)lent[GROUPS].given;
    return cartplan_write_floor(places, lent[PLACES].len / 4, LENT(LANES), LENT(CARTS), LENT(NARROW), groups, lent[GROUPS].len / 4, LENT(OUT));
}

static verdict write_plan(void)
{
    return cartplan_write_plan(LENT(FLOOR), (uint16_t)numbers[0], (uint16_t)numbers[1], (uint16_t)numbers[2], LENT(ROWS), LENT(OUT));
}

static verdict read_rules(void)
{
    return cartplan_read_rules(LENT(RULES));
}

static verdict check_moves(void)
{
    return cartplan_check_moves(LENT(FLOOR), LENT(PLAN));
}

static verdict check(void)
{
    return cartplan_check(LENT(FLOOR), LENT(PLAN), LENT(RULES));
}

static verdict move_on(void)
{
    return cartplan_move_on(LENT(FLOOR), LENT(PLAN), (uint16_t)numbers[0], LENT(OUT));
}

static uint32_t cart(void)
{
    return (uint32_t)numbers[1] << 16 | numbers[0];
}

static verdict replace_row(void)
{
    return cartplan_replace_row(LENT(FLOOR), LENT(PLAN), cart(), LENT(ROW));
}

/* A part of the sheet that is one whole line, without its end. */
static void demand_line(struct cartplan_span part)
{
    const uint8_t *sheet = lent[RULES].at;
    demand(part.offset < lent[RULES].len && part.length < lent[RULES].len - part.offset, "the part lies in the sheet");
    demand(part.offset == 0 || sheet[part.offset - 1] == '\n', "the part begins a line");
    demand(sheet[part.offset + part.length] == '\n', "the part ends a line");
    demand(memchr(sheet + part.offset, '\n', part.length) == NULL, "the part is one line");
}

static verdict clause(void)
{
    struct cartplan_span part = cartplan_clause(LENT(RULES), LENT(VERDICT));
    verdict v = {0, 0, 0, 0};

    if (lent[VERDICT].len == sizeof v) memcpy(&v, lent[VERDICT].at, sizeof v);
    if (part.offset == 0 && part.length == 0) return (verdict){0, 0, 0, 0};
    demand(v.about == 3 && (v.number == 16 || v.number == 17 || v.number == 21), "a clause is named");
    demand_line(part);
    return (verdict){0, 0, 0, 0};
}

/* What is demanded of an answer. */

static int same(verdict a, verdict b)
{
    return a.about == b.about && a.number == b.number && a.first == b.first && a.second == b.second;
}

static void demand_done(verdict v, size_t first)
{
    demand(same(v, (verdict){0, 0, (uint32_t)first, 0}), "done, with that length");
}

/* A written floor has a record for each place, lane, cart, narrow place and group, the last two kinds at its end. */
static void demand_records(const uint8_t *floor, size_t n)
{
    size_t before = lent[PLACES].len / 4 * 8 + lent[LANES].len / 3 * 7 + lent[CARTS].len / 2 * 6, groups = before + 5 * lent[NARROW].len;
    demand(n == groups + 2 * lent[GROUPS].len, "the floor's length");
    for (size_t i = 0; i < lent[NARROW].len; i++) {
        const uint8_t record[5] = {1, 0, 6, 0, lent[NARROW].at[i]};
        demand(memcmp(floor + before + 5 * i, record, sizeof record) == 0, "a narrow place's record");
    }
    for (size_t i = 0; i < lent[GROUPS].len / 4; i++) {
        uint8_t record[8] = {4, 0, 7, 0};
        memcpy(record + 4, lent[GROUPS].at + 4 * i, 4);
        demand(memcmp(floor + groups + 8 * i, record, sizeof record) == 0, "a group's record");
    }
}

static void demand_result(const struct operation *op, size_t n)
{
    demand(n > 0 && n <= lent[OUT].len, "the result has its place in out");
    memcpy(expected(OUT), lent[OUT].at, n);
    demand_kept(OUT);
    if (op->call == write_floor) demand_records(lent[OUT].at, n);
    verdict back = op->call == write_floor ? cartplan_read_floor(lent[OUT].at, n) : cartplan_read_plan(LENT(FLOOR), lent[OUT].at, n);
    demand_done(back, 0);
}

/* Once more with just room enough, and with a byte less. */
static void after_write(const struct operation *op, verdict v)
{
    if (v.number == 0) demand_result(op, v.first);
    if (v.number != 0 && v.number != 18) return;
    demand_kept(OUT);
    demand(v.first > 0 && v.first <= LONGEST, "a result is as long as a file can be");
    lend_out(v.first);
    demand_done(op->call(), v.first);
    demand_result(op, v.first);
    lend_out(v.first - 1);
    demand(same(op->call(), (verdict){op->call == write_floor ? 1 : 2, 18, v.first, 0}), "a byte short");
}

/* A plan moved on, into out filled alike. */
static verdict moved(const uint8_t *plan, size_t len, unsigned s, uint8_t *out, size_t room)
{
    memset(out, 0x3c, LONGEST_PLAN);
    return cartplan_move_on(LENT(FLOOR), plan, len, (uint16_t)s, out, room);
}

/* The plan that was moved on, moved on by u more: as the plan by the sum, and no better with a byte less. */
static void demand_sum(const uint8_t *first, size_t len, unsigned u)
{
    static uint8_t apart[LONGEST_PLAN], at_once[LONGEST_PLAN];
    unsigned sum = numbers[0] + u;
    if (sum > MOST) return;
    verdict due = moved(lent[PLAN].at, lent[PLAN].len, sum, at_once, sizeof at_once), v = moved(first, len, u, apart, sizeof apart);
    demand(due.number == 0 && same(v, due) && memcmp(apart, at_once, sizeof apart) == 0, "moved on twice, as by the sum");
    verdict less = moved(lent[PLAN].at, lent[PLAN].len, sum, at_once, due.first - 1);
    demand(same(moved(first, len, u, apart, due.first - 1), less), "moved on twice with a byte too few, as by the sum");
}

/* By 0 the plan is given back. The result is moved on by the number that is the room as well, by the plan's own numbers and to the end. */
static void after_move_on(const struct operation *op, verdict v)
{
    static uint8_t first[LONGEST_PLAN], due[LONGEST_PLAN];
    after_write(op, v);
    if (v.number != 0 && v.number != 18) return;
    unsigned s = numbers[0], h = lent[PLAN].at[4], l = lent[PLAN].at[6];
    const unsigned more[] = {numbers[1], 0, 1, l, h - l, h, h + 1, s, MOST - s};
    demand_done(moved(lent[PLAN].at, lent[PLAN].len, 0, first, lent[PLAN].len), lent[PLAN].len);
    demand(memcmp(first, lent[PLAN].at, lent[PLAN].len) == 0, "moved on by 0, the plan is given back");
    demand_done(moved(lent[PLAN].at, lent[PLAN].len, s, first, sizeof first), v.first);
    for (size_t i = 0; i < sizeof more / sizeof more[0]; i++) demand_sum(first, v.first, more[i]);
    demand(moved_plan(lent[PLAN].at, lent[PLAN].len, s, due) == v.first && memcmp(first, due, v.first) == 0, "each place is that of s counters later");
}

static verdict written(const struct floor_numbers *f, uint8_t *out, size_t room)
{
    return cartplan_write_floor(f->places, f->place_count, f->lanes, f->lanes_len, f->carts, f->carts_len, f->narrow, f->narrow_len, f->groups,
                                f->group_count, out, room);
}

/* The floor that is lent, with a record behind it; the length. */
static size_t with_behind(const uint8_t *record, size_t n, uint8_t *out)
{
    memcpy(out, lent[FLOOR].at, lent[FLOOR].len);
    memcpy(out + lent[FLOOR].len, record, n);
    return lent[FLOOR].len + n;
}

/* Behind an accepted floor a group may stand unless there are eight, the empty one too, but none of an absent cart. Then nothing else may. */
static void demand_behind(const struct floor_numbers *f)
{
    static uint8_t out[LONGEST + 16];
    static const uint8_t narrow[5] = {1, 0, 6, 0, 0};
    uint8_t group[8] = {4, 0, 7, 0, 0, 0, 0, 0};
    uint32_t first = (uint32_t)lent[FLOOR].len, absent = ~carts_of(f, FLEET);
    int full = f->group_count == MOST_GROUPS;
    if (first + 16 > LONGEST) return;
    size_t len = with_behind(group, sizeof group, out);
    verdict v = cartplan_read_floor(out, len);
    demand(same(v, full ? (verdict){1, 5, first, 0} : (verdict){0, 0, 0, 0}), "an empty group behind the floor");
    memcpy(out + len, narrow, sizeof narrow);
    v = cartplan_read_floor(out, len + sizeof narrow);
    demand(same(v, full ? (verdict){1, 5, first, 0} : (verdict){1, 3, first + 8, 0}), "a narrow place behind a group");
    memcpy(group + 4, &absent, 4);
    len = with_behind(group, sizeof group, out);
    v = cartplan_read_floor(out, len);
    demand(absent == 0 || same(v, (verdict){1, full ? 5 : 6, first, 0}), "a group of absent carts behind the floor");
}

/* An accepted floor's numbers give its bytes. */
static void after_floor(const struct operation *op, verdict v)
{
    static struct floor_numbers f;
    static uint8_t out[LONGEST];
    (void)op;
    if (v.number != 0) return;
    take_apart(lent[FLOOR].at, lent[FLOOR].len, &f);
    demand_done(written(&f, out, sizeof out), lent[FLOOR].len);
    demand(memcmp(out, lent[FLOOR].at, lent[FLOOR].len) == 0, "the floor is written as it was read");
    demand_behind(&f);
}

/* In an accepted sheet each group is a digit up to 7 straight behind its sign, and the count's end is next. Without its groups it is accepted too. */
static void after_rules(const struct operation *op, verdict v)
{
    static const int none[9] = {FLEET, FLEET, FLEET, FLEET, FLEET, FLEET, FLEET, FLEET, FLEET};
    static uint8_t plain[LONGEST_SHEET];
    const uint8_t *sheet = lent[RULES].at, *end = sheet + lent[RULES].len;
    (void)op;
    if (v.number != 0) return;
    for (const uint8_t *at = sheet; (at = memchr(at, '@', (size_t)(end - at))) != NULL; at++) {
        demand(at[1] >= '0' && at[1] <= '7', "a group's digit");
        demand(at[2 + strspn((const char *)at + 2, " ")] == ']', "a group ends its count");
    }
    demand_done(cartplan_read_rules(plain, with_groups(sheet, lent[RULES].len, none, plain)), 0);
}

/* What is refused of floor and plan doesn't depend on the sheet; where their moves are open, 20 is given exactly for a conflict. */
static void demand_conflict(verdict v)
{
    static const uint8_t kept[] = "true\n";
    verdict plain = cartplan_check(LENT(FLOOR), LENT(PLAN), kept, sizeof kept - 1);
    demand(v.number == 0 || v.about == 3 ? plain.number == 0 : same(v, plain), "floor and plan before the sheet");
    if (v.about == 1 || (v.about == 2 && v.number != 20)) return;
    verdict due = {2, 20, 0, 0};
    int found = lowest_conflict(lent[FLOOR].at, lent[FLOOR].len, lent[PLAN].at, &due.first, &due.second);
    demand(found == (v.number == 20), "20 for a conflict and for nothing else");
    demand(!found || same(v, due), "the lowest cart in conflict, on the step of its earliest counter");
}

/* The numbers of the floor of a check. */
static struct floor_numbers checked;

/* Where clauses were judged, the nearest numbers of carts in place of the percentages give the same verdict. */
static void demand_nearest(verdict v)
{
    static uint8_t plain[LONGEST_SHEET + 1];
    if (v.number != 0 && v.number != 16 && v.number != 17) return;
    size_t len = with_numbers(lent[RULES].at, lent[RULES].len, &checked, nearest, plain);
    demand(len <= lent[RULES].len, "no number of carts is longer than its percentage");
    demand(same(v, cartplan_check(LENT(FLOOR), LENT(PLAN), plain, len)), "percentages are the nearest numbers of carts");
}

/* With so many groups, those that are there and then empty ones, 21 is given exactly if the sheet names another one. Other verdicts depend on no
 * group that isn't named, and those of the moves on none. */
static void demand_found(verdict v, size_t group_count)
{
    static struct floor_numbers f;
    static uint8_t floor[LONGEST];
    verdict due = {3, 21, 0, 0};
    f = checked;
    for (; f.group_count < group_count; f.group_count++) f.groups[f.group_count] = 0;
    f.group_count = group_count;
    size_t len = written(&f, floor, sizeof floor).first;
    verdict other = cartplan_check(floor, len, LENT(PLAN), LENT(RULES));
    if (missing_group(lent[RULES].at, lent[RULES].len, group_count, &due.first, &due.second))
        demand(same(other, due), "the first group that the floor lacks");
    else
        demand(v.number == 21 ? other.number != 21 : same(other, v), "groups that are not named");
    demand_done(cartplan_check_moves(floor, len, LENT(PLAN)), 0);
}

static void demand_all_found(verdict v)
{
    int named = memchr(lent[RULES].at, '@', lent[RULES].len) != NULL;
    for (size_t n = named ? 0 : MOST_GROUPS; n <= MOST_GROUPS; n++) demand_found(v, n);
}

static void demand_regrouped(verdict v, const int other[9], const char *what)
{
    static uint8_t sheet[2 * LONGEST_SHEET];
    size_t len = with_groups(lent[RULES].at, lent[RULES].len, other, sheet);
    if (len > LONGEST_SHEET) return;
    demand(same(v, cartplan_check(LENT(FLOOR), LENT(PLAN), sheet, len)), what);
}

/* Groups of the same carts are told apart by nothing, and one of all carts by nothing from the fleet. */
static void demand_sets(verdict v)
{
    int lowest[9], highest[9], groups = (int)checked.group_count;
    for (int g = 0; g <= MOST_GROUPS; g++) {
        uint32_t carts = carts_of(&checked, g < groups ? g : FLEET);
        lowest[g] = highest[g] = FLEET;
        for (int other = 0; other < groups; other++) {
            if (checked.groups[other] != carts) continue;
            if (lowest[g] == FLEET && carts != carts_of(&checked, FLEET)) lowest[g] = other;
            highest[g] = other;
        }
    }
    demand_regrouped(v, lowest, "the lowest groups of the same carts");
    demand_regrouped(v, highest, "the highest groups of the same carts");
}

/* What is said of a sheet with the carts of a list alone, in its order. */
static verdict of_carts(const uint8_t *list, size_t n, const uint8_t *rules, size_t rules_len)
{
    static struct floor_numbers f;
    static uint8_t floor[LONGEST], plan[LONGEST];
    f = checked;
    pick_carts(&f, list, n);
    size_t floor_len = written(&f, floor, sizeof floor).first, plan_len = pick_rows(lent[PLAN].at, list, n, plan);
    return cartplan_check(floor, floor_len, plan, plan_len, rules, rules_len);
}

/* Carts and groups the other way round. */
static void demand_turned(verdict v)
{
    uint8_t list[32];
    size_t n = checked.carts_len / 2;
    for (size_t i = 0; i < n; i++) list[i] = (uint8_t)(n - 1 - i);
    demand(same(v, of_carts(list, n, LENT(RULES))), "the carts the other way round");
}

/* The carts of a set; how many. */
static size_t listed(uint32_t carts, uint8_t *list)
{
    size_t n = 0;
    for (uint8_t i = 0; i < 32; i++)
        if (carts >> i & 1) list[n++] = i;
    return n;
}

/* The carts that the counts of a clause are over, together; whether one of the counts is over all of them. */
static uint32_t counted(const uint8_t *line, size_t len, int *by_one)
{
    uint32_t sets[128], all = 0, largest = 0;
    size_t counts = sets_of(line, len, &checked, sets);
    for (size_t i = 0; i < counts; i++) {
        all |= sets[i];
        if (size_of(sets[i]) > size_of(largest)) largest = sets[i];
    }
    *by_one = largest == all;
    return all;
}

/* A clause is judged alike with one alone of the carts that no count is over. With none of them too, but that with drift it may become true where
 * a count is then over all carts. */
static void demand_fewer(const uint8_t *line, size_t len, verdict v)
{
    int by_one, drifting = lent[PLAN].at[8] > 0;
    uint32_t over = counted(line, len, &by_one), outside = carts_of(&checked, FLEET) & ~over;
    uint8_t list[32];
    if (outside == 0) return;
    demand(same(v, of_carts(list, listed(over | (outside & -outside), list), line, len)), "the counted carts and another");
    if (over == 0) return;
    verdict fewer = of_carts(list, listed(over, list), line, len);
    demand(by_one && drifting ? v.number != 0 || fewer.number == 0 : same(v, fewer), "the counted carts alone");
}

/* Ways to write an operator with its sides a and b that say the same. */
static const struct {
    uint8_t op;
    const char *pattern;
} equal[] = {
    {'|', "(b) | (a)"},      {'|', "!(!(a) & !(b))"},    {'|', "!true | ((a) | (b))"},
    {'&', "(b) & (a)"},      {'&', "!(!(a) | !(b))"},    {'R', "!(!(a) U !(b))"},
    {'U', "!(!(a) R !(b))"}, {'U', "((a) | (b)) U (b)"}, {'U', "(b) | ((a) U (b))"},
    {'&', "(a) & (b) & (a)"}, {'|', "((a) | (b)) & ((a) | (b))"}, {'R', "((a) R (b)) & ((a) R (b))"},
    {'U', "((a) U (b)) & ((a) U (b))"},
};

/* Ways that join no counts. They say the same where the counts are not all over the same carts. */
static const struct {
    uint8_t op;
    const char *pattern;
} unjoined[] = {
    {'|', "(!true | (a)) | (b)"}, {'&', "((a) & true) & (b)"}, {'U', "((a) & true) U (b)"}, {'R', "((a) | !true) R (b)"},
};

/* Whether counts of a part are over different carts. */
static int of_others(const uint8_t *part, size_t len)
{
    uint32_t sets[128];
    size_t n = sets_of(part, len, &checked, sets), same_sets = 0;
    while (same_sets < n && sets[same_sets] == sets[0]) same_sets++;
    return same_sets < n;
}

/* What is said of a clause written otherwise, alone in its sheet. */
static verdict said(const uint8_t *line, size_t len, const struct sides *sides, const char *pattern)
{
    static uint8_t sheet[2 * LONGEST_SHEET + 64];
    size_t to = rewritten(line, len, sides, pattern, sheet);
    sheet[to++] = '\n';
    return cartplan_check(LENT(FLOOR), LENT(PLAN), sheet, to);
}

/* Whether the clause is as long and as deep as it may be. */
static int no_room(verdict v)
{
    return v.number == 12 || v.number == 14;
}

/* Sides that are not all counts are not joined: such an or is true exactly if one of them is. */
static void demand_apart(const uint8_t *line, size_t len, const struct sides *sides)
{
    verdict whole = said(line, len, sides, "(!true | (a)) | (b)");
    verdict left = said(line, len, sides, "a"), right = said(line, len, sides, "b");
    if (no_room(whole)) return;
    demand((whole.number == 0) == (left.number == 0 || right.number == 0), "a mixed or is true exactly if a side is");
}

/* Counts of the same carts, m of a and n of b: their or is true exactly if one of them is, or m + n - 1 carts hold a or b in their windows. All
 * carts for one is a case of counts alone, so m + n - 1 is 1 for no such or of the fleet. */
static void demand_summed(const uint8_t *line, const struct sides *sides, verdict v)
{
    static uint8_t sheet[2 * LONGEST_SHEET];
    struct plain_count a, b;
    size_t left = sides->at - sides->begin, right = sides->end - sides->at - 1;
    if (!plain_count_of(line + sides->begin, left, &a) || !plain_count_of(line + sides->at + 1, right, &b)) return;
    uint32_t over = carts_of(&checked, a.group);
    if (over != carts_of(&checked, b.group) || a.number == 0 || b.number == 0 || a.number + b.number > 999) return;
    if (over == carts_of(&checked, FLEET) && a.number + b.number == 2) return;
    int len = sprintf((char *)sheet, "true & %.*s | %.*s | [(%.*s) | (%.*s),%u", (int)left, line + sides->begin, (int)right, line + sides->at + 1,
                      (int)a.len, a.text, (int)b.len, b.text, a.number + b.number - 1);
    len += sprintf((char *)sheet + len, a.group == FLEET ? "]\n" : "@%d]\n", a.group);
    verdict sum = cartplan_check(LENT(FLOOR), LENT(PLAN), sheet, (size_t)len);
    if (!no_room(sum)) demand((v.number == 0) == (sum.number == 0), "an or of counts by their sum");
}

/* A clause is judged alike however its outermost operator with two sides is written. */
static void demand_equal(const uint8_t *line, size_t len, verdict v)
{
    struct sides sides;
    if (!sides_of(line, len, &sides)) return;
    v.first = 0;
    for (size_t i = 0; i < sizeof equal / sizeof *equal; i++) {
        if (equal[i].op != sides.op) continue;
        verdict other = said(line, len, &sides, equal[i].pattern);
        if (!no_room(other)) demand(same(v, other), equal[i].pattern);
    }
    for (size_t i = 0; i < sizeof unjoined / sizeof *unjoined && of_others(line + sides.begin, sides.end - sides.begin); i++) {
        if (unjoined[i].op != sides.op) continue;
        verdict other = said(line, len, &sides, unjoined[i].pattern);
        if (!no_room(other)) demand(same(v, other), "counts over different carts are not joined");
    }
    if (sides.op == '|' && sides.prefixes == 0 && sides.begin == 0) {
        demand_apart(line, len, &sides);
        demand_summed(line, &sides, v);
    }
}

/* The first line of a judged sheet that has sides, or the line of the clause that isn't kept. */
static void demand_clauses(verdict v)
{
    const uint8_t *line = lent[RULES].at, *end;
    struct sides sides;
    if (v.number != 0 && v.number != 17) return;
    for (uint32_t number = 0; line < lent[RULES].at + lent[RULES].len; line = end + 1, number++) {
        end = memchr(line, '\n', lent[RULES].len);
        size_t len = (size_t)(end - line);
        if (v.number == 0 ? !sides_of(line, len, &sides) : number != v.first) continue;
        demand_equal(line, len, v);
        return;
    }
}

/* The lines of a judged sheet, with their ends, and what is said of each by itself. */
static struct {
    const uint8_t *at;
    size_t len;
    verdict alone;
} lines[CLAUSES];

/* Takes the sheet apart; a count of one mark is true exactly where its windows say so. */
static size_t judge_lines(void)
{
    const uint8_t *line = lent[RULES].at, *end = line + lent[RULES].len;
    struct lone_count count;
    size_t n = 0;
    for (; line < end; n++) {
        size_t len = (size_t)((const uint8_t *)memchr(line, '\n', (size_t)(end - line)) - line) + 1;
        lines[n].at = line;
        lines[n].len = len;
        lines[n].alone = cartplan_check(LENT(FLOOR), LENT(PLAN), line, len);
        if (lone_count_of(line, len - 1, &count)) {
            verdict due = {3, 17, 0, 0};
            if (is_kept(lent[FLOOR].at, lent[FLOOR].len, lent[PLAN].at, &count, throughout, &due.second)) due = (verdict){0, 0, 0, 0};
            demand(same(lines[n].alone, due), "a count of one mark by its windows");
        }
        demand_fewer(line, len, lines[n].alone);
        line += len;
    }
    return n;
}

/* Lines in some order, one behind the other, are judged as by themselves. */
static void demand_in_order(const size_t *order, size_t n)
{
    static uint8_t sheet[LONGEST_SHEET];
    verdict due = {0, 0, 0, 0};
    size_t len = 0;
    for (size_t i = 0; i < n; i++) {
        if (n > CLAUSES || len + lines[order[i]].len > sizeof sheet) return;
        memcpy(sheet + len, lines[order[i]].at, lines[order[i]].len);
        len += lines[order[i]].len;
        if (due.number != 0 || lines[order[i]].alone.number == 0) continue;
        due = lines[order[i]].alone;
        due.first = (uint32_t)i;
    }
    demand(same(cartplan_check(LENT(FLOOR), LENT(PLAN), sheet, len), due), "clauses are judged as by themselves");
}

/* As they stand, the last first, and each of them twice. */
static void demand_alone(verdict v)
{
    size_t as_written[CLAUSES], back[CLAUSES], twice[2 * CLAUSES];
    if (v.number != 0 && v.number != 17) return;
    size_t n = judge_lines();
    for (size_t i = 0; i < n; i++) {
        as_written[i] = i;
        back[i] = n - 1 - i;
        twice[2 * i] = twice[2 * i + 1] = i;
    }
    demand_in_order(as_written, n);
    demand_in_order(back, n);
    demand_in_order(twice, 2 * n);
}

/* An accepted plan is accepted with each smaller drift, its head's bytes 8 and 9. */
static void after_check(const struct operation *op, verdict v)
{
    uint8_t *drift = lent[PLAN].at + 8;
    demand_conflict(v);
    if (v.number == 0 || v.number == 16 || v.number == 17 || v.number == 21) {
        take_apart(lent[FLOOR].at, lent[FLOOR].len, &checked);
        demand_all_found(v);
        demand_turned(v);
    }
    if (v.number == 0 || v.number == 16 || v.number == 17) demand_sets(v);
    demand_nearest(v);
    demand_alone(v);
    demand_clauses(v);
    if (v.number == 16 || v.number == 17 || v.number == 21) {
        struct cartplan_span part = cartplan_clause(LENT(RULES), (const uint8_t *)&v, sizeof v);
        demand(part.length > 0, "a clause that isn't kept is there");
        demand_line(part);
    }
    if (v.number != 0) return;
    demand(drift[0] <= 16 && drift[1] == 0, "an accepted plan's drift");
    while (drift[0] > 0) {
        drift[0]--;
        demand_done(op->call(), 0);
    }
    drift[0] = expected(PLAN)[8];
}

/* 11 is given only between two different places: a row's on that step, and on the step after it. */
static void demand_departs(const uint8_t *row, uint32_t step)
{
    const uint8_t *head = lent[PLAN].at + 4;
    demand(step < head[0], "the step is one of the row's");
    demand(row[step] != row[step + 1 < head[0] ? step + 1 : head[2]], "11 between two different places");
}

/* The row of a cart: behind the head's ten bytes, each has four of its own before it. */
static size_t row_offset(uint32_t of)
{
    return 10 + (size_t)of * (4 + lent[PLAN].at[4]) + 4;
}

static void after_moves(const struct operation *op, verdict v)
{
    (void)op;
    if (v.number == 11) demand_departs(lent[PLAN].at + row_offset(v.first), v.second);
}

/* A replaced row's bytes alone may change. */
static void after_replace(const struct operation *op, verdict v)
{
    (void)op;
    if (v.number == 11 && check_moves().number == 0) {
        demand(v.first == cart(), "11 of the new row");
        demand_departs(lent[ROW].at, v.second);
    }
    if (v.number != 0) return;
    size_t h = lent[PLAN].at[4], offset = row_offset(cart());
    demand(lent[ROW].len == h && offset + h <= lent[PLAN].len, "the row is of the plan");
    memcpy(expected(PLAN) + offset, lent[ROW].at, h);
    demand_done(check_moves(), 0);
}

#define N(n) (1u << (n))
#define READING (N(1) | N(2) | N(3) | N(4) | N(5) | N(7))
#define SHEET (N(7) | N(12) | N(13) | N(14) | N(15))
#define B(i) (1 << (i))

static const struct operation operations[OPERATIONS] = {
    [READ_FLOOR] = {"read_floor", read_floor, after_floor, 0, B(FLOOR), {0}, {0, READING | N(6)}},
    [READ_PLAN] = {"read_plan", read_plan, NULL, 0, B(FLOOR) | B(PLAN), {READ_FLOOR}, {0, 0, READING | N(8) | N(9)}},
    [WRITE_FLOOR] = {"write_floor", write_floor, after_write, 1, B(PLACES) | B(LANES) | B(CARTS) | B(NARROW) | B(GROUPS) | B(OUT), {0},
                     {0, N(1) | N(4) | N(5) | N(6) | N(7) | N(18)}},
    [WRITE_PLAN] = {"write_plan", write_plan, after_write, 4, B(FLOOR) | B(ROWS) | B(OUT), {READ_FLOOR},
                    {0, 0, N(1) | N(4) | N(5) | N(7) | N(8) | N(9) | N(18)}},
    [READ_RULES] = {"read_rules", read_rules, after_rules, 0, B(RULES), {0}, {0, 0, 0, SHEET}},
    [CHECK_MOVES] = {"check_moves", check_moves, after_moves, 0, B(FLOOR) | B(PLAN), {READ_PLAN}, {0, 0, N(10) | N(11)}},
    [CHECK] = {"check", check, after_check, 0, B(FLOOR) | B(PLAN) | B(RULES), {CHECK_MOVES, READ_RULES},
               {0, 0, N(20), N(16) | N(17) | N(21)}},
    [MOVE_ON] = {"move_on", move_on, after_move_on, 2, B(FLOOR) | B(PLAN) | B(OUT), {READ_PLAN}, {0, 0, N(18)}},
    [REPLACE_ROW] = {"replace_row", replace_row, after_replace, 2, B(FLOOR) | B(PLAN) | B(ROW), {CHECK_MOVES},
                     {0, 0, N(4) | N(9) | N(10) | N(11) | N(19)}},
    [CLAUSE] = {"clause", clause, NULL, 0, B(VERDICT) | B(RULES), {0}, {0}},
};

/* The refusal's first further number: a cart, a clause, a length or an offset in the file. */
static int first_in_range(const struct operation *op, verdict v)
{
    if (v.number == 10 || v.number == 11 || v.number == 16 || v.number == 17 || v.number == 20 || v.number == 21) return v.first < 32;
    if (v.number == 18) return v.first > lent[OUT].len && v.first <= LONGEST;
    if (v.number == 19) return v.first == cart() && v.first > 0;
    return v.first <= (op->buffers & B(OUT) ? LONGEST : lent[v.about - 1].len);
}

static void demand_refusal(const struct operation *op, verdict v)
{
    demand(v.about >= 1 && v.about <= 3 && v.number < 32 && (op->refusals[v.about] >> v.number & 1), "a known refusal");
    demand(first_in_range(op, v), "the first number in range");
    int two = v.number == 11 || v.number == 17 || v.number == 20 || (v.number == 9 && op->call == replace_row);
    demand(v.number == 21 ? v.second < MOST_GROUPS : two ? v.second < 64 : v.second == 0, "the second number in range");
}

/* A count for each operation, refusal and first number, that the fuzzer may see where an input gets to. */
__attribute__((used, section("__libfuzzer_extra_counters"))) static uint8_t seen[OPERATIONS][4][22][64];

static void note(const struct operation *op, verdict v)
{
    unsigned place = v.first;
    if (place >= 48)
        for (place = 48; place < 63 && v.first >> (place - 42); place++) continue;
    if (v.about < 4 && v.number < 22) seen[op - operations][v.about][v.number][place] = 1;
}

/* The call's answer, held against that of the operations whose refusals come first. */
static verdict judged(const struct operation *op)
{
    verdict v, earlier = {0, 0, 0, 0};
    for (int i = 0; i < 2 && op->before[i] != NONE && earlier.number == 0; i++) earlier = judged(&operations[op->before[i]]);
    v = op->call();
    note(op, v);
    /* What the check itself refuses of the plan comes before the sheet. */
    if (op->call == check && earlier.about == 3 && v.about == 2) earlier.number = 0;
    if (earlier.number != 0)
        demand(same(v, earlier), "an earlier refusal comes first");
    else if (v.number != 0)
        demand_refusal(op, v);
    else
        demand(v.about == 0 && v.second == 0 && (v.first == 0 || op->buffers & B(OUT)), "done is all zeros but a length");
    if (op->after != NULL) op->after(op, v);
    return v;
}

/* Inputs. */

static unsigned take(const uint8_t **data, size_t *size)
{
    unsigned n = *size < 2 ? 0 : (*data)[0] | (unsigned)(*data)[1] << 8;
    if (*size < 2) return 0;
    *data += 2;
    *size -= 2;
    return n;
}

/* The next n bytes, or what is left of them, as buffer i: a multiple of grain. */
static void lend_next(int i, size_t n, size_t grain, unsigned repeat, const uint8_t **data, size_t *size)
{
    if (n > *size) n = *size;
    n -= n % grain;
    int repeated = (int)(repeat & 3) == (i == NARROW || i == GROUPS ? 3 : i);
    size_t len = n == 0 || !repeated ? n : n + (repeat >> 2) * STRETCH;
    lend(i, *data, n, len);
    *data += n;
    *size -= n;
}

static void lend_all(const struct operation *op, unsigned repeat, const uint8_t *data, size_t size)
{
    size_t lengths[BUFFERS] = {0};
    int inputs = op->buffers & ~B(OUT), last = BUFFERS - 1;

    while (!(inputs & B(last))) last--;
    for (int i = 0; i < op->numbers; i++) numbers[i] = take(&data, &size);
    for (int i = 0; i < last; i++)
        if (inputs & B(i)) lengths[i] = take(&data, &size);
    lengths[last] = MOST;
    for (int i = 0; i <= last; i++)
        if (inputs & B(i)) lend_next(i, lengths[i], op->call == write_floor && (i == PLACES || i == GROUPS) ? 4 : 1, repeat, &data, &size);
    if (op->buffers & B(OUT)) lend_out(numbers[op->numbers - 1]);
}

int LLVMFuzzerTestOneInput(const uint8_t *data, size_t size)
{
    if (size < HEADER) return 0;
    const struct operation *op = &operations[1 + data[0] % (OPERATIONS - 1)];
    running = op->name;
    edges = data[1];
    map_areas();
    lend_all(op, data[2], data + HEADER, size - HEADER);
    judged(op);
    for (int i = 0; i < BUFFERS; i++)
        if (op->buffers & B(i)) demand_kept(i);
    return 0;
}
