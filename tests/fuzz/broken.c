/* The C functions with a fault put in, to see that the harness finds it: FUZZ_FAULT names one. Linked with --wrap, so that
 * each __real_ function is the library's own. */
#include <stdio.h>
#include <stdlib.h>
#include <string.h>

#include "cartplan.h"
#include "model.h"

typedef struct cartplan_verdict verdict;
typedef struct cartplan_span span;

#define BYTES(name) const uint8_t *name, size_t name##_len
verdict __real_cartplan_read_floor(BYTES(floor));
verdict __real_cartplan_read_plan(BYTES(floor), BYTES(plan));
verdict __real_cartplan_write_floor(const uint32_t *places, size_t count, BYTES(lanes), BYTES(carts), BYTES(narrow),
                                    const uint32_t *groups, size_t group_count, uint8_t *out, size_t out_len);
verdict __real_cartplan_write_plan(BYTES(floor), uint16_t h, uint16_t l, uint16_t d, BYTES(rows), uint8_t *out, size_t out_len);
verdict __real_cartplan_read_rules(BYTES(rules));
verdict __real_cartplan_check_moves(BYTES(floor), BYTES(plan));
verdict __real_cartplan_check(BYTES(floor), BYTES(plan), BYTES(rules));
verdict __real_cartplan_move_on(BYTES(floor), BYTES(plan), uint16_t s, uint8_t *out, size_t out_len);
verdict __real_cartplan_replace_row(BYTES(floor), uint8_t *plan, size_t plan_len, uint32_t cart, BYTES(row));
span __real_cartplan_clause(BYTES(rules), BYTES(given));

static volatile uint8_t sink;

static int fault(const char *name)
{
    const char *picked = getenv("FUZZ_FAULT");
    return picked != NULL && strcmp(picked, name) == 0;
}

verdict __wrap_cartplan_read_floor(BYTES(floor))
{
    if (fault("read_before_start") && floor_len > 0) sink = floor[-1];
    if (fault("read_null") && floor == NULL) sink = *(const volatile uint8_t *)floor;
    verdict v = __real_cartplan_read_floor(floor, floor_len);
    int at_group = v.number > 2 && v.first + 4 <= floor_len && floor[v.first + 2] == 7;
    if (fault("ninth_group_read") && v.number == 5 && at_group) return (verdict){0, 0, 0, 0};
    if (fault("absent_cart_read") && v.number == 6 && at_group) return (verdict){0, 0, 0, 0};
    if (fault("absent_before_ninth") && v.number == 5 && at_group && floor[v.first + 7] != 0) v.number = 6;
    return v;
}

verdict __wrap_cartplan_read_plan(BYTES(floor), BYTES(plan))
{
    verdict v = __real_cartplan_read_plan(floor, floor_len, plan, plan_len);
    if (fault("write_lent") && v.number == 0) ((uint8_t *)(uintptr_t)floor)[0] ^= 1;
    if (fault("unknown_number") && v.number == 4) v.number = 6;
    if (fault("offset_past_end") && v.about == 2 && v.number == 7) v.first++;
    return v;
}

verdict __wrap_cartplan_write_floor(const uint32_t *places, size_t count, BYTES(lanes), BYTES(carts), BYTES(narrow), const uint32_t *groups,
                                    size_t group_count, uint8_t *out, size_t out_len)
{
    if (fault("read_groups_past_end")) sink = (uint8_t)groups[group_count];
    if (fault("drops_groups")) group_count = 0;
    if (fault("drops_one_group") && group_count > 1) group_count--;
    if (fault("read_narrow_past_end")) sink = narrow[narrow_len];
    if (fault("drops_narrow")) narrow_len = 0;
    if (fault("drops_one_narrow") && narrow_len > 1) narrow_len--;
    verdict v = __real_cartplan_write_floor(places, count, lanes, lanes_len, carts, carts_len, narrow, narrow_len, groups, group_count, out, out_len);
    if (fault("narrow_otherwise") && v.number == 0 && narrow_len > 0) out[v.first - 8 * group_count - 1] = 0;
    if (fault("group_otherwise") && v.number == 0 && group_count > 0) out[v.first - 4] = 0;
    if (fault("write_on_refusal") && v.number == 18 && out_len > 0) out[0]++;
    if (fault("read_places_past_end")) sink = (uint8_t)places[count];
    return v;
}

verdict __wrap_cartplan_write_plan(BYTES(floor), uint16_t h, uint16_t l, uint16_t d, BYTES(rows), uint8_t *out, size_t out_len)
{
    verdict v = __real_cartplan_write_plan(floor, floor_len, h, l, d, rows, rows_len, out, out_len);
    if (fault("wrong_byte") && v.number == 0) out[2] = 9;
    if (fault("short_length") && v.number == 0) v.first--;
    return v;
}

verdict __wrap_cartplan_read_rules(BYTES(rules))
{
    if (fault("read_past_end")) sink = rules[rules_len];
    verdict v = __real_cartplan_read_rules(rules, rules_len);
    int digit = v.number == 13 && v.first > 0 && v.first < rules_len && rules[v.first - 1] == '@';
    if (fault("digit_8_read") && digit && rules[v.first] == '8') return (verdict){0, 0, 0, 0};
    if (fault("space_in_group_read") && digit && rules[v.first] == ' ') return (verdict){0, 0, 0, 0};
    if (fault("groups_not_read") && v.number == 0 && memchr(rules, '@', rules_len) != NULL) return (verdict){3, 13, 0, 0};
    return v;
}

/* Faults of the moves that every function which judges them shares, so that no two of these differ. The first row begins at byte 14. */
static verdict moves_of(BYTES(floor), BYTES(plan))
{
    verdict v = __real_cartplan_check_moves(floor, floor_len, plan, plan_len);
    if (fault("parked_shut") && v.number == 0 && plan[14] == plan[plan[4] > 1 ? 15 : 14]) return (verdict){2, 11, 0, 0};
    if (fault("step_one_late") && v.number == 11) v.second++;
    return v;
}

verdict __wrap_cartplan_check_moves(BYTES(floor), BYTES(plan))
{
    static const uint8_t kept[] = "true\n";
    verdict v = __real_cartplan_check(floor, floor_len, plan, plan_len, kept, sizeof kept - 1);
    if (fault("conflict_in_moves") && v.number == 20) return v;
    if (fault("accepts_moves")) return (verdict){0, 0, 0, 0};
    return moves_of(floor, floor_len, plan, plan_len);
}

/* Faults of refusal 20, which come after the moves. */
static verdict conflict_of(verdict v, BYTES(plan), BYTES(rules))
{
    verdict sheet = __real_cartplan_read_rules(rules, rules_len);
    uint32_t carts = fleet_of(plan, plan_len);
    if (fault("conflict_missed")) return sheet;
    if (fault("conflict_after_sheet") && sheet.number != 0) return sheet;
    if (fault("conflict_about_floor")) v.about = 1;
    if (fault("conflict_about_rules")) v.about = 3;
    if (fault("highest_in_conflict")) v.first = carts - 1;
    if (fault("no_cart_in_conflict")) v.first = carts;
    if (fault("conflict_beyond_h")) v.second += plan[4];
    if (fault("conflict_a_step_late")) v.second = (v.second + 1) % plan[4];
    if (fault("conflict_no_numbers")) v.first = v.second = 0;
    return v;
}

/* Faults of percentages. */
static unsigned carts_for(unsigned share, int negated)
{
    if (fault("share_rounded_up")) return (share + 99) / 100;
    if (fault("share_rounded_down")) return share / 100;
    if (fault("share_half_down")) return (share + 49) / 100;
    if (fault("share_half_to_even")) return (share + 49 + share / 100 % 2) / 100;
    if (fault("share_rounded_negated")) return (share + 50 - (unsigned)negated) / 100;
    if (fault("share_of_one_at_least") && share > 0 && share < 50) return 1;
    return nearest(share, negated);
}

/* Faults of ors and untils: a pattern for a clause's outermost operator and its sides, or none. */
static const char *pattern_for(const struct sides *sides)
{
    int plain = sides->prefixes == 0, negated = sides->prefixes == 1 && sides->prefix == '!';
    if (fault("or_not_joined") && plain && sides->op == '|') return "(!true | (a)) | (b)";
    if (fault("or_by_left_side") && plain && sides->op == '|') return "a";
    if (fault("negated_and_apart") && negated && sides->op == '&') return "((a) & true) & (b)";
    if (fault("until_asks_left") && plain && sides->op == 'U') return "((a) & true) U (b)";
    if (fault("until_never_asks") && plain && sides->op == 'U') return "b";
    if (fault("release_not_until") && negated && sides->op == 'R') return "((a) | !true) R (b)";
    if (fault("release_asks") && plain && sides->op == 'R') return "(a) R ((a) | (b))";
    return NULL;
}

/* Further faults of ors: the last or of a chain before the others; what is no count left out of an or that it stands in. */
static size_t regrouped(BYTES(clause), const struct sides *outer, uint8_t *out)
{
    struct sides inner;
    size_t len = outer->at, to;
    if (outer->op != '|' || outer->begin != 0 || !sides_of(clause, len, &inner) || inner.op != '|' || inner.prefixes != 0) return 0;
    if (fault("or_to_the_right") && inner.begin == 0)
        to = rewritten(clause, len, &inner, "a | (b", out);
    else if (fault("mixed_or_joined") && inner.begin != 0)
        to = rewritten(clause, inner.end, &inner, "a | (b", out);
    else
        return 0;
    memcpy(out + to, clause + outer->at, clause_len - outer->at);
    to += clause_len - outer->at;
    out[to++] = ')';
    if (inner.begin != 0) out[to++] = ')';
    return to;
}

/* Faults of the sum: one cart less asked for by the last count, or a window one counter short. Only an or is let through by them. */
static verdict sum_of(verdict v, BYTES(floor), BYTES(plan), BYTES(rules))
{
    static uint8_t sheet[16384], other[65536];
    size_t last = rules_len - 1;
    memcpy(sheet, rules, rules_len);
    memcpy(other, plan, plan_len);
    while (last > 0 && (sheet[last] < '1' || sheet[last] > '9' || sheet[last - 1] == '@')) last--;
    if (fault("joined_at_least")) sheet[last]--;
    if (fault("joined_window_short")) other[8]--;
    verdict lower = __real_cartplan_check(floor, floor_len, other, plan_len, sheet, rules_len);
    return lower.number == 0 ? lower : v;
}

/* Faults of counts over groups in an or: a pattern for one that is not joined, for any group or where the groups' numbers differ. */
static const char *apart_for(BYTES(clause), const struct sides *sides)
{
    static const struct floor_numbers labels = {.groups = {1, 2, 4, 8, 16, 32, 64, 128}, .carts_len = 64};
    uint32_t sets[128];
    size_t n = sets_of(clause, clause_len, &labels, sets), alike = 0;
    if (sides->op != '|') return NULL;
    while (alike < n && sets[alike] == sets[0]) alike++;
    if (fault("groups_never_joined") && memchr(clause, '@', clause_len) != NULL) return "(!true | (a)) | (b)";
    if (fault("groups_joined_by_number") && alike < n) return "(!true | (a)) | (b)";
    return NULL;
}

/* An or or until of counts over different carts, joined as if they were all over the fleet. */
static verdict joined_of(verdict v, BYTES(floor), BYTES(plan), BYTES(rules))
{
    static const int none[9] = {FLEET, FLEET, FLEET, FLEET, FLEET, FLEET, FLEET, FLEET, FLEET};
    static uint8_t sheet[16384];
    verdict other = __real_cartplan_check(floor, floor_len, plan, plan_len, sheet, with_groups(rules, rules_len, none, sheet));
    return v.number == 17 && other.number == 0 && fault("groups_joined") ? other : v;
}

/* The check of a sheet of one clause that has sides, with one of these faults. */
static verdict either_of(BYTES(floor), BYTES(plan), BYTES(rules))
{
    static uint8_t sheet[2 * 16384 + 64];
    struct sides sides;
    verdict v = __real_cartplan_check(floor, floor_len, plan, plan_len, rules, rules_len);
    if ((v.number != 0 && v.number != 17) || memchr(rules, '\n', rules_len) != rules + rules_len - 1) return v;
    if (!sides_of(rules, rules_len - 1, &sides)) return v;
    if (plan[8] > 0 && sides.op == '|') v = sum_of(v, floor, floor_len, plan, plan_len, rules, rules_len);
    v = joined_of(v, floor, floor_len, plan, plan_len, rules, rules_len);
    const char *pattern = pattern_for(&sides);
    if (pattern == NULL) pattern = apart_for(rules, rules_len, &sides);
    size_t len = pattern != NULL ? rewritten(rules, rules_len - 1, &sides, pattern, sheet) : regrouped(rules, rules_len - 1, &sides, sheet);
    if (fault("step_not_joined") && v.number == 17 && sides.prefix == 'G' && sides.op == '|')
        len = rewritten(rules, rules_len - 1, &sides, "(!true | (a)) | (b)", sheet);
    if (len == 0) return v;
    sheet[len++] = '\n';
    verdict other = __real_cartplan_check(floor, floor_len, plan, plan_len, sheet, len);
    return other.number == 0 || other.number == 17 ? other : v;
}

/* The check, with numbers of carts in place of the percentages of a sheet that can be read. */
static verdict shares_of(BYTES(floor), BYTES(plan), BYTES(rules))
{
    static struct floor_numbers numbers;
    static uint8_t plain[16384 + 1];
    verdict v = __real_cartplan_check(floor, floor_len, plan, plan_len, rules, rules_len);
    if (v.number != 0 && v.number != 16 && v.number != 17) return v;
    take_apart(floor, floor_len, &numbers);
    for (size_t g = 0; g < 8 && fault("share_of_fleet"); g++) numbers.groups[g] = carts_of(&numbers, FLEET);
    size_t len = with_numbers(rules, rules_len, &numbers, carts_for, plain);
    return either_of(floor, floor_len, plan, plan_len, plain, len);
}

/* Faults of groups that the floor lacks, and of 21. */
static verdict lacking_of(verdict v, BYTES(floor), BYTES(plan), BYTES(rules))
{
    static const int none[9] = {FLEET, FLEET, FLEET, FLEET, FLEET, FLEET, FLEET, FLEET, FLEET};
    static uint8_t plain[16384];
    verdict other = __real_cartplan_check(floor, floor_len, plan, plan_len, plain, with_groups(rules, rules_len, none, plain));
    if (fault("lacking_as_fleet")) return other;
    if (fault("lacking_after_16") && other.number == 16) return other;
    if (fault("lacking_about_floor")) v.about = 1;
    if (fault("lacking_in_clause_0")) v.first = 0;
    if (fault("lacking_no_group")) v.second = 0;
    if (fault("lacking_last_group")) v.second = 7;
    return v;
}

/* Faults of the carts that counts are over: another group, all carts, a group that is all carts not known as that. */
static verdict others_of(BYTES(floor), BYTES(plan), BYTES(rules))
{
    static struct floor_numbers numbers;
    static uint8_t sheet[2 * 16384];
    int other[9] = {0, 1, 2, 3, 4, 5, 6, 7, FLEET};
    take_apart(floor, floor_len, &numbers);
    for (int g = 0; g < (int)numbers.group_count; g++) {
        if (fault("over_all_carts")) other[g] = FLEET;
        if (fault("over_next_group")) other[g] = (g + 1) % (int)numbers.group_count;
        if (fault("over_group_0")) other[g] = 0;
    }
    if (fault("fleet_over_group_0") && numbers.group_count > 0) other[8] = 0;
    size_t len = with_groups(rules, rules_len, other, sheet);
    return shares_of(floor, floor_len, plan, plan_len, sheet, len);
}

/* Faults of windows, which are told by a running count. */
static int running(uint64_t row, const uint8_t *plan, unsigned s)
{
    unsigned h = plan[4], l = plan[6], d = plan[8], most = fault("count_cut_short") ? 16 : 17, count = 0;
    int kept = fault("count_not_reset");
    for (unsigned v = h; v-- > l;) count = row >> v & 1 ? count + 1 : kept ? count : 0;
    if (count == h - l && !fault("count_lap_by_length")) count = most;
    if (count > most) count = most;
    if (fault("count_without_lap")) count = 0;
    for (unsigned v = h; v-- > s;) count = row >> v & 1 ? count + (count < most) : kept ? count : 0;
    return fault("count_at_least") ? count >= d : count > d;
}

/* Faults of numbers that are kept from count to count: what was first asked of a mark, or of a mark or its negation. */
static void mix_up(struct lone_count *first, size_t *asked, struct lone_count *count)
{
    int negated = count->negated ^ count->mark_negated;
    for (size_t i = 0; i < *asked; i++) {
        if (first[i].mark != count->mark) continue;
        if (fault("number_of_other_group")) count->group = first[i].group;
        if (first[i].group != count->group) continue;
        if (fault("number_of_other_sign") && negated != (first[i].negated ^ first[i].mark_negated)) {
            count->mark_negated ^= 1;
            return;
        }
        if (fault("number_for_threshold") && negated == (first[i].negated ^ first[i].mark_negated)) {
            first[i].prefix = count->prefix;
            *count = first[i];
            return;
        }
    }
    first[(*asked)++] = *count;
}

/* The fleet's size in place of a group's in a negation: as much more is asked for as carts are outside. */
static void negate_by_fleet(const struct floor_numbers *numbers, struct lone_count *count)
{
    unsigned size = size_of(carts_of(numbers, count->group)), outside = (unsigned)numbers->carts_len / 2 - size;
    unsigned m = count->is_share ? nearest(count->number * size, 0) : count->number;
    if (!fault("count_negated_by_fleet") || !count->negated) return;
    count->number = m > outside ? m - outside : 0;
    count->is_share = 0;
}

/* Whether a count of one mark is true; with a fault, all carts of a group are all carts. */
static int lone_kept(BYTES(floor), const uint8_t *plan, struct lone_count *count, uint32_t *step)
{
    static struct floor_numbers numbers;
    static uint8_t fewer[65536], rows[65536];
    uint8_t list[32];
    size_t n = 0;
    take_apart(floor, floor_len, &numbers);
    negate_by_fleet(&numbers, count);
    for (uint8_t i = 0; i < 32; i++)
        if (carts_of(&numbers, count->group) >> i & 1) list[n++] = i;
    if (n == 0 || !fault("count_all_of_group")) return is_kept(floor, floor_len, plan, count, running, step);
    pick_carts(&numbers, list, n);
    pick_rows(plan, list, n, rows);
    verdict v = __real_cartplan_write_floor(numbers.places, numbers.place_count, NULL, 0, numbers.carts, 2 * n, NULL, 0, NULL, 0, fewer, sizeof fewer);
    count->group = FLEET;
    return is_kept(fewer, v.first, rows, count, running, step);
}

/* The check of a judged sheet, line by line, with these faults in its counts of one mark. */
static verdict counts_of(BYTES(floor), BYTES(plan), BYTES(rules))
{
    static struct lone_count first[32];
    const uint8_t *line = rules;
    size_t asked = 0, left = rules_len;
    for (uint32_t number = 0; left > 0; number++) {
        struct lone_count count;
        verdict alone = {3, 17, 0, 0};
        size_t len = (size_t)((const uint8_t *)memchr(line, '\n', left) - line) + 1;
        if (!lone_count_of(line, len - 1, &count)) {
            alone = __real_cartplan_check(floor, floor_len, plan, plan_len, line, len);
        } else {
            mix_up(first, &asked, &count);
            if (lone_kept(floor, floor_len, plan, &count, &alone.second)) alone.number = 0;
        }
        if (alone.number != 0) return (verdict){3, 17, number, alone.second};
        line += len;
        left -= len;
    }
    return (verdict){0, 0, 0, 0};
}

static int counts_wrong(void)
{
    const char *picked = getenv("FUZZ_FAULT");
    return picked != NULL && (strncmp(picked, "count_", 6) == 0 || strncmp(picked, "number_", 7) == 0);
}

verdict __wrap_cartplan_check(BYTES(floor), BYTES(plan), BYTES(rules))
{
    if (fault("accepts_all")) return (verdict){0, 0, 0, 0};
    verdict v = moves_of(floor, floor_len, plan, plan_len);
    if (v.number != 0) return v;
    v = __real_cartplan_check(floor, floor_len, plan, plan_len, rules, rules_len);
    if (v.number == 21) return lacking_of(v, floor, floor_len, plan, plan_len, rules, rules_len);
    if (v.number == 0 || v.number == 16 || v.number == 17) v = others_of(floor, floor_len, plan, plan_len, rules, rules_len);
    if (v.number == 20) return conflict_of(v, plan, plan_len, rules, rules_len);
    if (counts_wrong() && (v.number == 0 || v.number == 17)) return counts_of(floor, floor_len, plan, plan_len, rules, rules_len);
    if (fault("conflict_invented") && v.number == 0) return (verdict){2, 20, 0, 0};
    if (fault("not_monotone") && v.number == 0 && plan[8] == 0) return (verdict){3, 17, 0, 0};
    if (fault("no_such_clause") && v.number == 0) return (verdict){3, 17, 31, 0};
    return v;
}

/* Faults of how far a plan with h steps and a lap from l on is moved on: each gives a plan that reads. */
static unsigned distance(unsigned s, unsigned h, unsigned l)
{
    if (fault("turned_by_s") && s > l) return s + l;
    if (fault("turned_back") && l < h && s > l) return h - (s - l) % (h - l);
    if (fault("moved_modulo_h")) return s % h;
    if (fault("moved_modulo_256")) return s % 256;
    if (fault("moved_to_last_step") && s >= h) return h - 1;
    if (fault("far_on_one_late") && s >= 32768) return s - 1;
    if (fault("turned_by_0") && s == 0 && l == 0) return 1;
    if (fault("lap_not_turned") && l == 0) return 0;
    if (fault("lap_one_late") && l == 0 && s >= h) return s + 1;
    if (fault("across_l_one_late") && l > 0 && s > l) return s + 1;
    return s;
}

verdict __wrap_cartplan_move_on(BYTES(floor), BYTES(plan), uint16_t s, uint8_t *out, size_t out_len)
{
    unsigned h = plan_len > 10 ? plan[4] : 1, l = plan_len > 10 ? plan[6] : 0, by = h > 0 ? distance(s, h, l) : s;
    verdict v = __real_cartplan_move_on(floor, floor_len, plan, plan_len, (uint16_t)by, out, out_len);
    if (fault("lap_drops_drift") && v.number == 0 && l == 0) out[8] = 0;
    if (fault("l_drops_drift") && v.number == 0 && l > 0 && s >= l) out[8] = 0;
    if (fault("l_kept") && v.number == 0 && s > l && l < out[4]) out[6] = (uint8_t)l;
    if (fault("by_0_writes_nothing") && v.number == 0 && s == 0) memset(out, 0x3c, v.first);
    if (fault("write_past_result") && v.number == 0) out[v.first]++;
    if (fault("write_before_start") && v.number == 0) out[-1]++;
    if (fault("room_too_much") && v.number == 0 && v.first == out_len) return (verdict){2, 18, v.first, 0};
    return v;
}

verdict __wrap_cartplan_replace_row(BYTES(floor), uint8_t *plan, size_t plan_len, uint32_t cart, BYTES(row))
{
    uint8_t last = plan_len > 0 ? plan[plan_len - 1] : 0;
    verdict v = moves_of(floor, floor_len, plan, plan_len);
    if (v.number != 0) return v;
    v = __real_cartplan_replace_row(floor, floor_len, plan, plan_len, cart, row, row_len);
    if (fault("replaces_less") && v.number == 0 && cart == 1) plan[plan_len - 1] = last;
    if (fault("replaces_more") && v.number == 0) plan[10]++;
    if (fault("replaces_on_refusal") && v.number == 19) plan[plan_len - 1]++;
    if (fault("parked_row_shut") && v.number == 11) v.second = 0;
    return v;
}

span __wrap_cartplan_clause(BYTES(rules), BYTES(given))
{
    span part = __real_cartplan_clause(rules, rules_len, given, given_len);
    if (fault("clause_not_by_21") && given_len == 16 && given[4] == 21) return (span){0, 0};
    if (fault("part_too_long") && part.length > 0) part.length++;
    if (fault("verdict_past_end") && given_len < 16) sink = given[15];
    return part;
}
