/* An accepted floor's numbers, also of some of its carts, and the conflicts of a plan in narrow places: two carts in one at a moment (a vertex conflict), or
 * exchanged between two in one tick (a swap conflict). A sheet's percentages as numbers of carts, and its groups. Counts of one mark, by
 * their windows. A clause's outermost operator. */
#include "model.h"

#include <stdio.h>
#include <stdlib.h>
#include <string.h>

enum { CARTS = 32, COUNTERS = 64 + 16 + 2 * 64 + 1 };

static void append(uint8_t *to, size_t *len, const uint8_t *body, size_t n)
{
    memcpy(to + *len, body, n);
    *len += n;
}

void take_apart(const uint8_t *floor, size_t floor_len, struct floor_numbers *numbers)
{
    numbers->place_count = numbers->lanes_len = numbers->carts_len = numbers->narrow_len = numbers->group_count = 0;
    for (size_t at = 0; at < floor_len; at += 4u + floor[at]) {
        const uint8_t *body = floor + at + 4;
        switch (floor[at + 2]) {
        case 1: memcpy(&numbers->places[numbers->place_count++], body, 4); break;
        case 2: append(numbers->lanes, &numbers->lanes_len, body, 3); break;
        case 3: append(numbers->carts, &numbers->carts_len, body, 2); break;
        case 6: append(numbers->narrow, &numbers->narrow_len, body, 1); break;
        case 7:
            if (numbers->group_count == 8) return;
            memcpy(&numbers->groups[numbers->group_count++], body, 4);
            break;
        }
    }
}

uint32_t carts_of(const struct floor_numbers *numbers, int group)
{
    return group == FLEET ? UINT32_MAX >> (CARTS - numbers->carts_len / 2) : numbers->groups[group];
}

unsigned size_of(uint32_t set)
{
    unsigned size = 0;
    for (unsigned n = 0; n < CARTS; n++) size += set >> n & 1;
    return size;
}

void pick_carts(struct floor_numbers *numbers, const uint8_t *list, size_t n)
{
    uint8_t all[sizeof numbers->carts];
    memcpy(all, numbers->carts, sizeof all);
    numbers->carts_len = 2 * n;
    for (size_t i = 0; i < n; i++) memcpy(numbers->carts + 2 * i, all + 2 * list[i], 2);
    for (size_t g = 0; g < numbers->group_count; g++) {
        uint32_t kept = 0;
        for (size_t i = 0; i < n; i++) kept |= (numbers->groups[g] >> list[i] & 1) << i;
        numbers->groups[g] = kept;
    }
}

size_t pick_rows(const uint8_t *plan, const uint8_t *list, size_t n, uint8_t *out)
{
    size_t len = 0, row = 4u + plan[4];
    append(out, &len, plan, 10);
    for (size_t i = 0; i < n; i++) append(out, &len, plan + 10 + list[i] * row, row);
    return len;
}

unsigned fleet_of(const uint8_t *plan, size_t plan_len)
{
    return (unsigned)(plan_len - 10) / (4u + plan[4]);
}

size_t moved_plan(const uint8_t *plan, size_t plan_len, unsigned s, uint8_t *out)
{
    unsigned h = plan[4], l = plan[6], left = s <= l ? h - s : h - l, from = 0;
    size_t len = 0;
    append(out, &len, plan, 10);
    out[4] = (uint8_t)left;
    out[6] = (uint8_t)(s <= l ? l - s : 0);
    for (unsigned v = 0; v < s; v++) from = from + 1 < h ? from + 1 : l;
    for (unsigned n = 0; n < fleet_of(plan, plan_len); n++) {
        const uint8_t *row = plan + 10 + n * (4 + h) + 4, record[4] = {(uint8_t)left, 0, 5, 0};
        append(out, &len, record, sizeof record);
        for (unsigned v = 0, step = from; v < left; v++, step = step + 1 < h ? step + 1 : l) append(out, &len, row + step, 1);
    }
    return len;
}

static uint8_t is_narrow[256], place[CARTS][COUNTERS];
static unsigned carts, drift, counters;

/* Where each cart stands at each counter: two laps more than h and the drift, after which nothing is met for the first time. */
static void fill_places(const uint8_t *plan)
{
    unsigned h = plan[4], l = plan[6];
    drift = plan[8];
    counters = h + drift + 2 * (h - l);
    for (unsigned n = 0; n < carts; n++)
        for (unsigned v = 0, step = 0; v <= counters; v++, step = step + 1 < h ? step + 1 : l)
            place[n][v] = plan[10 + n * (4 + h) + 4 + step];
}

static int meet(unsigned a, unsigned v, unsigned b, unsigned w)
{
    uint8_t p = place[a][v], q = place[b][w];
    if (!is_narrow[p] || !is_narrow[q]) return 0;
    return p == q || (place[a][v + 1] == q && place[b][w + 1] == p);
}

static int in_conflict(unsigned a, unsigned v)
{
    unsigned from = v < drift ? 0 : v - drift;
    if (!is_narrow[place[a][v]]) return 0;
    for (unsigned w = from; w <= v + drift && w < counters; w++)
        for (unsigned b = 0; b < carts; b++)
            if (b != a && meet(a, v, b, w)) return 1;
    return 0;
}

int lowest_conflict(const uint8_t *floor, size_t floor_len, const uint8_t *plan, uint32_t *cart, uint32_t *step)
{
    static struct floor_numbers numbers;
    unsigned h = plan[4], l = plan[6];
    take_apart(floor, floor_len, &numbers);
    memset(is_narrow, 0, sizeof is_narrow);
    for (size_t i = 0; i < numbers.narrow_len; i++) is_narrow[numbers.narrow[i]] = 1;
    carts = (unsigned)numbers.carts_len / 2;
    fill_places(plan);
    for (unsigned a = 0; a < carts && numbers.narrow_len > 0; a++)
        for (unsigned v = 0; v < counters; v++)
            if (in_conflict(a, v)) {
                *cart = a;
                *step = v < h ? v : l + (v - l) % (h - l);
                return 1;
            }
    return 0;
}

static int apart(unsigned share, unsigned number)
{
    return abs((int)share - 100 * (int)number);
}

/* By distance: of two that are as near the higher one. */
unsigned nearest(unsigned share, int negated)
{
    unsigned best = 0;
    (void)negated;
    for (unsigned number = 1; number <= CARTS; number++)
        if (apart(share, number) <= apart(share, best)) best = number;
    return best;
}

/* The number that begins at a byte; where it ends, which is that byte if none begins there. */
static unsigned number_at(const uint8_t *rules, size_t rules_len, size_t at, size_t *end)
{
    unsigned number = 0;
    for (*end = at; *end < rules_len && rules[*end] >= '0' && rules[*end] <= '9'; ++*end) number = 10 * number + rules[*end] - '0';
    return number;
}

/* The group that stands at a byte or behind spaces there, or FLEET. */
static int group_at(const uint8_t *rules, size_t rules_len, size_t at)
{
    while (at < rules_len && rules[at] == ' ') at++;
    return at + 1 < rules_len && rules[at] == '@' ? rules[at + 1] - '0' : FLEET;
}

size_t with_numbers(const uint8_t *rules, size_t rules_len, const struct floor_numbers *numbers, rounding *rounded, uint8_t *out)
{
    size_t len = 0;
    int nots = 0, negated = 0;
    for (size_t at = 0, end; at < rules_len; at = end) {
        unsigned number = number_at(rules, rules_len, at, &end);
        if (end > at && end < rules_len && rules[end] == '%') {
            unsigned size = size_of(carts_of(numbers, group_at(rules, rules_len, ++end)));
            len += (size_t)sprintf((char *)out + len, "%u", rounded(number * size, negated));
            continue;
        }
        if (rules[at] == '[') negated = nots & 1;
        if (rules[at] != ' ') nots = rules[at] == '!' ? nots + 1 : 0;
        if (end == at) end++;
        append(out, &len, rules + at, end - at);
    }
    return len;
}

size_t with_groups(const uint8_t *rules, size_t rules_len, const int other[9], uint8_t *out)
{
    size_t len = 0;
    int group = FLEET;
    for (size_t at = 0; at < rules_len; at++) {
        if (rules[at] == '@') {
            group = rules[++at] - '0';
            continue;
        }
        if (rules[at] == ']') {
            group = other[group == FLEET ? 8 : group];
            if (group != FLEET) len += (size_t)sprintf((char *)out + len, "@%d", group);
            group = FLEET;
        }
        out[len++] = rules[at];
    }
    return len;
}

int missing_group(const uint8_t *rules, size_t rules_len, size_t group_count, uint32_t *clause, uint32_t *group)
{
    *clause = 0;
    for (size_t at = 0; at < rules_len; at++) {
        if (rules[at] == '\n') ++*clause;
        if (rules[at] != '@') continue;
        *group = (uint32_t)(rules[at + 1] - '0');
        if (*group >= group_count) return 1;
    }
    return 0;
}

size_t sets_of(const uint8_t *text, size_t len, const struct floor_numbers *numbers, uint32_t *sets)
{
    size_t n = 0;
    int group = FLEET;
    for (size_t at = 0; at < len; at++) {
        if (text[at] == '@') group = text[at + 1] - '0';
        if (text[at] != ']') continue;
        sets[n++] = carts_of(numbers, group);
        group = FLEET;
    }
    return n;
}

/* The byte at a place that is no space, or 0 behind the end. */
static uint8_t look(const uint8_t *clause, size_t len, size_t *at)
{
    while (*at < len && clause[*at] == ' ') ++*at;
    return *at < len ? clause[*at] : 0;
}

static int take_byte(const uint8_t *clause, size_t len, size_t *at, uint8_t byte)
{
    int found = look(clause, len, at) == byte;
    *at += (size_t)found;
    return found;
}

static int take_nots(const uint8_t *clause, size_t len, size_t *at)
{
    int nots = 0;
    while (take_byte(clause, len, at, '!')) nots ^= 1;
    return nots;
}

int lone_count_of(const uint8_t *clause, size_t len, struct lone_count *count)
{
    size_t at = 0;
    count->prefix = look(clause, len, &at) == 'G' || look(clause, len, &at) == 'F' ? clause[at++] : 0;
    count->negated = take_nots(clause, len, &at);
    if (!take_byte(clause, len, &at, '[')) return 0;
    count->mark_negated = take_nots(clause, len, &at);
    if (!take_byte(clause, len, &at, 'm')) return 0;
    count->mark = number_at(clause, len, at, &at);
    if (!take_byte(clause, len, &at, ',')) return 0;
    look(clause, len, &at);
    count->number = number_at(clause, len, at, &at);
    count->is_share = take_byte(clause, len, &at, '%');
    count->group = group_at(clause, len, at);
    if (take_byte(clause, len, &at, '@')) at++;
    return take_byte(clause, len, &at, ']') && look(clause, len, &at) == 0;
}

int throughout(uint64_t row, const uint8_t *plan, unsigned s)
{
    unsigned h = plan[4], l = plan[6], d = plan[8];
    for (unsigned v = s; v <= s + d; v++)
        if (!(row >> (v < h ? v : l + (v - l) % (h - l)) & 1)) return 0;
    return 1;
}

/* The steps of a cart on places that bear a mark, or on the others. */
static uint64_t marked(const struct floor_numbers *numbers, const uint8_t *plan, unsigned of, unsigned mark, int negated)
{
    const uint8_t *row = plan + 10 + of * (4u + plan[4]) + 4;
    uint64_t steps = 0;
    for (unsigned s = 0; s < plan[4]; s++) steps |= (uint64_t)((numbers->places[row[s]] >> mark & 1) ^ (unsigned)negated) << s;
    return steps;
}

int is_kept(const uint8_t *floor, size_t floor_len, const uint8_t *plan, const struct lone_count *count, window *held, uint32_t *step)
{
    static struct floor_numbers numbers;
    unsigned h = plan[4], failing = h, met = 0;
    take_apart(floor, floor_len, &numbers);
    uint32_t over = carts_of(&numbers, count->group);
    unsigned fleet = (unsigned)numbers.carts_len / 2, size = size_of(over);
    unsigned m = count->is_share ? nearest(count->number * size, 0) : count->number;
    if (count->negated) m = m > size ? 0 : size + 1 - m;
    for (unsigned s = h; s-- > 0;) {
        unsigned here = 0, within = 0;
        for (unsigned n = 0; n < fleet; n++) {
            if (!(over >> n & 1)) continue;
            uint64_t row = marked(&numbers, plan, n, count->mark, count->negated ^ count->mark_negated);
            here += row >> s & 1;
            within += (unsigned)held(row, plan, s);
        }
        if (within >= m || (m == 1 && here == fleet))
            met++;
        else
            failing = s;
    }
    *step = count->prefix == 'G' ? failing : 0;
    return count->prefix == 'F' ? met > 0 : count->prefix == 'G' ? met == h : failing > 0;
}

/* Where the outermost operator with two sides stands between two bytes: the last | outside parentheses and brackets, or the last &, or the
 * first U or R. `end` if there is none. */
static size_t outermost(const uint8_t *clause, size_t begin, size_t end)
{
    size_t last_or = end, last_and = end, until = end;
    int depth = 0;
    for (size_t at = begin; at < end; at++) {
        uint8_t byte = clause[at];
        depth += (byte == '(' || byte == '[') - (byte == ')' || byte == ']');
        if (depth != 0) continue;
        if (byte == '|') last_or = at;
        if (byte == '&') last_and = at;
        if ((byte == 'U' || byte == 'R') && until == end) until = at;
    }
    return last_or != end ? last_or : last_and != end ? last_and : until;
}

int sides_of(const uint8_t *clause, size_t len, struct sides *sides)
{
    size_t begin = 0, end = len, at = outermost(clause, 0, len);
    sides->prefixes = 0;
    sides->prefix = 0;
    for (; at == end && begin < end && strchr(" !FGX", clause[begin]); begin++) {
        if (clause[begin] == ' ') continue;
        if (sides->prefixes++ == 0) sides->prefix = clause[begin];
    }
    if (at == end && begin < end && clause[begin] == '(') {
        begin++;
        while (clause[--end] != ')') continue;
        at = outermost(clause, begin, end);
    }
    if (at == end) return 0;
    sides->begin = begin;
    sides->at = at;
    sides->end = end;
    sides->op = clause[at];
    return 1;
}

int plain_count_of(const uint8_t *part, size_t len, struct plain_count *count)
{
    size_t at = 0, end;
    if (!take_byte(part, len, &at, '[')) return 0;
    for (end = at; part[end] != ','; end++) continue;
    count->text = part + at;
    count->len = end - at;
    for (at = end + 1; at < len && part[at] == ' '; at++) continue;
    count->number = number_at(part, len, at, &at);
    count->group = group_at(part, len, at);
    if (take_byte(part, len, &at, '@')) at++;
    return take_byte(part, len, &at, ']') && look(part, len, &at) == 0;
}

size_t rewritten(const uint8_t *clause, size_t len, const struct sides *sides, const char *pattern, uint8_t *out)
{
    size_t to = 0;
    append(out, &to, clause, sides->begin);
    for (; *pattern != 0; pattern++) {
        if (*pattern == 'a')
            append(out, &to, clause + sides->begin, sides->at - sides->begin);
        else if (*pattern == 'b')
            append(out, &to, clause + sides->at + 1, sides->end - sides->at - 1);
        else
            out[to++] = (uint8_t)*pattern;
    }
    append(out, &to, clause + sides->end, len - sides->end);
    return to;
}
