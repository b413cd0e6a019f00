/* Does one operation with the floor, the plan and the rules of a folder so many times; its three arguments are the folder, the operation
 * and how often. bench/run counts the instructions of one call as the difference of two runs. */
#include "cartplan.h"

#include <stdio.h>
#include <stdlib.h>
#include <string.h>

enum { ROOM = 65537 };

static uint8_t floor_file[ROOM], plan_file[ROOM], rules_file[ROOM], out[ROOM];
static size_t floor_len, plan_len, rules_len;

static size_t load(const char *folder, const char *name, uint8_t *buffer)
{
    char path[4096];
    snprintf(path, sizeof path, "%s/%s", folder, name);
    FILE *file = fopen(path, "rb");
    if (file == NULL) return 0;
    size_t length = fread(buffer, 1, ROOM, file);
    fclose(file);
    return length;
}

static struct cartplan_verdict read_floor(void)
{
    return cartplan_read_floor(floor_file, floor_len);
}

static struct cartplan_verdict read_plan(void)
{
    return cartplan_read_plan(floor_file, floor_len, plan_file, plan_len);
}

static struct cartplan_verdict check(void)
{
    return cartplan_check(floor_file, floor_len, plan_file, plan_len, rules_file, rules_len);
}

static struct cartplan_verdict read_rules(void)
{
    return cartplan_read_rules(rules_file, rules_len);
}

static struct cartplan_verdict check_moves(void)
{
    return cartplan_check_moves(floor_file, floor_len, plan_file, plan_len);
}

static struct cartplan_verdict move_on(void)
{
    return cartplan_move_on(floor_file, floor_len, plan_file, plan_len, 40000, out, ROOM);
}

/* The first cart's row replaced by itself: it lies behind the head's ten bytes and its own length and kind. */
static struct cartplan_verdict replace_row(void)
{
    return cartplan_replace_row(floor_file, floor_len, plan_file, plan_len, 0, out, plan_file[4]);
}

static const struct {
    const char *name;
    struct cartplan_verdict (*call)(void);
} operations[] = {
    {"read_floor", read_floor},   {"read_plan", read_plan}, {"read_rules", read_rules},
    {"check", check},
    {"check_moves", check_moves}, {"move_on", move_on},     {"replace_row", replace_row},
};

int main(int argc, char **argv)
{
    if (argc != 4) return 2;
    floor_len = load(argv[1], "floor", floor_file);
    plan_len = load(argv[1], "plan", plan_file);
    rules_len = load(argv[1], "rules", rules_file);
    if (plan_len >= 14) memcpy(out, plan_file + 14, plan_file[4]);
    for (size_t i = 0; i < sizeof operations / sizeof *operations; i++) {
        if (strcmp(argv[2], operations[i].name) != 0) continue;
        uint32_t refused = 0;
        for (long n = atol(argv[3]); n > 0; n--) refused += operations[i].call().number;
        return refused != 0;
    }
    return 2;
}
