/* Moves the plan of a folder on by one number after the other and prints what is left. By 2 and then by 3 it prints what it does by 5, and by 0 the plan. */
#include "cartplan.h"
#include "load.h"

#include <stdlib.h>
#include <string.h>

/* A plan that was written by the library: a head of ten bytes, then a row for each cart behind four bytes of its own. */
static void print(const uint8_t *plan, size_t len)
{
    size_t h = plan[4], l = plan[6], d = plan[8];
    printf("%zu steps, the lap from step %zu on, drift %zu\n", h, l, d);
    for (size_t at = 10; at < len; at += 4 + h) {
        for (size_t s = 0; s < h; s++) printf("%s%u", s == 0 ? "" : " ", plan[at + 4 + s]);
        puts("");
    }
}

int main(int argc, char **argv)
{
    static uint8_t floor[LONGEST], plan[LONGEST], out[LONGEST];
    if (argc < 3) {
        fprintf(stderr, "usage: move FOLDER S ...\n");
        return 2;
    }
    size_t floor_len = load(argv[1], "floor", floor), plan_len = load(argv[1], "plan", plan);
    for (int i = 2; i < argc; i++) {
        unsigned long s = strtoul(argv[i], NULL, 10);
        if (s > UINT16_MAX) {
            fprintf(stderr, "move: a plan is moved on by 65,535 at most\n");
            return 2;
        }
        struct cartplan_verdict v = cartplan_move_on(floor, floor_len, plan, plan_len, (uint16_t)s, out, sizeof out);
        if (v.number != 0) {
            printf("refused %s %u %u %u\n", v.about == 1 ? "floor" : "plan", v.number, v.first, v.second);
            return 1;
        }
        plan_len = v.first;
        memcpy(plan, out, plan_len);
    }
    print(plan, plan_len);
    return 0;
}
