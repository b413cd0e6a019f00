/* Reads the files floor and plan of a folder and prints what the library says of them, as document 01's program would. */
#include "cartplan.h"
#include "load.h"

int main(int argc, char **argv)
{
    static const char *const names[] = {"", "floor ", "plan ", "rules "};
    static uint8_t floor[LONGEST], plan[LONGEST];
    if (argc != 2) {
        fprintf(stderr, "usage: read FOLDER\n");
        return 2;
    }
    size_t floor_len = load(argv[1], "floor", floor), plan_len = load(argv[1], "plan", plan);
    struct cartplan_verdict v = cartplan_read_plan(floor, floor_len, plan, plan_len);
    if (v.number == 0)
        puts("accepted");
    else
        printf("refused %s%u %u %u\n", names[v.about], v.number, v.first, v.second);
    return 0;
}
