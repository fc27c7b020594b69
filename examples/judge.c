/* Judges two placements of a small table: three tasks on two processors. The third task is late beside the other two. */
#include <stdint.h>
#include <stdio.h>

#include "placement.h"

/* NT, two PR, three TK: C, T, D, memory 10, priority, residence on both processors. */
static const uint8_t table[] = {
    'N', 'T', 5, 0, 0, 0,
    'P', 'R', 100, 0, 0, 0, 0xE8, 3,
    'P', 'R', 100, 0, 0, 0, 0xE8, 3,
    'T', 'K', 1, 0, 0, 0, 4, 0, 0, 0, 4, 0, 0, 0, 10, 0, 0, 0, 30, 0, 3, 0,
    'T', 'K', 2, 0, 0, 0, 6, 0, 0, 0, 6, 0, 0, 0, 10, 0, 0, 0, 20, 0, 3, 0,
    'T', 'K', 3, 0, 0, 0, 12, 0, 0, 0, 9, 0, 0, 0, 10, 0, 0, 0, 10, 0, 3, 0,
};

static void judge(const uint8_t *placement, size_t length)
{
    printf("%u\n", placement_judge(table, sizeof table, placement, length));
}

int main(void)
{
    const uint8_t apart[] = {0, 0, 1};
    const uint8_t together[] = {0, 0, 0};
    judge(apart, sizeof apart);       /* 0: every rule is kept */
    judge(together, sizeof together); /* 107: a deadline is missed */
    judge(apart, 2);                  /* 13: the placement's length is not the number of tasks */
    return 0;
}
