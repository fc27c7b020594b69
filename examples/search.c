/* Searches a placement of the tasks in the table file on standard input, and prints the answer. */
#include <stdint.h>
#include <stdio.h>

#include "placement.h"

/* No file that is longer can be read. A longer answer has places for more conflicts. */
static uint8_t file[8192], answer[16384];

/* The head ends where the first mark stands: processors are below 8, and 255 is none. */
static size_t print_head(void)
{
    size_t end = 2;
    printf(answer[0] == 'A' ? "placed on" : "no placement");
    for (; answer[end] < 8 || answer[end] == 255; end++)
        if (answer[0] == 'A')
            printf(" %d", answer[end]);
    printf("\n");
    return end;
}

static void print_conflict(const uint8_t *record)
{
    uint32_t mask = record[2] | (uint32_t)record[3] << 8 | (uint32_t)record[4] << 16;
    printf("these cannot share a processor:");
    for (int task = 0; task < 24; task++)
        if (mask >> task & 1)
            printf(" %d", task);
    printf("\n");
}

int main(void)
{
    size_t length = fread(file, 1, sizeof file, stdin);
    uint64_t count = placement_search(file, length, answer, sizeof answer);
    if (count >> 32) {
        printf("refused: cause %u at %u\n", (unsigned)(count >> 32), (unsigned)(uint32_t)count);
        return 0;
    }
    for (size_t at = print_head(); at < count - 3; at += 6)
        print_conflict(answer + at);
    printf(answer[count - 1] ? "the list is complete\n" : "the list is cut\n");
    return 0;
}
