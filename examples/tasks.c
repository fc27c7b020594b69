/* Judges a placement of the tasks in the table file on standard input, and prints the judgement, and the response and the margin of each task.
 * The arguments are the processors of the tasks, in the tasks' order.
 */
#include <stdint.h>
#include <stdio.h>
#include <stdlib.h>

#include "placement.h"

/* No file that is longer can be read, and no file has more than 24 tasks. There is room for one processor more, so that too many are refused. */
static uint8_t file[8192], placement[25];
static int32_t out[50];

/* No table has a processor 255. */
static uint8_t processor(const char *argument)
{
    unsigned long number = strtoul(argument, NULL, 10);
    return number < 255 ? (uint8_t)number : 255;
}

static void print_judgement(int32_t number, int32_t concerned)
{
    if (number == 0)
        printf("every rule is kept\n");
    else
        printf("rule %d is broken, number concerned %d\n", (int)number, (int)concerned);
}

static void print_task(size_t task, int32_t response, int32_t margin)
{
    printf("task %zu on %d ", task, placement[task]);
    if (margin == PLACEMENT_BEYOND)
        printf("late beyond its period\n");
    else if (margin < 0)
        printf("late by %d\n", (int)-margin);
    else
        printf("response %d margin %d\n", (int)response, (int)margin);
}

int main(int argc, char **argv)
{
    size_t length = fread(file, 1, sizeof file, stdin), tasks = 0;
    for (; tasks + 1 < (size_t)argc && tasks < sizeof placement; tasks++)
        placement[tasks] = processor(argv[tasks + 1]);
    uint64_t count = placement_judge_tasks(file, length, placement, tasks, out, sizeof out / sizeof out[0]);
    if (count >> 32) {
        printf("refused: cause %u at %u\n", (unsigned)(count >> 32), (unsigned)(uint32_t)count);
        return 0;
    }
    print_judgement(out[0], out[1]);
    for (size_t task = 0; task < tasks; task++)
        print_task(task, out[2 + task], out[2 + tasks + task]);
    return 0;
}
