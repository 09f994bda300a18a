/* How much stack a step takes whose search is long: a stack is painted, a thread steps on it, and what is no longer painted was used. */
#include <pthread.h>
#include <stdio.h>
#include <stdlib.h>
#include <string.h>

#include "juntiqel.h"

enum { STACK = 1 << 20, PAINT = 0xA5, POINTS = 15 };

static uint32_t program[JQ_PROGRAM], words[JQ_WORDS], scalars[JQ_SCALARS], report[JQ_REPORT];
static const uint32_t no_rows[1];
static size_t length;
static uint32_t refused;

/* A chain of seven whose end is missing, in ten rows, as many as a rule may have: the search for it is long and deep. */
static size_t write_chain(char *text)
{
    size_t n = (size_t)sprintf(text, "set rule part op i p a b\n");
    for (int i = 0; i < POINTS; i++)
        for (int j = 0; j < POINTS; j++)
            n += (size_t)sprintf(text + n, "0 0 0 41 0 1 %d %d\n", i, j);
    for (int k = 1; k <= 7; k++)
        n += (size_t)sprintf(text + n, "1 1 %d 1 -9 1 -%d -%d\n", k <= 4 ? 1 : 2, k, k + 1);
    n += (size_t)sprintf(text + n, "1 1 2 1 -9 1 -1 -2\n1 1 2 1 -9 1 -2 -3\n1 1 2 1 -9 2 -8 -9\n");
    return n + (size_t)sprintf(text + n, "1 1 3 31 0 9 0 0\n");
}

static void *nothing(void *unused)
{
    return unused;
}

static void *step(void *unused)
{
    refused = jq_step(program, length, words, JQ_WORDS, scalars, JQ_SCALARS, report, JQ_REPORT);
    return unused;
}

/* The bytes that a thread uses. */
static size_t used(unsigned char *stack, void *(*work)(void *))
{
    pthread_attr_t attributes;
    pthread_t thread;
    size_t free = 0;
    memset(stack, PAINT, STACK);
    if (pthread_attr_init(&attributes) || pthread_attr_setstack(&attributes, stack, STACK) || pthread_create(&thread, &attributes, work, NULL) || pthread_join(thread, NULL))
        return STACK;
    while (free < STACK && stack[free] == PAINT)
        free++;
    return STACK - free;
}

int main(void)
{
    static char text[1 << 16];
    unsigned char *stack = aligned_alloc(4096, STACK);
    size_t n = write_chain(text), alone, taken;
    if (!stack || jq_load((const uint8_t *)text, n, program, JQ_PROGRAM, words, JQ_WORDS, scalars, JQ_SCALARS, report, JQ_REPORT))
        return 1;
    length = report[0] * JQ_ROW;
    if (jq_sense(program, length, words, JQ_WORDS, scalars, JQ_SCALARS, no_rows, 0, report, JQ_REPORT))
        return 1;
    alone = used(stack, nothing);
    taken = used(stack, step) - alone;
    free(stack);
    printf("stack of a step whose search is long: %zu bytes of %d\n", taken, JQ_STEP_STACK);
    return refused || report[2] != JQ_MOVED_ON || taken > JQ_STEP_STACK;
}
