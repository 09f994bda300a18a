/* A workload through the C interface (workloads/README.md has the format).
     run WORK TIMES     prints digest=.. calls=.. refused=.. ns=..
   The list is worked so many times; calls and ns are of the timed calls, ns the least. Exits with 2 if the list cannot be read.
   Build: cc -O2 -I host bench/run.c target/staticlib/libhost.a -o run */
#include <inttypes.h>
#include <stdio.h>
#include <stdlib.h>
#include <string.h>
#include <time.h>

#include "juntiqel.h"

enum kind { LOAD, SENSE, STEP, RUN, ANSWER, DELETE, TIMER_ON, TIMER_OFF, DIGEST };

struct line {
    enum kind kind;
    uint32_t n;
    uint32_t rows[256]; /* of a sense */
    uint8_t *text;      /* of a load */
    size_t length;      /* of the rows in words, or of the text */
};

enum { LINES = 1 << 13, TEXT = 1 << 17 };

static struct line lines[LINES];
static size_t count;

static uint32_t program[JQ_PROGRAM], words[JQ_WORDS], scalars[JQ_SCALARS], report[JQ_REPORT];
static size_t used; /* words of the program */
static uint64_t digest;

static void fold(const char *s)
{
    for (; *s; s++)
        digest = (digest ^ (uint8_t)*s) * UINT64_C(0x100000001b3);
}

/* Whether the body of the plan's rule uses variable v. */
static int is_used(const uint32_t *plan, uint32_t v)
{
    const uint32_t x = 9 - v;
    for (const uint32_t *r = program; r < program + used; r += JQ_ROW)
        if (r[0] == plan[1] && r[1] == plan[2] && r[2] == 3 && (r[4] == x || r[6] == x || r[7] == x))
            return 1;
    return 0;
}

static void fold_plan(const uint32_t *q)
{
    char s[512];
    int n = sprintf(s, "plan %" PRIu32 " %" PRIu32 " %" PRIu32 " %" PRIu32 " %" PRIu32 " %" PRIu32 " ", q[0], q[1], q[2], q[3], q[4], q[5]);
    for (int j = 0; j < 4 && q[6 + j]; j++)
        n += sprintf(s + n, j ? ",%" PRIu32 : "%" PRIu32, q[6 + j]);
    for (uint32_t v = 1; v <= 8; v++) {
        if (is_used(q, v))
            n += sprintf(s + n, " %" PRIu32, q[9 + v]);
        else
            n += sprintf(s + n, " -");
    }
    sprintf(s + n, "\n");
    fold(s);
}

static void fold_config(void)
{
    char s[128];
    sprintf(s, "config %" PRIu32 " %" PRIu32 " %" PRIu32 " %" PRIu32 "\n", scalars[JQ_PHASE], scalars[JQ_CYCLE], scalars[JQ_NEXT_ID],
            scalars[JQ_WAITING]);
    fold(s);
    for (uint32_t k = 0; k < scalars[JQ_ATOMS]; k++) {
        sprintf(s, "atom %" PRIu32 " %" PRIu32 " %" PRIu32 " %" PRIu32 " %" PRIu32 "\n", words[JQ_ATOM_ID + k], words[JQ_ATOM_P + k],
                words[JQ_ATOM_A + k], words[JQ_ATOM_B + k], words[JQ_ATOM_CYCLE + k]);
        fold(s);
    }
    for (uint32_t k = 0; k < scalars[JQ_PLANS]; k++)
        fold_plan(words + JQ_PLANS_AT + k * JQ_PLAN);
}

static uint64_t now(void)
{
    struct timespec t;
    clock_gettime(CLOCK_MONOTONIC, &t);
    return (uint64_t)t.tv_sec * 1000000000 + (uint64_t)t.tv_nsec;
}

/* The program texts stand beside the list. */
static int read_text(struct line *l, const char *list, const char *name)
{
    char path[4096];
    const char *slash = strrchr(list, '/');
    snprintf(path, sizeof path, "%.*s%s", slash ? (int)(slash - list) + 1 : 0, list, name);
    FILE *f = fopen(path, "rb");
    l->text = malloc(TEXT);
    if (!f || !l->text)
        return 0;
    l->length = fread(l->text, 1, TEXT, f);
    fclose(f);
    return 1;
}

static int read_line(struct line *l, char *text, const char *list)
{
    const char *word = strtok(text, " ");
    if (!strcmp(word, "load")) {
        l->kind = LOAD;
        return (word = strtok(NULL, " ")) && read_text(l, list, word);
    }
    if (!strcmp(word, "sense")) {
        l->kind = SENSE;
        while ((word = strtok(NULL, " ")) && l->length < 256)
            l->rows[l->length++] = (uint32_t)strtoul(word, NULL, 10);
        return !word;
    }
    static const char *const names[] = {"step", "run", "answer", "delete", "timer", "digest"};
    static const enum kind kinds[] = {STEP, RUN, ANSWER, DELETE, TIMER_ON, DIGEST};
    for (size_t k = 0; k < sizeof kinds / sizeof *kinds; k++) {
        if (strcmp(word, names[k]))
            continue;
        const char *rest = strtok(NULL, " ");
        l->kind = kinds[k];
        l->n = rest ? (uint32_t)strtoul(rest, NULL, 10) : 0;
        if (l->kind == TIMER_ON && rest && !strcmp(rest, "off"))
            l->kind = TIMER_OFF;
        return 1;
    }
    return 0;
}

static int read_lines(const char *list)
{
    static char text[1 << 16];
    FILE *f = fopen(list, "r");
    if (!f)
        return 0;
    while (fgets(text, sizeof text, f)) {
        text[strcspn(text, "\n")] = 0;
        if (*text && *text != '#' && (count == LINES || !read_line(lines + count++, text, list)))
            return 0;
    }
    fclose(f);
    return 1;
}

/* The answer of a call: 0, or a refusal. */
static uint64_t call(const struct line *l)
{
    uint64_t refused;
    switch (l->kind) {
    case LOAD:
        refused = jq_load(l->text, l->length, program, JQ_PROGRAM, words, JQ_WORDS, scalars, JQ_SCALARS, report, JQ_REPORT);
        used = report[0] * JQ_ROW;
        return refused;
    case SENSE:
        return jq_sense(program, used, words, JQ_WORDS, scalars, JQ_SCALARS, l->rows, l->length, report, JQ_REPORT);
    case STEP:
        return jq_step(program, used, words, JQ_WORDS, scalars, JQ_SCALARS, report, JQ_REPORT);
    case RUN:
        return jq_run(program, used, words, JQ_WORDS, scalars, JQ_SCALARS, l->n, report, JQ_REPORT);
    case ANSWER:
        return jq_answer(program, used, words, JQ_WORDS, scalars, JQ_SCALARS, l->n, report, JQ_REPORT);
    default:
        return jq_delete(program, used, words, JQ_WORDS, scalars, JQ_SCALARS, l->n, report, JQ_REPORT);
    }
}

int main(int argc, char **argv)
{
    uint64_t least = UINT64_MAX, refused = 0, timed = 0;
    if (argc != 3 || !read_lines(argv[1]))
        return 2;
    for (int time = 0; time < atoi(argv[2]); time++) {
        uint64_t spent = 0, from = 0;
        int is_on = 0;
        refused = timed = 0;
        digest = UINT64_C(0xcbf29ce484222325);
        for (const struct line *l = lines; l < lines + count; l++) {
            if (l->kind == TIMER_ON) {
                is_on = 1;
                from = now();
            } else if (l->kind == TIMER_OFF) {
                spent += now() - from;
                is_on = 0;
            } else if (l->kind == DIGEST) {
                fold_config();
            } else {
                refused += call(l) != 0;
                timed += is_on;
            }
        }
        if (spent < least)
            least = spent;
    }
    printf("digest=%016" PRIx64 " calls=%" PRIu64 " refused=%" PRIu64 " ns=%" PRIu64 "\n", digest, timed, refused, least);
    return 0;
}
