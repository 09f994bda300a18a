/* The run that document 01 prints, through the C interface: load, sense 1 1 3 1200, run 10; then refusals, what is saved, and the withdrawal.
   Prints what happened, and exits with 1 if anything is not as expected. */
#include <inttypes.h>
#include <stdio.h>
#include <string.h>

#include "juntiqel.h"

static const char text[] =
    "set rule part op i p a b\n"
    "0 0 0 40 0 1 4095 2\n"
    "1 1 1 1 -1 1 -2 -3\n"
    "1 1 3 36 -9 3 -2 -3\n"
    "2 1 2 3 -1 0 -9 -9\n"
    "2 1 2 12 -1 0 2 0\n"
    "2 1 3 23 -1 0 2 0\n";

static uint32_t program[JQ_PROGRAM];
static uint32_t words[JQ_WORDS];
static uint32_t scalars[JQ_SCALARS];
static uint32_t report[JQ_REPORT];
static size_t used; /* words of the program */
static int failures;

static void expect(const char *what, uint64_t is, uint64_t should_be)
{
    if (is != should_be) {
        printf("%s: %" PRIu64 ", expected %" PRIu64 "\n", what, is, should_be);
        failures++;
    }
}

static void load(void)
{
    uint64_t refused = jq_load((const uint8_t *)text, strlen(text), program, JQ_PROGRAM, words, JQ_WORDS,
                               scalars, JQ_SCALARS, report, JQ_REPORT);
    expect("load", refused, 0);
    expect("rows", report[0], 6);
    used = (size_t)report[0] * JQ_ROW;
    printf("loaded %" PRIu32 " rows\n", report[0]);
}

/* A text whose third line lacks a column. */
static void load_refused(void)
{
    static const char wrong[] = "set rule part op i p a b\n0 0 0 40 0 1 4095 2\n1 1 1 1 -1 1 -2\n";
    uint64_t refused = jq_load((const uint8_t *)wrong, strlen(wrong), program, JQ_PROGRAM, words, JQ_WORDS,
                               scalars, JQ_SCALARS, report, JQ_REPORT);
    expect("refusal of the load", refused & 0xffffffff, JQ_LAYOUT);
    expect("line of the refusal", refused >> 32, 3);
    printf("load refused %" PRIu64 " at line %" PRIu64 "\n", refused & 0xffffffff, refused >> 32);
}

static void sense(uint32_t sign, uint32_t made, uint32_t gone)
{
    const uint32_t rows[] = {sign, 1, 3, 1200};
    uint32_t refused = jq_sense(program, used, words, JQ_WORDS, scalars, JQ_SCALARS, rows, 4, report, JQ_REPORT);
    expect("sense", refused, 0);
    expect("made by the sense", report[0], made);
    expect("gone by the sense", report[1], gone);
    printf("sensed: made %" PRIu32 ", gone %" PRIu32 "\n", report[0], report[1]);
}

static void run(void)
{
    uint32_t refused = jq_run(program, used, words, JQ_WORDS, scalars, JQ_SCALARS, 10, report, JQ_REPORT);
    expect("run", refused, 0);
    expect("made by the run", report[0], 2);
    expect("gone by the run", report[1], 0);
    expect("why the run stopped", report[2], JQ_STOP_PHASE_0);
    expect("steps", report[3], 6);
    expect("cycle", scalars[JQ_CYCLE], 1);
    printf("ran %" PRIu32 " steps: made %" PRIu32 ", gone %" PRIu32 "\n", report[3], report[0], report[1]);
}

/* The atoms 1 and 3 and the plan 2 between them. */
static void show(void)
{
    static const uint32_t atoms[][5] = {{1, 1, 3, 1200, 0}, {3, 3, 3, 1200, 0}};
    static const uint32_t plan[] = {2, 1, 1, 1, 0, 3, 1, 0, 0, 0};
    expect("live atoms", scalars[JQ_ATOMS], 2);
    expect("live plans", scalars[JQ_PLANS], 1);
    expect("plan as expected", memcmp(words + JQ_PLANS_AT, plan, sizeof plan) == 0, 1);
    for (uint32_t k = 0; k < scalars[JQ_ATOMS]; k++) {
        const uint32_t id = words[JQ_ATOM_ID + k], p = words[JQ_ATOM_P + k], a = words[JQ_ATOM_A + k], b = words[JQ_ATOM_B + k];
        const uint32_t x[] = {id, p, a, b, words[JQ_ATOM_CYCLE + k]};
        expect("atom as expected", k < 2 && memcmp(x, atoms[k], sizeof x) == 0, 1);
        printf("atom %" PRIu32 ": %" PRIu32 "(%" PRIu32 ", %" PRIu32 ")\n", id, p, a, b);
    }
    for (uint32_t k = 0; k < scalars[JQ_PLANS]; k++) {
        const uint32_t *q = words + JQ_PLANS_AT + k * JQ_PLAN;
        printf("plan %" PRIu32 ": set %" PRIu32 ", rule %" PRIu32 ", %" PRIu32 " steps left, subgoal %" PRIu32 "\n", q[0], q[1],
               q[2], q[3], q[5]);
    }
}

/* A step in phase 0 is out of turn, and a table of a wrong length is refused too: nothing changes. */
static void refusals(void)
{
    static uint32_t words_before[JQ_WORDS];
    uint32_t scalars_before[JQ_SCALARS];
    memcpy(words_before, words, sizeof words);
    memcpy(scalars_before, scalars, sizeof scalars);
    uint32_t refused = jq_step(program, used, words, JQ_WORDS, scalars, JQ_SCALARS, report, JQ_REPORT);
    expect("refusal of a step in phase 0", refused, JQ_OUT_OF_TURN);
    printf("step refused %" PRIu32 "\n", refused);
    refused = jq_delete(program, used, words, JQ_WORDS - 1, scalars, JQ_SCALARS, 1, report, JQ_REPORT);
    expect("refusal of too few words", refused, JQ_NOT_WELL_FORMED);
    printf("delete with too few words refused %" PRIu32 "\n", refused);
    expect("words unchanged", memcmp(words_before, words, sizeof words) == 0, 1);
    expect("scalars unchanged", memcmp(scalars_before, scalars, sizeof scalars) == 0, 1);
}

/* What a host saves is tested when it comes back: whole it is a configuration of the program, without its program it is not. */
static void saved(void)
{
    static uint32_t kept[JQ_WORDS];
    memcpy(kept, words, sizeof words);
    expect("check", jq_check(program, used, kept, JQ_WORDS, scalars, JQ_SCALARS), 0);
    expect("check without the rules", jq_check(program, JQ_ROW, kept, JQ_WORDS, scalars, JQ_SCALARS), JQ_NOT_WELL_FORMED);
    expect("check of too few words", jq_check(program, used, kept, JQ_WORDS - 1, scalars, JQ_SCALARS), JQ_NOT_WELL_FORMED);
    expect("words unchanged by a check", memcmp(kept, words, sizeof words) == 0, 1);
    printf("saved and checked, version %d\n", JQ_VERSION);
}

int main(void)
{
    load();
    load_refused();
    sense(1, 1, 0);
    run();
    show();
    refusals();
    saved();
    sense(2, 0, 3);
    expect("atoms left", scalars[JQ_ATOMS], 0);
    expect("plans left", scalars[JQ_PLANS], 0);
    return failures != 0;
}
