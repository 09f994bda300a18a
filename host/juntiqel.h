/* The proved interpreter of meta-APL for hosts in C and in languages that call C.

   Link target/staticlib/libhost.a, which `host/build` writes (x86-64 Linux).

   Who owns what. The host owns all memory; the library keeps none, allocates none and has no state of its own. Each table is lent
   for one call as a pointer with its length in elements. Pointers are aligned and never NULL, also where the length is 0. Tables of
   one call do not overlap. Calls on different tables may run in different threads.

   What is refused. A call returns 0, or the number of its refusal (enum jq_refusal), and then every lent word is as it was before,
   the report too. Lengths are tested: a table of another length than stated is refused with JQ_NOT_WELL_FORMED, and so is a program
   or a configuration that is not well formed. So no contents do harm, as long as each table is as long as it is said to be.

   program  8 words a row: set rule part op i p a b, as in the text, but i, a and b stand 9 higher than written:
            any (-9) is 0, variables 1 to 8 (-1 to -8) are 8 to 1, a constant n is n + 9.
            jq_load wants room for JQ_PROGRAM words and reports how many rows it used; all later calls are given the
            first rows * JQ_ROW words and that length.
   words    JQ_WORDS words: 256 atoms by columns, then 64 plans of JQ_PLAN words from JQ_PLANS_AT on (id set rule left flags
            subgoal, four justifications, eight values). Atom k has its id at words[JQ_ATOM_ID + k], p at words[JQ_ATOM_P + k],
            a at words[JQ_ATOM_A + k], b at words[JQ_ATOM_B + k] and its cycle at words[JQ_ATOM_CYCLE + k]. Both in rising
            id. A subgoal is an atom's id or 0. Justifications are atoms' ids, rising, with 0 behind the last. A value is
            JQ_NO_VALUE where the variable has none. Flag f has weight 2^(f-1): 1 intended, 2 scheduled, 3 stepped,
            4 failed. Words behind the last live atom of a column, or behind the last live plan, may hold anything.
   scalars  JQ_SCALARS words, enum jq_scalar.
   report   JQ_REPORT words. [0] made and [1] gone: how many atoms and plans the call made and removed. Then what it
            did, at each call below. Words that are not named are 0.

   What is saved. A configuration is its words and scalars; a host that saves them keeps the program and JQ_VERSION beside them.
   Words that were saved under another version are not handed in: nothing converts them, jq_load begins the configuration again.
   jq_check says whether what was saved is still a program and a configuration of it.

   Without the tests. The library has the same calls without the tests of JQ_NOT_WELL_FORMED, for a language whose types guarantee
   what they test; they are not declared here, and README.md beside this file says how the Rust crate uses them. */
#ifndef JUNTIQEL_H
#define JUNTIQEL_H

#include <stddef.h>
#include <stdint.h>

#ifdef __cplusplus
extern "C" {
#endif

enum {
    JQ_VERSION = 2, /* of the layout of what is saved */
    JQ_PROGRAM = 4096,
    JQ_ROW = 8,
    JQ_WORDS = 2432,
    JQ_ATOM_ID = 0, /* where each column of the atoms begins */
    JQ_ATOM_P = 256,
    JQ_ATOM_A = 512,
    JQ_ATOM_B = 768,
    JQ_ATOM_CYCLE = 1024,
    JQ_PLANS_AT = 1280,
    JQ_PLAN = 18,
    JQ_SCALARS = 6,
    JQ_REPORT = 8,
    JQ_NO_VALUE = 65536,
    JQ_STEP_STACK = 61440 /* bytes of stack for jq_step and jq_run: what a long search needs, rounded up */
};

/* Places among the scalars. */
enum jq_scalar {
    JQ_PHASE = 0,   /* 0 sense, 1 to k the rule sets, k + 1 exec */
    JQ_CYCLE = 1,   /* how many cycles have ended */
    JQ_NEXT_ID = 2, /* of the next atom or plan */
    JQ_WAITING = 3, /* the plan that waits for an answer, or 0 */
    JQ_ATOMS = 4,   /* how many atoms live */
    JQ_PLANS = 5    /* how many plans live */
};

enum jq_refusal {
    JQ_NOT_WELL_FORMED = 1, /* program or configuration not well formed, or a table of a wrong length */
    JQ_LAYOUT = 2,          /* text not as laid out */
    JQ_BROKEN_RULE = 3,     /* row breaks a rule of its op, part or order */
    JQ_WITHOUT_VALUE = 4,   /* body variable without value */
    JQ_TOO_MANY = 5,        /* set over 8, rule over 32, too many rows or initial atoms */
    JQ_OUT_OF_TURN = 6,     /* call out of turn */
    JQ_OUT_OF_RANGE = 7,    /* sense row, number of sense rows, answer or run limit out of range */
    JQ_NO_ID = 8,           /* next id 65536 and one more needed */
    JQ_NO_ATOM_PLACE = 9,   /* 256 atoms alive and one more needed */
    JQ_NO_PLAN_PLACE = 10,  /* 64 plans alive and one more needed */
    JQ_LAST_CYCLE = 11,     /* cycle 65535 would end */
    JQ_NOT_ALIVE = 12       /* delete of an id not alive */
};

/* report[2] of jq_step */
enum jq_did {
    JQ_FIRED = 1,      /* [3] set, [4] rule, [5] enum jq_made, [6] its id */
    JQ_MOVED_ON = 2,   /* to the next phase */
    JQ_EXECUTED = 3,   /* [3] plan, [4] enum jq_how */
    JQ_WAITS = 4,      /* [3] plan, [4] p, [5] a, [6] b: the action that the host is asked for */
    JQ_CYCLE_ENDED = 5 /* phase 0 */
};

enum jq_made { JQ_MADE_NONE = 0, JQ_MADE_ATOM = 1, JQ_MADE_PLAN = 2 };

enum jq_how { JQ_EMPTY = 1, JQ_HELD = 2, JQ_DONE = 3, JQ_FAILED = 4 };

/* report[2] of jq_run */
enum jq_stop {
    JQ_STOP_PHASE_0 = 1,
    JQ_STOP_WAITING = 2,
    JQ_STOP_LIMIT = 3,
    JQ_STOP_REFUSED = 4 /* a next step would be refused: [4] its number */
};

/* Reads a program text into program (JQ_PROGRAM words) and begins its configuration: words and scalars need not hold
   anything before. report[0]: the number of rows; report[1]: 0. Refused, it returns number + line * 2^32. */
uint64_t jq_load(const uint8_t *text, size_t text_length,
                 uint32_t *program, size_t program_length,
                 uint32_t *words, size_t words_length,
                 uint32_t *scalars, size_t scalars_length,
                 uint32_t *report, size_t report_length);

/* For what was saved: 0 if program and configuration are well formed together, else JQ_NOT_WELL_FORMED, also for wrong lengths.
   All later calls test this themselves. */
uint32_t jq_check(const uint32_t *program, size_t program_length,
                  const uint32_t *words, size_t words_length,
                  const uint32_t *scalars, size_t scalars_length);

/* Readings, in phase 0: up to 64 rows of four words, sign (1 add, 2 withdraw), p, a, b. rows_length counts words. */
uint32_t jq_sense(const uint32_t *program, size_t program_length,
                  uint32_t *words, size_t words_length,
                  uint32_t *scalars, size_t scalars_length,
                  const uint32_t *rows, size_t rows_length,
                  uint32_t *report, size_t report_length);

/* One step, outside phase 0 and while no plan waits. report[2]: enum jq_did. */
uint32_t jq_step(const uint32_t *program, size_t program_length,
                 uint32_t *words, size_t words_length,
                 uint32_t *scalars, size_t scalars_length,
                 uint32_t *report, size_t report_length);

/* Ends the waiting of a plan: n is 1 if its action was done, 0 if it failed. */
uint32_t jq_answer(const uint32_t *program, size_t program_length,
                   uint32_t *words, size_t words_length,
                   uint32_t *scalars, size_t scalars_length,
                   uint32_t n,
                   uint32_t *report, size_t report_length);

/* Deletes the atom or plan id with all that was raised from it, while no plan waits. */
uint32_t jq_delete(const uint32_t *program, size_t program_length,
                   uint32_t *words, size_t words_length,
                   uint32_t *scalars, size_t scalars_length,
                   uint32_t id,
                   uint32_t *report, size_t report_length);

/* Steps in turn, at most limit (1 to 10000), outside phase 0 and while no plan waits. report[2]: enum jq_stop,
   [3] the steps taken, [4] the refusal's number with JQ_STOP_REFUSED. */
uint32_t jq_run(const uint32_t *program, size_t program_length,
                uint32_t *words, size_t words_length,
                uint32_t *scalars, size_t scalars_length,
                uint32_t limit,
                uint32_t *report, size_t report_length);

#ifdef __cplusplus
}
#endif

#endif
