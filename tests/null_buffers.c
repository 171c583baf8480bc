/* Each buffer of rules_run, rules_ask and rules_check as a null pointer with length 0: an empty buffer like any other.
 * Prints nothing and exits with 0 if every answer is the one that the documents give to an empty buffer. */
#include "rules.h"

#include <stdio.h>
#include <string.h>

#define UNITS 3
#define LINES 2

static const char sheet[] = "P\tmay\t1\nF\tstrobe\t0\nA\t1\nA\t0\t0\nC\t1\nQ\t1\n";
static const char text[] = "R\tproved\t3\nD\tclause\t1\n";
static uint32_t table[RULES_TABLE_NUMBERS];
static uint32_t work[RULES_WORK_NUMBERS * UNITS];
static uint8_t answer[64];
static const uint32_t request[RULES_ASK_NUMBERS] = {UNITS, 2};
static uint32_t result[RULES_ASK_RESULTS];
static int failures;

static void expect(const char *name, uint32_t returned, uint32_t outcome, uint32_t number, uint32_t line,
                   uint32_t told_number, uint32_t told_line)
{
    if (returned != outcome || told_number != number || told_line != line) {
        fprintf(stderr, "null_buffers: %s: %lu, number %lu, line %lu\n", name, (unsigned long)returned,
                (unsigned long)told_number, (unsigned long)told_line);
        failures++;
    }
}

/* A run with the buffer of this number, from 0 on, null. */
static void run(const char *name, int null, uint32_t outcome, uint32_t number, uint32_t line)
{
    uint32_t returned;

    memset(result, 0, sizeof result);
    returned = rules_run(null == 0 ? NULL : (const uint8_t *)sheet, null == 0 ? 0 : sizeof sheet - 1, UNITS,
                         null == 1 ? NULL : table, null == 1 ? 0 : RULES_TABLE_NUMBERS, null == 2 ? NULL : work,
                         null == 2 ? 0 : RULES_WORK_NUMBERS * UNITS, null == 3 ? NULL : answer,
                         null == 3 ? 0 : sizeof answer, null == 4 ? NULL : result, null == 4 ? 0 : RULES_RUN_RESULTS);
    expect(name, returned, outcome, number, line, result[RULES_RUN_REFUSAL], result[RULES_RUN_LINE]);
}

/* The same for two proofs; without a request the budget is 0. */
static void ask(const char *name, int null, uint32_t outcome, uint32_t number, uint32_t line)
{
    uint32_t returned;

    memset(result, 0, sizeof result);
    returned = rules_ask(null == 0 ? NULL : (const uint8_t *)sheet, null == 0 ? 0 : sizeof sheet - 1,
                         null == 1 ? NULL : request, null == 1 ? 0 : RULES_ASK_NUMBERS, null == 2 ? NULL : table,
                         null == 2 ? 0 : RULES_TABLE_NUMBERS, null == 3 ? NULL : work,
                         null == 3 ? 0 : RULES_WORK_NUMBERS * UNITS, null == 4 ? NULL : answer,
                         null == 4 ? 0 : sizeof answer, null == 5 ? NULL : result, null == 5 ? 0 : RULES_ASK_RESULTS);
    expect(name, returned, outcome, number, line, result[RULES_RUN_REFUSAL], result[RULES_RUN_LINE]);
}

static void check(const char *name, int null, uint32_t verdict, uint32_t number, uint32_t line)
{
    uint32_t returned;

    memset(result, 0, sizeof result);
    returned = rules_check(null == 0 ? NULL : (const uint8_t *)sheet, null == 0 ? 0 : sizeof sheet - 1,
                           null == 1 ? NULL : (const uint8_t *)text, null == 1 ? 0 : sizeof text - 1,
                           null == 2 ? NULL : table, null == 2 ? 0 : RULES_TABLE_NUMBERS, null == 3 ? NULL : work,
                           null == 3 ? 0 : RULES_WORK_NUMBERS * LINES, null == 4 ? NULL : result,
                           null == 4 ? 0 : RULES_CHECK_RESULTS);
    expect(name, returned, verdict, number, line, result[RULES_CHECK_REFUSAL], result[RULES_CHECK_LINE]);
}

int main(void)
{
    run("run, none", -1, RULES_PROVED, 0, 0);
    run("run, sheet", 0, RULES_RUN_REFUSED, 11, 1);
    run("run, table", 1, RULES_RUN_REFUSED, 2, 0);
    run("run, work", 2, RULES_RUN_REFUSED, 5, 0);
    run("run, answer", 3, RULES_RUN_REFUSED, 12, 0);
    run("run, result", 4, RULES_PROVED, 0, 0);
    ask("ask, none", -1, RULES_NO, 0, 0);
    ask("ask, sheet", 0, RULES_RUN_REFUSED, 11, 1);
    ask("ask, request", 1, RULES_RUN_REFUSED, 3, 0);
    ask("ask, table", 2, RULES_RUN_REFUSED, 2, 0);
    ask("ask, work", 3, RULES_RUN_REFUSED, 5, 0);
    ask("ask, answer", 4, RULES_RUN_REFUSED, 12, 0);
    ask("ask, result", 5, RULES_NO, 0, 0);
    check("check, none", -1, RULES_VALID, 0, 0);
    check("check, sheet", 0, RULES_CHECK_REFUSED, 11, 1);
    check("check, text", 1, RULES_NOT_VALID, 0, 1);
    check("check, table", 2, RULES_CHECK_REFUSED, 2, 0);
    check("check, work", 3, RULES_CHECK_REFUSED, 5, 0);
    check("check, result", 4, RULES_VALID, 0, 0);
    return failures != 0;
}
