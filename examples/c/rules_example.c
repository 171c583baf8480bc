/* Runs a sheet, prints the answer, and checks it: rules_example SHEET [BUDGET [ANSWER_BYTES [PROOFS]]]
 *
 * Prints the answer text and then the checker's verdict on its proof, or, where a number of proofs is given, on each in
 * order; for a refusal `X`, its number and its line. Compiles as C99 and as C++.
 */
#include "rules.h"

#include <stdio.h>
#include <stdlib.h>

static uint8_t sheet[RULES_SHEET_BYTES + 1]; /* one byte past the limit is enough to be refused */
static uint32_t table[RULES_TABLE_NUMBERS];
static uint8_t answer[RULES_TEXT_BYTES];

/* The numeric argument at a place, or its default. */
static unsigned long argument(int argc, char **argv, int place, unsigned long otherwise)
{
    return place < argc ? strtoul(argv[place], NULL, 10) : otherwise;
}

/* A work buffer for so many units or lines. What it holds does not matter, so it is not cleared. */
static uint32_t *work_buffer(size_t count)
{
    uint32_t *work = (uint32_t *)malloc((count + 1) * RULES_WORK_NUMBERS * sizeof(uint32_t));
    if (work == NULL) {
        fprintf(stderr, "rules_example: no memory\n");
        exit(2);
    }
    return work;
}

static void print_refusal(uint32_t number, uint32_t line)
{
    printf("X\t%lu\t%lu\n", (unsigned long)number, (unsigned long)line);
}

/* Checks a proof; gives the exit status. */
static int check(size_t sheet_len, const uint8_t *text, size_t text_len)
{
    uint32_t result[RULES_CHECK_RESULTS];
    size_t lines = 0;
    size_t i;
    uint32_t *work;
    uint32_t verdict;

    for (i = 0; i < text_len; i++)
        lines += text[i] == '\n';
    work = work_buffer(lines);
    verdict = rules_check(sheet, sheet_len, text, text_len, table, RULES_TABLE_NUMBERS, work,
                          lines * RULES_WORK_NUMBERS, result, RULES_CHECK_RESULTS);
    free(work);
    if (verdict == RULES_VALID)
        printf("valid\n");
    else if (verdict == RULES_NOT_VALID)
        printf("not valid\t%lu\n", (unsigned long)result[RULES_CHECK_LINE]);
    else
        print_refusal(result[RULES_CHECK_REFUSAL], result[RULES_CHECK_LINE]);
    return verdict == RULES_VALID ? 0 : 1;
}

/* Checks so many proofs of the answer text, each by itself: it ends where the next R line starts. */
static int check_proofs(size_t sheet_len, size_t text_len, uint32_t proofs)
{
    size_t start = 0;
    int status = 0;

    for (; proofs > 0; proofs--) {
        size_t end = start + 1;
        while (end < text_len && !(answer[end - 1] == '\n' && answer[end] == 'R'))
            end++;
        status |= check(sheet_len, answer + start, end - start);
        start = end;
    }
    return status;
}

int main(int argc, char **argv)
{
    uint32_t result[RULES_ASK_RESULTS];
    uint32_t request[RULES_ASK_NUMBERS];
    uint32_t budget = (uint32_t)argument(argc, argv, 2, 256);
    size_t answer_len = argument(argc, argv, 3, RULES_TEXT_BYTES);
    size_t units = budget < RULES_LARGEST_BUDGET ? budget : RULES_LARGEST_BUDGET;
    size_t sheet_len;
    uint32_t *work;
    uint32_t outcome;
    FILE *file;

    if (argc < 2 || answer_len > RULES_TEXT_BYTES) {
        fprintf(stderr, "usage: rules_example SHEET [BUDGET [ANSWER_BYTES [PROOFS]]]\n");
        return 2;
    }
    file = fopen(argv[1], "rb");
    if (file == NULL) {
        perror(argv[1]);
        return 2;
    }
    sheet_len = fread(sheet, 1, sizeof sheet, file);
    fclose(file);

    work = work_buffer(units);
    if (argc < 5) {
        outcome = rules_run(sheet, sheet_len, budget, table, RULES_TABLE_NUMBERS, work, units * RULES_WORK_NUMBERS,
                            answer, answer_len, result, RULES_RUN_RESULTS);
        result[RULES_RUN_PROOFS] = outcome == RULES_PROVED;
    } else {
        request[RULES_ASK_BUDGET] = budget;
        request[RULES_ASK_PROOFS] = (uint32_t)argument(argc, argv, 4, 1);
        outcome = rules_ask(sheet, sheet_len, request, RULES_ASK_NUMBERS, table, RULES_TABLE_NUMBERS, work,
                            units * RULES_WORK_NUMBERS, answer, answer_len, result, RULES_ASK_RESULTS);
    }
    free(work);
    if (outcome == RULES_RUN_REFUSED) {
        print_refusal(result[RULES_RUN_REFUSAL], result[RULES_RUN_LINE]);
        return 0;
    }
    fwrite(answer, 1, result[RULES_RUN_LENGTH], stdout);
    return check_proofs(sheet_len, result[RULES_RUN_LENGTH], result[RULES_RUN_PROOFS]);
}
