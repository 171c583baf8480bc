/* The proof engine for house rule sheets, and the checker of its answer texts.
 *
 * Link librules.a (tools/products.sh writes it). The header is C99 and C++.
 *
 * The functions answer for every input: there is nothing a caller must see to but that each pointer is aligned for
 * its type (pointers to numbers for uint32_t) and points to as many elements as the length after it says (where that
 * is 0 it may be null), that no buffer overlaps another or an input, and that there is enough stack (below).
 * They allocate nothing, keep nothing between two calls, read and write no file, and touch no memory
 * but the lent buffers and the stack. So any number of threads may call them at the same time, each with
 * its own buffers. What the buffers hold before a call does not matter.
 */
#ifndef RULES_H
#define RULES_H

#include <stddef.h>
#include <stdint.h>

#ifdef __cplusplus
extern "C" {
#endif

/* The version of this interface: 1 was without rules_ask. A later version keeps what an earlier one has. */
#define RULES_VERSION 2

/* Limits. At a limit an input passes; past it, it is refused under the number in brackets. */
#define RULES_SHEET_BYTES 16384   /* [1] bytes of a sheet */
#define RULES_TABLE_NUMBERS 8192  /* [2] numbers that the table must have */
#define RULES_LARGEST_BUDGET 50000 /* [3] units */
#define RULES_LARGEST_PROOFS 64   /* [13] proofs asked for */
#define RULES_TEXT_BYTES 65535    /* [4, 12] bytes of an answer text */
#define RULES_WORK_NUMBERS 64     /* [5] work numbers for each unit of budget, or for each LF of a text */

/* Stack, in bytes, that must be left where the functions are called: rules_ask needs as much as rules_run, and that of
 * rules_check does not depend on its input. A run writes a text into bytes of its own first. Its printer of terms calls
 * itself for each bracket that it opens, as long as all that are open can still be closed within the answer: so the
 * stack grows with the answer buffer, up to RULES_TEXT_BYTES. 4,096 bytes of answer take 352 KB of stack, 65,535 take
 * 4.1 MB. */
#define RULES_CHECK_STACK 65536
#define RULES_RUN_STACK(answer_len) \
    (98304 + 64 * ((size_t)(answer_len) < RULES_TEXT_BYTES ? (size_t)(answer_len) : (size_t)RULES_TEXT_BYTES))

/* What rules_run and rules_ask return. */
enum rules_outcome {
    RULES_PROVED = 0,
    RULES_NO = 1,
    RULES_SPENT = 2, /* more units are needed than the budget */
    RULES_RUN_REFUSED = 3
};

/* What rules_check returns. */
enum rules_verdict { RULES_VALID = 0, RULES_NOT_VALID = 1, RULES_CHECK_REFUSED = 3 };

/* The numbers of a request, of which rules_ask reads as many as it is given. */
enum rules_request {
    RULES_ASK_BUDGET = 0, /* units; 0 where it is missing, which is refused */
    RULES_ASK_PROOFS = 1, /* the most proofs that are wanted; 1 where it is missing */
    RULES_ASK_NUMBERS = 2
};

/* The numbers that rules_run puts into `result`, and with the number of proofs those of rules_ask. */
enum rules_run_result {
    RULES_RUN_OUTCOME = 0, /* the number returned */
    RULES_RUN_UNITS = 1,   /* units taken; with spent the budget; 0 with a refusal */
    RULES_RUN_LENGTH = 2,  /* bytes of the answer text; 0 with a refusal */
    RULES_RUN_REFUSAL = 3, /* number of the refusal, 0 where there is none */
    RULES_RUN_LINE = 4,    /* line of the refusal, 0 where there is none or where no line is at fault */
    RULES_RUN_RESULTS = 5, /* how many of them rules_run has */
    RULES_RUN_PROOFS = 5,  /* proofs in the answer text; 0 with a refusal; rules_ask only */
    RULES_ASK_RESULTS = 6  /* how many of them rules_ask has */
};

/* The numbers that rules_check puts into `result`. */
enum rules_check_result {
    RULES_CHECK_VERDICT = 0, /* the number returned */
    RULES_CHECK_LINE = 1,    /* the first line of the text that breaks, or the line of the refusal, else 0 */
    RULES_CHECK_REFUSAL = 2, /* number of the refusal, 0 where there is none */
    RULES_CHECK_RESULTS = 3
};

/* Refusals, in checking order, but that 13 comes right after 3. 6 to 11 name a line of the sheet, counted from 1; the
 * others give line 0. Runs are rules_run and rules_ask. */
enum rules_refusal {
    RULES_SHEET_TOO_LONG = 1,
    RULES_TABLE_TOO_SHORT = 2,
    RULES_BUDGET = 3,        /* 0 or over RULES_LARGEST_BUDGET; runs only */
    RULES_TEXT_TOO_LONG = 4, /* rules_check only */
    RULES_WORK_TOO_SHORT = 5,
    RULES_MALFORMED = 6,     /* letter, field count, number, name, arity, variable, or no LF */
    RULES_TOO_MANY = 7,      /* symbol 257, node 1,025 or clause 129 */
    RULES_UNKNOWN = 8,       /* a symbol or node not yet there, or a name declared again, in the same case or another */
    RULES_WRONG_KIND = 9,    /* neither term, goal nor clause; an arity; the wrong kind on a C or Q line */
    RULES_FREE_VARIABLE = 10, /* in the clause of a C line */
    RULES_NO_GOAL = 11,      /* no Q line, or bytes after it */
    RULES_ANSWER_TOO_LONG = 12, /* over RULES_TEXT_BYTES or longer than the answer buffer; runs only */
    RULES_PROOFS = 13        /* 0 or over RULES_LARGEST_PROOFS proofs asked for; rules_ask only */
};

/* Runs a sheet: searches for a proof of its goal with at most `budget` units and writes the answer text to `answer`.
 *
 * Returns one of enum rules_outcome and puts RULES_RUN_RESULTS numbers into `result`, as far as it is long; further
 * numbers of `result` are untouched. After proved, no and spent the text stands in the first result[RULES_RUN_LENGTH]
 * bytes of `answer` (it has no closing 0) and the rest of `answer` is untouched; a refusal leaves `answer` as it was.
 * After refusals 1 to 5 `table` and `work` are as they were; otherwise the first RULES_TABLE_NUMBERS numbers of
 * `table` and the first RULES_WORK_NUMBERS * budget of `work` are 0, and the rest of both is untouched.
 */
uint32_t rules_run(const uint8_t *sheet, size_t sheet_len, uint32_t budget, uint32_t *table, size_t table_len,
                   uint32_t *work, size_t work_len, uint8_t *answer, size_t answer_len, uint32_t *result,
                   size_t result_len);

/* Runs a sheet for several proofs, as many as `request` asks for at most: after each proof the search goes on as if it
 * had failed, until there are so many, no alternative is left, or no unit.
 *
 * `request` holds the numbers of enum rules_request and is read as far as it is long. Further numbers are not read; a
 * later version may read some, and a request without them then means what it means now. With one proof asked for all is
 * as with rules_run.
 *
 * The text holds the proofs in the order found, each with its line `R proved`, the units so far, and its B and D lines,
 * in which variables and constants are numbered from 0 anew; then, if fewer were found than were asked for, a line
 * `R no` or `R spent`. The outcome and the units handed back are those of the last R line, so they may be no or spent
 * although the text has proofs; result[RULES_RUN_PROOFS] says how many. No after the last proof means that there is no
 * further one. RULES_ANSWER_TOO_LONG is about the whole text. rules_check takes each proof by itself.
 *
 * Returns one of enum rules_outcome and puts RULES_ASK_RESULTS numbers into `result`, as far as it is long; further
 * numbers of `result` are untouched. After proved, no and spent the text stands in the first result[RULES_RUN_LENGTH]
 * bytes of `answer` (it has no closing 0) and the rest of `answer` is untouched; a refusal leaves `answer` as it was.
 * After refusals 1, 2, 3, 13 and 5 `table` and `work` are as they were; otherwise the first RULES_TABLE_NUMBERS numbers
 * of `table` and the first RULES_WORK_NUMBERS * budget of `work` are 0, whatever the number of proofs, and the rest of
 * both is untouched.
 */
uint32_t rules_ask(const uint8_t *sheet, size_t sheet_len, const uint32_t *request, size_t request_len,
                   uint32_t *table, size_t table_len, uint32_t *work, size_t work_len, uint8_t *answer,
                   size_t answer_len, uint32_t *result, size_t result_len);

/* Checks an answer text against a sheet, and trusts neither: valid means that the text spells a derivation of an
 * instance of the sheet's goal. A text that tells no or spent at once is not valid, at line 1. Of the text of rules_ask
 * each proof is a text by itself, from its line `R proved` up to the next R line or the end; what stands after it is not
 * valid, at that R line. A text may spell names in capitals or small letters, whichever the sheet
 * has; a run writes them as the sheet declares them. It may have any number from 0 to 65,535 where any term may stand,
 * whether or not the sheet has it.
 *
 * Returns one of enum rules_verdict and puts RULES_CHECK_RESULTS numbers into `result`, as far as it is long; further
 * numbers of `result` are untouched. `table` and `work` are left as rules_run leaves them, the work numbers being
 * RULES_WORK_NUMBERS for each LF of the text.
 */
uint32_t rules_check(const uint8_t *sheet, size_t sheet_len, const uint8_t *text, size_t text_len, uint32_t *table,
                     size_t table_len, uint32_t *work, size_t work_len, uint32_t *result, size_t result_len);

#ifdef __cplusplus
}
#endif

#endif
