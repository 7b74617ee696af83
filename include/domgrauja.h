/* Domgrauja for programs in C: check a timing sheet, and run one.
 *
 * tools/install.sh PREFIX proves, builds and installs the static library with this header.
 * Compile and link with what `pkg-config --cflags --libs domgrauja` prints; tools/embed.sh does so for the examples.
 *
 * This header is written by hand. Nothing proves that it matches the library.
 *
 * Rules for every call:
 * - No pointer is NULL, also where the length behind it is 0. Where you have no bytes to lend,
 *   lend the address of any variable with the length 0.
 * - A length counts elements, and the memory behind the pointer has that many. What is written
 *   to does not overlap with anything else that is lent to the same call, and no other thread
 *   touches it during the call.
 * - Each call makes what it needs with malloc and frees it before it returns. It keeps nothing,
 *   so calls from several threads do not meet. Do not call from a signal handler, or from the
 *   forked child of a process with threads.
 * - As measured, a call takes less than 50,000 bytes from malloc and less than 32,000 bytes of stack.
 *   Nothing proves it.
 */
#ifndef DOMGRAUJA_H
#define DOMGRAUJA_H

#include <stdbool.h>
#include <stddef.h>
#include <stdint.h>

#ifdef __cplusplus
extern "C" {
#endif

/* Limits. */
#define DOMGRAUJA_MOST_TEXT 16384       /* bytes of a sheet */
#define DOMGRAUJA_MOST_SENTENCE 96      /* bytes that are room for any sentence */
#define DOMGRAUJA_MOST_STATES 1000      /* states that a run may be asked for; these calls go no further */
#define DOMGRAUJA_MOST_WIDTH 16         /* variables of a sheet, counted from 0 */

/* The room of a record: so many bytes take one state of text, so many numbers one state of a table.
 * A run stops with 34 where its record has no room for the next state. */
#define DOMGRAUJA_STATE_BYTES(width) (12 + 13 * (width))
#define DOMGRAUJA_STATE_NUMBERS(width) (width)

/* The numbers of an answer. 0 is none of these: the text is a sheet, or the run has done what was asked. */
/* 1 to 12 are the refusals: the text is no sheet. docs/REFUSALS.md has them, each with its sentence. */
#define DOMGRAUJA_WRONG_STATES 22       /* the states that were asked for are not 1 to 1,000: nothing was run */
#define DOMGRAUJA_CONTRADICTION 31      /* the next state meets a contradiction; see `statement` */
#define DOMGRAUJA_UNDETERMINED 32       /* the next state leaves something open; see `variable` */
#define DOMGRAUJA_CROWDED 33            /* the next state has too many duties or spans */
#define DOMGRAUJA_FULL 34               /* the record has no room for the next state */
#define DOMGRAUJA_NO_MEMORY 50          /* there is no memory for what the call needs: nothing was done */

/* In place of a variable: every variable has a number, but the end of a span is open. */
#define DOMGRAUJA_SPAN_END 99

/* A reading: the number that a variable has in a state. Variables and states count from 0.
 * Of several readings for one variable and state the first counts. Readings for other variables than
 * 0 to 15, or for states beyond 65,534, are passed over. A reading counts where the sheet asks for it
 * with `request`. */
typedef struct domgrauja_reading {
    uint32_t state;
    uint32_t variable;
    int64_t number;
} domgrauja_reading;

/* An answer. Numbers that it has no need of are 0, but for `width` after domgrauja_run_numbers. */
typedef struct domgrauja_answer {
    uint32_t number;    /* 0, or one of the numbers above */
    uint32_t line;      /* refused: the line that is meant, counted from 1, or 0 for the whole text */
    uint32_t word;      /* refused: the word that is meant, counted from 1, or 0 */
    uint32_t statement; /* 31: the statement where the contradiction was met */
    uint32_t variable;  /* 32: the lowest variable without a number, or 99 for the end of a span */
    bool finished;      /* the run has finished: its states are the one interval that satisfies the sheet */
    size_t states;      /* how many states are recorded; with 31 to 34 this is the state that is meant, too */
    size_t width;       /* how many variables the sheet has; so many numbers are a state of a table */
    size_t length;      /* how many bytes are written */
} domgrauja_answer;

/* Whether a text is a sheet.
 * It is: number is 0, and width says how many variables it has.
 * It is not: number, line and word say why, and a sentence to read out stands at the front of
 * `sentence`, with its length in `length`. It has no byte 0 at its end. Where it does not fit,
 * nothing is written and `length` is 0. No byte of `sentence` behind `length` changes. */
domgrauja_answer domgrauja_check(const uint8_t *text, size_t text_length,
                                 uint8_t *sentence, size_t sentence_length);

/* Runs the sheet that a text spells under the readings, from state 0 on, for up to `states` states.
 * The record is written as text to the front of `record`, `length` bytes: for each state a line
 * state=K, and then a line vJ=X for each variable.
 *   number 0, finished:      the last state is recorded.
 *   number 0, not finished:  all states that were asked for are recorded, and none is the last.
 *   number 31 to 34:         the states before it are recorded.
 *   any other number:        nothing is recorded. A refused text is told ahead of 22.
 * `length` is at most `record_length`, and no byte of `record` behind it changes. `width` is 0.
 * Equal texts and readings give equal states: to go on, run again for more states. */
domgrauja_answer domgrauja_run_text(const uint8_t *text, size_t text_length,
                                    const domgrauja_reading *readings, size_t readings_length,
                                    size_t states,
                                    uint8_t *record, size_t record_length);

/* The same, with the record as a table: variable J of state K is numbers[K * width + J].
 * `width` says how many variables the sheet has; where the text is refused or there is no memory it means nothing.
 * `length` is 0. For the `states` and `width` of the answer, `states` * `width` is at most `numbers_length`, and no
 * number behind so many changes. */
domgrauja_answer domgrauja_run_numbers(const uint8_t *text, size_t text_length,
                                       const domgrauja_reading *readings, size_t readings_length,
                                       size_t states,
                                       int64_t *numbers, size_t numbers_length);

#ifdef __cplusplus
}
#endif

#endif
