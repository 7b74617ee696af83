/* Checks a sheet, and runs it as a light barrier and a stop button tell their readings.
 * Its argument is the sheet: examples/readings.sheet. */
#include "domgrauja.h"

#include <inttypes.h>
#include <stdio.h>

/* One byte more than a sheet may have, so that a text that is too long is still seen to be so. */
static uint8_t text[DOMGRAUJA_MOST_TEXT + 1];

/* Room for 100 states of any sheet. */
static int64_t numbers[100 * DOMGRAUJA_MOST_WIDTH];
static uint8_t record[100 * DOMGRAUJA_STATE_BYTES(DOMGRAUJA_MOST_WIDTH)];

/* What the barrier (variable 0) and the button (variable 1) tell, state by state. */
static const domgrauja_reading readings[] = {
    {0, 0, 1}, {0, 1, 0},
    {1, 0, 0}, {1, 1, 0},
    {2, 0, 1}, {2, 1, 0},
    {3, 0, 1}, {3, 1, 1},
};

/* Says why a text is no sheet. */
static void tell_refusal(const uint8_t *bytes, size_t length)
{
    uint8_t sentence[DOMGRAUJA_MOST_SENTENCE];
    domgrauja_answer answer = domgrauja_check(bytes, length, sentence, sizeof sentence);
    printf("refused: %" PRIu32 ", line %" PRIu32 ", word %" PRIu32 ": %.*s\n",
           answer.number, answer.line, answer.word, (int)answer.length, (const char *)sentence);
}

/* Says how a run stands. */
static void tell_run(domgrauja_answer answer)
{
    if (answer.number == DOMGRAUJA_UNDETERMINED)
        printf("waits for variable %" PRIu32 " in state %zu\n", answer.variable, answer.states);
    else if (answer.number != 0)
        printf("number %" PRIu32 " at state %zu\n", answer.number, answer.states);
    else
        printf("%s with %zu states\n", answer.finished ? "finished" : "open", answer.states);
}

/* Prints the states of a table. */
static void tell_states(domgrauja_answer answer)
{
    for (size_t k = 0; k < answer.states; k++) {
        printf("state %zu:", k);
        for (size_t j = 0; j < answer.width; j++)
            printf(" %" PRId64, numbers[k * answer.width + j]);
        printf("\n");
    }
}

int main(int argc, char **argv)
{
    FILE *file = argc == 2 ? fopen(argv[1], "rb") : NULL;
    if (file == NULL) {
        fprintf(stderr, "usage: example SHEET\n");
        return 1;
    }
    size_t length = fread(text, 1, sizeof text, file);
    fclose(file);

    tell_refusal((const uint8_t *)"sheet=1\n", 8);
    domgrauja_answer sheet = domgrauja_check(text, length, record, 0);
    if (sheet.number != 0) {
        tell_refusal(text, length);
        return 1;
    }
    printf("a sheet with %zu variables\n", sheet.width);

    /* As the belt moves: after each state there are two readings more. */
    for (size_t known = 1; known <= 4; known++)
        tell_run(domgrauja_run_numbers(text, length, readings, 2 * known, DOMGRAUJA_MOST_STATES,
                                       numbers, sizeof numbers / sizeof numbers[0]));

    domgrauja_answer answer = domgrauja_run_numbers(text, length, readings, 8, DOMGRAUJA_MOST_STATES,
                                                    numbers, sizeof numbers / sizeof numbers[0]);
    tell_states(answer);

    answer = domgrauja_run_text(text, length, readings, 8, 2, record, sizeof record);
    tell_run(answer);
    fwrite(record, 1, answer.length, stdout);
    tell_run(domgrauja_run_text(text, length, readings, 8, 4, record, 3 * DOMGRAUJA_STATE_BYTES(sheet.width)));
    tell_run(domgrauja_run_text(text, length, readings, 8, 0, record, sizeof record));
    return 0;
}
