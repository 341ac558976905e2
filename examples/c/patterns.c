/* Reads two patterns, writes one back as text, tests a series against it, and says whether the two accept the same series. */
#include "ringmatch.h"

#include <inttypes.h>
#include <stdio.h>
#include <string.h>

static const char *const texts[2] = {
    "automaton A { init p; p -> q [0, 9]; accepting q; };",
    "automaton C { init p; p -> q [0, 8]; accepting q; };",
};

static uint32_t sheets[2][RINGMATCH_SHEET_WORDS];
static uint64_t lengths[2];
static uint8_t labels[2][RINGMATCH_LABEL_BYTES];
static uint64_t label_bytes[2];
static uint8_t text[RINGMATCH_TEXT_BYTES];

static int refused(const char *call, uint32_t number) {
    printf("%s: refused %" PRIu32 "\n", call, number);
    return 1;
}

int main(void) {
    for (int i = 0; i < 2; i++) {
        uint64_t read;
        uint32_t code =
            ringmatch_parse_automaton((const uint8_t *)texts[i], strlen(texts[i]), sheets[i], RINGMATCH_SHEET_WORDS,
                                      labels[i], RINGMATCH_LABEL_BYTES, &read, &lengths[i], &label_bytes[i]);
        if (code != 0)
            return refused("parse_automaton", code);
        printf("pattern %d: %" PRIu64 " bytes read, a sheet of %" PRIu64 " words\n", i + 1, read, lengths[i]);
    }

    uint64_t bytes;
    uint32_t code = ringmatch_write_automaton(sheets[0], lengths[0], labels[0], label_bytes[0], text,
                                              RINGMATCH_TEXT_BYTES, &bytes);
    if (code != 0)
        return refused("write_automaton", code);
    printf("pattern 1 as text: ");
    fwrite(text, 1, bytes, stdout);
    printf("\n");

    uint32_t series[1] = {9}, answer;
    code = ringmatch_accepts_words(sheets[0], lengths[0], series, 1, &answer);
    if (code != 0)
        return refused("accepts_words", code);
    printf("the series 9 is %saccepted by pattern 1\n", answer ? "" : "not ");

    uint32_t word[RINGMATCH_DIFFERENCE_WORDS], same;
    uint64_t number;
    code = ringmatch_equality(sheets[0], lengths[0], sheets[1], lengths[1], word, RINGMATCH_DIFFERENCE_WORDS, &same,
                              &number);
    if (code != 0)
        return refused("equality", code);
    if (same) {
        printf("same %" PRIu64 "\n", number);
    } else {
        printf("differ");
        for (uint64_t i = 0; i < number; i++)
            printf(" %" PRIu32, word[i]);
        printf("\n");
    }

    /* A misspelt accepting name is refused with 33. */
    static const char misspelt[] = "automaton A { init p; p -> q [0, 9]; accepting r; };";
    uint64_t read;
    code = ringmatch_parse_automaton((const uint8_t *)misspelt, strlen(misspelt), sheets[1], RINGMATCH_SHEET_WORDS,
                                     labels[1], RINGMATCH_LABEL_BYTES, &read, &lengths[1], &label_bytes[1]);
    printf("a misspelt accepting name: refused %" PRIu32 "\n", code);

    /* A sheet of 257 states is refused with 3, and nothing is written. */
    uint32_t large[3] = {1, 0, RINGMATCH_MAX_STATES + 1};
    answer = 7;
    code = ringmatch_is_nfa(large, 3, &answer);
    printf("257 states: refused %" PRIu32 ", answer still %" PRIu32 "\n", code, answer);
    return 0;
}
