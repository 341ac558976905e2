/* Ringmatch automata: the C functions of the static library libringmatch.a (`tools/archive`).
 *
 * A pattern is a sheet, a list of 32-bit words in three sections, each after its count:
 *   1, the start state's index;
 *   the number of states n, then n accept words (1 accepts, 0 does not);
 *   the number of transitions m, then m records of five words: from, kind (0 epsilon, 1 range), first, last, to.
 * Records ascend strictly by their five words. A label list is bytes: the number of labels in two bytes, low first, then
 * each label after its one-byte length of 1 to 64.
 *
 * Every function returns 0, or the number of a refusal; after a refusal nothing was written, neither to the outputs nor to the
 * answers and lengths. A slice is a pointer and a number of elements; a slice of no elements may have any pointer that is not null. The memory of
 * the outputs, the answers and the inputs must not overlap. No function allocates memory, keeps a pointer or has state; calls from several
 * threads are independent. A thread with 256 KiB of stack is enough for every call (docs/BENCHMARKS.md).
 *
 * An output sheet, label list or text stands at the front of its buffer, and what is behind it is unchanged. */
#ifndef RINGMATCH_H
#define RINGMATCH_H

#include <stddef.h>
#include <stdint.h>

#ifdef __cplusplus
extern "C" {
#endif

/* Limits of a sheet, and the least sizes of outputs: sheets in words, labels in bytes, a difference word in words, a text in bytes. */
#define RINGMATCH_MAX_STATES 256
#define RINGMATCH_MAX_TRANSITIONS 2048
#define RINGMATCH_MAX_LABEL 64
#define RINGMATCH_SHEET_WORDS 10500
#define RINGMATCH_LABEL_BYTES 16642
#define RINGMATCH_DIFFERENCE_WORDS 510
#define RINGMATCH_TEXT_BYTES 65536

/* Kinds of records. */
#define RINGMATCH_EPSILON 0
#define RINGMATCH_RANGE 1

/* Outer marks of a ring series: its last ring is whole, or unfinished and no measurement. */
#define RINGMATCH_WHOLE_RING 0
#define RINGMATCH_UNFINISHED_RING 1

/* Refusals that come from the input. */
#define RINGMATCH_SHEET_LENGTH 1   /* a sheet too short for what its counts announce, or with words left over */
#define RINGMATCH_START 2          /* start count not 1, or start index not below the state count */
#define RINGMATCH_COUNTS 3         /* state count 0 or over 256, or transition count over 2,048 */
#define RINGMATCH_ACCEPT_WORD 4    /* an accept word other than 0 or 1 */
#define RINGMATCH_RECORD 5         /* a record with a wrong kind, state index or range, or an epsilon with symbols */
#define RINGMATCH_RECORD_ORDER 6   /* a record not greater than the one before it */
#define RINGMATCH_EPSILON_MET 7    /* an epsilon in a product */
#define RINGMATCH_GRAMMAR 8        /* text outside the grammar, or a name over 64 bytes */
#define RINGMATCH_UTF8 9           /* malformed UTF-8 */
#define RINGMATCH_LABELS 10        /* a faulty label list */

/* Refusals that come from the input of one function: 30 to 32 of ringmatch_write_automaton, 33 of ringmatch_parse_automaton, 34 of
 * ringmatch_accepts_series. */
#define RINGMATCH_EPSILON_RECORD 30     /* a record is an epsilon */
#define RINGMATCH_NO_ACCEPTING_STATE 31 /* no state that the text names accepts */
#define RINGMATCH_NAMES 32              /* two labels in the text are equal, one is no name, or the text is over 65,536 bytes */
#define RINGMATCH_ACCEPTING_NAME 33     /* an accepting name that is no state */
#define RINGMATCH_OUTER_MARK 34         /* an outer mark over 1 */

/* Refusals that come from the state. */
#define RINGMATCH_OUTPUT_LENGTH 20 /* an output shorter than its least size */
#define RINGMATCH_STATES 21        /* the result needs over 256 states */
#define RINGMATCH_TRANSITIONS 22   /* the result needs over 2,048 transitions */

/* Whether the sheet accepts a word of 32-bit symbols: *answer is 1 or 0. Refusals: 1 to 6. */
uint32_t ringmatch_accepts_words(const uint32_t *sheet, size_t sheet_words, const uint32_t *word, size_t symbols,
                                 uint32_t *answer);

/* Whether the sheet accepts a text in UTF-8, as the word of its code points: *answer is 1 or 0. Refusals: 1 to 6, 9. */
uint32_t ringmatch_accepts_text(const uint32_t *sheet, size_t sheet_words, const uint8_t *text, size_t bytes,
                                uint32_t *answer);

/* Whether the sheet accepts a ring series with an outer mark, oldest ring first: *answer is 1 or 0. With RINGMATCH_UNFINISHED_RING the last ring is
 * left off before matching, and an empty series stays empty. Refusals: 1 to 6, 34. */
uint32_t ringmatch_accepts_series(const uint32_t *sheet, size_t sheet_words, const uint32_t *series, size_t rings,
                                  uint32_t mark, uint32_t *answer);

/* The deterministic automaton of the same words, one transition a symbol in every state, labelled D0, D1 and so on. *words is the
 * length of the sheet written to out, *bytes that of the labels. Refusals: 20; 1 to 6; 21, 22. */
uint32_t ringmatch_determinize(const uint32_t *sheet, size_t sheet_words, uint32_t *out, size_t out_room,
                               uint8_t *labels_out, size_t labels_room, uint64_t *words, uint64_t *bytes);

/* The product of two automata, labelled (0, 1) and so on. Where neither has an epsilon it accepts just the words that both accept.
 * Refusals: 20; 1 to 6 of a, then of b; 21, 7, 22. */
uint32_t ringmatch_intersection(const uint32_t *a, size_t a_words, const uint32_t *b, size_t b_words, uint32_t *out,
                                size_t out_room, uint8_t *labels_out, size_t labels_room, uint64_t *words,
                                uint64_t *bytes);

/* The automaton with one more state, labelled sink, to which the symbols lead that no range of a state holds; the words are kept.
 * Refusals: 20; 1 to 6; 10; 21, 22. */
uint32_t ringmatch_totalize(const uint32_t *sheet, size_t sheet_words, const uint8_t *labels, size_t label_bytes,
                            uint32_t *out, size_t out_room, uint8_t *labels_out, size_t labels_room, uint64_t *words,
                            uint64_t *bytes);

/* The automaton with acceptance flipped, totalized before if ringmatch_is_nfa. Its words are the others only where the sheet has no epsilon
 * and no overlap: determinize first otherwise. Refusals: 20; 1 to 6; 10; 21, 22. */
uint32_t ringmatch_complement(const uint32_t *sheet, size_t sheet_words, const uint8_t *labels, size_t label_bytes,
                              uint32_t *out, size_t out_room, uint8_t *labels_out, size_t labels_room, uint64_t *words,
                              uint64_t *bytes);

/* The automaton of the same words and states without epsilons. Refusals: 20; 1 to 6; 10; 22. */
uint32_t ringmatch_epsilon_eliminate(const uint32_t *sheet, size_t sheet_words, const uint8_t *labels,
                                     size_t label_bytes, uint32_t *out, size_t out_room, uint8_t *labels_out,
                                     size_t labels_room, uint64_t *words, uint64_t *bytes);

/* Whether the sheet has an epsilon, an overlap or a hole: *answer is 1 or 0. Refusals: 1 to 6. */
uint32_t ringmatch_is_nfa(const uint32_t *sheet, size_t sheet_words, uint32_t *answer);

/* Whether some word is accepted: *answer is 1 or 0. Refusals: 1 to 6. */
uint32_t ringmatch_has_reachable_accepting_state(const uint32_t *sheet, size_t sheet_words, uint32_t *answer);

/* The older comparison by exact ranges: *answer is 1 or 0. Without epsilons or overlaps 1 implies equal words; 0 implies nothing.
 * Refusals: 1 to 6 of a, then of b. */
uint32_t ringmatch_is_equivalent(const uint32_t *a, size_t a_words, const uint32_t *b, size_t b_words, uint32_t *answer);

/* Whether a's states, accepting states and start are b's by their labels, and each transition of a is covered by one of b: *answer is 1 or 0.
 * Refusals: 1 to 6 of a, then of b; 10 of a_labels, then of b_labels. */
uint32_t ringmatch_is_subautomaton(const uint32_t *a, size_t a_words, const uint8_t *a_labels, size_t a_label_bytes,
                                   const uint32_t *b, size_t b_words, const uint8_t *b_labels, size_t b_label_bytes,
                                   uint32_t *answer);

/* The pattern at the front of a text, such as
 *   automaton A { init p; p -> q [0, 9]; accepting q; };
 * Each accepting name has to be a state. *read is the number of bytes read. Refusals: 20; 8; 33; 21, 22. */
uint32_t ringmatch_parse_automaton(const uint8_t *text, size_t text_bytes, uint32_t *out, size_t out_room,
                                   uint8_t *labels_out, size_t labels_room, uint64_t *read, uint64_t *words,
                                   uint64_t *bytes);

/* The text of a sheet and its labels, named P, such as
 *   automaton P { init p; p -> q [0, 9]; accepting q; };
 * It names the start and the states of the records, and no others; ringmatch_parse_automaton reads from it a pattern of just these states under
 * their labels, which accepts the same words. *bytes is the length of the text, which no zero byte ends.
 * Refusals: 20; 1 to 6; 10; 30, 31, 32. */
uint32_t ringmatch_write_automaton(const uint32_t *sheet, size_t sheet_words, const uint8_t *labels, size_t label_bytes,
                                   uint8_t *text_out, size_t text_room, uint64_t *bytes);

/* Exact equality: *same is 1 where every word is accepted by both sheets or by neither, and *number is then the number of joins made; else
 * *same is 0, word_out has at its front a word that exactly one accepts, and *number is its length.
 * Refusals: 20; 1 to 6 of a, then of b; 21, 22 of a, then of b. */
uint32_t ringmatch_equality(const uint32_t *a, size_t a_words, const uint32_t *b, size_t b_words, uint32_t *word_out,
                            size_t word_room, uint32_t *same, uint64_t *number);

#ifdef __cplusplus
}
#endif

#endif
