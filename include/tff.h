/* Time-frame folding: the C interface of the static library tff.
 *
 * A circuit, a network, a table and a machine are bytes, made of 16-bit words with the low byte first:
 *
 *   circuit: n inputs per frame (1 to 8), m outputs per frame (1 to 16), T frames (1 to 16, n*T at
 *            most 16), G gates (m*T to 4,096); G left literals; G right literals.
 *            Signal 0 is false, input i of frame t is signal (t-1)*n + i, gate g is signal n*T + g,
 *            with i, t and g from 1. A literal is twice a signal, plus 1 if inverted. Gate g is the
 *            AND of its two literals, each below 2*(n*T + g). The last m*T gates are the outputs,
 *            frame by frame; none depends on an input of a later frame. An output with 65,535 for
 *            both literals is unconnected: it is 0, and no literal names its gate.
 *   network: a circuit of one frame (T is 1) that may have up to 16 inputs.
 *   table:   n, m, T; T+1 state counts, first and last 1, others 1 to 32,768; T words of connected
 *            outputs, bit j-1 of word t set where output j of frame t is connected (below 2^m); all
 *            output words (connected outputs of their frame alone); all next states (below the next
 *            layer's count); both by layer, state, word.
 *   machine: n (1 or 2), m, k states (1 to 3), the same in all frames; all output words (below 2^m);
 *            all next states (below k); both by state and word. It starts in state 0.
 *
 * Input i is bit i-1 of a frame's input word, output j bit j-1 of its output word.
 *
 * A slice is passed as a pointer and a number of elements. The pointer is aligned and not null, also
 * where there are no elements. A slice that a call may write to shares no element with another. A
 * position is passed as such a pointer too, and shares no memory with a slice.
 *
 * Each call puts a number and a place into answer[0] and answer[1], tff_step three values more,
 * tff_layer_outputs two, tff_price and tff_quiet_step one, tff_ask 21; the rest of answer stays as
 * it was. Where answer is too short for them, nothing at all is changed.
 *
 *   number  place                       when
 *   0       bytes or words written,     accepted; what follows the result stays as it was
 *           or 0 without a result
 *   1       length given                not the length that the format asks for
 *   2       byte offset                 first size, else first count, else first word of connected
 *                                       outputs out of limits; n*T above 16 counts at T. The sizes
 *                                       given to tff_spread count as at 0, 2 and 4. For tff_merge an
 *                                       n above 2 is out of limits
 *   3       byte offset                 first literal, in the order of the file, that is too high
 *                                       or names an unconnected output; 65,535 is too high wherever
 *                                       it does not mark an output
 *   4       output index from 0         first output that looks ahead: two sequences agree up to
 *                                       its frame and differ in it
 *   5       byte offset                 first output word that sets what is not connected in its
 *                                       frame, else first next state out of range
 *   6       numbers needed              scratch too short
 *   7       bytes or words needed       result too short
 *   8       gates needed                unfolding takes above 4,096 gates
 *   9       index of the word from 0    first input word of 2^n or more
 *   10      T                           step from the last layer
 *   11      layer given                 layer or position that the table does not have
 *   12      length of the list          list of input words not T long, for tff_simulate count*T; list
 *                                       of places that has not one for each input or output
 *   13      count given                 above 32 sequences
 *   14      0                           plan is not what asking returns for this circuit
 *   15      index of the window from 0  first bad window; else 32 where there are above 32
 *   16      0                           minute above 10,079
 *   17      0                           mask of 2^m or more
 *   18      g                           inputs and gates 1 to g have more distinct nodes than there
 *                                       are records, and g is the smallest such; 0: inputs alone
 *   19      index in both lists         first place that the frames do not have; the outputs' list
 *                                       counts on behind the inputs'
 *   20      index in both lists         first place that an earlier item of the same list has
 *   21      0                           no machine of one to three states matches the table
 *
 * A refused call changes nothing but answer and, as said here, scratch and nodes. tff_fold, tff_ask,
 * tff_commit and tff_spread need 2 * 2^(n*T) numbers of scratch. These end as zeros where the call is
 * accepted, or refused with 18, 14 or 7, and so does every record of nodes, used or not; scratch
 * beyond them is never changed.
 */

#ifndef TFF_H
#define TFF_H

#include <stddef.h>
#include <stdint.h>

#ifdef __cplusplus
extern "C" {
#endif

/* Judges a circuit: 1, 2, 1, 3, 4. Accepted: place 0. */
void tff_check_circuit(const uint8_t *circuit, size_t circuit_len,
                       uint64_t *answer, size_t answer_len);

/* Puts the circuit's output words on count sequences, at most 32, into result. Words has the T input
 * words of each, one sequence behind the other; result gets T output words for each likewise.
 * Refuses as the check, then 13, 12, 9 (an index of the whole list), 7. Accepted: place count*T. */
void tff_simulate(const uint8_t *circuit, size_t circuit_len,
                  size_t count,
                  const uint16_t *words, size_t words_len,
                  uint16_t *result, size_t result_len,
                  uint64_t *answer, size_t answer_len);

/* A record of the list that tff_fold, tff_ask, tff_commit and tff_spread are lent for decision
 * diagrams: room for one node, which is an input and two branches. Records may hold anything before a
 * call.
 *
 * The nodes of signals are the distinct functions, not constant, that remain of them when the first k
 * inputs are fixed, in the order of signals, and that depend on input k+1. All n*T inputs are counted,
 * read or not, and dead gates too; a function and its inverse are two; an unconnected output is
 * constant. So n*T records are the fewest that serve any circuit, and 16,838,670 serve all. */
typedef struct tff_node {
    uint32_t level;
    uint32_t low;
    uint32_t high;
} tff_node;

/* Puts into result the table of the circuit, with the fewest states at every layer and the same
 * outputs connected. Refuses as the check, then 6, 18, 7. Accepted: place is the bytes written. */
void tff_fold(const uint8_t *circuit, size_t circuit_len,
              uint16_t *scratch, size_t scratch_len,
              tff_node *nodes, size_t nodes_len,
              uint8_t *result, size_t result_len,
              uint64_t *answer, size_t answer_len);

/* The plan of a circuit: what its table takes, without writing it. Answers 23 values: number, place
 * and the 21 numbers of the plan, which are n, m, T, the state counts of layers 0 to 16, 0 beyond T,
 * and the bytes of the table; which outputs are connected is no part of it. Refuses as the check,
 * then 6, 18, with a plan of zeros. Accepted: place 0. */
void tff_ask(const uint8_t *circuit, size_t circuit_len,
             uint16_t *scratch, size_t scratch_len,
             tff_node *nodes, size_t nodes_len,
             uint64_t *answer, size_t answer_len);

/* Puts into result the table of the circuit as tff_fold does, but only where plan is just the 21
 * numbers that tff_ask returns for it. Refuses as the check, then 6, 18, 14 (a plan of another length
 * as well), 7. Accepted: place is the bytes written. */
void tff_commit(const uint8_t *circuit, size_t circuit_len,
                const uint64_t *plan, size_t plan_len,
                uint16_t *scratch, size_t scratch_len,
                tff_node *nodes, size_t nodes_len,
                uint8_t *result, size_t result_len,
                uint64_t *answer, size_t answer_len);

/* Spreads a network over T frames of n inputs and m outputs, and puts into result the table that it
 * folds to. Input_places has a place for each input of the network, 0 to n*T-1, and output_places one
 * for each output, 0 to m*T-1; none is in its list twice. Place p of an input is input p mod n + 1 of
 * frame p div n + 1, that of an output likewise with m. Inputs at other places do nothing, and outputs
 * at other places are unconnected, as is an output that the network has unconnected. There may be more
 * output places than gates.
 * Refuses the network with 1, 2 (at 4 for a T other than 1), 1, 3; then n, m, T with 2; then 12 for the
 * inputs' list, 12 for the outputs'; then 19 in either list, 20 in either list; then as tff_fold with 4
 * (the place of the output), 6, 18 (all n*T inputs, in the order of their places, and the network's
 * gates by their own numbers), 7. Accepted: place is the bytes written. */
void tff_spread(const uint8_t *network, size_t network_len,
                uint16_t n, uint16_t m, uint16_t T,
                const uint16_t *input_places, size_t input_places_len,
                const uint16_t *output_places, size_t output_places_len,
                uint16_t *scratch, size_t scratch_len,
                tff_node *nodes, size_t nodes_len,
                uint8_t *result, size_t result_len,
                uint64_t *answer, size_t answer_len);

/* Judges a table: 1, 2, 1 (under 8 + 4*T bytes), 2 (all counts, then all words of connected
 * outputs), 1, 5. Accepted: place 0. */
void tff_check_table(const uint8_t *table, size_t table_len,
                     uint64_t *answer, size_t answer_len);

/* Puts the table's T output words on the T input words into result.
 * Refuses as the check, then 12, 9, 7. Accepted: place T. */
void tff_run(const uint8_t *table, size_t table_len,
             const uint16_t *words, size_t words_len,
             uint16_t *result, size_t result_len,
             uint64_t *answer, size_t answer_len);

/* Puts the table's T output words on the T input words into result as tff_run does, with all bits
 * outside the mask 0. Bit j-1 of the mask is set where output j may be seen, connected or not.
 * Refuses as the check, then 17, 12, 9, 7. Accepted: place T. */
void tff_view(const uint8_t *table, size_t table_len,
              uint16_t mask,
              const uint16_t *words, size_t words_len,
              uint16_t *result, size_t result_len,
              uint64_t *answer, size_t answer_len);

/* Tells which part of the table is the output words of a layer, by state and word. Answers four
 * values: number, place, and the part's byte offset and length in bytes, both 0 for layer T, which
 * has no output words. Refuses as the check, then 11 for a layer above T, with offset and length 0.
 * Accepted: place 0. */
void tff_layer_outputs(const uint8_t *table, size_t table_len,
                       uint16_t layer,
                       uint64_t *answer, size_t answer_len);

/* One step from a position, a layer and a state, on an input word; the start is layer 0, state 0.
 * Answers five values: number, place, output word, and the layer and state reached. Refuses as the
 * check without 5, then 11, 10, 9 (place 0), then 5 for the one entry read, output (by what frame
 * layer+1 connects) before next; a refused step gives the position back and output 0.
 * Accepted: place 0. */
void tff_step(const uint8_t *table, size_t table_len,
              uint16_t layer, uint16_t state, uint16_t word,
              uint64_t *answer, size_t answer_len);

/* A layer, and a state of it; the start is layer 0, state 0. */
typedef struct tff_position {
    size_t layer;
    size_t state;
} tff_position;

/* One step from the position, as tff_step takes it, to the position that it then holds; in a quiet
 * minute the output is 0, and the position moves all the same. Answers three values: number, place
 * and output word. Minutes are those of the week, 0 to 10,079, from Monday midnight on. Windows has
 * the first and last minute of up to 32 windows in turn, and a minute is quiet where some window
 * holds it: from its first minute on, up to but not with its last, over the week's end where first is
 * above last. They may overlap. A window is bad where a minute is above 10,079, where first is last,
 * or where its last is missing. Refuses as the check without 5, then 15, 16, 11, 10, 9 (place 0),
 * then 5 as tff_step; a refused step leaves the position as it was and gives output 0.
 * Accepted: place 0. */
void tff_quiet_step(const uint8_t *table, size_t table_len,
                    const uint16_t *windows, size_t windows_len,
                    uint16_t minute,
                    tff_position *position,
                    uint16_t word,
                    uint64_t *answer, size_t answer_len);

/* The price of a table in cents. Answers three values: number, place and cents. Charged are the
 * states of layers 0 to T-1: 1,800 each for the first 32, 950 for the next 224, 320 beyond; every
 * table adds 12,000. Where T is above 12, this sum rises by 7.5 percent of itself, that part rounded
 * to the cent, half upward. Refuses as the check, with 0 cents. Accepted: place 0. */
void tff_price(const uint8_t *table, size_t table_len,
               uint64_t *answer, size_t answer_len);

/* Puts into result how many histories reach each state of a table: T and the T+1 state counts, as
 * 16-bit words; then for all states of layers 0 to T, by layer and state, the number of histories
 * that lead from the start to the state, as 32-bit words; then for all states likewise the smallest
 * such history. All words have the low byte first. Histories that lead to layer t are t input words
 * long, numbered with the first word highest, base 2^n; a state that none reaches has 0 in both
 * arrays. Refuses as the check, then 7. Accepted: place is the bytes written, 4 + 2*T and 8 for each
 * state. */
void tff_reach(const uint8_t *table, size_t table_len,
               uint8_t *result, size_t result_len,
               uint64_t *answer, size_t answer_len);

/* Puts into result the input words that tell two states of a layer apart: the shortest list for which
 * the output words of the two differ at its last word; of the lists of this length the smallest, the
 * first word counting most. There is none exactly where every continuation up to T gives both states
 * the same output words, so for equal states and in layer T; in a table that tff_fold wrote any two
 * others have one. Refuses as the check, then 11 (a layer above T, or either state not below its
 * count), then 7 for a result of fewer than T - layer words, whether or not there is a list.
 * Accepted: place is the length of the list, 1 to T - layer, or 0 for none. */
void tff_distinguish(const uint8_t *table, size_t table_len,
                     uint16_t layer, uint16_t first, uint16_t second,
                     uint16_t *result, size_t result_len,
                     uint64_t *answer, size_t answer_len);

/* Puts into result one machine for all frames that matches the table: on every sequence, from state 0,
 * its T output words have the table's connected bits. What states of the table give that no sequence
 * reaches does not matter. The machine has the fewest states with which one matches; of those that
 * match with as many, it is the first when all next states are compared in order and then all output
 * words. So 0 stands wherever nothing decides: in bits that are unconnected wherever the entry is used,
 * in entries that no sequence uses, and for next states that are used in frame T alone.
 * Refuses as the check, with 2 at 0 for an n above 2 where n is judged; then 21, whatever the length of
 * result; then 7. Accepted: place is the bytes written, 6 + 4*k*2^n. */
void tff_merge(const uint8_t *table, size_t table_len,
               uint8_t *result, size_t result_len,
               uint64_t *answer, size_t answer_len);

/* Puts into result a circuit whose outputs are the table's, the same of them connected.
 * Refuses as the check, then 8, 7. Accepted: place is the bytes written. */
void tff_unfold(const uint8_t *table, size_t table_len,
                uint8_t *result, size_t result_len,
                uint64_t *answer, size_t answer_len);

#ifdef __cplusplus
}
#endif

#endif
