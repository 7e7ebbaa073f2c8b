/* Calls every function of tff.h on parity, accepted and refused, and prints all that each answers and leaves. */
#include <inttypes.h>
#include <stdio.h>

#include "tff.h"

/* What the calls may write to, with an element more than any is lent. */
static uint64_t answer[24];
static uint16_t numbers[9];
static tff_node nodes[8];
static uint8_t bytes[77];
static tff_position position;

#define LENGTH(of) (sizeof of / sizeof of[0])
#define FILL(of) for (size_t i = 0; i < LENGTH(of); i++) of[i] = 99
#define SHOW(of) for (size_t i = 0; i < LENGTH(of); i++) printf(" %" PRIu64, (uint64_t)of[i])

static void fill(void) {
    FILL(answer);
    FILL(numbers);
    FILL(bytes);
    for (size_t i = 0; i < LENGTH(nodes); i++) {
        nodes[i].level = 99;
        nodes[i].low = 98;
        nodes[i].high = 97;
    }
}

static void show(const char *call) {
    printf("%s: answer", call);
    SHOW(answer);
    printf(", numbers");
    SHOW(numbers);
    printf(", nodes");
    for (size_t i = 0; i < LENGTH(nodes); i++)
        printf(" %" PRIu32 " %" PRIu32 " %" PRIu32, nodes[i].level, nodes[i].low, nodes[i].high);
    printf(", bytes");
    SHOW(bytes);
    printf("\n");
}

/* A call that is lent an answer of so many values. */
#define CALL_FOR(values, call, ...) (fill(), tff_##call(__VA_ARGS__, answer, values), show(#call))
#define CALL(...) CALL_FOR(23, __VA_ARGS__)

/* A step from a position, with an answer of so many values; shows the position left as well. */
#define QUIET_STEP(values, at_layer, at_state, ...) \
    (position.layer = at_layer, position.state = at_state, CALL_FOR(values, quiet_step, __VA_ARGS__), \
     printf("position %zu %zu\n", position.layer, position.state))

int main(void) {
    const uint8_t circuit[] = {1, 0, 1, 0, 2, 0, 5, 0,          /* n, m, T, gates */
                               2, 0, 3, 0, 7, 0, 2, 0, 11, 0,   /* left literals */
                               5, 0, 4, 0, 9, 0, 1, 0, 1, 0};   /* right literals */
    const uint16_t words[] = {1, 1, 1, 0, 2};
    uint8_t table[40];
    uint64_t plan[22] = {0};   /* 21 numbers, and a 0 behind them */
    const uint16_t windows[] = {600, 660, 10000, 50};
    const uint8_t network[] = {2, 0, 2, 0, 1, 0, 5, 0,          /* the same gates in one frame */
                               2, 0, 3, 0, 7, 0, 2, 0, 11, 0,
                               5, 0, 4, 0, 9, 0, 1, 0, 1, 0};
    const uint16_t places[] = {0, 1, 0, 0, 2};
    const uint8_t four_frames[56] = {1, 0, 2, 0, 4, 0,          /* a table that shows its frames, from 0 */
                                     1, 0, 1, 0, 1, 0, 1, 0, 1, 0,
                                     3, 0, 3, 0, 3, 0, 3, 0,
                                     0, 0, 0, 0, 1, 0, 1, 0, 2, 0, 2, 0, 3, 0, 3, 0};
    const uint8_t three_inputs[] = {3, 0, 1, 0, 1, 0};

    CALL(check_circuit, circuit, 28);
    CALL(check_circuit, circuit, 27);

    CALL(simulate, circuit, 28, 0, words, 0, numbers, 0);
    CALL(simulate, circuit, 28, 1, words, 2, numbers, 2);
    CALL(simulate, circuit, 28, 2, words, 4, numbers, 4);
    CALL(simulate, circuit, 27, 2, words, 4, numbers, 4);
    CALL(simulate, circuit, 28, 33, words, 4, numbers, 4);
    CALL(simulate, circuit, 28, SIZE_MAX, words, 4, numbers, 4);
    CALL(simulate, circuit, 28, 2, words, 3, numbers, 4);
    CALL(simulate, circuit, 28, 2, words + 1, 4, numbers, 4);
    CALL(simulate, circuit, 28, 2, words, 4, numbers, 3);

    CALL(fold, circuit, 27, numbers, 8, nodes, 7, bytes, 40);
    CALL(fold, circuit, 28, numbers, 7, nodes, 7, bytes, 40);
    CALL(fold, circuit, 28, numbers, 8, nodes, 0, bytes, 40);
    CALL(fold, circuit, 28, numbers, 8, nodes, 6, bytes, 40);
    CALL(fold, circuit, 28, numbers, 8, nodes, 7, bytes, 39);
    CALL(fold, circuit, 28, numbers, 8, nodes, 7, bytes, 40);
    for (size_t i = 0; i < sizeof table; i++) table[i] = bytes[i];

    CALL_FOR(22, ask, circuit, 28, numbers, 8, nodes, 7);
    CALL(ask, circuit, 27, numbers, 8, nodes, 7);
    CALL(ask, circuit, 28, numbers, 7, nodes, 7);
    CALL(ask, circuit, 28, numbers, 8, nodes, 4);
    CALL(ask, circuit, 28, numbers, 8, nodes, 7);
    for (size_t i = 0; i < 21; i++) plan[i] = answer[2 + i];

    CALL(commit, circuit, 27, plan, 21, numbers, 8, nodes, 7, bytes, 40);
    CALL(commit, circuit, 28, plan, 21, numbers, 7, nodes, 7, bytes, 40);
    CALL(commit, circuit, 28, plan, 20, numbers, 8, nodes, 5, bytes, 40);
    CALL(commit, circuit, 28, plan, 20, numbers, 8, nodes, 7, bytes, 40);
    CALL(commit, circuit, 28, plan, 22, numbers, 8, nodes, 7, bytes, 40);
    CALL(commit, circuit, 28, plan, 21, numbers, 8, nodes, 7, bytes, 39);
    CALL(commit, circuit, 28, plan, 21, numbers, 8, nodes, 7, bytes, 40);

    CALL(spread, network, 27, 1, 1, 2, places, 2, places, 2, numbers, 8, nodes, 7, bytes, 40);
    CALL(spread, network, 28, 1, 1, 65535, places, 2, places, 2, numbers, 8, nodes, 7, bytes, 40);
    CALL(spread, network, 28, 1, 1, 2, places, 1, places, 3, numbers, 8, nodes, 7, bytes, 40);
    CALL(spread, network, 28, 1, 1, 2, places, 2, places, 3, numbers, 8, nodes, 7, bytes, 40);
    CALL(spread, network, 28, 1, 1, 2, places + 2, 2, places + 3, 2, numbers, 8, nodes, 7, bytes, 40);
    CALL(spread, network, 28, 1, 1, 2, places, 2, places + 2, 2, numbers, 8, nodes, 7, bytes, 40);
    CALL(spread, network, 28, 1, 1, 2, places + 1, 2, places, 2, numbers, 7, nodes, 6, bytes, 39);
    CALL(spread, network, 28, 1, 1, 2, places, 2, places, 2, numbers, 7, nodes, 6, bytes, 39);
    CALL(spread, network, 28, 1, 1, 2, places, 2, places, 2, numbers, 8, nodes, 6, bytes, 39);
    CALL(spread, network, 28, 1, 1, 2, places, 2, places, 2, numbers, 8, nodes, 7, bytes, 39);
    CALL(spread, network, 28, 1, 1, 2, places, 2, places, 2, numbers, 8, nodes, 7, bytes, 40);
    CALL_FOR(1, spread, network, 28, 1, 1, 2, places, 2, places, 2, numbers, 8, nodes, 7, bytes, 40);

    CALL(check_table, table, 40);
    CALL(check_table, table, 39);

    CALL(run, table, 40, words, 2, numbers, 2);
    CALL(run, table, 39, words, 2, numbers, 2);
    CALL(run, table, 40, words, 3, numbers, 2);
    CALL(run, table, 40, words + 3, 2, numbers, 2);
    CALL(run, table, 40, words, 2, numbers, 1);

    CALL(view, table, 40, 1, words, 2, numbers, 2);
    CALL(view, table, 40, 0, words, 2, numbers, 2);
    CALL(view, table, 39, 2, words, 2, numbers, 2);
    CALL(view, table, 40, 2, words, 3, numbers, 2);
    CALL(view, table, 40, 65535, words, 2, numbers, 2);
    CALL(view, table, 40, 1, words, 3, numbers, 2);
    CALL(view, table, 40, 1, words + 3, 2, numbers, 2);
    CALL(view, table, 40, 1, words, 2, numbers, 1);
    CALL_FOR(1, view, table, 40, 1, words, 2, numbers, 2);

    CALL(layer_outputs, table, 40, 0);
    CALL(layer_outputs, table, 40, 1);
    CALL(layer_outputs, table, 40, 2);
    CALL(layer_outputs, table, 39, 3);
    CALL(layer_outputs, table, 40, 3);
    CALL(layer_outputs, table, 40, 65535);
    CALL_FOR(3, layer_outputs, table, 40, 1);

    CALL(step, table, 40, 0, 0, 1);
    CALL(step, table, 40, 1, 0, 1);
    CALL(step, table, 39, 1, 0, 1);
    CALL(step, table, 40, 1, 2, 1);
    CALL(step, table, 40, 2, 0, 1);
    CALL(step, table, 40, 1, 0, 2);

    QUIET_STEP(23, 0, 0, table, 40, windows, 0, 600, &position, 1);
    QUIET_STEP(23, 0, 0, table, 40, windows, 4, 600, &position, 1);
    QUIET_STEP(23, 1, 1, table, 40, windows, 4, 50, &position, 0);
    QUIET_STEP(23, 1, 1, table, 39, windows, 4, 50, &position, 0);
    QUIET_STEP(23, 1, 1, table, 40, windows, 3, 50, &position, 0);
    QUIET_STEP(23, 1, 1, table, 40, windows, 4, 10080, &position, 0);
    QUIET_STEP(23, SIZE_MAX, 1, table, 40, windows, 4, 50, &position, 0);
    QUIET_STEP(23, 1, SIZE_MAX, table, 40, windows, 4, 50, &position, 0);
    QUIET_STEP(23, 2, 0, table, 40, windows, 4, 50, &position, 0);
    QUIET_STEP(23, 1, 1, table, 40, windows, 4, 50, &position, 2);
    QUIET_STEP(2, 1, 1, table, 40, windows, 4, 50, &position, 0);

    CALL(price, table, 40);
    CALL(price, table, 39);

    CALL(reach, table, 40, bytes, 40);
    CALL(reach, table, 39, bytes, 40);
    CALL(reach, table, 40, bytes, 39);

    CALL(distinguish, table, 40, 1, 0, 1, numbers, 1);
    CALL(distinguish, table, 40, 1, 1, 0, numbers, 2);
    CALL(distinguish, table, 40, 1, 1, 1, numbers, 1);
    CALL(distinguish, table, 40, 2, 0, 0, numbers, 0);
    CALL(distinguish, table, 39, 3, 0, 1, numbers, 1);
    CALL(distinguish, table, 40, 3, 0, 0, numbers, 1);
    CALL(distinguish, table, 40, 1, 2, 0, numbers, 0);
    CALL(distinguish, table, 40, 1, 0, UINT16_MAX, numbers, 0);
    CALL(distinguish, table, 40, 1, 0, 1, numbers, 0);
    CALL(distinguish, table, 40, 0, 0, 0, numbers, 1);
    CALL_FOR(1, distinguish, table, 40, 1, 0, 1, numbers, 1);

    CALL(merge, table, 40, bytes, 22);
    CALL(merge, table, 40, bytes, 23);
    CALL(merge, four_frames, 55, bytes, 76);
    CALL(merge, three_inputs, 6, bytes, 76);
    CALL(merge, four_frames, 56, bytes, 76);
    CALL(merge, four_frames, 56, bytes, 0);
    CALL(merge, table, 40, bytes, 21);
    CALL(merge, table, 40, bytes, 0);
    CALL_FOR(1, merge, table, 40, bytes, 22);

    CALL(unfold, table, 40, bytes, 76);
    CALL(unfold, table, 39, bytes, 76);
    CALL(unfold, table, 40, bytes, 75);
    return 0;
}
