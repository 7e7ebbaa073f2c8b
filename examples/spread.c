/* Spreads a network, read from standard input, over frames, and prints the layers and states of the table that it
 * folds to. The arguments are n, m and T, then the places of its inputs and those of its outputs. With the lists of
 * example 4.2 in source document 001, the adder is fed one bit of both numbers a frame:
 *
 *   (cd crates/tff && rt lib) && mkdir -p target
 *   cc -Iinclude examples/spread.c -Lcrates/tff/out -ltff -o target/spread
 *   target/spread 2 2 3 0,2,4,1,3,5 0,2,4,5 < examples/plain_adder.circuit
 */
#include <stdio.h>
#include <stdlib.h>

#include "tff.h"

enum {
    MOST_BYTES = 8 + 4 * 4096,
    MOST_PLACES = 16,
    NUMBERS = 2 << 16,
    RECORDS = 16384,
    TABLE = 8 + 4 * 16 + 4 * ((2 << 16) - 2)    /* with every history its own state, 1 x 16 */
};

/* A byte and a place more than a network may have, so that too many are refused. */
static uint8_t network[MOST_BYTES + 1], table[TABLE];
static uint16_t input_places[MOST_PLACES + 1], output_places[MOST_PLACES + 1], scratch[NUMBERS];
static tff_node nodes[RECORDS];

static unsigned word(const uint8_t *bytes, size_t i) {
    return bytes[2 * i] + 256u * bytes[2 * i + 1];
}

/* A number of 16 bits; for a larger one the largest, which is no size and no place. */
static uint16_t number(const char *text, char **end) {
    unsigned long value = strtoul(text, end, 10);
    return value < UINT16_MAX ? (uint16_t)value : UINT16_MAX;
}

/* Numbers with commas between them; gives how many. */
static size_t read_places(char *text, uint16_t *places) {
    size_t count = 0;
    while (*text && count <= MOST_PLACES) {
        places[count++] = number(text, &text);
        if (*text) text++;
    }
    return count;
}

int main(int count, char **arguments) {
    if (count != 6) {
        fprintf(stderr, "usage: spread N M T INPUT_PLACES OUTPUT_PLACES < NETWORK\n");
        return 2;
    }
    uint16_t sizes[3];
    for (unsigned i = 0; i < 3; i++) sizes[i] = number(arguments[1 + i], NULL);
    size_t inputs = read_places(arguments[4], input_places), outputs = read_places(arguments[5], output_places);
    size_t length = fread(network, 1, sizeof network, stdin);
    uint64_t answer[2];

    tff_spread(network, length, sizes[0], sizes[1], sizes[2], input_places, inputs, output_places, outputs,
               scratch, NUMBERS, nodes, RECORDS, table, sizeof table, answer, 2);
    if (answer[0]) {
        printf("refused %d %d\n", (int)answer[0], (int)answer[1]);
        return 0;
    }
    unsigned frames = word(table, 2), total = 0;
    printf("layer states\n");
    for (unsigned t = 0; t <= frames; t++) {
        printf("%u %u\n", t, word(table, 3 + t));
        total += word(table, 3 + t);
    }
    printf("total %u\n", total);
    for (unsigned t = 1; t <= frames; t++) printf("frame %u: connected %u\n", t, word(table, 3 + frames + t));
    return 0;
}
