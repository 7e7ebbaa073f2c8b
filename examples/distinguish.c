/* Folds a circuit, read from standard input, and prints for each two states of a layer the words that tell them
 * apart: fed from either state, they give the same outputs but at the last word.
 *
 *   (cd crates/tff && rt lib) && mkdir -p target
 *   cc -Iinclude examples/distinguish.c -Lcrates/tff/out -ltff -o target/distinguish
 *   target/distinguish < examples/s27.circuit
 */
#include <stdio.h>

#include "tff.h"

enum {
    MOST_BYTES = 8 + 4 * 4096,
    MOST_FRAMES = 16,
    NUMBERS = 2 << 16,
    RECORDS = 16384,
    TABLE = 8 + 4 * 16 + 4 * ((2 << 16) - 2)    /* with every history its own state, 1 x 16 */
};

/* A byte more than a circuit may have, so that too many are refused. */
static uint8_t circuit[MOST_BYTES + 1], table[TABLE];
static uint16_t scratch[NUMBERS];
static tff_node nodes[RECORDS];

static unsigned word(const uint8_t *bytes, size_t i) {
    return bytes[2 * i] + 256u * bytes[2 * i + 1];
}

/* The words that tell two states of a layer apart, on a line of their own. */
static void tell(size_t length, unsigned layer, unsigned first, unsigned second) {
    uint16_t words[MOST_FRAMES];
    uint64_t answer[2];
    tff_distinguish(table, length, (uint16_t)layer, (uint16_t)first, (uint16_t)second, words, MOST_FRAMES, answer, 2);
    printf("layer %u, states %u and %u:", layer, first, second);
    for (size_t i = 0; i < answer[1]; i++) printf(" %u", words[i]);
    printf("\n");
}

int main(void) {
    size_t length = fread(circuit, 1, sizeof circuit, stdin);
    uint64_t answer[2];
    tff_fold(circuit, length, scratch, NUMBERS, nodes, RECORDS, table, sizeof table, answer, 2);
    if (answer[0]) {
        printf("refused %d %d\n", (int)answer[0], (int)answer[1]);
        return 0;
    }
    unsigned frames = word(table, 2);
    for (unsigned t = 0; t <= frames; t++)
        for (unsigned second = 0; second < word(table, 3 + t); second++)
            for (unsigned first = 0; first < second; first++) tell((size_t)answer[1], t, first, second);
    return 0;
}
