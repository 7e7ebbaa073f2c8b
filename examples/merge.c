/* Folds a circuit, read from standard input, merges its frames into one machine, and prints the machine's entries: an
 * output word and a next state for each state and input word, the same in every frame. The adder takes two states:
 *
 *   (cd crates/tff && rt lib) && mkdir -p target
 *   cc -Iinclude examples/merge.c -Lcrates/tff/out -ltff -o target/merge
 *   target/merge < examples/unconnected_adder.circuit
 */
#include <stdio.h>

#include "tff.h"

enum {
    MOST_BYTES = 8 + 4 * 4096,
    NUMBERS = 2 << 16,
    RECORDS = 16384,
    TABLE = 8 + 4 * 16 + 4 * ((2 << 16) - 2),   /* with every history its own state, 1 x 16 */
    MACHINE = 6 + 4 * 3 * 4                     /* three states, four words */
};

/* A byte more than a circuit may have, so that too many are refused. */
static uint8_t circuit[MOST_BYTES + 1], table[TABLE], machine[MACHINE];
static uint16_t scratch[NUMBERS];
static tff_node nodes[RECORDS];

static unsigned word(const uint8_t *bytes, size_t i) {
    return bytes[2 * i] + 256u * bytes[2 * i + 1];
}

int main(void) {
    size_t length = fread(circuit, 1, sizeof circuit, stdin);
    uint64_t answer[2];
    tff_fold(circuit, length, scratch, NUMBERS, nodes, RECORDS, table, sizeof table, answer, 2);
    if (!answer[0]) tff_merge(table, (size_t)answer[1], machine, sizeof machine, answer, 2);
    if (answer[0]) {
        printf("refused %d %d\n", (int)answer[0], (int)answer[1]);
        return 0;
    }
    unsigned words = 1u << word(machine, 0), states = word(machine, 2);
    printf("n %u, m %u, states %u\n", word(machine, 0), word(machine, 1), states);
    for (unsigned entry = 0; entry < states * words; entry++)
        printf("state %u word %u: output %u, next state %u\n", entry / words, entry % words,
               word(machine, 3 + entry), word(machine, 3 + states * words + entry));
    return 0;
}
