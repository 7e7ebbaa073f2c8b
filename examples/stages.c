/* Folds the first frames of a circuit, read from standard input: one frame, two, and so on up to all. Prints the states of
 * each layer and what the table costs. Fewer frames have at no layer more states, and never cost more:
 *
 *   (cd crates/tff && rt lib) && mkdir -p target
 *   cc -Iinclude examples/stages.c -Lcrates/tff/out -ltff -o target/stages
 *   target/stages < examples/s27.circuit
 */
#include <stdio.h>

#include "tff.h"

enum {
    MOST_BYTES = 8 + 4 * 4096,
    NUMBERS = 2 << 16,
    RECORDS = 16384,
    TABLE = 8 + 4 * 16 + 4 * ((2 << 16) - 2)    /* with every history its own state, 1 x 16 */
};

/* A byte more than a circuit may have, so that too many are refused. */
static uint8_t circuit[MOST_BYTES + 1], first[MOST_BYTES], table[TABLE];
static uint16_t scratch[NUMBERS];
static tff_node nodes[RECORDS];

static unsigned word(const uint8_t *bytes, size_t i) {
    return bytes[2 * i] + 256u * bytes[2 * i + 1];
}

static void put(uint8_t *bytes, size_t i, unsigned value) {
    bytes[2 * i] = (uint8_t)(value % 256);
    bytes[2 * i + 1] = (uint8_t)(value / 256);
}

/* A literal where only the first `kept` of `all` inputs are left: later ones have no effect on the outputs that are left, and
 * are false; gates are numbered behind fewer inputs. */
static unsigned literal(unsigned given, unsigned kept, unsigned all) {
    if (given == 65535 || given / 2 <= kept) return given;
    return given / 2 <= all ? given % 2 : given - 2 * (all - kept);
}

/* Writes the first frames of the circuit: all gates but the outputs of later frames, which stand last. Gives the length. */
static size_t take_frames(unsigned frames) {
    unsigned n = word(circuit, 0), m = word(circuit, 1), all = word(circuit, 2), gates = word(circuit, 3);
    unsigned kept = gates - m * (all - frames), head[] = {n, m, frames, kept};
    for (unsigned i = 0; i < 4; i++) put(first, i, head[i]);
    for (unsigned side = 0; side < 2; side++)
        for (unsigned gate = 0; gate < kept; gate++)
            put(first, 4 + side * kept + gate, literal(word(circuit, 4 + side * gates + gate), n * frames, n * all));
    return 8 + 4 * (size_t)kept;
}

/* Prints the states and the price of the table, which has so many frames and bytes. */
static void show(unsigned frames, size_t length) {
    uint64_t answer[3];
    tff_price(table, length, answer, 3);
    printf("frames %u: states", frames);
    for (unsigned layer = 0; layer <= frames; layer++) printf(" %u", word(table, 3 + layer));
    printf(", %lu cents\n", (unsigned long)answer[2]);
}

int main(void) {
    size_t length = fread(circuit, 1, sizeof circuit, stdin);
    uint64_t answer[2];
    tff_check_circuit(circuit, length, answer, 2);
    for (unsigned frames = 1; !answer[0] && frames <= word(circuit, 2); frames++) {
        tff_fold(first, take_frames(frames), scratch, NUMBERS, nodes, RECORDS, table, sizeof table, answer, 2);
        if (!answer[0]) show(frames, (size_t)answer[1]);
    }
    if (answer[0]) printf("refused %d %d\n", (int)answer[0], (int)answer[1]);
    return 0;
}
