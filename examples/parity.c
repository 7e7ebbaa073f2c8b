/* Asks for parity's plan, folds as planned, reads the table aloud, prices it, counts the histories that reach its
 * states, steps it, and draws gates from it. docs/EXAMPLE.md walks through it.
 *
 *   (cd crates/tff && rt lib) && mkdir -p target
 *   cc -Iinclude examples/parity.c -Lcrates/tff/out -ltff -o target/parity && target/parity
 */
#include <stdio.h>

#include "tff.h"

static unsigned word(const uint8_t *bytes, size_t i) {
    return bytes[2 * i] + 256u * bytes[2 * i + 1];
}

static unsigned long number(const uint8_t *bytes, size_t i) {
    return word(bytes, 2 * i) + 65536ul * word(bytes, 2 * i + 1);
}

int main(void) {
    const uint8_t circuit[] = {1, 0, 1, 0, 2, 0, 5, 0,          /* n, m, T, gates */
                               2, 0, 3, 0, 7, 0, 2, 0, 11, 0,   /* left literals */
                               5, 0, 4, 0, 9, 0, 1, 0, 1, 0};   /* right literals */
    uint16_t scratch[8];
    tff_node nodes[7];                                          /* parity has seven distinct nodes */
    uint8_t table[40], reached[40], drawn[76];
    uint64_t asked[23], answer[5];
    const uint64_t *plan = asked + 2;                           /* n, m, T, states of layers 0 to 16, bytes */

    tff_ask(circuit, sizeof circuit, scratch, 8, nodes, 6, asked, 23);
    printf("ask with 6 records: %d, %d\n", (int)asked[0], (int)asked[1]);

    tff_ask(circuit, sizeof circuit, scratch, 8, nodes, 7, asked, 23);
    printf("ask: %d, %d: n %d, m %d, T %d, states", (int)asked[0], (int)asked[1], (int)plan[0], (int)plan[1],
           (int)plan[2]);
    for (unsigned t = 0; t <= plan[2]; t++) printf(" %d", (int)plan[3 + t]);
    printf(", %d bytes\n", (int)plan[20]);

    tff_commit(circuit, sizeof circuit, plan, 21, scratch, 8, nodes, 7, table, sizeof table, answer, 2);
    printf("commit: %d, %d\n", (int)answer[0], (int)answer[1]);

    unsigned frames = word(table, 2), connected = 4 + frames, entry = connected + frames, entries = 0;
    for (unsigned t = 0; t < frames; t++) printf("frame %u: connected %u\n", t + 1, word(table, connected + t));
    for (unsigned t = 0; t < frames; t++) entries += 2 * word(table, 3 + t);
    for (unsigned t = 0; t < frames; t++)
        for (unsigned s = 0; s < word(table, 3 + t); s++)
            for (unsigned w = 0; w < 2; w++, entry++)
                printf("layer %u state %u word %u: output %u, next state %u\n", t, s, w,
                       word(table, entry), word(table, entry + entries));

    tff_price(table, sizeof table, answer, 3);
    printf("price: %d cents\n", (int)answer[2]);

    tff_reach(table, sizeof table, reached, sizeof reached, answer, 2);
    printf("reach: %d, %d\n", (int)answer[0], (int)answer[1]);
    const uint8_t *numbers = reached + 4 + 2 * frames;
    unsigned states = (unsigned)(answer[1] - 4 - 2 * frames) / 8, i = 0;
    for (unsigned t = 0; t <= frames; t++)
        for (unsigned s = 0; s < word(reached, 1 + t); s++, i++)
            printf("layer %u state %u: histories %lu, smallest %lu\n", t, s,
                   number(numbers, i), number(numbers, states + i));

    uint16_t layer = 0, state = 0;
    for (unsigned t = 0; t < frames; t++) {
        tff_step(table, sizeof table, layer, state, 1, answer, 5);
        printf("step on 1: output %d, layer %d, state %d\n", (int)answer[2], (int)answer[3], (int)answer[4]);
        layer = (uint16_t)answer[3];
        state = (uint16_t)answer[4];
    }

    tff_unfold(table, sizeof table, drawn, sizeof drawn, answer, 2);
    printf("unfold: %d, %d\n", (int)answer[0], (int)answer[1]);
    unsigned gates = word(drawn, 3);
    for (unsigned g = 0; g < gates; g++)
        printf("%u = %u and %u\n", 2 * (3 + g), word(drawn, 4 + g), word(drawn, 4 + gates + g));
    return 0;
}
