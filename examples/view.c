/* Two views of a table. A circuit of two frames has a lamp, parity, and a lock, which opens in frame 2 after the words
 * 1, 0. Through a mask without the lock only the lamp is seen; and the output words of each layer are read where they
 * stand in the table.
 *
 *   (cd crates/tff && rt lib) && mkdir -p target
 *   cc -Iinclude examples/view.c -Lcrates/tff/out -ltff -o target/view && target/view
 */
#include <stdio.h>

#include "tff.h"

enum { LAMP = 1, LOCK = 2, BEYOND = 4 };

static unsigned word(const uint8_t *bytes, size_t i) {
    return bytes[2 * i] + 256u * bytes[2 * i + 1];
}

int main(void) {
    const uint8_t circuit[] = {1, 0, 2, 0, 2, 0, 7, 0,                          /* n, m, T, gates */
                               2, 0, 3, 0, 7, 0, 2, 0, 255, 255, 11, 0, 6, 0,   /* left literals */
                               5, 0, 4, 0, 9, 0, 1, 0, 255, 255, 1, 0, 1, 0};   /* right literals */
    uint16_t scratch[8], words[2], outputs[2], seen[2];
    tff_node nodes[7];
    uint8_t table[40];
    uint64_t answer[4];

    tff_fold(circuit, sizeof circuit, scratch, 8, nodes, 7, table, sizeof table, answer, 2);
    if (answer[0]) return 1;

    for (unsigned sequence = 0; sequence < 4; sequence++) {
        words[0] = sequence >> 1;
        words[1] = sequence & 1;
        tff_view(table, sizeof table, LAMP | LOCK, words, 2, outputs, 2, answer, 2);
        if (answer[0]) return 1;
        tff_view(table, sizeof table, LAMP, words, 2, seen, 2, answer, 2);
        if (answer[0]) return 1;
        printf("words %u %u: outputs %u %u, seen %u %u\n", words[0], words[1], outputs[0], outputs[1],
               seen[0], seen[1]);
    }
    tff_view(table, sizeof table, BEYOND, words, 2, seen, 2, answer, 2);
    printf("mask %d: %d, %d\n", BEYOND, (int)answer[0], (int)answer[1]);

    for (uint16_t layer = 0; layer <= 3; layer++) {
        tff_layer_outputs(table, sizeof table, layer, answer, 4);
        const uint8_t *part = table + answer[2];
        printf("layer %u: %d, %d: %d bytes at %d:", layer, (int)answer[0], (int)answer[1], (int)answer[3],
               (int)answer[2]);
        for (size_t i = 0; i < answer[3] / 2; i++) printf(" %u", word(part, i));
        printf("\n");
    }
    return 0;
}
