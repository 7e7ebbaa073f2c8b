/* A board through a night: a table that counts modulo 4 is stepped every hour from Sunday evening on. In quiet hours
 * its output is 0, and it counts on.
 *
 *   (cd crates/tff && rt lib) && mkdir -p target
 *   cc -Iinclude examples/quiet.c -Lcrates/tff/out -ltff -o target/quiet && target/quiet
 */
#include <stdio.h>

#include "tff.h"

enum {
    FRAMES = 12,
    ENTRIES = 2 * (1 + 4 * (FRAMES - 1)),   /* two words in each state before the last layer */
    DAY = 24 * 60,
    WEEK = 7 * DAY
};

static uint8_t table[8 + 4 * FRAMES + 4 * ENTRIES];

static uint8_t *put(uint8_t *at, unsigned word) {
    at[0] = word & 255;
    at[1] = word >> 8;
    return at + 2;
}

static unsigned states(unsigned layer) {
    return layer == 0 || layer == FRAMES ? 1 : 4;
}

/* One input, two outputs: a state is the count so far, and each output the count with the word. */
static void write_table(void) {
    uint8_t *at = put(put(put(table, 1), 2), FRAMES), *next = table + 8 + 4 * FRAMES + 2 * ENTRIES;
    for (unsigned t = 0; t <= FRAMES; t++) at = put(at, states(t));
    for (unsigned t = 0; t < FRAMES; t++) at = put(at, 3);      /* both outputs are connected */
    for (unsigned t = 0; t < FRAMES; t++)
        for (unsigned s = 0; s < states(t); s++)
            for (unsigned w = 0; w < 2; w++) {
                at = put(at, (s + w) % 4);
                next = put(next, (s + w) % states(t + 1));
            }
}

int main(void) {
    const uint16_t windows[] = {6 * DAY + 22 * 60, 5 * 60,      /* Sunday 22:00 to Monday 5:00 */
                                22 * 60, DAY + 5 * 60};         /* Monday 22:00 to Tuesday 5:00 */
    tff_position board = {0, 0};
    uint64_t plain[5], answer[3];

    write_table();
    for (unsigned hour = 20; hour < 20 + FRAMES; hour++) {
        uint16_t minute = (6 * DAY + hour * 60) % WEEK;
        tff_step(table, sizeof table, (uint16_t)board.layer, (uint16_t)board.state, 1, plain, 5);
        tff_quiet_step(table, sizeof table, windows, 4, minute, &board, 1, answer, 3);
        if (answer[0]) return 1;
        printf("%s %02u:00: output %d, plain %d, layer %d, state %d\n", minute < DAY ? "Monday" : "Sunday", hour % 24,
               (int)answer[2], (int)plain[2], (int)board.layer, (int)board.state);
    }
    return 0;
}
