/* manik_run alone: so many steps of a raw image from the fresh state, in calls of a part each. bench/board times it beside the board runner. */
#include <inttypes.h>
#include <stdio.h>
#include <stdlib.h>

#include "manik.h"

enum { MEMORY = 65536, PART = 1048576, HWDBG = MANIK_AT_SFR1 + 4 * 5 };

/* One bit for each byte of memory. */
enum { MARKS = MEMORY / 8 };

static uint8_t state[MANIK_STATE_SIZE], memory[MEMORY], marks[MARKS], tape[PART];

int main(int count, char **words)
{
    if (count != 4)
        return 2;
    size_t size = (size_t)atol(words[2]);
    uint64_t left = strtoull(words[3], NULL, 10);
    FILE *file = fopen(words[1], "rb");
    if (file == NULL || size > MEMORY || fread(memory, 1, size, file) == 0)
        return 2;
    fclose(file);
    state[HWDBG + 3] = 3;
    while (left > 0) {
        uint64_t steps, part = left < PART ? left : PART;
        uint32_t reply = manik_run(state, sizeof state, memory, size, marks, size * MARKS / MEMORY, tape, PART, part, &steps);
        if (reply != MANIK_BUDGET) {
            fprintf(stderr, "reply %" PRIu32 "\n", reply);
            return 1;
        }
        left -= steps;
    }
    return 0;
}
