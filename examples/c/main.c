/* A buoy's half hour, from C: one job writes its block, another reads it, a third is put back.
 * Prints each answer and the block's words afterwards, then the report of a script. */
#include <inttypes.h>
#include <stdio.h>
#include <string.h>

#include "shore.h"

enum { NUMBERS = 4, BLOCK_BYTES = 64, BLOCK_WORDS = 8 };

/* Block 1 has the half hour's number, its wave height and its period. */
static const uint64_t calls[][NUMBERS] = {
    {'b', 1},           {'s', 1, 8, 17},   {'s', 1, 9, 812}, {'s', 1, 10, 640}, {'c', 1},
    {'b', 2},           {'l', 2, 8},       {'l', 2, 9},
    /* the next half hour comes in while the reader holds the block, and yields */
    {'b', 1},           {'s', 1, 8, 18},   {'a', 1},         {'c', 2},
    /* now it has the block, and is put back all the same */
    {'b', 1},           {'s', 1, 8, 18},   {'s', 1, 9, 845}, {'a', 1},
};

enum { CALLS = sizeof calls / sizeof calls[0] };

static void print_answer(const uint64_t call[NUMBERS], const uint64_t answer[NUMBERS]) {
    printf("%c:", (char)call[0]);
    if (answer[0] != 0) {
        printf(" refused, %c %" PRIu64 " %" PRIu64 "\n", (char)answer[0], answer[1], answer[2]);
        return;
    }
    printf(" granted");
    for (uint64_t i = 0; i < answer[1]; i++) printf(" %" PRIu64, answer[2 + i]);
    printf("\n");
}

static uint64_t word_at(const uint8_t *table, size_t address) {
    uint64_t word = 0;
    for (size_t i = 0; i < 8; i++) word = word << 8 | table[8 * address + i];
    return word;
}

static void replay_half_hour(void) {
    /* two blocks, and five bytes that are no block */
    uint8_t table[2 * BLOCK_BYTES + 5];
    memset(table, 0, 2 * BLOCK_BYTES);
    memset(table + 2 * BLOCK_BYTES, '.', 5);
    uint64_t answers[CALLS][NUMBERS];
    size_t made = shore_replay_board(table, sizeof table, calls[0], NUMBERS * CALLS, answers[0],
                                     NUMBERS * CALLS);
    for (size_t i = 0; i < made; i++) print_answer(calls[i], answers[i]);
    printf("block 1:");
    for (size_t i = 0; i < BLOCK_WORDS; i++) printf(" %" PRIu64, word_at(table, BLOCK_WORDS + i));
    printf("\nbehind: %.5s\n", (const char *)table + 2 * BLOCK_BYTES);
}

static void run_script(void) {
    static const char script[] = "b 1\ns 1 8 17\nc 1\nb 2\nl 2 8\nc 2\nl 2 8\n";
    uint8_t report[192];
    uint64_t stopped;
    size_t fill = shore_run((const uint8_t *)script, sizeof script - 1, report, sizeof report,
                            &stopped);
    printf("%.*sstopped: %" PRIu64 "\n", (int)fill, (const char *)report, stopped);
}

int main(void) {
    replay_half_hour();
    run_script();
    return 0;
}
