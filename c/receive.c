/* Sends a burst, reads its phases clean, receives it and prints what comes back, also with the carrier turned and with a
 * symbol lost.
 *
 *   cc -std=c11 -Wall -Wextra -Werror -I include c/receive.c crates/kamzhules/out/libkamzhules.a -o target/receive
 */
#include <stdio.h>
#include <stdlib.h>

#include "kamzhules.h"

#define WORDS 5
#define SYMBOLS (WORDS + 1)
#define STATES 4
#define CELLS (STATES * (SYMBOLS + 1))
#define PHASES 8

static const struct kz_code code = {1, PHASES, 0, 1, 2, 5, 2, 0, 0};
static const uint16_t words[WORDS] = {3, 1, 2, 0, 3};

/* The one phase of each symbol. */
static int send_burst(uint8_t *phases)
{
    struct kz_sender sender;
    struct kz_symbol symbol;
    uint8_t number = kz_begin(&sender, code, &symbol);
    for (int i = 0; number == KZ_OK; i++) {
        phases[i] = symbol.phases[0];
        if (i == WORDS)
            return kz_end(&sender, &phases[SYMBOLS]) == KZ_OK;
        number = kz_send(&sender, words[i], &symbol);
    }
    return 0;
}

static void print_answer(const struct kz_told *told, const struct kz_delivered *delivered, const uint16_t *received)
{
    printf(": %d symbols, worth %lu, %s; words", told->count, (unsigned long)told->worth,
           told->sole ? "sole" : "not sole");
    for (int i = 0; i < delivered->count; i++)
        printf(" %d", received[i]);
    printf("\n");
}

/* Tables of plain scores, each turned so many times. */
static int receive_turned(const uint8_t *phases, int times)
{
    static struct kz_plain_cell cells[CELLS];
    struct kz_receiver receiver = {0};
    uint16_t symbols, reading[PHASES], received[WORDS];
    struct kz_told told;
    struct kz_delivered delivered;
    if (kz_plain_open(&receiver, cells, CELLS, code, &symbols) != KZ_OK || symbols != SYMBOLS)
        return 0;
    for (int i = 0; i < SYMBOLS; i++) {
        if (kz_clean(KZ_TABLE, PHASES, phases[i], reading, PHASES) != KZ_OK)
            return 0;
        for (int turn = 0; turn < times; turn++)
            if (kz_turn(KZ_TABLE, PHASES, reading, PHASES) != KZ_OK)
                return 0;
        if (kz_plain_take(&receiver, cells, CELLS, KZ_TABLE, reading, PHASES) != KZ_OK)
            return 0;
    }
    if (kz_plain_tell(&receiver, cells, CELLS, &told) != KZ_OK ||
        kz_plain_deliver(&receiver, cells, CELLS, received, WORDS, &delivered) != KZ_OK)
        return 0;
    printf("turned by %d", times);
    print_answer(&told, &delivered, received);
    printf("one symbol more: refused %d\n", kz_plain_take(&receiver, cells, CELLS, KZ_TABLE, reading, PHASES));
    printf("a buffer of %d words: refused %d\n", WORDS - 1,
           kz_plain_deliver(&receiver, cells, CELLS, received, WORDS - 1, &delivered));
    return 1;
}

/* Decided phases, of which one symbol's is lost. */
static int receive_lost(const uint8_t *phases, int lost)
{
    static struct kz_strike_cell cells[CELLS];
    struct kz_receiver receiver = {0};
    uint16_t symbols, received[WORDS];
    struct kz_told told;
    struct kz_delivered delivered;
    printf("before the open: refused %d\n", kz_strike_tell(&receiver, cells, CELLS, &told));
    if (kz_strike_open(&receiver, cells, CELLS, code, &symbols) != KZ_OK)
        return 0;
    for (int i = 0; i < SYMBOLS; i++) {
        const uint16_t reading[2] = {i == lost, phases[i]};
        if (kz_strike_take(&receiver, cells, CELLS, KZ_LOST_STRIKE, reading, 2) != KZ_OK)
            return 0;
    }
    if (kz_strike_tell(&receiver, cells, CELLS, &told) != KZ_OK ||
        kz_strike_deliver(&receiver, cells, CELLS, received, WORDS, &delivered) != KZ_OK)
        return 0;
    printf("symbol %d lost", lost);
    print_answer(&told, &delivered, received);
    return 1;
}

int main(void)
{
    uint8_t phases[SYMBOLS + 1];
    if (!send_burst(phases))
        return EXIT_FAILURE;
    printf("step %d of %d phases; sent %d words as phases", kz_step(code), PHASES, phases[SYMBOLS]);
    for (int i = 0; i < SYMBOLS; i++)
        printf(" %d", phases[i]);
    printf("\n");
    return receive_turned(phases, 0) && receive_turned(phases, 4) && receive_turned(phases, 2) && receive_lost(phases, 2)
               ? EXIT_SUCCESS
               : EXIT_FAILURE;
}
