/* Kamzhules: trellis-coded phase modulation, proved. The C interface.
 *
 * Every function takes any arguments: a struct with any bytes in it, a buffer of any length (also none), any number.
 * There is no heap and no global state; all memory is the caller's. Nothing outside the given structs and buffers is
 * written. A function answers KZ_OK (0) or one of the numbers below, and where it answers a number it has written
 * nothing, unless its line says otherwise. */
#ifndef KAMZHULES_H
#define KAMZHULES_H

#include <stddef.h>
#include <stdint.h>

#ifdef __cplusplus
extern "C" {
#endif

#define KZ_OK 0          /* done */
#define KZ_SHAPE 1       /* kz_entry: a line leaves its shape; nothing is written */
#define KZ_NAMES 2       /* kz_entry: the names line differs; nothing is written */
#define KZ_LIMIT 3       /* l, m, q, c or v is outside its limits; nothing is written */
#define KZ_POLYNOMIAL 4  /* a polynomial is outside its limits, or absent, or there; nothing is written */
#define KZ_PARITY 5      /* the parity bit is a differential bit; nothing is written */
#define KZ_SIZE 6        /* kz_entry: a thirty-third code line, or over 4,096 bytes; nothing is written */
#define KZ_WIDE 7        /* kz_send: the word is too wide; the sender is as it was */
#define KZ_LENGTH 8      /* take: the reading has not places * width words; the receiver is as it was */
#define KZ_UNFIT 9       /* take: the reading of a place is unfit; the receiver is as it was */
#define KZ_ROOM 10       /* deliver: the buffer is below count - 1 words; nothing is written */
#define KZ_CELLS 20      /* open: too few cells; the receiver is as it was, with the block it may have open */
#define KZ_CLOSED 21     /* take, tell, deliver: no block is open; nothing is written */
#define KZ_BLOCK_FULL 22 /* take: the block has all its symbols; the receiver is as it was */
#define KZ_SHORT 23      /* deliver: fewer than two symbols are in; nothing is written */
#define KZ_NO_PATH 24    /* deliver: no path ends anywhere; nothing is written */
#define KZ_FULL 25       /* kz_send: 255 words are sent; the sender is as it was */
#define KZ_NO_FRONT 253  /* take, kz_turn, kz_clean: no such front, or not of this kind; nothing is written */
#define KZ_QUIET 254     /* kz_send, kz_end: no burst is open; the sender is as it was */
#define KZ_NOTHING 255   /* kz_entry: no such entry; kz_clean: no such phase or length; nothing is written */

/* The fronts. `width` is the number of words in a reading of one place, for m phases. */
#define KZ_TABLE 0       /* plain scores; width m: word i is the score of phase i */
#define KZ_STRIKE 1      /* strike scores; width 1: the phase that was decided, below m */
#define KZ_LOST_TABLE 2  /* width m + 1: 0 and a reading of KZ_TABLE, or 1 and any words for a lost place */
#define KZ_LOST_STRIKE 3 /* width 2: 0 and a reading of KZ_STRIKE, or 1 and any word for a lost place */

/* A code as numbers, within its limits or not. An absent polynomial is 0. */
struct kz_code {
    uint8_t places, phases, offset, checked, memory;
    uint16_t h0, h1, h2, h3;
};

/* A number of the list above with the line and column of a book that it names, 0 for none. */
struct kz_fault {
    uint8_t number, line, column;
};

/* The phases of one symbol: the first `places` are used, the others are 0. */
struct kz_symbol {
    uint8_t places;
    uint8_t phases[4];
};

/* A sender. `sending` is 1 within a burst; any other value is quiet. The other numbers are taken as they stand: the
 * code is checked at each call, the state and the differential number are what the next label is made from. */
struct kz_sender {
    struct kz_code code;
    uint8_t state, differential, sent, sending;
};

/* The survivor of a state in a receiver for plain scores: its score, its last label, and whether it is sole. */
struct kz_plain_cell {
    uint32_t score;
    uint16_t label;
    uint8_t sole;
};

/* The same in a receiver for strike scores; the score is worth strikes * 65,536 + distance. */
struct kz_strike_cell {
    uint32_t distance;
    uint16_t strikes;
    uint16_t label;
    uint8_t sole;
};

/* A receiver of either kind. `open` is 1 while a block is open; with any other value there is none, so that memory of
 * zeros is a receiver with no block. `count` is how many symbols are in.
 *
 * The cells are the caller's memory too. The same cells, and as many, go with a receiver from its open on, and only its
 * calls write them. A receiver with other bytes in its struct or cells is safe to call: the call ends, writes nothing
 * elsewhere, and answers something. Two answers are certain even then: KZ_CLOSED where `open` is not 1, and the code's
 * own number where `open` is 1 and the code is none. */
struct kz_receiver {
    struct kz_code code;
    uint16_t count;
    uint8_t open;
};

/* What tell answers: the least worth, how many symbols are in, and whether only one path has that worth. */
struct kz_told {
    uint64_t worth;
    uint16_t count;
    uint8_t sole;
};

/* What deliver answers: how many words it wrote, and whether only one path has the least worth. */
struct kz_delivered {
    uint16_t count;
    uint8_t sole;
};

/* The entry of a book's text, from 0. Faults 1 to 6 with line and column, or KZ_NOTHING. */
struct kz_fault kz_entry(const uint8_t *text, size_t length, size_t entry, struct kz_code *code);

/* Whether the numbers are a code: 3, 4 or 5 with the column, and line 0. */
struct kz_fault kz_check(struct kz_code code);

/* The step of a code; 0 where the numbers are none. */
uint8_t kz_step(struct kz_code code);

/* The symbol of a label. 3, 4, 5. */
uint8_t kz_map(struct kz_code code, uint16_t label, struct kz_symbol *symbol);

/* Opens a burst, whatever the sender held before, and gives the reference symbol. 3, 4, 5. */
uint8_t kz_begin(struct kz_sender *sender, struct kz_code code, struct kz_symbol *symbol);

/* Sends one word and gives its symbol. KZ_QUIET, 3, 4, 5, 25, 7, in this order. */
uint8_t kz_send(struct kz_sender *sender, uint16_t word, struct kz_symbol *symbol);

/* Closes the burst and tells how many words were sent. KZ_QUIET. */
uint8_t kz_end(struct kz_sender *sender, uint8_t *sent);

/* Writes what the program `steps` prints for the text, if it fits the buffer, and answers its length in any case; where
 * that is over `room`, nothing is written. */
size_t kz_steps(const uint8_t *text, size_t length, uint8_t *buffer, size_t room);

/* The receiver, for plain scores and for strike scores. `n` is the number of cells; `words` the number of words in a
 * reading.
 *
 * open: starts an empty block, drops an earlier one, and tells how many symbols the block holds: the smaller of 256 and
 * n / 2^v - 1. It wants 2^v * (v + 2) cells. 3, 4, 5, 20, in this order. */
uint8_t kz_plain_open(struct kz_receiver *receiver, struct kz_plain_cell *cells, size_t n, struct kz_code code,
                      uint16_t *symbols);
uint8_t kz_strike_open(struct kz_receiver *receiver, struct kz_strike_cell *cells, size_t n, struct kz_code code,
                       uint16_t *symbols);

/* take: adds the reading of one symbol, places * width words. KZ_NO_FRONT where the front is none, or gives the other
 * kind of score; 21; 3, 4, 5 of the code in the struct; 22, 8, 9, in this order. */
uint8_t kz_plain_take(struct kz_receiver *receiver, struct kz_plain_cell *cells, size_t n, uint8_t front,
                      const uint16_t *reading, size_t words);
uint8_t kz_strike_take(struct kz_receiver *receiver, struct kz_strike_cell *cells, size_t n, uint8_t front,
                       const uint16_t *reading, size_t words);

/* tell: the least worth over all paths; before the first symbol 0, 0 and not sole. Changes nothing in the receiver.
 * 21; 3, 4, 5. */
uint8_t kz_plain_tell(const struct kz_receiver *receiver, const struct kz_plain_cell *cells, size_t n,
                      struct kz_told *told);
uint8_t kz_strike_tell(const struct kz_receiver *receiver, const struct kz_strike_cell *cells, size_t n,
                       struct kz_told *told);

/* deliver: writes the data words of the least path from its second symbol on, count - 1 of them, and leaves the buffer
 * beyond. Changes nothing in the receiver. `length` is that of the buffer, in words. 21; 3, 4, 5; 23, 10, 24, in this
 * order. */
uint8_t kz_plain_deliver(const struct kz_receiver *receiver, const struct kz_plain_cell *cells, size_t n,
                         uint16_t *buffer, size_t length, struct kz_delivered *delivered);
uint8_t kz_strike_deliver(const struct kz_receiver *receiver, const struct kz_strike_cell *cells, size_t n,
                          uint16_t *buffer, size_t length, struct kz_delivered *delivered);

/* Turns the reading of one place by one phase; one that is unfit for so many phases stays as it is. KZ_NO_FRONT. */
uint8_t kz_turn(uint8_t front, uint8_t phases, uint16_t *reading, size_t words);

/* Writes the clean reading of a phase. KZ_NO_FRONT; KZ_NOTHING where the phase is not below `phases` or the reading has
 * not exactly the front's width. */
uint8_t kz_clean(uint8_t front, uint8_t phases, uint8_t phase, uint16_t *reading, size_t words);

#ifdef __cplusplus
}
#endif

#endif
