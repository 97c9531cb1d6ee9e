/* What the trials of the library share: stored cases, memory to lend, and the name to ask for an entry of the tables by. */
#ifndef TRIALS_H
#define TRIALS_H

#include "quernhem.h"

#include <stdio.h>
#include <stdlib.h>
#include <string.h>

/* A stored case is a kind, six numbers of four bytes each, the low one first, and its recipe and input: how long the recipe and the input
 * are, how many bytes of string space and of room for output are lent, the budget, and how many records are lent. */
typedef struct {
    int is_check;
    uint8_t *text, *input;
    size_t text_len, input_len, space_len, room_len, records_len;
    uint32_t budget;
} Stored;

static inline uint32_t number_at(const uint8_t *at) {
    return at[0] | (uint32_t)at[1] << 8 | (uint32_t)at[2] << 16 | (uint32_t)at[3] << 24;
}

/* So many bytes of standard input, in memory of just that length. */
static inline uint8_t *take_in(size_t len) {
    uint8_t *bytes = malloc(len ? len : 1);
    if (bytes && fread(bytes, 1, len, stdin) == len) return bytes;
    fputs("a stored case is cut short\n", stderr);
    exit(2);
}

/* Memory of just that length, so that a stray is found out, each byte this one. */
static inline uint8_t *filled(size_t len, uint8_t byte) {
    uint8_t *bytes = malloc(len ? len : 1);
    if (!bytes) exit(2);
    memset(bytes, byte, len);
    return bytes;
}

/* The next case of standard input; 0 where none is left. */
static inline int next_stored(Stored *stored) {
    uint8_t head[25];
    if (fread(head, 1, sizeof head, stdin) != sizeof head) return 0;
    stored->is_check = head[0] == 0;
    stored->text_len = number_at(head + 1);
    stored->input_len = number_at(head + 5);
    stored->space_len = number_at(head + 9);
    stored->room_len = number_at(head + 13);
    stored->budget = number_at(head + 17);
    stored->records_len = number_at(head + 21);
    stored->text = take_in(stored->text_len);
    stored->input = take_in(stored->input_len);
    return 1;
}

static inline void let_go(Stored *stored) {
    free(stored->text);
    free(stored->input);
}

/* The word of an entry, as the number that it holds. */
static inline int16_t number_of_entry(const uint8_t *tables, size_t entry) {
    const uint8_t *at = tables + QUERNHEM_WORDS + 2 * entry;
    return (int16_t)(at[0] | at[1] << 8);
}

enum { LONGEST_NAME = QUERNHEM_NAME + 1 };

/* The name of an entry, as it is asked for. */
static inline size_t name_of_entry(const uint8_t *telling, int is_text, uint8_t name[LONGEST_NAME]) {
    size_t len = 0;
    while (len < QUERNHEM_NAME && telling[len]) {
        name[len] = telling[len];
        len++;
    }
    if (is_text) name[len++] = '$';
    return len;
}

#endif
