/* A worked host on a serial line: receives a recipe from standard input as its bytes come, and runs it.
 *
 * usage: serial <LINE     (a keypad unit's device, a pipe, a file) */
#define _POSIX_C_SOURCE 200809L
#include "quernhem.h"

#include <inttypes.h>
#include <stdio.h>
#include <unistd.h>

enum { LINE = STDIN_FILENO, PART = 16, SPACE = 64, ROOM = 256, RECORDS = 4, BUDGET = 1000 };

/* What a box keeps for its recipes. */
static uint8_t buffer[QUERNHEM_TEXT], space[SPACE], room[ROOM], tables[QUERNHEM_TABLES];
static uint64_t verdict[QUERNHEM_VERDICT];
static quernhem_record records[RECORDS];
static const uint16_t no_index[1]; /* it jumps by the table that each run makes for itself */

/* Receives a text up to the line's end, and says whether it did; the verdict then says whether the text is a recipe. */
static int receive(size_t *text_len) {
    uint64_t receipt[QUERNHEM_RECEIPT];
    uint8_t part[PART];
    ssize_t came;
    *text_len = 0;
    quernhem_begin(buffer, sizeof buffer, receipt, verdict);
    if (verdict[QUERNHEM_FAULTY]) return 1;
    while ((came = read(LINE, part, sizeof part)) > 0) {
        quernhem_take(buffer, sizeof buffer, receipt, part, (size_t)came);
        *text_len += (size_t)came;
    }
    if (came < 0) return 0; /* the line broke: what came is no whole text */
    quernhem_finish(buffer, sizeof buffer, receipt, verdict);
    return 1;
}

static void run(size_t text_len) {
    uint64_t answer[QUERNHEM_ANSWER];
    quernhem_run(buffer, text_len, buffer, 0, space, SPACE, room, ROOM, no_index, 0, records, RECORDS, BUDGET, tables, answer);
    fwrite(room, 1, answer[QUERNHEM_WRITTEN], stdout);
    printf("outcome %" PRIu64 " after %" PRIu64 " steps\n", answer[QUERNHEM_OUTCOME], answer[QUERNHEM_STEPS]);
}

int main(void) {
    size_t text_len;
    if (!receive(&text_len)) {
        perror("the line");
        return 1;
    }
    printf("%zu bytes came: ", text_len);
    if (verdict[QUERNHEM_FAULTY]) {
        printf("refused with %" PRIu64 " at byte %" PRIu64 "\n", verdict[QUERNHEM_VERDICT_NUMBER], verdict[QUERNHEM_VERDICT_PLACE]);
        return 0;
    }
    printf("a recipe\n");
    run(text_len);
    return 0;
}
