/* Receives stored texts in their stored parts, and writes what comes of each.
 *
 * usage: received <CASES
 *
 * A case is how long the buffer is and how many parts come, four bytes each, the low one first; then each part, how long it is before it.
 * Writes a line each: the number that is told at the beginning; number, line and place that are told at the end; and the buffer,
 * `untouched` or its bytes in hex, without the zeros at its end. */
#include "trials.h"

#include <inttypes.h>

enum { OLD = 170 }; /* what the buffer holds before */

static int next_number(size_t *number) {
    uint8_t bytes[4];
    if (fread(bytes, 1, sizeof bytes, stdin) != sizeof bytes) return 0;
    *number = number_at(bytes);
    return 1;
}

static void take_stored(uint8_t *buffer, size_t buffer_len, uint64_t *receipt) {
    size_t len = 0;
    if (!next_number(&len)) exit(2);
    uint8_t *part = take_in(len);
    quernhem_take(buffer, buffer_len, receipt, part, len);
    free(part);
}

static void show(const uint8_t *buffer, size_t len) {
    size_t old = 0;
    while (old < len && buffer[old] == OLD) old++;
    if (old == len) {
        printf("untouched\n");
        return;
    }
    while (len && !buffer[len - 1]) len--;
    for (size_t i = 0; i < len; i++) printf("%02x", buffer[i]);
    printf("\n");
}

static void receive(size_t buffer_len, size_t parts) {
    uint64_t receipt[QUERNHEM_RECEIPT], begun[QUERNHEM_VERDICT], end[QUERNHEM_VERDICT];
    uint8_t *buffer = filled(buffer_len, OLD);
    quernhem_begin(buffer, buffer_len, receipt, begun);
    while (parts--) take_stored(buffer, buffer_len, receipt);
    quernhem_finish(buffer, buffer_len, receipt, end);
    printf("%" PRIu64 " %" PRIu64 " %" PRIu64 " %" PRIu64 " ", begun[QUERNHEM_VERDICT_NUMBER], end[QUERNHEM_VERDICT_NUMBER],
           end[QUERNHEM_VERDICT_LINE], end[QUERNHEM_VERDICT_PLACE]);
    show(buffer, buffer_len);
    free(buffer);
}

int main(void) {
    size_t buffer_len, parts;
    while (next_number(&buffer_len) && next_number(&parts)) receive(buffer_len, parts);
    return 0;
}
