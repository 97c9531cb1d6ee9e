/* Asks the index of stored texts who names a line, and writes what comes of each as the program `callers_of` does.
 *
 * usage: named <CASES
 *
 * A case is how long the text is and which line is asked for, four bytes each, the low one first; then the text. */
#include "trials.h"

#include <inttypes.h>

static int next_number(uint32_t *number) {
    uint8_t bytes[4];
    if (fread(bytes, 1, sizeof bytes, stdin) != sizeof bytes) return 0;
    *number = number_at(bytes);
    return 1;
}

static void show(const uint16_t *index, uint16_t line) {
    static uint16_t callers[QUERNHEM_CALLERS];
    uint64_t found[2], count;
    quernhem_line(index, line, found);
    if (found[0])
        printf("present\t%d\t%" PRIu64 "\n", line, found[1]);
    else
        printf("missing\t%d\n", line);
    quernhem_callers(index, line, callers, &count);
    for (uint64_t i = 0; i < count; i++) printf("caller\t%d\n", callers[i]);
}

int main(void) {
    static uint16_t index[QUERNHEM_INDEX];
    uint64_t verdict[QUERNHEM_VERDICT];
    uint32_t text_len, line;
    while (next_number(&text_len) && next_number(&line)) {
        uint8_t *text = take_in(text_len);
        quernhem_index(text, text_len, index, verdict);
        if (verdict[QUERNHEM_FAULTY])
            printf("refused\t%" PRIu64 "\t%" PRIu64 "\n", verdict[QUERNHEM_VERDICT_NUMBER], verdict[QUERNHEM_VERDICT_PLACE]);
        else
            show(index, (uint16_t)line);
        free(text);
    }
    return 0;
}
