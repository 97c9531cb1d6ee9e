/* Runs stored cases through the library and writes every field of every answer, as the program `vectors` does.
 *
 * usage: cases <CASES
 *
 * Writes an answer a line. Every variable is asked for too, and every run is made again by its own index and by that of another text; where
 * something disagrees, or the records are not as they must be, the line says so. */
#include "trials.h"

#include <inttypes.h>

enum { OLD = 170 }; /* what the lent bytes hold before a run */

static void number(uint64_t value) { printf("%" PRIu64 " ", value); }

/* So many bytes at the front, each by its number. */
static void front(const uint8_t *bytes, size_t count) {
    number(count);
    for (size_t i = 0; i < count; i++) number(bytes[i]);
}

/* How many bytes from one place to another are others than this one. */
static void others(const uint8_t *bytes, size_t from, size_t to, uint8_t byte) {
    uint64_t count = 0;
    for (size_t i = from; i < to; i++) count += bytes[i] != byte;
    number(count);
}

static void check_case(const Stored *stored) {
    uint64_t verdict[QUERNHEM_VERDICT];
    quernhem_check(stored->text, stored->text_len, verdict);
    if (verdict[QUERNHEM_FAULTY]) {
        int loading = verdict[QUERNHEM_VERDICT_NUMBER] >= QUERNHEM_TEXT_TOO_LONG;
        printf("refused ");
        number(verdict[QUERNHEM_VERDICT_NUMBER]);
        number(verdict[loading ? QUERNHEM_VERDICT_PLACE : QUERNHEM_VERDICT_LINE]);
    } else {
        printf("passed ");
    }
    printf("\n");
}

static void ask_for(const uint8_t *tables, const uint8_t *space, size_t space_len, const uint8_t *telling, int is_text, uint64_t *found) {
    uint8_t name[LONGEST_NAME];
    size_t len = name_of_entry(telling, is_text, name);
    quernhem_ask(tables, space, space_len, name, len, found);
}

/* A variable is answered as the tables have it. */
static void ask_all(const uint8_t *tables, const uint8_t *space, size_t space_len) {
    uint64_t found[QUERNHEM_FOUND], start = 0;
    for (size_t i = 0; i < tables[QUERNHEM_NUMBER_COUNT]; i++) {
        ask_for(tables, space, space_len, tables + QUERNHEM_NUMBER_NAMES + QUERNHEM_NAME * i, 0, found);
        if (found[QUERNHEM_FOUND_NUMBER] || found[QUERNHEM_KIND] || (int64_t)found[QUERNHEM_VALUE] != number_of_entry(tables, i))
            printf("number %zu is answered otherwise ", i);
    }
    for (size_t i = 0; i < tables[QUERNHEM_STRING_COUNT]; i++) {
        ask_for(tables, space, space_len, tables + QUERNHEM_STRING_NAMES + QUERNHEM_NAME * i, 1, found);
        if (found[QUERNHEM_FOUND_NUMBER] || !found[QUERNHEM_KIND] || found[QUERNHEM_START] != start ||
            found[QUERNHEM_LENGTH] != tables[QUERNHEM_LENGTHS + i])
            printf("string %zu is answered otherwise ", i);
        start += tables[QUERNHEM_LENGTHS + i];
    }
}

/* The names and words in use, and how many of the unused ones are not zero. */
static void show_numbers(const uint8_t *tables) {
    size_t count = tables[QUERNHEM_NUMBER_COUNT], unused = 0;
    front(tables + QUERNHEM_NUMBER_NAMES, QUERNHEM_NAME * count);
    others(tables + QUERNHEM_NUMBER_NAMES, QUERNHEM_NAME * count, QUERNHEM_NAME * QUERNHEM_VARIABLES, 0);
    for (size_t i = 0; i < count; i++) number((uint16_t)number_of_entry(tables, i));
    for (size_t i = count; i < QUERNHEM_VARIABLES; i++) unused += number_of_entry(tables, i) != 0;
    number(unused);
}

static void show_strings(const uint8_t *tables) {
    size_t count = tables[QUERNHEM_STRING_COUNT];
    front(tables + QUERNHEM_STRING_NAMES, QUERNHEM_NAME * count);
    others(tables + QUERNHEM_STRING_NAMES, QUERNHEM_NAME * count, QUERNHEM_NAME * QUERNHEM_VARIABLES, 0);
    front(tables + QUERNHEM_LENGTHS, count);
    others(tables + QUERNHEM_LENGTHS, count, QUERNHEM_VARIABLES, 0);
}

/* The variables' bytes and zeros after them; a refusal leaves what there was. */
static void show_space(int refused, const uint8_t *tables, const uint8_t *space, size_t space_len) {
    size_t used = 0;
    for (size_t i = 0; i < QUERNHEM_VARIABLES; i++) used += tables[QUERNHEM_LENGTHS + i];
    if (!refused) front(space, used);
    others(space, refused ? 0 : used, space_len, refused ? OLD : 0);
}

/* What the tables hold before a run: a number QN that is 41, and a string QT of three bytes. A refusal leaves them. */
static uint8_t *old_tables(void) {
    uint8_t *tables = filled(QUERNHEM_TABLES, 0);
    memcpy(tables + QUERNHEM_NUMBER_NAMES, "QN", 2);
    tables[QUERNHEM_WORDS] = 41;
    memcpy(tables + QUERNHEM_STRING_NAMES, "QT", 2);
    tables[QUERNHEM_LENGTHS] = 3;
    tables[QUERNHEM_NUMBER_COUNT] = tables[QUERNHEM_STRING_COUNT] = 1;
    return tables;
}

typedef struct {
    uint8_t *space, *room, *tables;
    quernhem_record *records;
    uint64_t answer[QUERNHEM_ANSWER];
} Ran;

static Ran run_by(const Stored *stored, const uint16_t *index, size_t index_len) {
    size_t records_size = stored->records_len * sizeof(quernhem_record);
    Ran ran = {filled(stored->space_len, OLD), filled(stored->room_len, OLD), old_tables(), (void *)filled(records_size, OLD), {0}};
    quernhem_run(stored->text, stored->text_len, stored->input, stored->input_len, ran.space, stored->space_len, ran.room, stored->room_len, index,
                 index_len, ran.records, stored->records_len, stored->budget, ran.tables, ran.answer);
    return ran;
}

static void free_run(Ran *ran) {
    free(ran->space);
    free(ran->room);
    free(ran->tables);
    free(ran->records);
}

/* By another index it is the same run. */
static void run_again(const Stored *stored, const Ran *ran, const uint16_t *index, const char *whose) {
    Ran again = run_by(stored, index, QUERNHEM_INDEX);
    if (memcmp(ran->answer, again.answer, sizeof again.answer) || memcmp(ran->space, again.space, stored->space_len) ||
        memcmp(ran->room, again.room, stored->room_len) || memcmp(ran->tables, again.tables, QUERNHEM_TABLES) ||
        memcmp(ran->records, again.records, stored->records_len * sizeof(quernhem_record)))
        printf("another run by %s index ", whose);
    free_run(&again);
}

/* Every byte of the records is this one. */
static int all_are(const quernhem_record *records, size_t count, uint8_t byte) {
    const uint8_t *bytes = (const void *)records;
    for (size_t i = 0; i < count * sizeof *records; i++)
        if (bytes[i] != byte) return 0;
    return 1;
}

static void show_run(const Stored *stored, const Ran *ran) {
    static const char *const outcomes[] = {"ended", "stopped", "out", "error", "refused"};
    const uint64_t *answer = ran->answer;
    int refused = answer[QUERNHEM_OUTCOME] == QUERNHEM_REFUSED;
    printf("%s ", outcomes[answer[QUERNHEM_OUTCOME]]);
    for (size_t i = QUERNHEM_NUMBER; i < QUERNHEM_ANSWER; i++) number(answer[i]);
    front(ran->room, answer[QUERNHEM_WRITTEN]);
    others(ran->room, answer[QUERNHEM_WRITTEN], stored->room_len, OLD);
    show_space(refused, ran->tables, ran->space, stored->space_len);
    show_numbers(ran->tables);
    show_strings(ran->tables);
    if (!refused) ask_all(ran->tables, ran->space, stored->space_len);
    if (!all_are(ran->records, stored->records_len, refused ? OLD : 0)) printf("other records ");
}

/* With no index, with its own, and with that of the text before it. */
static void run_case(const Stored *stored) {
    static uint16_t before[QUERNHEM_INDEX], own[QUERNHEM_INDEX];
    uint64_t verdict[QUERNHEM_VERDICT];
    Ran ran = run_by(stored, own, 0);
    show_run(stored, &ran);
    memcpy(before, own, sizeof own);
    quernhem_index(stored->text, stored->text_len, own, verdict);
    run_again(stored, &ran, own, "its own");
    run_again(stored, &ran, before, "another's");
    printf("\n");
    free_run(&ran);
}

int main(void) {
    Stored stored;
    while (next_stored(&stored)) {
        if (stored.is_check)
            check_case(&stored);
        else
            run_case(&stored);
        let_go(&stored);
    }
    return 0;
}
