/* Feeds the library random and damaged recipes, whole and in random parts, inputs, sizes, indexes, records, tables, receipts and names, and holds it to what
 * its header says.
 *
 * usage: hammer ROUNDS [SEED] <CASES     (the cases' recipes are damaged here)
 *
 * Everything lent stands between guard bytes, flush against a page that can't be touched: a byte read or written behind that end ends the
 * program. Each recipe runs twice, over memory with other contents and by another index. */
#define _DEFAULT_SOURCE
#include "indexes.h"
#include "lent.h"
#include "parts.h"
#include "recipes.h"

static int is_error(uint64_t n) {
    static const uint8_t errors[] = {1, 2, 3, 4, 5, 6, 7, 8, 11, 13, 14, 15, 16, 23, 26, 29, 30, 62, 110};
    return n < 256 && memchr(errors, (int)n, sizeof errors) != NULL;
}

/* ---- a run */

static void expect_answer(const uint64_t *a, uint32_t budget) {
    uint64_t outcome = a[QUERNHEM_OUTCOME], number = a[QUERNHEM_NUMBER];
    int refused = outcome == QUERNHEM_REFUSED;
    expect(outcome <= QUERNHEM_REFUSED, "no such outcome");
    expect(outcome != QUERNHEM_ERROR || is_error(number), "no such error");
    expect(!refused || (number >= QUERNHEM_TEXT_TOO_LONG && number <= QUERNHEM_STACK_TOO_LONG), "no such refusal");
    expect(outcome >= QUERNHEM_ERROR || !number, "a number where none applies");
    expect(a[QUERNHEM_LINE] <= 65529 && ((outcome != QUERNHEM_ENDED && !refused) || !a[QUERNHEM_LINE]), "no such line");
    expect(refused ? a[QUERNHEM_PLACE] <= text.len : !a[QUERNHEM_PLACE], "no such place");
    expect(a[QUERNHEM_STEPS] <= budget, "more steps than the budget");
    expect(outcome != QUERNHEM_OUT || a[QUERNHEM_STEPS] == budget, "out of steps too early");
    expect(a[QUERNHEM_WRITTEN] <= room.len, "more written than there is room");
    expect(a[QUERNHEM_TAKEN] <= input.len, "more taken than there is input");
    expect(!refused || !(a[QUERNHEM_STEPS] | a[QUERNHEM_WRITTEN] | a[QUERNHEM_TAKEN]), "a refused run did something");
}

static void expect_tables(void) {
    size_t numbers = tables.lent[QUERNHEM_NUMBER_COUNT], strings = tables.lent[QUERNHEM_STRING_COUNT], used = 0;
    for (size_t i = 0; i < QUERNHEM_VARIABLES; i++) used += tables.lent[QUERNHEM_LENGTHS + i];
    if (numbers > QUERNHEM_VARIABLES || strings > QUERNHEM_VARIABLES || used > space.len) {
        expect(0, "more variables or bytes than there can be");
        return;
    }
    expect_zeros(&tables, QUERNHEM_NUMBER_NAMES + QUERNHEM_NAME * numbers, QUERNHEM_WORDS, "an unused number has a name");
    expect_zeros(&tables, QUERNHEM_WORDS + 2 * numbers, QUERNHEM_STRING_NAMES, "an unused number has a word");
    expect_zeros(&tables, QUERNHEM_STRING_NAMES + QUERNHEM_NAME * strings, QUERNHEM_LENGTHS, "an unused string has a name");
    expect_zeros(&tables, QUERNHEM_LENGTHS + strings, QUERNHEM_NUMBER_COUNT, "an unused string has a length");
    expect_zeros(&space, used, space.len, "it is not zero after the strings");
}

/* How many records the runs of a round are lent. */
static size_t records_len;

/* 106 is told before 107, and 107 before what the text is refused for. */
static void expect_order(const uint64_t *a) {
    int long_space = space.len > QUERNHEM_SPACE, long_stack = records_len > QUERNHEM_RECORDS, refused = a[QUERNHEM_OUTCOME] == QUERNHEM_REFUSED;
    uint64_t number = refused ? a[QUERNHEM_NUMBER] : 0;
    expect((number == QUERNHEM_SPACE_TOO_LONG) == long_space, "106 for another reason, or not at once");
    expect((number == QUERNHEM_STACK_TOO_LONG) == (long_stack && !long_space), "107 for another reason, or not at once");
}

static void expect_run(size_t space_len, size_t room_len, uint32_t budget, uint64_t into[QUERNHEM_ANSWER]) {
    lend_random(&space, space_len);
    lend_random(&room, room_len);
    lend_random(&tables, QUERNHEM_TABLES);
    lend_random(&records, records_len * sizeof(quernhem_record));
    lend_index();
    uint64_t *a = lend_words(&answer, QUERNHEM_ANSWER);
    keep_all();
    quernhem_run(text.lent, text.len, input.lent, input.len, space.lent, space.len, room.lent, room.len, words_of(&lines), lines.len / WORD,
                 (quernhem_record *)(void *)records.lent, records_len, budget, tables.lent, a);
    memcpy(into, a, 8 * QUERNHEM_ANSWER);
    expect_guards();
    expect_kept(&text, 0);
    expect_kept(&input, 0);
    expect_kept(&lines, 0);
    expect_answer(a, budget);
    expect_order(a);
    expect_kept(&room, (size_t)a[QUERNHEM_WRITTEN]);
    if (a[QUERNHEM_OUTCOME] == QUERNHEM_REFUSED) {
        expect_kept(&space, 0);
        expect_kept(&tables, 0);
        expect_kept(&records, 0);
    } else {
        expect_tables();
        expect_zeros(&records, 0, records.len, "a record is not zeros");
    }
}

static uint64_t first[QUERNHEM_ANSWER];
static uint8_t first_space[PAGES * PAGE], first_room[PAGES * PAGE], first_tables[QUERNHEM_TABLES];

/* A smaller budget only ends the run earlier. */
static void expect_fewer(size_t space_len, size_t room_len) {
    uint64_t again[QUERNHEM_ANSWER];
    uint32_t fewer = (uint32_t)below((size_t)first[QUERNHEM_STEPS]);
    expect_run(space_len, room_len, fewer, again);
    expect(again[QUERNHEM_OUTCOME] == QUERNHEM_OUT && again[QUERNHEM_STEPS] == fewer, "a smaller budget is not used up");
    expect(again[QUERNHEM_WRITTEN] <= first[QUERNHEM_WRITTEN] && !memcmp(first_room, room.lent, (size_t)again[QUERNHEM_WRITTEN]),
           "a smaller budget writes something else");
}

/* A run depends on nothing but its text, its input, its sizes and its budget: on no index, and on nothing that a record held. */
static void expect_again(size_t space_len, size_t room_len, uint32_t budget) {
    uint64_t again[QUERNHEM_ANSWER];
    memcpy(first_space, space.lent, space_len);
    memcpy(first_room, room.lent, room_len);
    memcpy(first_tables, tables.lent, QUERNHEM_TABLES);
    expect_run(space_len, room_len, budget, again);
    expect(!memcmp(first, again, sizeof again), "a second run answers something else");
    if (first[QUERNHEM_OUTCOME] == QUERNHEM_REFUSED) return;
    expect(!memcmp(first_space, space.lent, space_len), "a second run leaves another space");
    expect(!memcmp(first_room, room.lent, (size_t)again[QUERNHEM_WRITTEN]), "a second run writes something else");
    expect(!memcmp(first_tables, tables.lent, QUERNHEM_TABLES), "a second run leaves other variables");
    if (first[QUERNHEM_STEPS] && !below(4)) expect_fewer(space_len, room_len);
}

/* ---- a check */

/* A refusal of loading is the run's too, and a recipe that passes never fails with 2, 8, 13 or 16. */
static void expect_check(size_t space_len) {
    uint64_t *v = lend_words(&verdict, QUERNHEM_VERDICT), number = first[QUERNHEM_NUMBER], place = first[QUERNHEM_PLACE];
    keep_all();
    quernhem_check(text.lent, text.len, v);
    expect_guards();
    expect_kept(&text, 0);
    uint64_t fault_number = v[QUERNHEM_VERDICT_NUMBER];
    int loading = v[QUERNHEM_FAULTY] && fault_number >= QUERNHEM_TEXT_TOO_LONG;
    int refused = first[QUERNHEM_OUTCOME] == QUERNHEM_REFUSED && number < QUERNHEM_SPACE_TOO_LONG;
    int kept_out = number == QUERNHEM_SYNTAX || number == QUERNHEM_UNDEFINED_LINE || number == QUERNHEM_TYPE_MISMATCH ||
                   number == QUERNHEM_FORMULA_TOO_COMPLEX;
    expect(v[QUERNHEM_FAULTY] <= 1, "no such verdict");
    expect(v[QUERNHEM_FAULTY] || !(fault_number | v[QUERNHEM_VERDICT_LINE] | v[QUERNHEM_VERDICT_PLACE]), "passed, with a number");
    expect(space_len > QUERNHEM_SPACE || records_len > QUERNHEM_RECORDS || loading == refused, "the check and the run load otherwise");
    expect(!refused || (number == fault_number && place == v[QUERNHEM_VERDICT_PLACE]), "the check and the run refuse otherwise");
    expect(v[QUERNHEM_FAULTY] || first[QUERNHEM_OUTCOME] != QUERNHEM_ERROR || !kept_out, "what passed fails with an error of the check");
}

/* ---- questions */

/* Asks over the tables, the space and the name as they stand. */
static const uint64_t *expect_ask(void) {
    uint64_t *f = lend_words(&found, QUERNHEM_FOUND);
    keep_all();
    quernhem_ask(tables.lent, space.lent, space.len, name.lent, name.len, f);
    expect_guards();
    expect_kept(&tables, 0);
    expect_kept(&space, 0);
    expect_kept(&name, 0);
    expect(!f[QUERNHEM_FOUND_NUMBER] || f[QUERNHEM_FOUND_NUMBER] == QUERNHEM_NO_VARIABLE, "no such refusal of a question");
    expect(f[QUERNHEM_KIND] <= 1, "no such kind");
    expect((int64_t)f[QUERNHEM_VALUE] >= -32768 && (int64_t)f[QUERNHEM_VALUE] <= 32767, "no such whole number");
    expect(f[QUERNHEM_LENGTH] <= 255 && f[QUERNHEM_START] <= space.len && f[QUERNHEM_LENGTH] <= space.len - f[QUERNHEM_START],
           "a text that does not lie in the space");
    return f;
}

static const uint64_t *ask_entry(size_t names, size_t entry, int is_text) {
    uint8_t asked[LONGEST_NAME];
    size_t len = name_of_entry(tables.lent + names + QUERNHEM_NAME * entry, is_text, asked);
    lend_bytes(&name, asked, len);
    return expect_ask();
}

/* After a run every variable is answered as the tables have it. */
static void expect_variables(void) {
    uint64_t start = 0;
    for (size_t i = 0; i < tables.lent[QUERNHEM_NUMBER_COUNT] && i < QUERNHEM_VARIABLES; i++) {
        const uint64_t *f = ask_entry(QUERNHEM_NUMBER_NAMES, i, 0);
        expect(!f[QUERNHEM_FOUND_NUMBER] && !f[QUERNHEM_KIND] && (int64_t)f[QUERNHEM_VALUE] == number_of_entry(tables.lent, i),
               "a number is answered otherwise");
    }
    for (size_t i = 0; i < tables.lent[QUERNHEM_STRING_COUNT] && i < QUERNHEM_VARIABLES; i++) {
        const uint64_t *f = ask_entry(QUERNHEM_STRING_NAMES, i, 1);
        uint64_t len = tables.lent[QUERNHEM_LENGTHS + i];
        expect(!f[QUERNHEM_FOUND_NUMBER] && f[QUERNHEM_KIND] && f[QUERNHEM_START] == start && f[QUERNHEM_LENGTH] == len,
               "a string is answered otherwise");
        start += len;
    }
}

/* Tables that no run made, some with the name in an entry; spaces of any length; names that are none. */
static void expect_strange_question(size_t space_len) {
    static const char *const names[] = {"A", "a$", "LOT$", "TO", "TOP$", "A B", " A", "A%", "A1$", "\"A\"", "", "PRINT", "A$$", "1A", "IF$"};
    const char *asked = ANY(names);
    lend_random(&tables, QUERNHEM_TABLES);
    lend_random(&space, space_len);
    if (below(2))
        lend_bytes(&name, asked, strlen(asked));
    else
        lend_random(&name, below(below(8) ? 6 : 400));
    if (name.len) {
        static const size_t tellings[] = {QUERNHEM_NUMBER_NAMES, QUERNHEM_STRING_NAMES};
        uint8_t *entry = tables.lent + ANY(tellings) + QUERNHEM_NAME * below(QUERNHEM_VARIABLES);
        size_t len = 1 + below(name.len < QUERNHEM_NAME ? name.len : QUERNHEM_NAME);
        memcpy(entry, name.lent, len);
        if (len < QUERNHEM_NAME) entry[len] = 0;
    }
    expect_ask();
}

/* ---- rounds */

static size_t a_stack(void) {
    static const size_t lengths[] = {0, 1, 4, 32, 200, QUERNHEM_RECORDS, QUERNHEM_RECORDS + 1};
    return below(2) ? ANY(lengths) : below(40);
}

static size_t a_size(size_t most) { return below(4) ? below(100) : below(most + 1); }

static void play_round(void) {
    size_t space_len = a_size(PAGES * PAGE), room_len = a_size(PAGE);
    uint32_t budget = (uint32_t)below(below(4) ? 40 : 400);
    records_len = a_stack();
    lend_recipe();
    lend_input();
    expect_run(space_len, room_len, budget, first);
    expect_check(space_len);
    if (first[QUERNHEM_OUTCOME] != QUERNHEM_REFUSED) expect_variables();
    expect_again(space_len, room_len, budget);
    expect_strange_question(a_size(PAGES * PAGE));
    expect_indexed();
    expect_received(below(4) ? QUERNHEM_TEXT + below(PAGES * PAGE - QUERNHEM_TEXT + 1) : below(QUERNHEM_TEXT + 2));
}

int main(int argc, char **argv) {
    uint64_t rounds = argc > 1 ? strtoull(argv[1], NULL, 10) : 1000, outcomes[QUERNHEM_REFUSED + 1] = {0};
    if (argc > 2) state = 2 * strtoull(argv[2], NULL, 10) + 1;
    prepare_arenas();
    read_cases();
    for (this_round = 0; this_round < rounds; this_round++) {
        play_round();
        if (first[QUERNHEM_OUTCOME] <= QUERNHEM_REFUSED) outcomes[first[QUERNHEM_OUTCOME]]++;
    }
    printf("%" PRIu64 " rounds: %" PRIu64 " ended, %" PRIu64 " stopped, %" PRIu64 " out, %" PRIu64 " error, %" PRIu64 " refused; ", rounds,
           outcomes[QUERNHEM_ENDED], outcomes[QUERNHEM_STOPPED], outcomes[QUERNHEM_OUT], outcomes[QUERNHEM_ERROR], outcomes[QUERNHEM_REFUSED]);
    printf("%" PRIu64 " faults\n", faults);
    return faults != 0;
}
