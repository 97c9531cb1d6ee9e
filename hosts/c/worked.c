/* A worked host: checks a recipe, runs it over memory that it lends, prints what comes of it, asks for variables, and asks who names a line. */
#include "quernhem.h"

#include <inttypes.h>
#include <stdio.h>
#include <string.h>

enum { SPACE = 64, ROOM = 256, RECORDS = 4, BUDGET = 1000 };

static const char *const recipe =
    "10 LINE INPUT \"LOT? \"; L$\n"
    "20 FOR I=1 TO 3\n"
    "30 PRINT \"LOT \"; L$; I\n"
    "40 NEXT I\n"
    "50 S=-40\n";
static const char *const input = "A-17\n";
static const char *const faulty = "10 IF 0 THEN A$=5\n";
static const char *const jumps = "10 GOSUB 40\n20 IF I<3 THEN 10 ELSE 40\n30 GOTO 60\n40 I=I+1:RETURN\n";

/* What a box keeps for its recipes. */
static uint8_t space[SPACE], room[ROOM], tables[QUERNHEM_TABLES];
static uint16_t lines[QUERNHEM_INDEX];
static quernhem_record records[RECORDS];

static const uint8_t *bytes(const char *text) { return (const uint8_t *)text; }

static void check(const char *text) {
    uint64_t verdict[QUERNHEM_VERDICT];
    quernhem_check(bytes(text), strlen(text), verdict);
    if (verdict[QUERNHEM_FAULTY])
        printf("refused: %" PRIu64 " in line %" PRIu64 ", place %" PRIu64 "\n", verdict[QUERNHEM_VERDICT_NUMBER],
               verdict[QUERNHEM_VERDICT_LINE], verdict[QUERNHEM_VERDICT_PLACE]);
    else
        printf("passed\n");
}

/* Which lines name a line of a recipe, by its index alone. */
static void who_names(const char *text, uint16_t line) {
    uint64_t verdict[QUERNHEM_VERDICT], found[2], count;
    uint16_t callers[QUERNHEM_CALLERS];
    quernhem_index(bytes(text), strlen(text), lines, verdict);
    quernhem_line(lines, line, found);
    quernhem_callers(lines, line, callers, &count);
    printf("line %d %s %" PRIu64 ", named in", line, found[0] ? "starts at byte" : "is missing:", found[1]);
    for (uint64_t i = 0; i < count; i++) printf(" %d", callers[i]);
    printf("\n");
}

static void run(const char *text) {
    static const char *const outcomes[] = {"ended", "stopped", "out", "error", "refused"};
    uint64_t answer[QUERNHEM_ANSWER], verdict[QUERNHEM_VERDICT];
    quernhem_index(bytes(text), strlen(text), lines, verdict); /* refused: the words of an older text, which this run does not go by */
    quernhem_run(bytes(text), strlen(text), bytes(input), strlen(input), space, SPACE, room, ROOM, lines, QUERNHEM_INDEX, records, RECORDS,
                 BUDGET, tables, answer);
    fwrite(room, 1, answer[QUERNHEM_WRITTEN], stdout);
    printf("%s: number %" PRIu64 ", line %" PRIu64 ", place %" PRIu64 ", %" PRIu64 " steps, %" PRIu64 " bytes written, %" PRIu64 " taken\n",
           outcomes[answer[QUERNHEM_OUTCOME]], answer[QUERNHEM_NUMBER], answer[QUERNHEM_LINE], answer[QUERNHEM_PLACE],
           answer[QUERNHEM_STEPS], answer[QUERNHEM_WRITTEN], answer[QUERNHEM_TAKEN]);
}

static void ask(const char *name) {
    uint64_t found[QUERNHEM_FOUND];
    quernhem_ask(tables, space, SPACE, bytes(name), strlen(name), found);
    if (found[QUERNHEM_FOUND_NUMBER])
        printf("%s: %" PRIu64 "\n", name, found[QUERNHEM_FOUND_NUMBER]);
    else if (found[QUERNHEM_KIND])
        printf("%s is \"%.*s\"\n", name, (int)found[QUERNHEM_LENGTH], (const char *)space + found[QUERNHEM_START]);
    else
        printf("%s is %" PRId64 "\n", name, (int64_t)found[QUERNHEM_VALUE]);
}

int main(void) {
    check(recipe);
    run(recipe);
    ask("L$");
    ask("I");
    ask("S");
    ask("NEW");
    ask("PRINT");
    who_names(jumps, 40);
    who_names(jumps, 60);
    check(faulty);
    run("no line number\n"); /* refused: the variables are still there */
    ask("L$");
    return 0;
}
