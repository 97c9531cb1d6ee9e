/* Measures how much stack a call uses, over lines that nest as deep as a line can, some that read and some that do not, and over stored
 * cases.
 *
 * usage: stack <CASES
 *
 * Each call is made on a stack of its own, painted before it. Says the most that a call of each function used, and fails where that is
 * not below QUERNHEM_STACK. */
#define _DEFAULT_SOURCE
#include "trials.h"

#include <string.h>
#include <ucontext.h>

enum { STACK_WORDS = 2 * QUERNHEM_STACK / 8, LONGEST_LINE = 255, DEEPEST = 8, SHOWN = 20, BUDGET = 1000 };

static const uint64_t paint = 0xA5A5A5A5A5A5A5A5;

static uint64_t stack[STACK_WORDS], answer[QUERNHEM_ANSWER], verdict[QUERNHEM_VERDICT], found[QUERNHEM_FOUND], receipt[QUERNHEM_RECEIPT];
static uint8_t space[QUERNHEM_SPACE], room[QUERNHEM_SPACE], tables[QUERNHEM_TABLES], buffer[QUERNHEM_TEXT];
static quernhem_record records[QUERNHEM_RECORDS];
static uint16_t lines[QUERNHEM_INDEX], callers[QUERNHEM_CALLERS];
static const uint8_t *text, *input;
static size_t text_len, input_len;

/* Under the index that stands there: of the text before, as often as not. */
static void run(void) {
    quernhem_run(text, text_len, input, input_len, space, sizeof space, room, sizeof room, lines, QUERNHEM_INDEX, records,
                 QUERNHEM_RECORDS, BUDGET, tables, answer);
}
static void check(void) { quernhem_check(text, text_len, verdict); }
static void begin(void) { quernhem_begin(buffer, sizeof buffer, receipt, verdict); }
static void take(void) { quernhem_take(buffer, sizeof buffer, receipt, text, text_len); }
static void finish(void) { quernhem_finish(buffer, sizeof buffer, receipt, verdict); }
static void make(void) { quernhem_index(text, text_len, lines, verdict); }
static void find(void) { quernhem_line(lines, 1, found); }
static void name(void) { quernhem_callers(lines, 1, callers, found); }
static void ask(void) { quernhem_ask(tables, space, sizeof space, (const uint8_t *)"LOT$", 4, found); }

static struct {
    const char *name;
    void (*call)(void);
    size_t most;
    char line[SHOWN + 1];
} calls[] = {
    {.name = "quernhem_run", .call = run},     {.name = "quernhem_check", .call = check}, {.name = "quernhem_ask", .call = ask},
    {.name = "quernhem_begin", .call = begin}, {.name = "quernhem_take", .call = take},   {.name = "quernhem_finish", .call = finish},
    {.name = "quernhem_index", .call = make},  {.name = "quernhem_line", .call = find},   {.name = "quernhem_callers", .call = name},
    {.name = "quernhem_run by its own index", .call = run},
};

static size_t used_by(void (*call)(void)) {
    ucontext_t here, there;
    size_t low = 0;
    for (size_t i = 0; i < STACK_WORDS; i++) stack[i] = paint;
    getcontext(&there);
    there.uc_stack.ss_sp = stack;
    there.uc_stack.ss_size = sizeof stack;
    there.uc_link = &here;
    makecontext(&there, call, 0);
    swapcontext(&here, &there);
    while (low < STACK_WORDS && stack[low] == paint) low++;
    return sizeof stack - 8 * low;
}

static void measure(void) {
    for (size_t i = 0; i < sizeof calls / sizeof *calls; i++) {
        size_t used = used_by(calls[i].call);
        if (used <= calls[i].most) continue;
        calls[i].most = used;
        memset(calls[i].line, 0, sizeof calls[i].line);
        memcpy(calls[i].line, text, text_len < SHOWN ? text_len : SHOWN);
    }
}

static char line[LONGEST_LINE + 1];

static void append(const char *part, size_t count) {
    while (count--) strcat(line, part);
}

static void measure_text(const char *bytes) {
    text = (const uint8_t *)bytes;
    text_len = strlen(bytes);
    measure();
}

/* The line alone, and behind a FOR that is skipped and a WHILE, which look for their NEXT and WEND there. */
static void measure_made(void) {
    static const char *const before[] = {"0FORI=1TO 0\n1", "0WHILE1\n1"};
    static char behind[LONGEST_LINE + 16];
    measure_text(line);
    for (size_t i = 0; i < sizeof before / sizeof *before; i++) {
        strcpy(behind, before[i]);
        strcat(behind, line + 1);
        measure_text(behind);
    }
}

/* A line of one thing over and over, as often as it fits; with as many parentheses that close it, or with none. */
static void measure_line(const char *begin, const char *opening, int closed) {
    size_t count = (LONGEST_LINE - strlen(begin) - (size_t)closed) / (strlen(opening) + (size_t)closed);
    strcpy(line, begin);
    append(opening, count);
    append("1", (size_t)closed);
    append(")", closed ? count : 0);
    measure_made();
}

/* A line that reads: NOT as often as it fits before an operand, where a formula stands. */
static void measure_chain(const char *begin, const char *end) {
    strcpy(line, begin);
    append("NOT ", (LONGEST_LINE - strlen(begin) - 1 - strlen(end)) / 4);
    append("1", 1);
    append(end, 1);
    measure_made();
}

/* A line that reads: the operators from the loosest to the tightest in each of the deepest parentheses, or the tighter ones alone where all
 * do not fit. */
static void measure_ladder(const char *begin, const char *end) {
    static const char all[] = "1IMP 1EQV 1XOR 1OR 1AND NOT 1=1+1MOD 1\\1*-(", tight[] = "1=1+1MOD 1\\1*-(";
    size_t spare = LONGEST_LINE - strlen(begin) - DEEPEST * strlen(tight) - 1 - DEEPEST - strlen(end);
    size_t whole = spare / (strlen(all) - strlen(tight));
    strcpy(line, begin);
    append(all, whole);
    append(tight, DEEPEST - whole);
    append("1", 1);
    append(")", DEEPEST);
    append(end, 1);
    measure_made();
}

static void measure_lines(void) {
    static const char *const begins[] = {"0?", "0 ", "0A$=", "0IF ", "0FORI=1TO 2STEP "};
    static const char *const openings[] = {"(",    "-(",   "NOT(",  "NOT ", "1+(",    "1*(",      "1=(",        "1 OR(",     "A$+(",
                                           "LEN(", "ABS(", "CHR$(", "VAL(", "LEFT$(", "MID$(A$,", "STRING$(1,", "INSTR(A$,", "IF 1 THEN ",
                                           ":",    "1+",   "1 IMP "};
    for (size_t i = 0; i < sizeof openings / sizeof *openings; i++)
        for (size_t j = 0; j < sizeof begins / sizeof *begins; j++) {
            measure_line(begins[j], openings[i], 0);
            measure_line(begins[j], openings[i], 1);
        }
}

static void measure_formulas(void) {
    static const char *const places[][2] = {{"0?", ""},         {"0A=", ""},        {"0IF ", "THEN 1"},
                                            {"0FORI=", "TO 1"}, {"0FORI=1TO ", ""}, {"0FORI=1TO 2STEP ", ""}};
    for (size_t i = 0; i < sizeof places / sizeof *places; i++) {
        measure_chain(places[i][0], places[i][1]);
        measure_ladder(places[i][0], places[i][1]);
    }
}

static void measure_cases(void) {
    Stored stored;
    while (next_stored(&stored)) {
        text = stored.text;
        text_len = stored.text_len;
        input = stored.input;
        input_len = stored.input_len;
        measure();
        let_go(&stored);
    }
}

int main(void) {
    int below = 1;
    input = (const uint8_t *)"LOT 41\n";
    input_len = 7;
    measure_lines();
    measure_formulas();
    measure_cases();
    for (size_t i = 0; i < sizeof calls / sizeof *calls; i++) {
        printf("%s: at most %zu bytes of stack, on %s..\n", calls[i].name, calls[i].most, calls[i].line);
        below &= calls[i].most < QUERNHEM_STACK;
    }
    if (!below) printf("that is not below QUERNHEM_STACK, %d\n", QUERNHEM_STACK);
    return !below;
}
