/* Recipes and inputs, random and damaged. */
#ifndef RECIPES_H
#define RECIPES_H

#include "lent.h"

enum { MOST_CASES = 4096 };

static Stored cases[MOST_CASES];
static size_t case_count;

static void read_cases(void) {
    while (case_count < MOST_CASES && next_stored(&cases[case_count])) case_count++;
}

static const char *const words[] = {
    "LET ", "PRINT ", "?", "IF ", " THEN ", " ELSE ", "GOTO ", "GOSUB ", "RETURN", "FOR ", " TO ", " STEP ", "NEXT ", "WHILE ", "WEND",
    "DATA ", "READ ", "RESTORE", "LINE INPUT ",
    "END", "STOP", "REM x", "'x", ":", ",", ";", "=", "<>", "<", ">=", "+", "-", "*", "\\", " MOD ", " NOT ", " AND ", " OR ", " XOR ",
    " EQV ", " IMP ", "(", ")", "(", ")", "LEN(", "ASC(", "CHR$(", "LEFT$(", "MID$(", "RIGHT$(", "SPACE$(", "STRING$(", "INSTR(", "STR$(",
    "HEX$(", "VAL(", "ABS(", "SGN(", "FRE(", "A", "B%", "TOP", "A$", "LOT$", "XY$", "RINSE", "RIVET", "RIVET$", "I", "I=",
    "A234567890B234567890C234567890D234567890", "A234567890B234567890C234567890D2345678901$", "A$=", "0", "1", "2", "10", "20", "255",
    "32767", "32768", "&H8000", "&HF", "65529", "\"\"", "\"AB\"", "\"LOT 41\"", " ", "\"", "#", "\n", "\r\n",
};

static const char *const statements[] = {
    "A=A+1", "B%=A*3\\2", "C=-A MOD 7", "A$=A$+\"AB\"", "LOT$=STR$(A)+HEX$(B)", "A$=LEFT$(A$,A)", "B$=MID$(A$,2,B)", "X$=CHR$(A+64)",
    "C$=STRING$(A*20,\"*\")", "D=INSTR(A$,\"B\")", "RINSE=RIVET+1", "RIVET$=LOT$", "A234567890B234567890C234567890D234567890=A",
    "E=VAL(B$)+LEN(A$)", "F=FRE(0)", "PRINT A,B$;", "PRINT \"LOT \";LOT$;A", "?A$,,C;",
    "FOR I=1 TO 4", "FOR J=A TO 1 STEP -2", "NEXT", "NEXT I", "NEXT J", "WHILE A<5", "WHILE B%", "WEND", "GOSUB 40", "RETURN", "GOTO 20",
    "GOTO 30:REM x",
    "IF A>3 THEN 50 ELSE PRINT \"N\"", "IF A$<B$ THEN A$=B$:B=B+1", "IF NOT A AND 1 THEN END", "LINE INPUT A$", "LINE INPUT \"LOT? \";B$",
    "END", "STOP", "", "'x", "DATA 1,AB ,\"C\",-3", "DATA", "READ A", "READ A$,B", "RESTORE", "RESTORE 30",
};

#define ANY(list) list[below(sizeof list / sizeof *list)]

/* Room for a text that is longer than a text may be. */
static uint8_t made[PAGES * PAGE];
static size_t made_len;

static void put(const char *word) {
    size_t len = strlen(word);
    if (made_len + len > sizeof made) return;
    memcpy(made + made_len, word, len);
    made_len += len;
}

static void put_number(size_t number) {
    char digits[24];
    snprintf(digits, sizeof digits, "%zu ", number);
    put(digits);
}

/* Words that may stand anywhere. */
static void make_words(void) {
    size_t number = 0;
    for (size_t lines = below(12); lines; lines--) {
        put_number(number += below(20));
        for (size_t n = below(14); n; n--) put(ANY(words));
        put("\n");
    }
}

/* Statements that read, in lines numbered by tens, so that jumps find them. */
static void make_statements(void) {
    for (size_t line = 10, last = 10 * (1 + below(9)); line <= last; line += 10) {
        put_number(line);
        for (size_t n = below(3); n; n--) {
            put(ANY(statements));
            put(":");
        }
        put(ANY(statements));
        put("\n");
    }
}

/* A line of one thing over and over, as long as a line may be and longer. */
static void make_long(void) {
    const char *word = ANY(words);
    size_t len = 200 + below(70);
    put(below(2) ? "10 " : "0?");
    while (made_len < len) put(word);
}

/* Any bytes; or plain ones, and a line's beginning now and then. */
static void make_bytes(void) {
    int plain = below(2) != 0;
    made_len = below(below(8) ? 200 : sizeof made + 1);
    for (size_t i = 0; i < made_len; i++) made[i] = (uint8_t)(plain ? 32 + below(95) : next_random());
    for (size_t i = 0; plain && i + 4 < made_len; i += 10 + below(40)) memcpy(made + i, below(2) ? "\n10 " : "\n99 ", 4);
}

/* Takes bytes out, or says them twice. */
static void shift(size_t at, size_t len, int out) {
    if (out) {
        memmove(made + at, made + at + len, made_len - at - len);
        made_len -= len;
    } else if (made_len + len <= sizeof made) {
        memmove(made + at + len, made + at, made_len - at);
        made_len += len;
    }
}

/* A stored recipe with some bytes changed, taken out, said twice or cut off. */
static void make_damaged(void) {
    const Stored *stored = &cases[below(case_count)];
    made_len = stored->text_len;
    memcpy(made, stored->text, made_len);
    for (size_t n = below(4); n && made_len; n--) {
        size_t at = below(made_len), left = made_len - at, way = below(8);
        if (way == 0)
            made_len = at;
        else if (way < 5)
            made[at] = (uint8_t)(below(4) ? 32 + below(95) : next_random());
        else
            shift(at, 1 + below(left < 8 ? left : 8), way < 7);
    }
}

static void lend_recipe(void) {
    static void (*const ways[])(void) = {make_words, make_long, make_bytes, make_statements, make_statements, make_statements, make_damaged};
    size_t way = below(case_count ? 12 : 6);
    made_len = 0;
    ways[way < 6 ? way : 6]();
    lend_bytes(&text, made, made_len);
}

static void lend_input(void) {
    if (case_count && below(2)) {
        const Stored *stored = &cases[below(case_count)];
        lend_bytes(&input, stored->input, stored->input_len);
        return;
    }
    lend_random(&input, below(600));
    for (size_t i = 0; i < input.len; i += 1 + below(300)) input.lent[i] = 10;
}

#endif
