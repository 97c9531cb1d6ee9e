/* Indexes of the text that is lent, damaged ones and others that no call made; and questions to them. */
#ifndef INDEXES_H
#define INDEXES_H

#include "lent.h"

enum { WORD = 2 };

static uint16_t *words_of(const Arena *a) { return (uint16_t *)(void *)a->lent; }

/* Random words are left where the text is refused. */
static void make_index(void) {
    lend_random(&lines, WORD * QUERNHEM_INDEX);
    uint64_t *v = lend_words(&verdict, QUERNHEM_VERDICT), number;
    keep_all();
    quernhem_index(text.lent, text.len, words_of(&lines), v);
    number = v[QUERNHEM_VERDICT_NUMBER];
    expect_guards();
    expect_kept(&text, 0);
    expect(v[QUERNHEM_FAULTY] == (number != 0) && !v[QUERNHEM_VERDICT_LINE], "no such verdict of an index");
    expect(!number || number == QUERNHEM_TOO_MANY_PAIRS || (number >= QUERNHEM_TEXT_TOO_LONG && number <= QUERNHEM_TOO_MANY_LINES),
           "no such refusal of an index");
    if (number) expect_kept(&lines, 0);
}

static void cut_index(size_t count) {
    static uint16_t kept[QUERNHEM_INDEX];
    memcpy(kept, lines.lent, sizeof kept);
    lend_bytes(&lines, kept, WORD * count);
}

/* What a run is handed: none, its own, its own with a word changed or cut short, or any words. */
static void lend_index(void) {
    size_t kind = below(5);
    if (kind == 0) lend(&lines, 0);
    if (kind == 1) lend_random(&lines, WORD * below(below(2) ? 4 : QUERNHEM_INDEX + 9));
    if (kind > 1) make_index();
    if (kind == 3) words_of(&lines)[below(QUERNHEM_INDEX)] ^= (uint16_t)(1 + below(65535));
    if (kind == 4) cut_index(below(2) ? QUERNHEM_INDEX - 1 : below(QUERNHEM_INDEX));
}

/* The words of an index are asked alone, whoever made them. */
static void ask_index(void) {
    uint16_t number = (uint16_t)(below(2) ? below(100) : next_random());
    lend_random(&callers, WORD * QUERNHEM_CALLERS);
    uint64_t *f = lend_words(&found, 2), *count = lend_words(&answer, 1);
    keep_all();
    quernhem_line(words_of(&lines), number, f);
    quernhem_callers(words_of(&lines), number, words_of(&callers), count);
    expect_guards();
    expect_kept(&lines, 0);
    expect(f[0] <= 1 && f[1] <= (f[0] ? 65535 : 0), "no such place of a line");
    expect(*count <= QUERNHEM_CALLERS, "more callers than there can be");
    expect_kept(&callers, WORD * (size_t)*count);
}

static void expect_indexed(void) {
    make_index();
    if (!below(3)) lend_random(&lines, WORD * QUERNHEM_INDEX);
    ask_index();
}

#endif
