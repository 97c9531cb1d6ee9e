/* A recipe that comes in random parts, and receipts that no call wrote. */
#ifndef PARTS_H
#define PARTS_H

#include "lent.h"

enum { MOST_PARTS = 8 };

static uint64_t *receipt_words, *told;
static uint8_t before[PAGES * PAGE];

static int is_told(uint64_t number, uint64_t place) {
    return told[QUERNHEM_FAULTY] == (number != 0) && told[QUERNHEM_VERDICT_NUMBER] == number && !told[QUERNHEM_VERDICT_LINE] &&
           told[QUERNHEM_VERDICT_PLACE] == place;
}

static void begin_receiving(size_t buffer_len) {
    lend_random(&buffer, buffer_len);
    memcpy(before, buffer.lent, buffer_len);
    lend_random(&receipt, 8 * QUERNHEM_RECEIPT);
    receipt_words = (uint64_t *)(void *)receipt.lent;
    told = lend_words(&verdict, QUERNHEM_VERDICT);
    keep_all();
    quernhem_begin(buffer.lent, buffer.len, receipt_words, told);
    expect_guards();
    expect_kept(&buffer, 0);
    expect(is_told(buffer_len < QUERNHEM_TEXT ? QUERNHEM_NO_ROOM : 0, 0), "a buffer is begun otherwise");
}

/* The text from a byte to another. */
static void take_part(size_t from, size_t to) {
    lend_bytes(&part, text.lent + from, to - from);
    keep_all();
    quernhem_take(buffer.lent, buffer.len, receipt_words, part.lent, part.len);
    expect_guards();
    expect_kept(&part, 0);
}

/* The whole text, in parts of any length. */
static void take_parts(void) {
    size_t at = 0;
    for (size_t parts = below(MOST_PARTS); parts; parts--) {
        size_t next = at + below(below(2) ? text.len - at + 1 : (text.len - at < 3 ? text.len - at : 3) + 1);
        take_part(at, next);
        at = next;
    }
    take_part(at, text.len);
}

static void finish_receiving(void) {
    keep_all();
    quernhem_finish(buffer.lent, buffer.len, receipt_words, told);
    expect_guards();
    expect_kept(&receipt, 0);
}

/* What the check says of loading the whole is told, and the buffer is the text and zeros, or zeros alone. */
static void expect_loaded(void) {
    uint64_t checked[QUERNHEM_VERDICT];
    quernhem_check(text.lent, text.len, checked);
    int refused = checked[QUERNHEM_FAULTY] && checked[QUERNHEM_VERDICT_NUMBER] >= QUERNHEM_TEXT_TOO_LONG;
    expect(is_told(refused ? checked[QUERNHEM_VERDICT_NUMBER] : 0, refused ? checked[QUERNHEM_VERDICT_PLACE] : 0),
           "a text in parts loads otherwise than the whole");
    expect(refused || !memcmp(buffer.lent, text.lent, text.len), "the buffer does not hold the text");
    expect_zeros(&buffer, refused ? 0 : text.len, buffer.len, "it is not zero after the text");
}

static void expect_untouched(void) {
    expect(is_told(QUERNHEM_NO_ROOM, 0), "a short buffer is not refused at the end");
    expect(!memcmp(before, buffer.lent, buffer.len), "a short buffer is touched");
}

/* Words that no call wrote: some hold a count, near the largest there is or near what a text may have. */
static void make_receipt(void) {
    receipt_words[0] = below(3) ? 0 : next_random();
    receipt_words[1] = below(2) ? next_random() : below(2) ? QUERNHEM_TEXT - 2 + below(5) : below(text.len + 1);
    if (!below(4)) receipt_words[1] = UINT64_MAX - below(3);
}

static void expect_received(size_t buffer_len) {
    int strange = !below(4);
    begin_receiving(buffer_len);
    if (strange) make_receipt();
    take_parts();
    finish_receiving();
    if (buffer_len < QUERNHEM_TEXT)
        expect_untouched();
    else if (!strange)
        expect_loaded();
    else
        expect(told[QUERNHEM_VERDICT_NUMBER] <= QUERNHEM_TOO_MANY_LINES, "no such refusal of a receipt");
}

#endif
