/* Quernhem: runs and checks bath recipes over memory that the host lends.
 *
 * Link target/staticlib/libhost.a (`hosts/build` writes it), for x86-64 Linux. It needs no library but the C library, keeps nothing between
 * calls, and asks the system for nothing: no memory, no files, no clock.
 *
 * What holds of every call:
 * - No pointer is null, also where its length is 0. What is lent for writing overlaps nothing else that is lent in the call.
 * - Any bytes and any lengths will do. Every call returns, within its budget of steps, and reads and writes only what is lent to it.
 * - Numbers in an answer are unsigned 64-bit words; what does not apply is 0.
 * - A call uses less than QUERNHEM_STACK bytes of stack, whatever the line (measured, not proved).
 * - Threads may call at the same time, as long as what one lends for writing is lent to no other.
 *
 * docs/HOST.md tells more, and hosts/c/worked.c is a host to begin with.
 */
#ifndef QUERNHEM_H
#define QUERNHEM_H

#include <stddef.h>
#include <stdint.h>

#ifdef __cplusplus
extern "C" {
#endif

/* How many bytes of stack to keep for a call. */
#define QUERNHEM_STACK 65536

/* The largest string space and text, and the most records: more are refused. */
#define QUERNHEM_SPACE 16384
#define QUERNHEM_TEXT 16384
#define QUERNHEM_RECORDS 256

/* ---- Running a recipe ------------------------------------------------------------------------------------------------------------ */

/* The variable tables: a block of so many bytes that the host keeps between a run and its questions, and where each part of it begins.
 * Zeros at first: no variables. A run leaves its variables in order of first assignment, and zeros after them. */
#define QUERNHEM_TABLES 5314
#define QUERNHEM_VARIABLES 64 /* of each kind, at most */
#define QUERNHEM_NAME 40      /* bytes of a name in the tables: its characters in capitals, without `$` or `%`, and zeros after them */
enum {
    QUERNHEM_NUMBER_NAMES = 0,    /* QUERNHEM_NAME bytes each */
    QUERNHEM_WORDS = 2560,        /* two bytes each, the low one first: 16 bits of two's complement */
    QUERNHEM_STRING_NAMES = 2688, /* QUERNHEM_NAME bytes each */
    QUERNHEM_LENGTHS = 5248,      /* a byte each: the strings' bytes stand joined at the front of the space */
    QUERNHEM_NUMBER_COUNT = 5312, /* how many number variables there are */
    QUERNHEM_STRING_COUNT = 5313  /* and how many string variables */
};

/* A record: what a FOR, a GOSUB or a WHILE leaves until it is done with. The host lends an array of them, aligned as C aligns it, and need not
 * look into it. Numbers alone, with no byte between them: 48 bytes on x86-64. */
typedef struct {
    uint8_t kind, over;
    uint16_t limit, step, spare;
    size_t slot, line, at, ending, close;
} quernhem_record;

/* The answer of a run: so many words, and which is which. */
#define QUERNHEM_ANSWER 7
enum {
    QUERNHEM_OUTCOME,
    QUERNHEM_NUMBER,  /* of an error or a refusal */
    QUERNHEM_LINE,    /* where it stopped, ran out of steps or failed */
    QUERNHEM_PLACE,   /* of a refusal: a byte of the text, counted from 0 */
    QUERNHEM_STEPS,   /* statements begun */
    QUERNHEM_WRITTEN, /* bytes of the room written */
    QUERNHEM_TAKEN    /* bytes of the input taken */
};

/* The outcomes. */
enum {
    QUERNHEM_ENDED,
    QUERNHEM_STOPPED, /* STOP, with its line */
    QUERNHEM_OUT,     /* out of steps, at the line of the statement that was not begun */
    QUERNHEM_ERROR,   /* an error, with its number and line */
    QUERNHEM_REFUSED  /* nothing was done, and nothing is changed but the answer; number and place */
};

/* Runs a recipe on an input, for at most `budget` statements.
 *
 * Read: text, input, index. Changed: space, room, records, tables and answer. Whatever they held before the run does not matter to it.
 * - answer: always, all seven words.
 * - space: the string space. After a run that was not refused it holds the string variables' bytes, joined in order of first assignment,
 *   and zeros after them.
 * - room: for the output. Its first answer[QUERNHEM_WRITTEN] bytes are the output, and the others are as they were.
 * - tables: after a run that was not refused, the variables of this run.
 * - records: for FOR, GOSUB and WHILE, 0 to QUERNHEM_RECORDS of them. Where all are taken, one more is error 7. After a run that was not refused
 *   all are zeros, to the last byte. Over QUERNHEM_RECORDS is refused (107), after 106 and before 100.
 * - index: QUERNHEM_INDEX words of quernhem_index, or none: length 0. The run tests whether they are the index of this text, and goes by
 *   their lines then; whatever they hold and however many there are, it answers the same.
 * A refused run leaves space, room, records and tables as they were, to the last byte. */
void quernhem_run(const uint8_t *text, size_t text_len, const uint8_t *input, size_t input_len,
                  uint8_t *space, size_t space_len, uint8_t *room, size_t room_len,
                  const uint16_t *index, size_t index_len, quernhem_record *records, size_t records_len,
                  uint32_t budget, uint8_t *tables, uint64_t *answer);

/* ---- Checking a recipe ----------------------------------------------------------------------------------------------------------- */

/* The verdict: so many words, and which is which. */
#define QUERNHEM_VERDICT 4
enum {
    QUERNHEM_FAULTY,         /* 0: passed; 1: refused */
    QUERNHEM_VERDICT_NUMBER, /* 100 to 105, or the error 2, 16, 13 or 8; of an index 109; of a buffer to receive in 110 */
    QUERNHEM_VERDICT_LINE,   /* of an error */
    QUERNHEM_VERDICT_PLACE   /* of 100 to 105 */
};

/* Checks a recipe before it ever runs. Read: text. Changed: verdict, all four words. */
void quernhem_check(const uint8_t *text, size_t text_len, uint64_t *verdict);

/* ---- Who names a line ------------------------------------------------------------------------------------------------------------- */

/* The index beside a text: so many words. It tells where each line starts, and which lines name a line after GOTO, GOSUB, THEN, ELSE or
 * RESTORE, each once. */
#define QUERNHEM_INDEX 5122

/* The most lines that name a line: no text has more lines. */
#define QUERNHEM_CALLERS 512

/* Makes the index of a text. Read: text. Changed: verdict, all four words (0; or 1, number, 0, place), and index where it is 0. A text that
 * does not load is refused as in loading; one with more than 1,024 pairs of named and naming line with 109, place 0. */
void quernhem_index(const uint8_t *text, size_t text_len, uint16_t *index, uint64_t *verdict);

/* Where a line starts, by the index alone. Changed: found: 0 and 0 where it is missing, or 1 and the place of its first byte. Any words are
 * answered, as the lines of a text would be: the first of those with the number. */
void quernhem_line(const uint16_t *index, uint16_t number, uint64_t *found);

/* Which lines name a line, by the index alone. Changed: count, and so many words at the front of callers: their numbers, rising. A line that
 * does not exist can have some. Any words are answered; of those that no call made too, at most QUERNHEM_CALLERS are told. */
void quernhem_callers(const uint16_t *index, uint16_t number, uint16_t *callers, uint64_t *count);

/* ---- Receiving a recipe over a serial line --------------------------------------------------------------------------------------- */

#define QUERNHEM_RECEIPT 2 /* words that the host keeps between the calls; any words are safe */

/* A text that comes in parts, cut at any byte: begin once, take each part as it comes, and finish once. However it was cut, the verdict at
 * the end and the bytes held are those of loading the whole text.
 *
 * Lend the same buffer to each of these calls, of QUERNHEM_TEXT bytes or more, and change neither it nor the receipt between them. A
 * shorter one is refused at once with 110 and never written to, whatever is handed on after that; the end then answers 110 again.
 * verdict: as of quernhem_check: 0 or 1, number, line (0), place */

/* Begins. Read: the buffer's length. Changed: receipt and verdict, all words. 0: the buffer is ready; 1: it is refused. */
void quernhem_begin(const uint8_t *buffer, size_t buffer_len, uint64_t *receipt, uint64_t *verdict);

/* Takes a part. Read: receipt, part. Changed: receipt, and the bytes of the buffer in which the part then stands. It takes time for the
 * part alone. Where all parts have more than QUERNHEM_TEXT bytes nothing more is written, and the end answers 100, whatever the lines are. */
void quernhem_take(uint8_t *buffer, size_t buffer_len, uint64_t *receipt, const uint8_t *part, size_t part_len);

/* Ends. Read: receipt, buffer. Changed: buffer, and verdict, all words. After 0 the buffer holds the text, as long as all parts together,
 * and zeros behind it; after any refusal but 110 the whole buffer is zeros. */
void quernhem_finish(uint8_t *buffer, size_t buffer_len, const uint64_t *receipt, uint64_t *verdict);

/* ---- Asking for a variable ------------------------------------------------------------------------------------------------------- */

/* What is found: so many words, and which is which. */
#define QUERNHEM_FOUND 5
enum {
    QUERNHEM_FOUND_NUMBER, /* 0, or 111: not a name, or the space ends before the variable's bytes */
    QUERNHEM_KIND,         /* 0: a whole number; 1: a text */
    QUERNHEM_VALUE,        /* of a whole number, in 64 bits of two's complement: cast it to int64_t */
    QUERNHEM_START,        /* of a text: where its bytes begin in the space */
    QUERNHEM_LENGTH        /* and how many there are, 0 to 255 */
};

/* Asks for one variable after a run: `LOT`, `LOT$` or `LOT%`, in capitals or small letters, with no blank. An unset one is 0 or empty.
 *
 * Read: tables, space and name, as the run left them. Changed: found, all five words.
 * Any bytes will do for tables. Of a block that no run made the first of its 64 entries with the name is answered, whatever the counts
 * say; a string begins after those of the entries before it, and is 111 where it ends past the space. */
void quernhem_ask(const uint8_t *tables, const uint8_t *space, size_t space_len,
                  const uint8_t *name, size_t name_len, uint64_t *found);

/* ---- Numbers ---------------------------------------------------------------------------------------------------------------------- */

/* Errors that end a run (and 2, 8, 13 and 16 of a check). */
enum {
    QUERNHEM_NEXT_WITHOUT_FOR = 1,
    QUERNHEM_SYNTAX = 2,
    QUERNHEM_RETURN_WITHOUT_GOSUB = 3,
    QUERNHEM_OUT_OF_DATA = 4,
    QUERNHEM_ILLEGAL_FUNCTION_CALL = 5,
    QUERNHEM_OVERFLOW = 6,
    QUERNHEM_OUT_OF_MEMORY = 7,
    QUERNHEM_UNDEFINED_LINE = 8,
    QUERNHEM_DIVISION_BY_ZERO = 11,
    QUERNHEM_TYPE_MISMATCH = 13,
    QUERNHEM_OUT_OF_STRING_SPACE = 14,
    QUERNHEM_STRING_TOO_LONG = 15,
    QUERNHEM_FORMULA_TOO_COMPLEX = 16,
    QUERNHEM_LINE_BUFFER_OVERFLOW = 23,
    QUERNHEM_FOR_WITHOUT_NEXT = 26,
    QUERNHEM_WHILE_WITHOUT_WEND = 29,
    QUERNHEM_WEND_WITHOUT_WHILE = 30,
    QUERNHEM_INPUT_PAST_END = 62,
    QUERNHEM_OUTPUT_FULL = 110
};

/* Refusals. */
enum {
    QUERNHEM_TEXT_TOO_LONG = 100,
    QUERNHEM_BAD_NUMBER = 101,
    QUERNHEM_NOT_RISING = 102,
    QUERNHEM_LINE_TOO_LONG = 103,
    QUERNHEM_FOREIGN_BYTE = 104,
    QUERNHEM_TOO_MANY_LINES = 105,
    QUERNHEM_SPACE_TOO_LONG = 106, /* of a run */
    QUERNHEM_STACK_TOO_LONG = 107, /* of a run */
    QUERNHEM_TOO_MANY_PAIRS = 109, /* of an index */
    QUERNHEM_NO_ROOM = 110,        /* of a buffer to receive in */
    QUERNHEM_NO_VARIABLE = 111     /* of a question */
};

#ifdef __cplusplus
}
#endif

#endif
