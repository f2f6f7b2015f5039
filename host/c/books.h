/*
 * Questions about blank books for the tests of the C side, as hexadecimal text, and what request 4 of document 02 says of them. Each number
 * that it gives is met once.
 */
#ifndef BOOKS_H
#define BOOKS_H

#include "cases.h"

typedef enum { STORE_CHECK, STORE_ADD, STORE_FIND, STORE_LIST } asked_for;

/*
 * A book and a question about it. The number, the input and the place are those of the answer, start and length those of what is found.
 */
typedef struct {
    const char *what;
    asked_for asks;
    text book, descriptor, data;
    uint32_t identifier;
    size_t places;
    uint32_t number, input, place;
    size_t start, length;
} book_case;

enum { BOOK_PLACES = 4 };

#define SHAPE "0010 0050 0001 000A 0007 0562 6C61 6E6B"
#define ENTRY_9 "0000 0009 0000 0024 0000 0010 0000 0004"
#define ENTRY_14 "0000 000E 0000 0038 0000 0010 0000 0004"
#define UNUSED "0000 0000 0000 0000 0000 0000 0000 0000"
/* Two entries; blank 9 is in use, and in a full book blank 14 too. */
#define ONE "0002 0001" ENTRY_9 UNUSED SHAPE "0000 0009"
#define FULL "0002 0002" ENTRY_9 ENTRY_14 SHAPE "0000 0009" SHAPE "0000 000E"
#define NEW { SHAPE, "", 0 }, { "0000 000A", "", 0 }
#define NO_RECORD NO_TEXT, NO_TEXT

static const book_case book_cases[] = {
    { "a book", STORE_CHECK, { ONE, "A5", 7 }, NO_RECORD, 0, 0, 0, 0, 0, 0, 0 },
    { "a full one", STORE_CHECK, { FULL, "", 0 }, NO_RECORD, 0, 0, 0, 0, 0, 0, 0 },
    { "no entry", STORE_CHECK, { "0000 0000", "", 0 }, NO_RECORD, 0, 0, 0, 0, 0, 0, 0 },
    { "under 4 bytes", STORE_CHECK, { "0000 00", "", 0 }, NO_RECORD, 0, 0, 63, 4, 0, 0, 0 },
    { "over 65,536 bytes", STORE_CHECK, { "", "00", 65537 }, NO_RECORD, 0, 0, 63, 4, 0, 0, 0 },
    { "65,536 bytes", STORE_CHECK, { "", "00", 65536 }, NO_RECORD, 0, 0, 0, 0, 0, 0, 0 },
    { "contents that don't fit", STORE_CHECK, { "0003 0000" UNUSED UNUSED, "00", 15 }, NO_RECORD, 0, 0, 63, 4, 3, 0, 0 },
    { "a count over the capacity", STORE_CHECK, { "0001 0002" UNUSED, "", 0 }, NO_RECORD, 0, 0, 63, 4, 1, 0, 0 },
    { "an entry of another identifier", STORE_CHECK, { "0001 0001 0000 0008 0000 0014 0000 0010 0000 0004" SHAPE "0000 0009", "", 0 },
      NO_RECORD, 0, 0, 63, 4, 0, 0, 0 },
    { "an identifier twice", STORE_CHECK,
      { "0002 0002" ENTRY_9 "0000 0009 0000 0038 0000 0010 0000 0004" SHAPE "0000 0009" SHAPE "0000 0009", "", 0 },
      NO_RECORD, 0, 0, 63, 4, 1, 0, 0 },
    { "an unused entry not zero", STORE_CHECK, { "0002 0000" UNUSED "0000 0000 0000 0000 0000 0000 0000 0001", "", 0 },
      NO_RECORD, 0, 0, 63, 4, 1, 0, 0 },
    { "a record", STORE_ADD, { ONE, "A5", 20 }, NEW, 0, 0, 0, 0, 0, 0, 0 },
    { "a record and bytes free", STORE_ADD, { ONE, "A5", 27 }, NEW, 0, 0, 0, 0, 0, 0, 0 },
    { "to no book", STORE_ADD, { "0001 0000", "", 0 }, NO_RECORD, 0, 0, 63, 4, 1, 0, 0 },
    { "no descriptor", STORE_ADD, { FULL, "", 0 }, NO_RECORD, 0, 0, 2, 1, 0, 0, 0 },
    { "cut data", STORE_ADD, { FULL, "", 0 }, { SHAPE, "", 0 }, { "0000 00", "", 0 }, 0, 0, 21, 3, 0, 0, 0 },
    { "no cluster", STORE_ADD, { FULL, "", 0 }, { "0004 0007", "", 0 }, { "0000 000A", "", 0 }, 0, 0, 41, 1, 0, 0, 0 },
    { "no blank", STORE_ADD, { FULL, "", 0 }, { RIG, "", 0 }, { RIG_DATA, "", 0 }, 0, 0, 42, 2, 0, 0, 0 },
    { "two blanks", STORE_ADD, { FULL, "", 0 }, { "001A 0050 0002", "000A 0007 0562 6C61 6E6B", 2 }, { "", "0000 000A", 2 },
      0, 0, 43, 2, 0, 0, 0 },
    { "a signed blank", STORE_ADD, { FULL, "", 0 }, { "0010 0050 0001 000A 0003 0562 6C61 6E6B", "", 0 }, { "0000 000A", "", 0 },
      0, 0, 44, 2, 0, 0, 0 },
    { "an identifier that is there", STORE_ADD, { FULL, "", 0 }, { SHAPE, "", 0 }, { "0000 000E", "", 0 }, 0, 0, 60, 4, 1, 0, 0 },
    { "no entry free", STORE_ADD, { FULL, "A5", 20 }, NEW, 0, 0, 61, 4, 0, 0, 0 },
    { "no room for the body", STORE_ADD, { ONE, "A5", 19 }, NEW, 0, 0, 62, 4, 20, 0, 0 },
    { "the first blank", STORE_FIND, { FULL, "", 0 }, NO_RECORD, 9, 0, 0, 0, 0, 36, 20 },
    { "the last blank", STORE_FIND, { FULL, "A5", 3 }, NO_RECORD, 14, 0, 0, 0, 0, 56, 20 },
    { "no such blank", STORE_FIND, { ONE, "", 0 }, NO_RECORD, 0, 0, 64, 4, 0, 0, 0 },
    { "in no book", STORE_FIND, { "0002 0001" ENTRY_9 ENTRY_14 SHAPE "0000 0009", "", 0 }, NO_RECORD, 9, 0, 63, 4, 1, 0, 0 },
    { "two blanks", STORE_LIST, { FULL, "", 0 }, NO_RECORD, 0, 2, 0, 0, 2, 0, 0 },
    { "two blanks in four places", STORE_LIST, { FULL, "", 0 }, NO_RECORD, 0, BOOK_PLACES, 0, 0, 2, 0, 0 },
    { "no blanks in no places", STORE_LIST, { "0000 0000 A5", "", 0 }, NO_RECORD, 0, 0, 0, 0, 0, 0, 0 },
    { "too few places", STORE_LIST, { FULL, "", 0 }, NO_RECORD, 0, 1, 50, 4, 2, 0, 0 },
    { "of no book", STORE_LIST, { "0002 0002" ENTRY_9 ENTRY_14, "", 0 }, NO_RECORD, 0, 1, 63, 4, 0, 0, 0 },
};

enum { BOOK_CASES = sizeof book_cases / sizeof book_cases[0] };

#endif
