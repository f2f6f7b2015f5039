/*
 * Inputs for the tests of the C side, as hexadecimal text, time stamps as their four integers, and what document 01 and the requests 1
 * and 2 of document 02 say of them. Each number that they give is met once.
 */
#ifndef CASES_H
#define CASES_H

#include <kerbcanopy.h>

#include <stdbool.h>
#include <stdio.h>
#include <string.h>

enum { CASE_BYTES = 66000, CASE_STEPS = 2, CASE_ROOM = 64 };

/* One line for each thing tested, and whether all were as they should be. */
static bool all_ok = true;

static void report(bool good, const char *what, const char *which)
{
    printf("%s %s%s%s\n", good ? "ok" : "not ok", what, *which ? ": " : "", which);
    all_ok = all_ok && good;
}

/* Bytes given as text, and `times` times those of another text behind them. */
typedef struct { const char *front, *unit; size_t times; } text;

typedef struct { uint8_t bytes[CASE_BYTES]; size_t length; } buffer;

/*
 * A question about a value where there is no reader, about a record where there is one. The number, the input and the place are those of
 * the answer.
 */
typedef struct {
    const char *what;
    text first, reader, data;
    uint32_t path[CASE_STEPS];
    size_t path_len, room;
    uint32_t number, input, place;
} one_case;

#define NO_TEXT { "", "", 0 }
#define RIG "0014 0050 0002 0006 0002 0174 0008 0007 0269 6400"
#define RIG_DATA "0019 0000 0009"
#define READER "000E 0050 0001 0008 0007 0269 6400"
#define LAMP "0016 0050 0002 0008 0007 0269 6400 0008 0021 036C 6974"
#define LAMP_DATA "0000 0009 FF"
#define LIT "000E 0050 0001 0008 0021 036C 6974"
#define NINE_DEEP \
    "0034 0050 0001 002E 0050 0001 0028 0050 0001 0022 0050 0001 001C 0050 0001 0016 0050 0001 0010 0050 0001 000A 0050 0001 0004 0003"

static const one_case cases[] = {
    { "a value", { RIG, "", 0 }, NO_TEXT, { RIG_DATA, "", 0 }, { 1, 0 }, 1, 6, 0, 0, 0 },
    { "a record", { RIG, "", 0 }, { READER, "", 0 }, { RIG_DATA, "", 0 }, { 0, 0 }, 1, 6, 0, 0, 4 },
    { "a Boolean of FF", { LAMP, "", 0 }, NO_TEXT, { LAMP_DATA, "", 0 }, { 1, 0 }, 1, 6, 0, 0, 0 },
    { "a record with it", { LAMP, "", 0 }, { LIT, "", 0 }, { LAMP_DATA, "", 0 }, { 0, 0 }, 1, 6, 0, 0, 1 },
    { "the rig as its own reader", { RIG, "", 0 }, { RIG, "", 0 }, { RIG_DATA, "", 0 }, { 0, 0 }, 1, CASE_ROOM, 0, 0, 6 },
    { "descriptor over 4,096 bytes", { "", "00", 4097 }, NO_TEXT, NO_TEXT, { 0, 0 }, 0, 0, 1, 1, 0 },
    { "under 4 bytes left", { "0004 00", "", 0 }, NO_TEXT, NO_TEXT, { 0, 0 }, 0, 0, 2, 1, 0 },
    { "size word's high bit set", { "8004 0003", "", 0 }, NO_TEXT, NO_TEXT, { 0, 0 }, 0, 0, 3, 1, 0 },
    { "size odd", { "0005 0003 00", "", 0 }, NO_TEXT, NO_TEXT, { 0, 0 }, 0, 0, 4, 1, 0 },
    { "code not carried", { "000A 0050 0001 0004 0000", "", 0 }, NO_TEXT, NO_TEXT, { 0, 0 }, 0, 0, 5, 1, 9 },
    { "another subtype", { "0006 0054 0005", "", 0 }, NO_TEXT, NO_TEXT, { 0, 0 }, 0, 0, 5, 1, 3 },
    { "depth 9", { NINE_DEEP, "", 0 }, NO_TEXT, NO_TEXT, { 0, 0 }, 0, 0, 6, 1, 48 },
    { "row 257", { "0406 0050 0100", "0004 0005", 256 }, NO_TEXT, NO_TEXT, { 0, 0 }, 0, 0, 7, 1, 1026 },
    { "body longer than the size", { "0004 0030", "", 0 }, NO_TEXT, NO_TEXT, { 0, 0 }, 0, 0, 8, 1, 4 },
    { "the same before a member", { "000E 0050 0002 0004 0030 0004 0003", "", 0 }, NO_TEXT, NO_TEXT, { 0, 0 }, 0, 0, 8, 1, 10 },
    { "no members", { "0006 0050 0000", "", 0 }, NO_TEXT, NO_TEXT, { 0, 0 }, 0, 0, 9, 1, 4 },
    { "wrong length word", { "0008 0030 0000 0000", "", 0 }, NO_TEXT, NO_TEXT, { 0, 0 }, 0, 0, 10, 1, 4 },
    { "second base index over 8", { "000E 0019 0002 0008 0009 0009 0001", "", 0 }, NO_TEXT, NO_TEXT, { 0, 0 }, 0, 0, 10, 1, 10 },
    { "fill byte not zero", { "000A 0015 0001 0261 6201", "", 0 }, NO_TEXT, NO_TEXT, { 0, 0 }, 0, 0, 10, 1, 9 },
    { "array in array", { "0018 0040 0001 FFFF FFFF 000E 0040 0001 FFFF FFFF 0004 000A", "", 0 }, NO_TEXT, NO_TEXT, { 0, 0 }, 0, 0, 10, 1, 13 },
    { "a time stamp of a number", { "000A 0054 0006 0004 0003", "", 0 }, NO_TEXT, NO_TEXT, { 0, 0 }, 0, 0, 10, 1, 0 },
    { "no name", { "0006 0003 0261", "", 0 }, NO_TEXT, NO_TEXT, { 0, 0 }, 0, 0, 11, 1, 4 },
    { "no name after a member", { "000C 0050 0001 0004 0003 0261", "", 0 }, NO_TEXT, NO_TEXT, { 0, 0 }, 0, 0, 11, 1, 10 },
    { "bytes after the top", { "0004 0003 00", "", 0 }, NO_TEXT, NO_TEXT, { 0, 0 }, 0, 0, 12, 1, 4 },
    { "data over 65,536 bytes", { "0004 0005", "", 0 }, NO_TEXT, { "", "00", 65537 }, { 0, 0 }, 0, 0, 20, 3, 0 },
    { "data ends inside a piece", { RIG, "", 0 }, NO_TEXT, { "0019 00", "", 0 }, { 0, 0 }, 0, 6, 21, 3, 2 },
    { "a length of 2^31", { "0008 0030 FFFF FFFF", "", 0 }, NO_TEXT, { "8000 0000", "", 0 }, { 0, 0 }, 0, 0, 22, 3, 0 },
    { "enumeration too high", { "0008 0015 0001 0161", "", 0 }, NO_TEXT, { "01", "", 0 }, { 0, 0 }, 0, 0, 23, 3, 0 },
    { "bytes left over", { "0004 0005", "", 0 }, NO_TEXT, { "0000", "", 0 }, { 0, 0 }, 0, 0, 25, 3, 1 },
    { "step out of range", { RIG, "", 0 }, NO_TEXT, { RIG_DATA, "", 0 }, { 1, 7 }, 2, 6, 30, 4, 1 },
    { "no single number", { RIG, "", 0 }, NO_TEXT, { RIG_DATA, "", 0 }, { 0, 0 }, 0, 6, 31, 4, 0 },
    { "reader is no cluster", { RIG, "", 0 }, { "0004 0003", "", 0 }, { RIG_DATA, "", 0 }, { 0, 0 }, 0, 6, 40, 2, 0 },
    { "writer is no cluster", { "0004 0003", "", 0 }, { READER, "", 0 }, { "0000 0009", "", 0 }, { 0, 0 }, 0, 6, 41, 1, 0 },
    { "member missing", { RIG, "", 0 }, { "000E 0050 0001 0008 0007 026E 6F00", "", 0 }, { RIG_DATA, "", 0 }, { 0, 0 }, 0, 6, 42, 2, 0 },
    { "member doubled", { "0016 0050 0002", "0008 0007 0269 6400", 2 }, { READER, "", 0 }, { "", "0000 0009", 2 }, { 0, 0 }, 0, 6, 43, 2, 0 },
    { "another type", { RIG, "", 0 }, { "000E 0050 0001 0008 0003 0269 6400", "", 0 }, { RIG_DATA, "", 0 }, { 0, 0 }, 0, 6, 44, 2, 0 },
    { "no room", { RIG, "", 0 }, { READER, "", 0 }, { RIG_DATA, "", 0 }, { 0, 0 }, 0, 3, 50, 4, 4 },
};

enum { CASES = sizeof cases / sizeof cases[0] };

typedef struct { int32_t seconds_high, seconds_low; uint32_t fraction_high, fraction_low; } stamp;

/* Two time stamps, the number that their difference is answered with, and its seconds and fraction. */
typedef struct {
    const char *what;
    stamp first, second;
    uint32_t number;
    int64_t seconds;
    uint64_t fraction;
} stamp_case;

static const stamp_case stamp_cases[] = {
    { "the same stamp", { 0, 5, 0, 7 }, { 0, 5, 0, 7 }, 0, 0, 0 },
    { "a later one", { 1, 5, 2, 7 }, { 0, 3, 1, 2 }, 0, 0x100000002, 0x100000005 },
    { "an earlier one", { 0, 3, 0, 2 }, { 0, 5, 0, 2 }, 0, -2, 0 },
    { "a second borrowed", { 0, 1, 0, 0 }, { 0, 0, 0, 1 }, 0, 0, UINT64_MAX },
    { "a second borrowed below 0", { 0, 0, 0, 0 }, { 0, 0, 0x80000000, 0 }, 0, -1, 0x8000000000000000 },
    { "a low half by its bits", { 0, -1, 0, 0 }, { 0, INT32_MIN, 0, 0 }, 0, 0x7FFFFFFF, 0 },
    { "before 1904", { -1, -1, 0, 1 }, { 0, 0, 0, 0 }, 0, -1, 1 },
    { "the longest", { 0, 0, 0, 0 }, { INT32_MIN, 0, 0, 1 }, 0, INT64_MAX, UINT64_MAX },
    { "the longest below 0", { -1, -1, 0, 0 }, { INT32_MAX, -1, 0, 0 }, 0, INT64_MIN, 0 },
    { "one second too long", { 0, 0, 0, 5 }, { INT32_MIN, 0, 0, 5 }, 32, 0, 0 },
    { "one second too long below 0", { -1, -1, 0, 4 }, { INT32_MAX, -1, 0, 5 }, 32, 0, 0 },
};

enum { STAMP_CASES = sizeof stamp_cases / sizeof stamp_cases[0] };

static unsigned digit(char c)
{
    return (unsigned)(c <= '9' ? c - '0' : c - 'A' + 10);
}

/* Adds the bytes of a text of hexadecimal digits and spaces. */
static void add_hex(buffer *to, const char *hex)
{
    for (; *hex; hex++) {
        if (*hex == ' ') {
            continue;
        }
        to->bytes[to->length++] = (uint8_t)(digit(hex[0]) * 16 + digit(hex[1]));
        hex++;
    }
}

static void fill(buffer *to, text from)
{
    to->length = 0;
    add_hex(to, from.front);
    for (size_t i = 0; i < from.times; i++) {
        add_hex(to, from.unit);
    }
}

#endif
