/*
 * Kerbcanopy: reads LabVIEW type descriptors and flattened data, hands a record over in a reader's shape, and keeps a run of blanks in a
 * book. Any bytes may come.
 *
 * Every function takes bytes, a path's steps or places for identifiers, as a pointer and a length, and asks of the caller only what C can't
 * show: that as many of them can be read, or in an output written, as the length says, that the steps, the identifiers, and numbers lent
 * for an answer, are aligned, that nothing else changes them during the call, and that an output overlaps no input and no other output; a
 * book that a record is added to is an output, so the record stands outside of it. Where the length is 0 the pointer may be NULL: nothing
 * is read or written through it. The difference of two time stamps takes numbers alone, and any will do; the version takes nothing. Nothing
 * is kept between calls, and nothing is allocated.
 *
 * A version is three numbers. Before 1.0 the second goes up with any change of a struct's layout, of a number, of a place or of what an
 * entry means, and the third with what only adds. So a program works with every library whose first two numbers are those of the header
 * that it was built with and whose third is no lower. The shared library's name carries the first two, so that the loader takes no other;
 * what it took, kc_version() says, and KC_VERSION_NUMBER is what the program was built with.
 *
 * Every answer has a number, the input at fault and a place.
 *
 *   input   0 accepted, 1 the first or the writer's descriptor, 2 the second or the reader's, 3 the data, 4 the request
 *
 *   number  given when                                                      place
 *        0  accepted                                                        see the function
 *        1  descriptor over 4,096 bytes                                     0
 *        2  under 4 bytes left before the parent's end                      start
 *        3  size word's high bit set                                        start
 *        4  size odd, under 4, or past the parent's end                     start
 *        5  code not carried, or a time stamp's subtype not 6               low code byte
 *        6  depth 9, the top being depth 1                                  start
 *        7  row 257                                                         start
 *        8  body longer than the size allows                                end
 *        9  a count outside its limits: 1 to 4 dimensions, 1 to 9 unit      count word
 *           pairs, at least 1 enumeration item or cluster member
 *       10  wrong length or dimension word, or base index over 8;           first wrong word
 *           enumeration fill byte not zero;                                 that byte
 *           array in array;                                                 inner low code byte
 *           anything but its cluster in a time stamp                        start of the time stamp
 *       11  what is left is no name                                         first byte left
 *       12  bytes after the top descriptor                                  its size
 *       20  data over 65,536 bytes                                          0
 *       21  data ends inside a piece                                        piece start
 *       22  a length or size of 2^31 or more                                piece start
 *       23  enumeration's number not below its item count                   piece start
 *       25  bytes left over                                                 first of them
 *       30  step out of range, or on a type without parts (input 4)         step number, from 0
 *       31  no single number there: a string, array, cluster, time stamp,   0
 *           extended or complex number (input 4)
 *       32  64 signed bits don't hold a difference's seconds (input 4)      0
 *       40  the reader is no cluster, or a member's name is missing,        reader's member, or 0
 *           empty or an earlier member's (input 2)
 *       41  the writer is no cluster (input 1)                              0
 *       42  the writer has no member of this name (input 2)                 reader's member
 *       43  the writer has several members of this name (input 2)           reader's member
 *       44  the writer's member of this name is of another type (input 2)   reader's member
 *       50  output too small (input 4)                                      length or count needed
 *       60  the book has a record of this identifier already (input 4)      its entry
 *       61  no entry of the book is free (input 4)                          0
 *       62  no room for the record in the book (input 4)                    its body's length
 *       63  no well-formed book: under 4 or over 65,536 bytes;              0
 *           contents too long for it, or a count over the capacity;         the capacity
 *           a bad entry (input 4)                                           the first of them
 *       64  the book has no record of this identifier (input 4)             0
 *
 * "Start" is the first byte of the descriptor at fault, counted from the first byte lent; its "low code byte" is the fourth from there, for
 * another subtype of a time stamp too; its "end" is its start and its size together: the first byte after it, or the number of lent bytes.
 * A word's place is its first byte. What is left, 11, starts after the body and the descriptors in it. For the top descriptor the parent's
 * end is the end of the lent bytes. Where several numbers fit, the answer is the first: 1; then at each descriptor, parent before child, 2
 * to 7 and array in array, then its body (count word missing 8, count 9, the rest missing 8, contents 10; an enumeration in byte order, 8
 * at the first string that runs over; a time stamp's subtype missing 8, another one 5), then the descriptors in it, then what else a time
 * stamp holds, 10, then 11; last 12.
 *
 * A piece of the data is one scalar, one whole string with its length word, or the size words of one array. "Piece start" is its first
 * byte, counted from the first byte of the data. A descriptor is judged to its end before its data: 20; then piece by piece 21, 22, 23
 * (all size words of an array, or the length word of a string, are there, 21, before 22 is judged; a string's characters are looked for
 * after that, 21); last 25. Then comes the path, 30, and what it leads to, 31; or the reader's members, 40 over all of them, 41, then 42,
 * 43, 44 member by member; and after all of them 50. "Reader's member" is its number in the reader's cluster, from 0.
 *
 * A blank book is one buffer for a run of blanks, big-endian. It starts with its contents: a 16-bit capacity, the 16-bit count of entries in
 * use, and as many entries as the capacity says, of 16 bytes each: identifier, first byte of the body counted from that of the book,
 * length of the descriptor, length of the data, 32 bits each. Entries are numbered from 0; those in use come first, and unused ones are
 * zero. The bodies follow the contents in the order of their entries, with nothing between them. A body is a descriptor and its data, both
 * accepted, and its identifier is what kc_read_record gives of it for the reader 0010 0050 0001 000A 0007 0562 6C61 6E6B: the one member
 * "blank" that is an unsigned number of 32 bits. The entry has the same, and no earlier entry has it. What stands behind the last body is
 * free and may be anything. So the capacity and zeros are a book with no blank in it yet.
 *
 * A book is judged as a whole before anything else: its length, its contents' length and its count, then each entry in use in order,
 * where its body starts and ends before what stands in it, then the unused ones. After it comes the record that is to be added, with the
 * refusals of kc_read_record for that reader, and 60, 61, 62; or the identifier, 64; or the places, 50.
 */
#ifndef KERBCANOPY_H
#define KERBCANOPY_H

#include <stdbool.h>
#include <stddef.h>
#include <stdint.h>

/* The version of this header and of the library that it belongs to: in parts, in words, and as kc_version() says it. */
#define KC_VERSION_MAJOR 0
#define KC_VERSION_MINOR 2
#define KC_VERSION_PATCH 0
#define KC_VERSION "0.2.0"
#define KC_VERSION_NUMBER (KC_VERSION_MAJOR * 65536u + KC_VERSION_MINOR * 256u + KC_VERSION_PATCH)

/* The limits. The top of a descriptor is at depth 1; lengths and sizes in data are at most KC_MAX_LENGTH. */
#define KC_MAX_DESCRIPTOR 4096
#define KC_MAX_ROWS 256
#define KC_MAX_DEPTH 8
#define KC_MAX_DIMENSIONS 4
#define KC_MAX_UNIT_PAIRS 9
#define KC_MAX_BASE_INDEX 8
#define KC_MAX_DATA 65536
#define KC_MAX_BOOK 65536
#define KC_MAX_LENGTH 0x7FFFFFFF

/* How many numbers an answer, a row and the table are, where they are lent as numbers. */
#define KC_ANSWER_NUMBERS 3
#define KC_ROW_NUMBERS 7
#define KC_TABLE_NUMBERS (KC_MAX_ROWS * KC_ROW_NUMBERS)

/* The codes that are carried: the low byte of a descriptor's code word. */
enum kc_code {
    KC_CODE_I8 = 0x01,
    KC_CODE_I16 = 0x02,
    KC_CODE_I32 = 0x03,
    KC_CODE_I64 = 0x04,
    KC_CODE_U8 = 0x05,
    KC_CODE_U16 = 0x06,
    KC_CODE_U32 = 0x07,
    KC_CODE_U64 = 0x08,
    KC_CODE_SINGLE = 0x09,
    KC_CODE_DOUBLE = 0x0A,
    KC_CODE_EXTENDED = 0x0B,
    KC_CODE_COMPLEX_SINGLE = 0x0C,
    KC_CODE_COMPLEX_DOUBLE = 0x0D,
    KC_CODE_COMPLEX_EXTENDED = 0x0E,
    KC_CODE_ENUM_U8 = 0x15,
    KC_CODE_ENUM_U16 = 0x16,
    KC_CODE_ENUM_U32 = 0x17,
    KC_CODE_QUANTITY_SINGLE = 0x19,
    KC_CODE_QUANTITY_DOUBLE = 0x1A,
    KC_CODE_QUANTITY_EXTENDED = 0x1B,
    KC_CODE_QUANTITY_COMPLEX_SINGLE = 0x1C,
    KC_CODE_QUANTITY_COMPLEX_DOUBLE = 0x1D,
    KC_CODE_QUANTITY_COMPLEX_EXTENDED = 0x1E,
    KC_CODE_BOOLEAN = 0x21,
    KC_CODE_STRING = 0x30,
    KC_CODE_ARRAY = 0x40,
    KC_CODE_CLUSTER = 0x50,
    KC_CODE_TIME_STAMP = 0x54
};

/* The numbers of the table above. */
enum kc_number {
    KC_ACCEPTED = 0,
    KC_REFUSED_DESCRIPTOR_LENGTH = 1,
    KC_REFUSED_HEADER = 2,
    KC_REFUSED_SIZE_BIT = 3,
    KC_REFUSED_SIZE = 4,
    KC_REFUSED_CODE = 5,
    KC_REFUSED_DEPTH = 6,
    KC_REFUSED_ROWS = 7,
    KC_REFUSED_BODY = 8,
    KC_REFUSED_COUNT = 9,
    KC_REFUSED_CONTENTS = 10,
    KC_REFUSED_NAME = 11,
    KC_REFUSED_AFTER_TOP = 12,
    KC_REFUSED_DATA_LENGTH = 20,
    KC_REFUSED_DATA_END = 21,
    KC_REFUSED_LENGTH = 22,
    KC_REFUSED_ENUMERATION = 23,
    KC_REFUSED_LEFT_OVER = 25,
    KC_REFUSED_STEP = 30,
    KC_REFUSED_NO_NUMBER = 31,
    KC_REFUSED_DIFFERENCE = 32,
    KC_REFUSED_READER = 40,
    KC_REFUSED_WRITER = 41,
    KC_REFUSED_MISSING = 42,
    KC_REFUSED_DOUBLED = 43,
    KC_REFUSED_TYPE = 44,
    KC_REFUSED_ROOM = 50,
    KC_REFUSED_TAKEN = 60,
    KC_REFUSED_NO_ENTRY = 61,
    KC_REFUSED_NO_SPACE = 62,
    KC_REFUSED_BOOK = 63,
    KC_REFUSED_NOT_FOUND = 64
};

/* The input at fault. Of two descriptors the first is the writer's, where one is. */
enum kc_input {
    KC_INPUT_NONE = 0,
    KC_INPUT_FIRST = 1,
    KC_INPUT_WRITER = 1,
    KC_INPUT_SECOND = 2,
    KC_INPUT_READER = 2,
    KC_INPUT_DATA = 3,
    KC_INPUT_REQUEST = 4
};

/* The kinds of values, as kc_value has them. */
enum kc_kind {
    KC_KIND_NONE = 0,
    KC_KIND_UNSIGNED = 1,
    KC_KIND_SIGNED = 2,
    KC_KIND_SINGLE = 3,
    KC_KIND_DOUBLE = 4,
    KC_KIND_FLAG = 5
};

#ifdef __cplusplus
extern "C" {
#endif

typedef struct { uint32_t number, input, place; } kc_answer;

/*
 * A row of the descriptor table: the low code byte; the start and the size in bytes; the depth, the top's being 1; the count of items,
 * pairs, dimensions or members, else 0; the place of the name's first character, 0 where there is no name, and the name's length. The
 * place of an empty name is that of the byte after its length byte.
 */
typedef struct { uint16_t code, start, size, depth, count, name_place, name_length; } kc_row;

typedef struct { kc_answer answer; kc_row rows[256]; } kc_checked;

typedef struct { kc_answer answer; bool equal; } kc_compared;

/* A part of the lent data or book: its first byte and its length in bytes. */
typedef struct { kc_answer answer; size_t start, length; } kc_part;

/*
 * A number: what kind it is, and its bits.
 *
 *   kind    code (hexadecimal)    bits
 *   0       no value              0
 *   1       05 to 08, 15 to 17    an unsigned number
 *   2       01 to 04              a signed number, as the two's complement of 64 bits
 *   3       09, 19                a single, its exact bits the low 32
 *   4       0A, 1A                a double, its exact bits
 *   5       21                    a flag, 0 for the byte 00, 1 for any other
 */
typedef struct { kc_answer answer; uint32_t kind; uint64_t bits; } kc_value;

/* A time between two stamps: seconds, which may be negative, and a fraction to be added to them, in units of 2^-64 second. */
typedef struct { kc_answer answer; int64_t seconds; uint64_t fraction; } kc_difference;

/*
 * Reads any bytes as a descriptor.
 *
 * Accepted: number 0, input 0, and the place is the row count. The table has one row for each descriptor, in order of first byte; rows
 * not used are zero.
 * Refused: 1 to 12 with input 1, and the table is all zero.
 */
kc_checked kc_check_descriptor(const uint8_t *descriptor, size_t descriptor_len);

/*
 * Says whether two descriptors are equal: the same tree, low codes, counts, items, pairs and names. Only the reserved byte, the high
 * one of each code word, is ignored. An empty name differs from none.
 *
 * Accepted: number 0, input 0, place 0, and `equal` is yes or no.
 * Refused: 1 to 12 with input 1 for the first descriptor, which is judged to its end before the second, or 2 for the second; `equal` is
 * no.
 */
kc_compared kc_compare(const uint8_t *first, size_t first_len, const uint8_t *second, size_t second_len);

/*
 * Writes the normal form to the front of `out`: the same descriptor with every reserved byte zero, as long as the descriptor. Two
 * descriptors are equal exactly when their normal forms are the same bytes.
 *
 * Accepted: number 0, input 0, and the place is the length written; `out` beyond it keeps its bytes.
 * Refused: 1 to 12 with input 1; or 50 with input 4 where `out` is too small, the place being the length needed. Nothing is written.
 */
kc_answer kc_normal_form(const uint8_t *descriptor, size_t descriptor_len, uint8_t *out, size_t out_len);

/*
 * Walks data under a descriptor. Numbers are big-endian, as wide as their code says: 1, 2, 4, 8 bytes for 01 to 04 and again for 05 to
 * 08; 4, 8, 16 for 09 to 0B and 19 to 1B; 8, 16, 32 for 0C to 0E and 1C to 1E; 1, 2, 4 for 15 to 17; 1 for 21. A string is a 32-bit
 * length and its characters; an array is one 32-bit size for each dimension, then the elements, last dimension fastest; a cluster is
 * its members in order; a time stamp is its cluster's four integers. Lengths and sizes are below 2^31, an enumeration's number is below
 * its item count. A Boolean's byte may be any: 00 is false, every other is true. Each piece starts exactly where the one before it ended,
 * and together the pieces are the whole data.
 *
 * Accepted: number 0, input 0, and the place is the piece count.
 * Refused: 1 to 12 with input 1, or 20 to 23 or 25 with input 3.
 */
kc_answer kc_check_data(const uint8_t *descriptor, size_t descriptor_len, const uint8_t *data, size_t data_len);

/*
 * Finds a part of the data by a path of steps: a member number in a cluster, a flat element number in an array, counted from 0, or 0 in
 * a time stamp for its cluster. The empty path is the whole data. The part has its length and size words in it. The whole data is judged
 * before the path.
 *
 * Accepted: number 0, input 0, place 0, and the part's start and length.
 * Refused: 1 to 12 with input 1, 20 to 23 or 25 with input 3, or 30 with input 4; the part is empty at the front, start 0 and length 0.
 */
kc_part kc_view(const uint8_t *descriptor, size_t descriptor_len, const uint8_t *data, size_t data_len,
                const uint32_t *path, size_t path_len);

/*
 * Reads the number at the end of a path, the steps being those of kc_view. Of a Boolean it gives true or false; which byte it is, the
 * part of kc_view has.
 *
 * Accepted: number 0, input 0, place 0, and the value's kind and bits.
 * Refused: 1 to 12 with input 1, 20 to 23 or 25 with input 3, 30 with input 4, or 31 with input 4 where the path leads to no single
 * number; there is no value, kind 0 and bits 0.
 */
kc_value kc_read_value(const uint8_t *descriptor, size_t descriptor_len, const uint8_t *data, size_t data_len,
                       const uint32_t *path, size_t path_len);

/*
 * Writes the little-endian form of the data to the front of `out`: the same layout, as long as the data, with the bytes of each number
 * reversed in place: each integer, enumeration, real number, half of a complex number, string length and size word. Booleans and
 * characters stay.
 *
 * Accepted: number 0, input 0, and the place is the length written; `out` beyond it keeps its bytes.
 * Refused: 1 to 12 with input 1, 20 to 23 or 25 with input 3, or 50 with input 4 where `out` is too small, the place being the length
 * needed. Nothing is written.
 */
kc_answer kc_to_little_endian(const uint8_t *descriptor, size_t descriptor_len, const uint8_t *data, size_t data_len,
                              uint8_t *out, size_t out_len);

/*
 * Writes the data whose little-endian form is lent to the front of `out`. A little-endian buffer is accepted exactly when it is the form
 * of accepted data; its refusals are those of the walk with numbers, lengths and sizes read reversed.
 *
 * Accepted: number 0, input 0, and the place is the length written; `out` beyond it keeps its bytes.
 * Refused: 1 to 12 with input 1, 20 to 23 or 25 with input 3, or 50 with input 4 where `out` is too small, the place being the length
 * needed. Nothing is written.
 */
kc_answer kc_from_little_endian(const uint8_t *descriptor, size_t descriptor_len, const uint8_t *data, size_t data_len,
                                uint8_t *out, size_t out_len);

/*
 * Reads a record in a reader's shape: writes to the front of `out`, joined and in the reader's order, the bytes of the one member of
 * the writer that has the name and the type of each of the reader's members. `writer` is the descriptor of the data, `reader` that of
 * what is asked for; both are clusters, and a member stands directly in one, not deeper. Names match by their bytes, and types are
 * equal as kc_compare has it, names inside them too, reserved bytes apart; the two clusters' own names don't matter. A member's bytes
 * have its length and size words in them. What else the writer has, and in which order, changes nothing.
 *
 * Accepted: number 0, input 0, and the place is the length written; `out` beyond it keeps its bytes. What is written is data under
 * `reader`, no longer than the data.
 * Refused: 1 to 12 with input 1 for the writer, which is judged to its end before the reader, or 2 for the reader; 20 to 23 or 25
 * with input 3; 40 with input 2 where the reader is no cluster of members with distinct names that are not empty; 41 with input 1; 42 to
 * 44 with input 2 for the first member of the reader that is missing, found twice or more, or of another type; or 50 with input 4 where
 * `out` is too small, the place being the length needed. Nothing is written.
 */
kc_answer kc_read_record(const uint8_t *writer, size_t writer_len, const uint8_t *reader, size_t reader_len,
                         const uint8_t *data, size_t data_len, uint8_t *out, size_t out_len);

/*
 * Takes the second time stamp from the first, exactly. Each is given as its four integers, as kc_read_value gives them at the steps 0 0 to
 * 0 3 of a time stamp: the high and low halves of a signed 64-bit count of seconds since 1904-01-01 00:00 universal time, then those of
 * the fraction in units of 2^-64 second. The low half of the seconds counts by its bits. Any numbers will do.
 *
 * Accepted: number 0, input 0, place 0, and the difference's seconds and fraction. The fraction is from 0 up to one second: where the
 * first stamp is the earlier one the seconds are negative, and half a second less is -1 and 2^63.
 * Refused: 32 with input 4 and place 0 where 64 signed bits don't hold the seconds; seconds and fraction are 0.
 */
kc_difference kc_stamp_difference(int32_t first_seconds_high, int32_t first_seconds_low,
                                  uint32_t first_fraction_high, uint32_t first_fraction_low,
                                  int32_t second_seconds_high, int32_t second_seconds_low,
                                  uint32_t second_fraction_high, uint32_t second_fraction_low);

/*
 * Reads any bytes as a blank book.
 *
 * Accepted: number 0, input 0, place 0.
 * Refused: 63 with input 4.
 */
kc_answer kc_store_check(const uint8_t *store, size_t store_len);

/*
 * Adds a record to a blank book: writes the descriptor and the data as lent behind the last body, its entry behind the last in use, and the
 * count, which rises by one. Nothing else changes. The descriptor and the data overlap no byte of the book, used or free.
 *
 * Accepted: number 0, input 0, place 0; the book is well formed again.
 * Refused: 63 with input 4, the book being judged before the record; 1 to 12 with input 1 or 20 to 23 or 25 with input 3; 41 with input 1
 * where the record is no cluster; 42 to 44 with input 2 and place 0 where its member "blank" is missing, there twice or more, or no
 * unsigned number of 32 bits; then with input 4, in this order, 60 where an entry has the identifier already, 61 where all entries are
 * in use, 62 where the descriptor and the data are longer than what is free behind the last body. Nothing is written.
 */
kc_answer kc_store_add(uint8_t *store, size_t store_len, const uint8_t *descriptor, size_t descriptor_len,
                       const uint8_t *data, size_t data_len);

/*
 * Finds the whole body of the one record with this identifier: its descriptor, whose size says where it ends, and its data.
 *
 * Accepted: number 0, input 0, place 0, and the body's start and length in the book.
 * Refused: 63 with input 4, or 64 with input 4 where no entry has the identifier; the part is empty at the front, start 0 and length 0.
 */
kc_part kc_store_find(const uint8_t *store, size_t store_len, uint32_t identifier);

/*
 * Writes the identifiers in the order of their entries to the front of `identifiers`, which has `identifiers_len` places.
 *
 * Accepted: number 0, input 0, and the place is the count of entries in use; `identifiers` beyond it keeps its numbers.
 * Refused: 63 with input 4; or 50 with input 4 where there are too few places, the place being that count. Nothing is written.
 */
kc_answer kc_store_list(const uint8_t *store, size_t store_len, uint32_t *identifiers, size_t identifiers_len);

/*
 * Says which version the library is: the first number times 65,536, the second times 256 and the third, added up, so that a later version
 * is a greater number. It refuses nothing, and returns a plain number, which every caller can take. A library without this entry is older
 * than 0.2.0.
 */
uint32_t kc_version(void);

/*
 * The same questions for callers that can't take a struct by value, such as LabVIEW's Call Library Function node. Each of these takes what
 * the function of its name without `_into` takes, then pointers, none of them NULL, to numbers that are lent for the answer. Every call,
 * a refusal too, sets each of these numbers to what stands in the struct that the other function returns:
 *
 *   answer              number, input and place
 *   table               the 256 rows one after another, each the seven numbers of a kc_row in their order
 *   equal               1 for yes, 0 for no
 *   start, length       those of the kc_part
 *   kind, bits          those of the kc_value
 *   seconds, fraction   those of the kc_difference
 *
 * `out`, the book and `identifiers` are left as the other function leaves them.
 */
void kc_check_descriptor_into(const uint8_t *descriptor, size_t descriptor_len,
                              uint32_t answer[KC_ANSWER_NUMBERS], uint16_t table[KC_TABLE_NUMBERS]);

void kc_compare_into(const uint8_t *first, size_t first_len, const uint8_t *second, size_t second_len,
                     uint32_t answer[KC_ANSWER_NUMBERS], uint8_t *equal);

void kc_normal_form_into(const uint8_t *descriptor, size_t descriptor_len, uint8_t *out, size_t out_len,
                         uint32_t answer[KC_ANSWER_NUMBERS]);

void kc_check_data_into(const uint8_t *descriptor, size_t descriptor_len, const uint8_t *data, size_t data_len,
                        uint32_t answer[KC_ANSWER_NUMBERS]);

void kc_view_into(const uint8_t *descriptor, size_t descriptor_len, const uint8_t *data, size_t data_len,
                  const uint32_t *path, size_t path_len,
                  uint32_t answer[KC_ANSWER_NUMBERS], uint64_t *start, uint64_t *length);

void kc_read_value_into(const uint8_t *descriptor, size_t descriptor_len, const uint8_t *data, size_t data_len,
                        const uint32_t *path, size_t path_len,
                        uint32_t answer[KC_ANSWER_NUMBERS], uint32_t *kind, uint64_t *bits);

void kc_to_little_endian_into(const uint8_t *descriptor, size_t descriptor_len, const uint8_t *data, size_t data_len,
                              uint8_t *out, size_t out_len, uint32_t answer[KC_ANSWER_NUMBERS]);

void kc_from_little_endian_into(const uint8_t *descriptor, size_t descriptor_len, const uint8_t *data, size_t data_len,
                                uint8_t *out, size_t out_len, uint32_t answer[KC_ANSWER_NUMBERS]);

void kc_read_record_into(const uint8_t *writer, size_t writer_len, const uint8_t *reader, size_t reader_len,
                         const uint8_t *data, size_t data_len, uint8_t *out, size_t out_len,
                         uint32_t answer[KC_ANSWER_NUMBERS]);

void kc_stamp_difference_into(int32_t first_seconds_high, int32_t first_seconds_low,
                              uint32_t first_fraction_high, uint32_t first_fraction_low,
                              int32_t second_seconds_high, int32_t second_seconds_low,
                              uint32_t second_fraction_high, uint32_t second_fraction_low,
                              uint32_t answer[KC_ANSWER_NUMBERS], int64_t *seconds, uint64_t *fraction);

void kc_store_check_into(const uint8_t *store, size_t store_len, uint32_t answer[KC_ANSWER_NUMBERS]);

void kc_store_add_into(uint8_t *store, size_t store_len, const uint8_t *descriptor, size_t descriptor_len,
                       const uint8_t *data, size_t data_len, uint32_t answer[KC_ANSWER_NUMBERS]);

void kc_store_find_into(const uint8_t *store, size_t store_len, uint32_t identifier,
                        uint32_t answer[KC_ANSWER_NUMBERS], uint64_t *start, uint64_t *length);

void kc_store_list_into(const uint8_t *store, size_t store_len, uint32_t *identifiers, size_t identifiers_len,
                        uint32_t answer[KC_ANSWER_NUMBERS]);

#ifdef __cplusplus
}
#endif

#endif
