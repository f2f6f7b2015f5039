/*
 * The header against the figures of layout.def, against the documents 01 and 02 and against the library: the layout of every struct,
 * the version, each named constant by an answer that has it, a Boolean of each byte, and what is left of a book. Builds as C and as C++;
 * run from the repository's root.
 */
#include "books.h"

#ifdef __cplusplus
#define HOLDS(fact, text) static_assert(fact, text)
#define ALIGNMENT(type) alignof(type)
#else
#define HOLDS(fact, text) _Static_assert(fact, text)
#define ALIGNMENT(type) _Alignof(type)
#endif

#define FIELD_SIZE(type, field) sizeof(((type *)0)->field)

#define SIZE(type, size, alignment) HOLDS(sizeof(type) == (size) && ALIGNMENT(type) == (alignment), #type);
#define FIELD(type, field, offset, size) \
    HOLDS(offsetof(type, field) == (offset) && FIELD_SIZE(type, field) == (size), #type "." #field);
#include "layout.def"
#undef SIZE
#undef FIELD

typedef struct { const char *of; size_t here, stated, width, stated_width; } figure;

#define SIZE(type, size, alignment) { #type, sizeof(type), size, ALIGNMENT(type), alignment },
#define FIELD(type, field, offset, size) { #type "." #field, offsetof(type, field), offset, FIELD_SIZE(type, field), size },
static const figure figures[] = {
#include "layout.def"
};
#undef SIZE
#undef FIELD

typedef struct { const char *name; unsigned value, stated; } constant;

#define IS(name, stated) { #name, name, stated }

/* The constants that no answer has, and those of codes, kinds and inputs, as the documents and the interface give them. */
static const constant constants[] = {
    IS(KC_CODE_I8, 0x01), IS(KC_CODE_I16, 0x02), IS(KC_CODE_I32, 0x03), IS(KC_CODE_I64, 0x04), IS(KC_CODE_U8, 0x05),
    IS(KC_CODE_U16, 0x06), IS(KC_CODE_U32, 0x07), IS(KC_CODE_U64, 0x08), IS(KC_CODE_SINGLE, 0x09), IS(KC_CODE_DOUBLE, 0x0A),
    IS(KC_CODE_EXTENDED, 0x0B), IS(KC_CODE_COMPLEX_SINGLE, 0x0C), IS(KC_CODE_COMPLEX_DOUBLE, 0x0D),
    IS(KC_CODE_COMPLEX_EXTENDED, 0x0E), IS(KC_CODE_ENUM_U8, 0x15), IS(KC_CODE_ENUM_U16, 0x16), IS(KC_CODE_ENUM_U32, 0x17),
    IS(KC_CODE_QUANTITY_SINGLE, 0x19), IS(KC_CODE_QUANTITY_DOUBLE, 0x1A), IS(KC_CODE_QUANTITY_EXTENDED, 0x1B),
    IS(KC_CODE_QUANTITY_COMPLEX_SINGLE, 0x1C), IS(KC_CODE_QUANTITY_COMPLEX_DOUBLE, 0x1D),
    IS(KC_CODE_QUANTITY_COMPLEX_EXTENDED, 0x1E), IS(KC_CODE_BOOLEAN, 0x21), IS(KC_CODE_STRING, 0x30), IS(KC_CODE_ARRAY, 0x40),
    IS(KC_CODE_CLUSTER, 0x50), IS(KC_CODE_TIME_STAMP, 0x54), IS(KC_ACCEPTED, 0), IS(KC_REFUSED_DESCRIPTOR_LENGTH, 1),
    IS(KC_REFUSED_HEADER, 2), IS(KC_REFUSED_SIZE_BIT, 3), IS(KC_REFUSED_SIZE, 4), IS(KC_REFUSED_CODE, 5), IS(KC_REFUSED_DEPTH, 6),
    IS(KC_REFUSED_ROWS, 7), IS(KC_REFUSED_BODY, 8), IS(KC_REFUSED_COUNT, 9), IS(KC_REFUSED_CONTENTS, 10), IS(KC_REFUSED_NAME, 11),
    IS(KC_REFUSED_AFTER_TOP, 12), IS(KC_REFUSED_DATA_LENGTH, 20), IS(KC_REFUSED_DATA_END, 21), IS(KC_REFUSED_LENGTH, 22),
    IS(KC_REFUSED_ENUMERATION, 23), IS(KC_REFUSED_LEFT_OVER, 25), IS(KC_REFUSED_STEP, 30),
    IS(KC_REFUSED_NO_NUMBER, 31), IS(KC_REFUSED_DIFFERENCE, 32), IS(KC_REFUSED_READER, 40), IS(KC_REFUSED_WRITER, 41),
    IS(KC_REFUSED_MISSING, 42), IS(KC_REFUSED_DOUBLED, 43), IS(KC_REFUSED_TYPE, 44), IS(KC_REFUSED_ROOM, 50), IS(KC_REFUSED_TAKEN, 60),
    IS(KC_REFUSED_NO_ENTRY, 61), IS(KC_REFUSED_NO_SPACE, 62), IS(KC_REFUSED_BOOK, 63), IS(KC_REFUSED_NOT_FOUND, 64), IS(KC_INPUT_NONE, 0),
    IS(KC_INPUT_FIRST, 1), IS(KC_INPUT_WRITER, 1), IS(KC_INPUT_SECOND, 2), IS(KC_INPUT_READER, 2), IS(KC_INPUT_DATA, 3),
    IS(KC_INPUT_REQUEST, 4), IS(KC_KIND_NONE, 0), IS(KC_KIND_UNSIGNED, 1), IS(KC_KIND_SIGNED, 2), IS(KC_KIND_SINGLE, 3),
    IS(KC_KIND_DOUBLE, 4), IS(KC_KIND_FLAG, 5), IS(KC_MAX_DESCRIPTOR, 4096), IS(KC_MAX_ROWS, 256), IS(KC_MAX_DEPTH, 8),
    IS(KC_MAX_DIMENSIONS, 4), IS(KC_MAX_UNIT_PAIRS, 9), IS(KC_MAX_BASE_INDEX, 8), IS(KC_MAX_DATA, 65536), IS(KC_MAX_BOOK, 65536),
    IS(KC_MAX_LENGTH, 2147483647), IS(KC_ANSWER_NUMBERS, 3), IS(KC_ROW_NUMBERS, 7), IS(KC_TABLE_NUMBERS, 1792),
};

static buffer first, second, data, book;

static void test_layout(void)
{
    for (size_t i = 0; i < sizeof figures / sizeof figures[0]; i++) {
        const figure *f = &figures[i];
        char what[80];
        snprintf(what, sizeof what, "layout of %s is %zu, %zu", f->of, f->here, f->width);
        report(f->here == f->stated && f->width == f->stated_width, what, "");
    }
}

static void test_constants(void)
{
    for (size_t i = 0; i < sizeof constants / sizeof constants[0]; i++) {
        report(constants[i].value == constants[i].stated, "constant", constants[i].name);
    }
}

/* Each number, input and place as the library answers it. */
static void test_answers(void)
{
    uint8_t out[CASE_ROOM];
    for (size_t i = 0; i < CASES; i++) {
        const one_case *c = &cases[i];
        fill(&first, c->first);
        fill(&second, c->reader);
        fill(&data, c->data);
        kc_answer a = second.length == 0
            ? kc_read_value(first.bytes, first.length, data.bytes, data.length, c->path, c->path_len).answer
            : kc_read_record(first.bytes, first.length, second.bytes, second.length, data.bytes, data.length, out, c->room);
        report(a.number == c->number && a.input == c->input && a.place == c->place, "answer", c->what);
    }
}

/* The same of two time stamps, with seconds and fraction. */
static void test_differences(void)
{
    for (size_t i = 0; i < STAMP_CASES; i++) {
        const stamp_case *c = &stamp_cases[i];
        const stamp *a = &c->first, *b = &c->second;
        kc_difference d = kc_stamp_difference(a->seconds_high, a->seconds_low, a->fraction_high, a->fraction_low,
                                              b->seconds_high, b->seconds_low, b->fraction_high, b->fraction_low);
        uint32_t input = c->number == KC_ACCEPTED ? KC_INPUT_NONE : KC_INPUT_REQUEST;
        report(d.answer.number == c->number && d.answer.input == input && d.answer.place == 0, "answer", c->what);
        report(d.seconds == c->seconds && d.fraction == c->fraction, "difference", c->what);
    }
}

/* Whether `book` has the record behind its last body, its entry behind the last in use, and one entry more in use than before. */
static bool has_added(const buffer *before)
{
    const unsigned capacity = before->bytes[1], count = before->bytes[3];
    const size_t start = 4 + 16 * capacity + 20 * count, entry = 4 + 16 * count;
    const uint8_t words[] = { 0, 0, (uint8_t)(start >> 8), (uint8_t)start, 0, 0, 0, (uint8_t)first.length, 0, 0, 0, (uint8_t)data.length };
    buffer wanted = *before;
    wanted.bytes[3]++;
    memcpy(wanted.bytes + entry, data.bytes, 4);
    memcpy(wanted.bytes + entry + 4, words, sizeof words);
    memcpy(wanted.bytes + start, first.bytes, first.length);
    memcpy(wanted.bytes + start + first.length, data.bytes, data.length);
    return memcmp(book.bytes, wanted.bytes, book.length) == 0;
}

/* Whether `identifiers` has those of the entries in front and what it had behind them. */
static bool has_listed(const uint32_t identifiers[BOOK_PLACES], size_t count)
{
    bool good = true;
    for (size_t i = 0; i < BOOK_PLACES; i++) {
        const uint32_t wanted = i < count ? book.bytes[4 + 16 * i + 3] : 77;
        good = good && identifiers[i] == wanted;
    }
    return good;
}

/* The book's question of a case, and whether it leaves what it should. */
static kc_answer ask_book(const book_case *c, bool *good)
{
    uint32_t identifiers[BOOK_PLACES] = { 77, 77, 77, 77 };
    static buffer before;
    before = book;
    if (c->asks == STORE_CHECK) {
        return kc_store_check(book.bytes, book.length);
    }
    if (c->asks == STORE_ADD) {
        kc_answer a = kc_store_add(book.bytes, book.length, first.bytes, first.length, data.bytes, data.length);
        *good = a.number == KC_ACCEPTED ? has_added(&before) : memcmp(book.bytes, before.bytes, book.length) == 0;
        return a;
    }
    if (c->asks == STORE_FIND) {
        kc_part p = kc_store_find(book.bytes, book.length, c->identifier);
        *good = p.start == c->start && p.length == c->length;
        return p.answer;
    }
    kc_answer a = kc_store_list(book.bytes, book.length, identifiers, c->places);
    *good = has_listed(identifiers, a.number == KC_ACCEPTED ? a.place : 0);
    return a;
}

static void test_books(void)
{
    for (size_t i = 0; i < BOOK_CASES; i++) {
        const book_case *c = &book_cases[i];
        bool good = true;
        fill(&book, c->book);
        fill(&first, c->descriptor);
        fill(&data, c->data);
        kc_answer a = ask_book(c, &good);
        report(a.number == c->number && a.input == c->input && a.place == c->place, "answer about a book", c->what);
        report(good, "what is left of a book", c->what);
    }
}

typedef struct { const char *descriptor; unsigned code, count; } coded;

/* Every code that has a body; the others have none. */
static const coded bodies[] = {
    { "0008 0015 0001 0161", KC_CODE_ENUM_U8, 1 },
    { "0008 0016 0001 0161", KC_CODE_ENUM_U16, 1 },
    { "0008 0017 0001 0161", KC_CODE_ENUM_U32, 1 },
    { "000A 0019 0001 0008 FFFF", KC_CODE_QUANTITY_SINGLE, 1 },
    { "000A 001A 0001 0008 FFFF", KC_CODE_QUANTITY_DOUBLE, 1 },
    { "000A 001B 0001 0008 FFFF", KC_CODE_QUANTITY_EXTENDED, 1 },
    { "000A 001C 0001 0008 FFFF", KC_CODE_QUANTITY_COMPLEX_SINGLE, 1 },
    { "000A 001D 0001 0008 FFFF", KC_CODE_QUANTITY_COMPLEX_DOUBLE, 1 },
    { "000A 001E 0001 0008 FFFF", KC_CODE_QUANTITY_COMPLEX_EXTENDED, 1 },
    { "0008 0030 FFFF FFFF", KC_CODE_STRING, 0 },
    { "000E 0040 0001 FFFF FFFF 0004 000A", KC_CODE_ARRAY, 1 },
    { "000E 0050 0002 0004 0002 0004 0007", KC_CODE_CLUSTER, 2 },
    { "001C 0054 0006 0016 0050 0004 0004 0003 0004 0003 0004 0007 0004 0007", KC_CODE_TIME_STAMP, 0 },
};

static bool has_code(unsigned code, unsigned count)
{
    kc_checked c = kc_check_descriptor(first.bytes, first.length);
    return c.answer.number == KC_ACCEPTED && c.rows[0].code == code && c.rows[0].size == first.length && c.rows[0].count == count;
}

static void test_codes(void)
{
    bool good = true;
    for (unsigned code = 0; code < 256; code++) {
        bool carried = (code >= KC_CODE_I8 && code <= KC_CODE_COMPLEX_EXTENDED) || code == KC_CODE_BOOLEAN;
        const uint8_t bytes[] = { 0, 4, 0, (uint8_t)code };
        memcpy(first.bytes, bytes, sizeof bytes);
        first.length = sizeof bytes;
        good = good && has_code(code, 0) == carried;
    }
    report(good, "codes with no body", "");
    for (size_t i = 0; i < sizeof bodies / sizeof bodies[0]; i++) {
        first.length = 0;
        add_hex(&first, bodies[i].descriptor);
        report(has_code(bodies[i].code, bodies[i].count), "code", bodies[i].descriptor);
    }
}

static void test_kind(const char *descriptor, const char *value, uint32_t kind, uint64_t bits)
{
    first.length = data.length = 0;
    add_hex(&first, descriptor);
    add_hex(&data, value);
    kc_value v = kc_read_value(first.bytes, first.length, data.bytes, data.length, NULL, 0);
    report(v.kind == kind && v.bits == bits, "kind", descriptor);
}

/* Whether the lamp rig's record with this byte is true or false by it, and each answer has the byte as it came. */
static bool keeps(uint8_t byte)
{
    uint8_t big[5] = { 0, 0, 0, 9, byte }, little[5], back[5], record[1];
    const uint32_t lit = 1;
    kc_value v = kc_read_value(first.bytes, first.length, big, sizeof big, &lit, 1);
    kc_part p = kc_view(first.bytes, first.length, big, sizeof big, &lit, 1);
    kc_answer turned = kc_to_little_endian(first.bytes, first.length, big, sizeof big, little, sizeof little);
    kc_answer returned = kc_from_little_endian(first.bytes, first.length, little, sizeof little, back, sizeof back);
    kc_answer given = kc_read_record(first.bytes, first.length, second.bytes, second.length, big, sizeof big, record, sizeof record);
    return v.answer.number == KC_ACCEPTED && v.kind == KC_KIND_FLAG && v.bits == (byte != 0)
        && p.answer.number == KC_ACCEPTED && p.start == 4 && p.length == 1
        && turned.number == KC_ACCEPTED && little[0] == 9 && little[4] == byte
        && returned.number == KC_ACCEPTED && memcmp(back, big, sizeof big) == 0
        && given.number == KC_ACCEPTED && given.place == 1 && record[0] == byte;
}

/* Request 2 of document 02: a Boolean's byte may be any. */
static void test_flags(void)
{
    bool good = true;
    first.length = second.length = 0;
    add_hex(&first, LAMP);
    add_hex(&second, LIT);
    for (unsigned byte = 0; byte < 256; byte++) {
        good = good && keeps((uint8_t)byte);
    }
    report(good, "a Boolean of each byte", "");
}

/* A descriptor whose count is given, with one part of it repeated as often. */
static uint32_t counted(unsigned code, unsigned count, const char *unit, const char *end)
{
    first.length = 6;
    for (unsigned i = 0; i < count; i++) {
        add_hex(&first, unit);
    }
    add_hex(&first, end);
    const uint8_t head[] = { (uint8_t)(first.length >> 8), (uint8_t)first.length, 0, (uint8_t)code, (uint8_t)(count >> 8), (uint8_t)count };
    memcpy(first.bytes, head, sizeof head);
    return kc_check_descriptor(first.bytes, first.length).answer.number;
}

/* A number inside clusters of one member each, so that it stands at this depth. */
static uint32_t nested(unsigned depth)
{
    first.length = 0;
    for (unsigned i = 1; i < depth; i++) {
        const uint8_t head[] = { 0, (uint8_t)(4 + 6 * (depth - i)), 0, KC_CODE_CLUSTER, 0, 1 };
        memcpy(first.bytes + first.length, head, sizeof head);
        first.length += sizeof head;
    }
    add_hex(&first, "0004 0003");
    return kc_check_descriptor(first.bytes, first.length).answer.number;
}

static uint32_t of_length(size_t descriptor_len, size_t data_len)
{
    memset(first.bytes, 0, sizeof first.bytes);
    memset(data.bytes, 0, sizeof data.bytes);
    memcpy(first.bytes, "\0\4\0\5", 4);
    return kc_check_data(first.bytes, descriptor_len, data.bytes, data_len).number;
}

static uint32_t text_of(uint32_t length)
{
    const uint8_t string[] = { 0, 8, 0, KC_CODE_STRING, 0xFF, 0xFF, 0xFF, 0xFF };
    const uint8_t word[] = { (uint8_t)(length >> 24), (uint8_t)(length >> 16), (uint8_t)(length >> 8), (uint8_t)length };
    return kc_check_data(string, sizeof string, word, sizeof word).number;
}

static uint32_t book_of(size_t length)
{
    memset(book.bytes, 0, sizeof book.bytes);
    return kc_store_check(book.bytes, length).number;
}

static uint32_t of_base(unsigned base)
{
    const uint8_t quantity[] = { 0, 10, 0, KC_CODE_QUANTITY_SINGLE, 0, 1, 0, (uint8_t)base, 0, 1 };
    return kc_check_descriptor(quantity, sizeof quantity).answer.number;
}

/* At each limit nothing is refused for it, and one beyond it something is. */
static void test_limits(void)
{
    const char *word = "FFFF FFFF", *pair = "0000 0001";
    report(of_length(KC_MAX_DESCRIPTOR, 1) == KC_REFUSED_AFTER_TOP
               && of_length(KC_MAX_DESCRIPTOR + 1, 1) == KC_REFUSED_DESCRIPTOR_LENGTH, "limit", "descriptor");
    report(of_length(4, KC_MAX_DATA) == KC_REFUSED_LEFT_OVER
               && of_length(4, KC_MAX_DATA + 1) == KC_REFUSED_DATA_LENGTH, "limit", "data");
    report(book_of(KC_MAX_BOOK) == KC_ACCEPTED && book_of(KC_MAX_BOOK + 1) == KC_REFUSED_BOOK, "limit", "book");
    report(nested(KC_MAX_DEPTH) == KC_ACCEPTED && nested(KC_MAX_DEPTH + 1) == KC_REFUSED_DEPTH, "limit", "depth");
    report(counted(KC_CODE_CLUSTER, KC_MAX_ROWS - 1, "0004 0003", "") == KC_ACCEPTED
               && counted(KC_CODE_CLUSTER, KC_MAX_ROWS, "0004 0003", "") == KC_REFUSED_ROWS, "limit", "rows");
    report(counted(KC_CODE_ARRAY, KC_MAX_DIMENSIONS, word, "0004 0003") == KC_ACCEPTED
               && counted(KC_CODE_ARRAY, KC_MAX_DIMENSIONS + 1, word, "0004 0003") == KC_REFUSED_COUNT, "limit", "dimensions");
    report(counted(KC_CODE_QUANTITY_SINGLE, KC_MAX_UNIT_PAIRS, pair, "") == KC_ACCEPTED
               && counted(KC_CODE_QUANTITY_SINGLE, KC_MAX_UNIT_PAIRS + 1, pair, "") == KC_REFUSED_COUNT, "limit", "unit pairs");
    report(of_base(KC_MAX_BASE_INDEX) == KC_ACCEPTED && of_base(KC_MAX_BASE_INDEX + 1) == KC_REFUSED_CONTENTS, "limit", "base index");
    report(text_of(KC_MAX_LENGTH) == KC_REFUSED_DATA_END && text_of(KC_MAX_LENGTH + 1u) == KC_REFUSED_LENGTH, "limit", "length");
}

/* The version is that of the library and of the host's crates. */
static void test_version(void)
{
    char parts[32], line[256], wanted[64];
    bool found = false;
    snprintf(parts, sizeof parts, "%d.%d.%d", KC_VERSION_MAJOR, KC_VERSION_MINOR, KC_VERSION_PATCH);
    report(strcmp(parts, KC_VERSION) == 0, "version by its parts", "");
    report(kc_version() == KC_VERSION_NUMBER, "version of the library", "");
    snprintf(wanted, sizeof wanted, "version = \"%s\"\n", KC_VERSION);
    FILE *crates = fopen("host/Cargo.toml", "r");
    while (crates && fgets(line, sizeof line, crates)) {
        found = found || strcmp(line, wanted) == 0;
    }
    if (crates) {
        fclose(crates);
    }
    report(found, "version of host/Cargo.toml", "");
}

int main(void)
{
    test_layout();
    test_constants();
    test_answers();
    test_differences();
    test_books();
    test_codes();
    test_kind("0004 0006", "FFFE", KC_KIND_UNSIGNED, 0xFFFE);
    test_kind("0004 0002", "FFFE", KC_KIND_SIGNED, UINT64_MAX - 1);
    test_kind("0004 0009", "7FC0 0001", KC_KIND_SINGLE, 0x7FC00001);
    test_kind("0004 000A", "C000 0000 0000 0001", KC_KIND_DOUBLE, 0xC000000000000001);
    test_kind("0004 0021", "01", KC_KIND_FLAG, 1);
    test_kind("0004 0021", "FF", KC_KIND_FLAG, 1);
    test_kind("0004 0021", "00", KC_KIND_FLAG, 0);
    test_kind("0004 000B", "0000", KC_KIND_NONE, 0);
    test_flags();
    test_limits();
    test_version();
    return all_ok ? 0 : 1;
}
