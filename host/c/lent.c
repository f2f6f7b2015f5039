/*
 * The entries that fill lent numbers against those that return a struct, and NULL with length 0 against an empty array that is not NULL:
 * for every question, and for every array that it takes. Builds as C and as C++.
 */
#include "books.h"

enum { FIRST = 1, SECOND = 2, DATA = 4, PATH = 8, OUT = 16, BOOK = 32, PLACES = 64, ARRAYS = 7, PAINT = 0xA5 };

typedef struct {
    const uint8_t *first, *second, *data;
    const uint32_t *path;
    size_t first_len, second_len, data_len, path_len, out_len;
    bool out_null;
    const stamp_case *stamps;
    const uint8_t *book;
    size_t book_len, places;
    bool places_null;
    uint32_t identifier;
} question;

/* What a question leaves: each number and the output between guards, all of it painted before. It has no padding. */
typedef struct {
    uint64_t guard0[2], start, guard1[2], length, guard2[2], bits, guard3[2], fraction, guard4[2];
    int64_t seconds, guard5[2];
    uint32_t guard6[3], answer[KC_ANSWER_NUMBERS], guard7[3], kind, guard8[2], identifiers[BOOK_PLACES], guard9[4];
    uint16_t guard10[8], table[KC_TABLE_NUMBERS], guard11[8];
    uint8_t guard12[15], equal, guard13[16], out[CASE_ROOM], guard14[16], book[CASE_BYTES], guard15[16];
} left;

static uint8_t *out_of(const question *q, left *to)
{
    return q->out_null ? NULL : to->out;
}

/* The book of a question, where a record can be added to it. */
static uint8_t *book_of(const question *q, left *to)
{
    if (q->book == NULL) {
        return NULL;
    }
    memcpy(to->book, q->book, q->book_len);
    return to->book;
}

static uint32_t *places_of(const question *q, left *to)
{
    return q->places_null ? NULL : to->identifiers;
}

static void set_answer(left *to, kc_answer a)
{
    to->answer[0] = a.number;
    to->answer[1] = a.input;
    to->answer[2] = a.place;
}

static void check_descriptor(const question *q, left *to)
{
    kc_checked c = kc_check_descriptor(q->first, q->first_len);
    set_answer(to, c.answer);
    for (size_t i = 0; i < KC_MAX_ROWS; i++) {
        const kc_row *r = &c.rows[i];
        const uint16_t row[] = { r->code, r->start, r->size, r->depth, r->count, r->name_place, r->name_length };
        memcpy(to->table + i * KC_ROW_NUMBERS, row, sizeof row);
    }
}

static void check_descriptor_into(const question *q, left *to)
{
    kc_check_descriptor_into(q->first, q->first_len, to->answer, to->table);
}

static void compare(const question *q, left *to)
{
    kc_compared c = kc_compare(q->first, q->first_len, q->second, q->second_len);
    set_answer(to, c.answer);
    to->equal = c.equal;
}

static void compare_into(const question *q, left *to)
{
    kc_compare_into(q->first, q->first_len, q->second, q->second_len, to->answer, &to->equal);
}

static void normal_form(const question *q, left *to)
{
    set_answer(to, kc_normal_form(q->first, q->first_len, out_of(q, to), q->out_len));
}

static void normal_form_into(const question *q, left *to)
{
    kc_normal_form_into(q->first, q->first_len, out_of(q, to), q->out_len, to->answer);
}

static void check_data(const question *q, left *to)
{
    set_answer(to, kc_check_data(q->first, q->first_len, q->data, q->data_len));
}

static void check_data_into(const question *q, left *to)
{
    kc_check_data_into(q->first, q->first_len, q->data, q->data_len, to->answer);
}

static void view(const question *q, left *to)
{
    kc_part p = kc_view(q->first, q->first_len, q->data, q->data_len, q->path, q->path_len);
    set_answer(to, p.answer);
    to->start = p.start;
    to->length = p.length;
}

static void view_into(const question *q, left *to)
{
    kc_view_into(q->first, q->first_len, q->data, q->data_len, q->path, q->path_len, to->answer, &to->start, &to->length);
}

static void read_value(const question *q, left *to)
{
    kc_value v = kc_read_value(q->first, q->first_len, q->data, q->data_len, q->path, q->path_len);
    set_answer(to, v.answer);
    to->kind = v.kind;
    to->bits = v.bits;
}

static void read_value_into(const question *q, left *to)
{
    kc_read_value_into(q->first, q->first_len, q->data, q->data_len, q->path, q->path_len, to->answer, &to->kind, &to->bits);
}

static void to_little_endian(const question *q, left *to)
{
    set_answer(to, kc_to_little_endian(q->first, q->first_len, q->data, q->data_len, out_of(q, to), q->out_len));
}

static void to_little_endian_into(const question *q, left *to)
{
    kc_to_little_endian_into(q->first, q->first_len, q->data, q->data_len, out_of(q, to), q->out_len, to->answer);
}

static void from_little_endian(const question *q, left *to)
{
    set_answer(to, kc_from_little_endian(q->first, q->first_len, q->data, q->data_len, out_of(q, to), q->out_len));
}

static void from_little_endian_into(const question *q, left *to)
{
    kc_from_little_endian_into(q->first, q->first_len, q->data, q->data_len, out_of(q, to), q->out_len, to->answer);
}

static void read_record(const question *q, left *to)
{
    set_answer(to, kc_read_record(q->first, q->first_len, q->second, q->second_len, q->data, q->data_len, out_of(q, to), q->out_len));
}

static void read_record_into(const question *q, left *to)
{
    kc_read_record_into(q->first, q->first_len, q->second, q->second_len, q->data, q->data_len, out_of(q, to), q->out_len, to->answer);
}

static void stamp_difference(const question *q, left *to)
{
    const stamp *a = &q->stamps->first, *b = &q->stamps->second;
    kc_difference d = kc_stamp_difference(a->seconds_high, a->seconds_low, a->fraction_high, a->fraction_low,
                                          b->seconds_high, b->seconds_low, b->fraction_high, b->fraction_low);
    set_answer(to, d.answer);
    to->seconds = d.seconds;
    to->fraction = d.fraction;
}

static void stamp_difference_into(const question *q, left *to)
{
    const stamp *a = &q->stamps->first, *b = &q->stamps->second;
    kc_stamp_difference_into(a->seconds_high, a->seconds_low, a->fraction_high, a->fraction_low,
                             b->seconds_high, b->seconds_low, b->fraction_high, b->fraction_low,
                             to->answer, &to->seconds, &to->fraction);
}

static void store_check(const question *q, left *to)
{
    set_answer(to, kc_store_check(q->book, q->book_len));
}

static void store_check_into(const question *q, left *to)
{
    kc_store_check_into(q->book, q->book_len, to->answer);
}

static void store_add(const question *q, left *to)
{
    set_answer(to, kc_store_add(book_of(q, to), q->book_len, q->first, q->first_len, q->data, q->data_len));
}

static void store_add_into(const question *q, left *to)
{
    kc_store_add_into(book_of(q, to), q->book_len, q->first, q->first_len, q->data, q->data_len, to->answer);
}

static void store_find(const question *q, left *to)
{
    kc_part p = kc_store_find(q->book, q->book_len, q->identifier);
    set_answer(to, p.answer);
    to->start = p.start;
    to->length = p.length;
}

static void store_find_into(const question *q, left *to)
{
    kc_store_find_into(q->book, q->book_len, q->identifier, to->answer, &to->start, &to->length);
}

static void store_list(const question *q, left *to)
{
    set_answer(to, kc_store_list(q->book, q->book_len, places_of(q, to), q->places));
}

static void store_list_into(const question *q, left *to)
{
    kc_store_list_into(q->book, q->book_len, places_of(q, to), q->places, to->answer);
}

typedef void ask(const question *q, left *to);

typedef struct { const char *name; ask *by_struct, *by_numbers; int takes; } entry;

static const entry entries[] = {
    { "kc_check_descriptor", check_descriptor, check_descriptor_into, FIRST },
    { "kc_compare", compare, compare_into, FIRST | SECOND },
    { "kc_normal_form", normal_form, normal_form_into, FIRST | OUT },
    { "kc_check_data", check_data, check_data_into, FIRST | DATA },
    { "kc_view", view, view_into, FIRST | DATA | PATH },
    { "kc_read_value", read_value, read_value_into, FIRST | DATA | PATH },
    { "kc_to_little_endian", to_little_endian, to_little_endian_into, FIRST | DATA | OUT },
    { "kc_from_little_endian", from_little_endian, from_little_endian_into, FIRST | DATA | OUT },
    { "kc_read_record", read_record, read_record_into, FIRST | SECOND | DATA | OUT },
};

static const entry book_entries[] = {
    { "kc_store_check", store_check, store_check_into, BOOK },
    { "kc_store_add", store_add, store_add_into, BOOK | FIRST | DATA },
    { "kc_store_find", store_find, store_find_into, BOOK },
    { "kc_store_list", store_list, store_list_into, BOOK | PLACES },
};

static buffer first, second, data, book;

static question question_of(size_t number)
{
    const one_case *c = &cases[number];
    fill(&first, c->first);
    fill(&second, c->reader);
    fill(&data, c->data);
    question q = { first.bytes, second.bytes, data.bytes, c->path, first.length, second.length, data.length, c->path_len, c->room, false,
                   NULL, book.bytes, 0, 0, false, 0 };
    return q;
}

static question book_question(size_t number)
{
    const book_case *c = &book_cases[number];
    fill(&first, c->descriptor);
    fill(&data, c->data);
    fill(&book, c->book);
    question q = { first.bytes, second.bytes, data.bytes, NULL, first.length, 0, data.length, 0, 0, false,
                   NULL, book.bytes, book.length, c->places, false, c->identifier };
    return q;
}

static const char *case_name(size_t number)
{
    return cases[number].what;
}

static const char *book_name(size_t number)
{
    return book_cases[number].what;
}

/* Entries, and the cases that they are asked about. */
typedef struct {
    const entry *entries;
    size_t entry_count, case_count;
    question (*question_of)(size_t number);
    const char *(*name_of)(size_t number);
} subject;

static const subject subjects[] = {
    { entries, sizeof entries / sizeof entries[0], CASES, question_of, case_name },
    { book_entries, sizeof book_entries / sizeof book_entries[0], BOOK_CASES, book_question, book_name },
};

enum { SUBJECTS = sizeof subjects / sizeof subjects[0] };

/* Whether two entries leave the same in painted memory, guards included. */
static bool same(ask *one, const question *first_asked, ask *other, const question *then_asked)
{
    static left a, b;
    memset(&a, PAINT, sizeof a);
    memset(&b, PAINT, sizeof b);
    one(first_asked, &a);
    other(then_asked, &b);
    return memcmp(&a, &b, sizeof a) == 0;
}

static void test_lent(const subject *s)
{
    for (size_t i = 0; i < s->case_count; i++) {
        question q = s->question_of(i);
        for (size_t e = 0; e < s->entry_count; e++) {
            const entry *asked = &s->entries[e];
            char what[80];
            snprintf(what, sizeof what, "%s_into as %s", asked->name, asked->name);
            report(same(asked->by_struct, &q, asked->by_numbers, &q), what, s->name_of(i));
        }
    }
}

/* The one question that takes no array. */
static void test_stamps(void)
{
    question q = question_of(0);
    for (size_t i = 0; i < STAMP_CASES; i++) {
        q.stamps = &stamp_cases[i];
        report(same(stamp_difference, &q, stamp_difference_into, &q), "kc_stamp_difference_into as kc_stamp_difference", q.stamps->what);
    }
}

/* The same question with these arrays empty, NULL or not. */
static question emptied(question q, int which, bool null)
{
    if (which & FIRST) {
        q.first = null ? NULL : q.first;
        q.first_len = 0;
    }
    if (which & SECOND) {
        q.second = null ? NULL : q.second;
        q.second_len = 0;
    }
    if (which & DATA) {
        q.data = null ? NULL : q.data;
        q.data_len = 0;
    }
    if (which & PATH) {
        q.path = null ? NULL : q.path;
        q.path_len = 0;
    }
    if (which & OUT) {
        q.out_null = null;
        q.out_len = 0;
    }
    if (which & BOOK) {
        q.book = null ? NULL : q.book;
        q.book_len = 0;
    }
    if (which & PLACES) {
        q.places_null = null;
        q.places = 0;
    }
    return q;
}

/* Whether NULL for these arrays changes nothing of what either form of an entry leaves, whatever the others are. */
static bool null_is_empty(const subject *s, const entry *e, int which)
{
    bool good = true;
    for (size_t i = 0; i < s->case_count; i++) {
        question q = s->question_of(i);
        question empty = emptied(q, which, false), null = emptied(q, which, true);
        good = good && same(e->by_struct, &empty, e->by_struct, &null) && same(e->by_numbers, &empty, e->by_numbers, &null);
    }
    return good;
}

static void test_null(const subject *s)
{
    static const char *const names[ARRAYS] = { "descriptor", "second descriptor", "data", "path", "output", "book", "places" };
    for (size_t i = 0; i < s->entry_count; i++) {
        const entry *e = &s->entries[i];
        char what[80];
        snprintf(what, sizeof what, "NULL with length 0 to %s and %s_into", e->name, e->name);
        for (int a = 0; a < ARRAYS; a++) {
            if (e->takes & (1 << a)) {
                report(null_is_empty(s, e, 1 << a), what, names[a]);
            }
        }
        report(null_is_empty(s, e, e->takes), what, "all of them");
    }
}

int main(void)
{
    const size_t bytes = 16 + CASE_ROOM + 16 + CASE_BYTES + 16 + 16;
    report(sizeof(left) == 17 * 8 + 20 * 4 + (16 + KC_TABLE_NUMBERS) * 2 + bytes, "no padding between the guards", "");
    for (size_t s = 0; s < SUBJECTS; s++) {
        test_lent(&subjects[s]);
        test_null(&subjects[s]);
    }
    test_stamps();
    return all_ok ? 0 : 1;
}
