/*
 * How much stack each entry takes, against what docs/PROVED.md states. Given that file as its argument.
 *
 * Each entry is asked on a thread whose stack is a painted buffer, and the paint that is left says how deep it went; what a thread uses
 * that calls an empty function instead is taken off. The inputs are every nesting of arrays and clusters up to one level too many, with
 * each kind of value innermost and with and without others beside it, and a cluster of many members; each is asked whole, cut at every
 * byte and with every byte changed, in its descriptor and in its data. The difference of time stamps is asked of stamps near and far with
 * each of these. A book has each of these as its record, and is asked to add it: as it is, and in a cluster with a blank's identifier. Then
 * the deepest are asked on the smallest stack of a thread, and of the entries that need more on a larger one. The version, for which there is
 * nothing to ask, takes what the empty function does.
 */
#define _DEFAULT_SOURCE
#include <kerbcanopy.h>

#include <pthread.h>
#include <stdbool.h>
#include <stdint.h>
#include <stdio.h>
#include <stdlib.h>
#include <string.h>
#include <sys/mman.h>
#include <unistd.h>

enum {
    CHECK_DESCRIPTOR,
    COMPARE,
    NORMAL_FORM,
    CHECK_DATA,
    VIEW,
    READ_VALUE,
    TO_LITTLE_ENDIAN,
    FROM_LITTLE_ENDIAN,
    READ_RECORD,
    STAMP_DIFFERENCE,
    STORE_CHECK,
    STORE_ADD,
    STORE_FIND,
    STORE_LIST,
    INTO, /* from here on those that fill lent numbers, in the same order */
    ENTRIES = 2 * INTO,
    VERSION = ENTRIES, /* which takes nothing and has one form */
    NOTHING,           /* the empty function, called as the first are */
    NOTHING_INTO,      /* as the others are */
    NOTHING_CHECKED,   /* as the first of all is */
    NOTHING_BOOK,      /* as those of books are */
    NOTHING_BOOK_INTO  /* and as those of books that fill lent numbers are */
};

enum {
    DEEPEST = 9,       /* one level more than is accepted */
    LEVELS = DEEPEST - 1,
    ROOM = 65536,
    STEPS = 1024,
    MEMBERS = 250,
    STACK = 64 * 1024,
    PAINT = 0xA5,
    QUESTIONS = 8192,
    NUMBERS = 65       /* one more than the highest number of an answer */
};

static const char *const names[ENTRIES] = {
    "kc_check_descriptor",
    "kc_compare",
    "kc_normal_form",
    "kc_check_data",
    "kc_view",
    "kc_read_value",
    "kc_to_little_endian",
    "kc_from_little_endian",
    "kc_read_record",
    "kc_stamp_difference",
    "kc_store_check",
    "kc_store_add",
    "kc_store_find",
    "kc_store_list",
    "kc_check_descriptor_into",
    "kc_compare_into",
    "kc_normal_form_into",
    "kc_check_data_into",
    "kc_view_into",
    "kc_read_value_into",
    "kc_to_little_endian_into",
    "kc_from_little_endian_into",
    "kc_read_record_into",
    "kc_stamp_difference_into",
    "kc_store_check_into",
    "kc_store_add_into",
    "kc_store_find_into",
    "kc_store_list_into",
};

typedef struct {
    uint8_t bytes[4096];
    size_t length;
} buffer;

/* What is lent to an entry. Where `changed` is not NULL the byte there is another one during the call. */
typedef struct {
    size_t first_len, data_len, path_len, room;
    uint8_t *changed;
} question;

static buffer first, second, data, little;
static uint32_t path[STEPS];
static uint8_t out[ROOM];
static question questions[QUESTIONS];
static size_t question_count;
static size_t answers[NOTHING_BOOK_INTO + 1][NUMBERS];

/* A time stamp: the halves of its seconds, and either half of its fraction. */
typedef struct {
    int32_t high, low;
    uint32_t fraction;
} stamp;

/* The stamp of a number: its seconds at either end or about 0, its fraction none or the highest. */
static stamp stamp_of(size_t number) {
    static const int32_t highs[] = {0, -1, INT32_MIN, INT32_MAX};
    return (stamp){highs[number % 4], number / 4 % 2 ? -1 : 0, number / 8 % 2 ? UINT32_MAX : 0};
}

static void do_nothing(void) {}
static void (*volatile nothing)(void) = do_nothing;

static void count(int entry, uint32_t number) {
    answers[entry][number % NUMBERS]++;
}

/* A record, and a book with it or for it; the identifier is 9 where it has one. */
typedef struct {
    uint8_t type[4096 + 16], value[4096 + 4], book[16384];
    size_t type_len, value_len, book_len;
} kept;

static kept record;

/* Sets the record of a question: what it is lent, as it is or in a cluster behind a blank's identifier. */
static void set_record(const question *q, bool with_blank) {
    static const uint8_t blank[] = {0, 0, 0, 0x50, 0, 2, 0, 10, 0, 7, 5, 'b', 'l', 'a', 'n', 'k'}, nine[] = {0, 0, 0, 9};
    const size_t before = with_blank ? sizeof blank : 0, size = before + q->first_len;
    record.type_len = size;
    record.value_len = (with_blank ? sizeof nine : 0) + q->data_len;
    memcpy(record.type, blank, before);
    memcpy(record.type + before, first.bytes, q->first_len);
    memcpy(record.value, nine, record.value_len - q->data_len);
    memcpy(record.value + record.value_len - q->data_len, data.bytes, q->data_len);
    if (with_blank) {
        record.type[0] = (uint8_t)(size >> 8);
        record.type[1] = (uint8_t)size;
    }
}

static void put_number(uint8_t *to, size_t number) {
    const uint8_t bytes[] = {0, 0, (uint8_t)(number >> 8), (uint8_t)number};
    memcpy(to, bytes, sizeof bytes);
}

/* Sets the book: `capacity` entries, of which the first has the record where one is in use, and so many bytes free. */
static void set_book(unsigned capacity, unsigned used, size_t free) {
    const size_t contents = 4 + 16 * capacity;
    memset(record.book, 0, contents);
    record.book[1] = (uint8_t)capacity;
    record.book[3] = (uint8_t)used;
    record.book_len = contents + free;
    if (used == 0)
        return;
    put_number(record.book + 4, 9);
    put_number(record.book + 8, contents);
    put_number(record.book + 12, record.type_len);
    put_number(record.book + 16, record.value_len);
    memcpy(record.book + contents, record.type, record.type_len);
    memcpy(record.book + contents + record.type_len, record.value, record.value_len);
    record.book_len += record.type_len + record.value_len;
}

/* The book that a record is added to: with no entry, with the same record, with no room, or with an entry and room for it. */
static void set_book_for(const question *q) {
    const size_t room = record.type_len + record.value_len;
    if (q->path_len == 0)
        set_book(0, 0, room);
    else if (q->path_len == 1)
        set_book(2, 1, room);
    else
        set_book(2, 0, q->room == 0 ? room - 1 : room);
}

/*
 * The frame of this function is there for every entry that it calls and for the empty function, so it is in no figure. Counting comes
 * after every call, so that none becomes a jump that gives the frame up.
 */
static void ask(int entry, const question *q) {
    static kc_answer answer;
    const uint8_t *f = first.bytes, *s = second.bytes, *d = data.bytes;
    const size_t number = (size_t)(q - questions);
    const stamp a = stamp_of(number), b = stamp_of(number / 16);
    switch (entry) {
    case COMPARE:
        answer = kc_compare(f, q->first_len, s, second.length).answer;
        break;
    case NORMAL_FORM:
        answer = kc_normal_form(f, q->first_len, out, q->room);
        break;
    case CHECK_DATA:
        answer = kc_check_data(f, q->first_len, d, q->data_len);
        break;
    case VIEW:
        answer = kc_view(f, q->first_len, d, q->data_len, path, q->path_len).answer;
        break;
    case READ_VALUE:
        answer = kc_read_value(f, q->first_len, d, q->data_len, path, q->path_len).answer;
        break;
    case TO_LITTLE_ENDIAN:
        answer = kc_to_little_endian(f, q->first_len, d, q->data_len, out, q->room);
        break;
    case FROM_LITTLE_ENDIAN:
        answer = kc_from_little_endian(f, q->first_len, d, q->data_len, out, q->room);
        break;
    case READ_RECORD:
        answer = kc_read_record(f, q->first_len, s, second.length, d, q->data_len, out, q->room);
        break;
    case STAMP_DIFFERENCE:
        answer = kc_stamp_difference(a.high, a.low, a.fraction, a.fraction, b.high, b.low, b.fraction, b.fraction).answer;
        break;
    case VERSION:
        answer.number = kc_version();
        break;
    default:
        nothing();
    }
    count(entry, answer.number);
}

/* The same for the entries that fill lent numbers. */
static void ask_into(int entry, const question *q) {
    static uint32_t answer[KC_ANSWER_NUMBERS], kind;
    static uint16_t table[KC_TABLE_NUMBERS];
    static uint64_t start, length, bits, fraction;
    static int64_t seconds;
    static uint8_t equal;
    const uint8_t *f = first.bytes, *s = second.bytes, *d = data.bytes;
    const size_t number = (size_t)(q - questions);
    const stamp a = stamp_of(number), b = stamp_of(number / 16);
    switch (entry - INTO) {
    case CHECK_DESCRIPTOR:
        kc_check_descriptor_into(f, q->first_len, answer, table);
        break;
    case COMPARE:
        kc_compare_into(f, q->first_len, s, second.length, answer, &equal);
        break;
    case NORMAL_FORM:
        kc_normal_form_into(f, q->first_len, out, q->room, answer);
        break;
    case CHECK_DATA:
        kc_check_data_into(f, q->first_len, d, q->data_len, answer);
        break;
    case VIEW:
        kc_view_into(f, q->first_len, d, q->data_len, path, q->path_len, answer, &start, &length);
        break;
    case READ_VALUE:
        kc_read_value_into(f, q->first_len, d, q->data_len, path, q->path_len, answer, &kind, &bits);
        break;
    case TO_LITTLE_ENDIAN:
        kc_to_little_endian_into(f, q->first_len, d, q->data_len, out, q->room, answer);
        break;
    case FROM_LITTLE_ENDIAN:
        kc_from_little_endian_into(f, q->first_len, d, q->data_len, out, q->room, answer);
        break;
    case READ_RECORD:
        kc_read_record_into(f, q->first_len, s, second.length, d, q->data_len, out, q->room, answer);
        break;
    case STAMP_DIFFERENCE:
        kc_stamp_difference_into(a.high, a.low, a.fraction, a.fraction, b.high, b.low, b.fraction, b.fraction, answer, &seconds, &fraction);
        break;
    default:
        nothing();
    }
    count(entry, answer[0]);
}

/* The same for a book's entries, with the record as it is and with a blank's identifier. */
static void ask_book(int entry, const question *q) {
    static kc_answer answer;
    static uint32_t identifiers[2];
    const size_t places = q->room == 0 ? 0 : 2;
    for (int with_blank = 0; with_blank < 2; with_blank++) {
        set_record(q, with_blank);
        set_book(2, 1, 7);
        switch (entry) {
        case STORE_CHECK:
            answer = kc_store_check(record.book, record.book_len);
            break;
        case STORE_ADD:
            set_book_for(q);
            answer = kc_store_add(record.book, record.book_len, record.type, record.type_len, record.value, record.value_len);
            break;
        case STORE_FIND:
            answer = kc_store_find(record.book, record.book_len, q->path_len == 0 ? 8 : 9).answer;
            break;
        case STORE_LIST:
            answer = kc_store_list(record.book, record.book_len, identifiers, places);
            break;
        default:
            nothing();
        }
        count(entry, answer.number);
    }
}

/* The same for those that fill lent numbers. */
static void ask_book_into(int entry, const question *q) {
    static uint32_t answer[KC_ANSWER_NUMBERS], identifiers[2];
    static uint64_t start, length;
    const size_t places = q->room == 0 ? 0 : 2;
    for (int with_blank = 0; with_blank < 2; with_blank++) {
        set_record(q, with_blank);
        set_book(2, 1, 7);
        switch (entry - INTO) {
        case STORE_CHECK:
            kc_store_check_into(record.book, record.book_len, answer);
            break;
        case STORE_ADD:
            set_book_for(q);
            kc_store_add_into(record.book, record.book_len, record.type, record.type_len, record.value, record.value_len, answer);
            break;
        case STORE_FIND:
            kc_store_find_into(record.book, record.book_len, q->path_len == 0 ? 8 : 9, answer, &start, &length);
            break;
        case STORE_LIST:
            kc_store_list_into(record.book, record.book_len, identifiers, places, answer);
            break;
        default:
            nothing();
        }
        count(entry, answer[0]);
    }
}

/* The same for the one entry whose struct, in the frame here, is as large as a small stack's quarter. */
static void ask_checked(int entry, const question *q) {
    static kc_answer answer;
    if (entry == CHECK_DESCRIPTOR)
        answer = kc_check_descriptor(first.bytes, q->first_len).answer;
    else
        nothing();
    count(entry, answer.number);
}

/* Which of the five functions asks an entry, or calls the empty function. */
static int asked_by(int entry) {
    if (entry >= NOTHING)
        return entry - NOTHING;
    if (entry == VERSION)
        return 0;
    if (entry == CHECK_DESCRIPTOR)
        return 2;
    return (entry % INTO >= STORE_CHECK ? 3 : 0) + (entry >= INTO);
}

/* Called through pointers that may change, so that no function's frame becomes part of its caller's. */
static void (*volatile asking[])(int entry, const question *q) = {ask, ask_into, ask_checked, ask_book, ask_book_into};

typedef struct {
    int entry;
    const volatile uint8_t *stack;
    size_t painted;
} task;

/* Asks an entry all questions. Looks at the paint before the thread ends, since what ending takes is no entry's. */
static void *answer_all(void *argument) {
    task *t = argument;
    for (size_t i = 0; i < question_count; i++) {
        uint8_t *changed = questions[i].changed;
        if (changed)
            *changed ^= 0xFF;
        asking[asked_by(t->entry)](t->entry, &questions[i]);
        if (changed)
            *changed ^= 0xFF;
    }
    while (t->stack[t->painted] == PAINT)
        t->painted++;
    return NULL;
}

static void must(bool held, const char *what) {
    if (!held) {
        printf("not ok %s\n", what);
        exit(1);
    }
}

/* A stack; what runs past its end meets a page that can't be touched. */
static uint8_t *new_stack(size_t size) {
    size_t page = (size_t)sysconf(_SC_PAGESIZE);
    uint8_t *memory = mmap(NULL, page + size, PROT_READ | PROT_WRITE, MAP_PRIVATE | MAP_ANONYMOUS, -1, 0);
    must(memory != MAP_FAILED && mprotect(memory, page, PROT_NONE) == 0, "memory for a stack");
    return memory + page;
}

static void exchange(buffer *a, buffer *b) {
    buffer kept = *a;
    *a = *b;
    *b = kept;
}

/* How many bytes of its stack a thread uses that asks all questions. */
static size_t used_by(uint8_t *stack, size_t size, int entry) {
    task t = {entry, stack, 0};
    pthread_attr_t attributes;
    pthread_t thread;
    memset(stack, PAINT, size);
    must(pthread_attr_init(&attributes) == 0, "attributes of a thread");
    must(pthread_attr_setstack(&attributes, stack, size) == 0, "a thread's stack");
    must(pthread_create(&thread, &attributes, answer_all, &t) == 0, "a thread");
    must(pthread_join(thread, NULL) == 0, "the end of a thread");
    pthread_attr_destroy(&attributes);
    return size - t.painted;
}

/* The same, the data being in the byte order that the entry reads. */
static size_t used(uint8_t *stack, size_t size, int entry) {
    if (entry % INTO != FROM_LITTLE_ENDIAN)
        return used_by(stack, size, entry);
    exchange(&data, &little);
    size_t bytes = used_by(stack, size, entry);
    exchange(&data, &little);
    return bytes;
}

static void put(buffer *b, const void *bytes, size_t length) {
    must(b->length + length <= sizeof b->bytes, "a nesting that fits its buffer");
    memcpy(b->bytes + b->length, bytes, length);
    b->length += length;
}

static void put_word(buffer *b, size_t word) {
    const uint8_t bytes[2] = {(uint8_t)(word >> 8), (uint8_t)word};
    put(b, bytes, 2);
}

static void put_descriptor(buffer *b, unsigned reserved, unsigned code, const buffer *body, uint8_t name) {
    const uint8_t pascal[2] = {1, name};
    put_word(b, 4 + body->length + 2);
    put_word(b, reserved << 8 | code);
    put(b, body->bytes, body->length);
    put(b, pascal, 2);
}

/* The kinds that stand innermost: Boolean, enumeration, double, complex single, quantity, string, time stamp. */
static const char leaves[] = "bedxqst";

/* A kind's descriptor and one value of it. */
static void put_leaf(char kind, unsigned reserved, uint8_t name, buffer *type, buffer *value) {
    static const struct {
        uint8_t code, body_length, value_length, body[24], value[16];
    } kinds[] = {
        {0x21, 0, 1, {0}, {1}},
        {0x16, 4, 2, {0, 1, 1, 'e'}, {0, 0}},
        {0x0A, 0, 8, {0}, {0x40, 9, 0x21, 0xFB, 0x54, 0x44, 0x2D, 0x18}},
        {0x0C, 0, 8, {0}, {0x3F, 0x80, 0, 0, 0x40, 0, 0, 0}},
        {0x1A, 6, 8, {0, 1, 0, 2, 0xFF, 0xFF}, {0x3F, 0xF0, 0, 0, 0, 0, 0, 0}},
        {0x30, 4, 6, {0xFF, 0xFF, 0xFF, 0xFF}, {0, 0, 0, 2, 'o', 'k'}},
        {0x54, 24, 16, {0, 6, 0, 22, 0, 0x50, 0, 4, 0, 4, 0, 3, 0, 4, 0, 3, 0, 4, 0, 7, 0, 4, 0, 7}, {0, 0, 0, 0, 0xDA}},
    };
    size_t i = (size_t)(strchr(leaves, kind) - leaves);
    buffer body = {.length = 0};
    put(&body, kinds[i].body, kinds[i].body_length);
    put_descriptor(type, reserved, kinds[i].code, &body, name);
    put(value, kinds[i].value, kinds[i].value_length);
}

/* Arrays 'a' and clusters 'c' from the outermost in, then the kind innermost. What stands in each cluster before the next and after it. */
typedef struct {
    char levels[LEVELS + 1], leaf;
    const char *before, *after;
} nesting;

static void wrap_array(unsigned reserved, buffer *type, buffer *value) {
    buffer body = {.length = 0}, outer = {.length = 0}, elements = {.length = 0};
    put(&body, "\0\1\xFF\xFF\xFF\xFF", 6);
    put(&body, type->bytes, type->length);
    put_descriptor(&outer, reserved, 0x40, &body, 'm');
    put(&elements, "\0\0\0\2", 4);
    put(&elements, value->bytes, value->length);
    put(&elements, value->bytes, value->length);
    *type = outer;
    *value = elements;
}

static void wrap_cluster(const nesting *n, unsigned reserved, buffer *type, buffer *value) {
    buffer body = {.length = 0}, outer = {.length = 0}, members = {.length = 0};
    uint8_t name = 'm' + 1; /* each member has a name of its own */
    put_word(&body, strlen(n->before) + 1 + strlen(n->after));
    for (const char *kind = n->before; *kind; kind++)
        put_leaf(*kind, reserved, name++, &body, &members);
    put(&body, type->bytes, type->length);
    put(&members, value->bytes, value->length);
    for (const char *kind = n->after; *kind; kind++)
        put_leaf(*kind, reserved, name++, &body, &members);
    put_descriptor(&outer, reserved, 0x50, &body, 'm');
    *type = outer;
    *value = members;
}

static void build(const nesting *n, unsigned reserved, buffer *type, buffer *value) {
    type->length = 0;
    value->length = 0;
    put_leaf(n->leaf, reserved, 'm', type, value);
    for (size_t level = strlen(n->levels); level > 0; level--) {
        if (n->levels[level - 1] == 'a')
            wrap_array(reserved, type, value);
        else
            wrap_cluster(n, reserved, type, value);
    }
}

static question *add(void) {
    must(question_count < QUESTIONS, "a nesting with room for its questions");
    question *q = &questions[question_count++];
    *q = (question){first.length, data.length, DEEPEST, ROOM, NULL};
    return q;
}

/* The questions under a nesting. The second descriptor differs from the first in every reserved byte: they are compared to the end. */
static void prepare(const nesting *n) {
    build(n, 0x40, &second, &data);
    build(n, 0, &first, &data);
    little = data; /* stays so where the descriptor is refused */
    kc_to_little_endian(first.bytes, first.length, data.bytes, data.length, little.bytes, little.length);
    question_count = 0;
    for (size_t i = 0; i < STEPS; i++)
        path[i] = (uint32_t)strlen(n->before);
    for (size_t i = 0; i <= DEEPEST; i++)
        add()->path_len = i;
    add()->path_len = STEPS;
    add()->room = 0;
    for (size_t i = 0; i < first.length; i++) {
        add()->first_len = i;
        add()->changed = &first.bytes[i];
    }
    for (size_t i = 0; i < data.length; i++) {
        add()->data_len = i;
        add()->changed = &data.bytes[i];
    }
    add()->first_len = first.length + 1;
    add()->data_len = data.length + 1;
}

/* What a thread uses without the entry. */
static size_t used_without(uint8_t *stack, size_t size, int entry) {
    return used(stack, size, NOTHING + asked_by(entry));
}

static size_t deepest[ENTRIES]; /* above what a thread uses by itself */
static nesting worst[ENTRIES];

static void measure(uint8_t *stack, const nesting *n) {
    prepare(n);
    for (int e = 0; e < ENTRIES; e++) {
        size_t more = used(stack, STACK, e) - used_without(stack, STACK, e);
        if (more > deepest[e]) {
            deepest[e] = more;
            worst[e] = *n;
        }
    }
}

/* Every row of `count` arrays and clusters but an array in an array, which is refused before it is entered. */
static void measure_levels(uint8_t *stack, nesting n, size_t count) {
    for (unsigned arrays = 0; arrays < 1u << count; arrays++) {
        if (arrays & arrays << 1)
            continue;
        for (size_t i = 0; i < count; i++)
            n.levels[i] = arrays >> i & 1 ? 'a' : 'c';
        measure(stack, &n);
    }
}

static void measure_all(uint8_t *stack) {
    static const char *const beside[][2] = {{"", ""}, {"b", "e"}, {"s", "b"}};
    static char many[MEMBERS + 1];
    for (size_t b = 0; b < sizeof beside / sizeof beside[0]; b++)
        for (const char *leaf = leaves; *leaf; leaf++)
            for (size_t count = 0; count <= LEVELS; count++)
                measure_levels(stack, (nesting){"", *leaf, beside[b][0], beside[b][1]}, count);
    /* No time stamp among them: each takes six rows. */
    for (size_t i = 0; i < MEMBERS; i++)
        many[i] = leaves[i % (strlen(leaves) - 1)];
    measure_levels(stack, (nesting){"", 'b', many, ""}, 1);
}

/* The figure in the row of the entry, "| `name` | 1,234 | ..", of which there is one; else 0. */
static size_t stated(FILE *document, const char *entry) {
    char line[1024], name[64], digits[16];
    size_t figure = 0, rows = 0;
    rewind(document);
    while (fgets(line, sizeof line, document)) {
        if (sscanf(line, "| `%63[a-z_]` | %15[0-9,] |", name, digits) != 2 || strcmp(name, entry) != 0)
            continue;
        rows++;
        figure = 0;
        for (const char *c = digits; *c; c++)
            figure = *c == ',' ? figure : figure * 10 + (size_t)(*c - '0');
    }
    return rows == 1 ? figure : 0;
}

/* A bound holds, and is not more than twice what is needed. */
static bool compare(FILE *document) {
    bool good = true;
    for (int e = 0; e < ENTRIES; e++) {
        size_t bound = stated(document, names[e]);
        bool holds = deepest[e] > 0 && deepest[e] <= bound && bound <= 2 * deepest[e];
        printf("%s %s: measured %zu bytes, stated %zu\n", holds ? "ok" : "not ok", names[e], deepest[e], bound);
        good = good && holds;
    }
    return good;
}

/* The version takes no more than the empty function does, its return address. */
static bool compare_version(FILE *document, uint8_t *stack) {
    prepare(&(nesting){"", 'b', "", ""});
    size_t bound = stated(document, "kc_version"), more = used(stack, STACK, VERSION) - used_without(stack, STACK, VERSION);
    bool holds = more == 0 && bound == sizeof(void *);
    printf("%s kc_version: measured %zu bytes above the empty function, stated %zu\n", holds ? "ok" : "not ok", more, bound);
    return holds;
}

/* The smallest stack that a thread may have; 8 KiB more for the two entries that it is too small for, which hand out a table. */
static size_t small(int entry) {
    size_t smallest = (size_t)sysconf(_SC_THREAD_STACK_MIN);
    return entry % INTO == CHECK_DESCRIPTOR ? smallest + 8192 : smallest;
}

/* Asks each entry its deepest nesting's questions on a small stack. */
static bool ask_small(void) {
    bool good = true;
    for (int e = 0; e < ENTRIES; e++) {
        size_t size = small(e);
        uint8_t *stack = new_stack(size);
        prepare(&worst[e]);
        bool fits = used_without(stack, size, e) + deepest[e] < size && used(stack, size, e) < size;
        printf("%s %s: on a thread with %zu bytes of stack in all\n", fits ? "ok" : "not ok", names[e], size);
        good = good && fits;
    }
    return good;
}

/* Each entry was accepted and was refused with the numbers that stand for its parts, so the questions are what they are meant to be. */
static bool answered(void) {
    static const unsigned numbers[INTO][16] = {
        {2, 4, 6, 11, 12}, {2, 4, 6, 11, 12}, {6, 12, 50}, {6, 12, 21, 22, 23, 25}, {6, 21, 22, 23, 25, 30},
        {6, 21, 22, 23, 25, 30, 31}, {6, 21, 22, 23, 25, 50}, {6, 21, 22, 23, 25, 50}, {6, 21, 22, 23, 25, 40, 44, 50}, {32},
        {63}, {6, 21, 22, 23, 25, 41, 42, 60, 61, 62}, {63, 64}, {50, 63},
    };
    bool good = true;
    for (int e = 0; e < ENTRIES; e++) {
        size_t missed = answers[e][0] == 0;
        for (const unsigned *number = numbers[e % INTO]; *number; number++)
            missed += answers[e][*number] == 0;
        printf("%s %s: accepted, and refused in each of its parts\n", missed == 0 ? "ok" : "not ok", names[e]);
        good = good && missed == 0;
    }
    return good;
}

int main(int argc, char **argv) {
    FILE *document = argc == 2 ? fopen(argv[1], "r") : NULL;
    must(document != NULL, "stack: the document that states the bounds");
    uint8_t *stack = new_stack(STACK);
    /* Of what the library calls of C, memset and memcpy are bound by now. This binds the third, so that no measured call does. */
    memmove(stack, stack + 1, STACK - 1);
    measure_all(stack);
    bool good = compare(document);
    good = compare_version(document, stack) && good;
    good = ask_small() && good;
    good = answered() && good;
    fclose(document);
    return good ? 0 : 1;
}
