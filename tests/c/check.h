/* What the C tests share: records written as text, slices lent in every way, and everything looked at after a call.
 *
 * A test names each case and says what must come. The calls are then made in several ways, one after the other, and the same must come each
 * time: with memory of exactly the right size from malloc (a sanitizer and valgrind see a byte too many there); against a page that may not be
 * touched, behind the slice and before it (any machine sees it there, also where no sanitizer reaches); and with NULL for every empty slice.
 * The buffers are dirty before, in each way with other bytes.
 *
 * What is said of a record is said once for both of its forms. A record is built from its document's count on, and places in it are counted from
 * there. Where it is handed over its options go beside it, or, in form 2, before it: as the first section.
 */
#ifndef CHECK_H
#define CHECK_H

#ifndef _DEFAULT_SOURCE
#define _DEFAULT_SOURCE /* MAP_ANONYMOUS */
#endif

#include <ledgerlark.h>

#include <signal.h>
#include <stdio.h>
#include <stdlib.h>
#include <string.h>
#include <sys/mman.h>
#include <unistd.h>

/* --- cases and failures --- */

static const char *case_name = "";
static unsigned cases, failures;

/* The ways in which slices are lent. */
enum way { EXACT, PAGE_BEHIND, PAGE_BEFORE, NULLS, WAYS };
static const char *const way_names[WAYS] = {"exact", "page behind", "page before", "nulls"};
static const uint8_t way_dirt[WAYS] = {0xa5, 0xa5, 0x5a, 0x00};
static int way;

/* The forms of a record, and of a section: the bytes before the document's count, those of an event, and those of the longest section. */
enum form { OLD, SECOND, FORMS };
static const char *const form_names[FORMS] = {"", "form 2, "};
static const size_t fronts[FORMS] = {0, 5}, widths[FORMS] = {8, 12}, ample[FORMS] = {LARK_OUT_BYTES, LARK_OUT2_BYTES};
static int form;

static inline void begin(const char *name) {
    case_name = name;
    if (way == 0) cases++;
}

/* Counts a failure that was said. Of a library that is wrong on purpose one is enough. */
static inline void failed(void) {
    failures++;
#ifdef WRONG
    exit(1);
#endif
}

static inline void fail(const char *what, size_t got, size_t want) {
    printf("FAIL: %s (%s%s): %s is %zu, not %zu\n", case_name, form_names[form], way_names[way], what, got, want);
    failed();
}

static inline void equal(const char *what, size_t got, size_t want) {
    if (got != want) fail(what, got, want);
}

/* --- slices --- */

struct slice {
    uint8_t *p; /* what is lent */
    size_t n;
    uint8_t *base; /* what it lies in, without the page that may not be touched; NULL where it came from malloc */
    size_t size;
    uint8_t *map;
    size_t map_size;
};

static inline void *sure(void *p) {
    if (p == NULL || p == MAP_FAILED) {
        printf("FAIL: no memory for the tests\n");
        exit(1);
    }
    return p;
}

static inline struct slice lend(size_t n) {
    struct slice s;
    memset(&s, 0, sizeof s);
    s.n = n;
    if (way == NULLS && n == 0) return s;
    if (way == EXACT || way == NULLS) {
        s.p = (uint8_t *)sure(malloc(n + (n == 0)));
    } else {
        size_t page = (size_t)sysconf(_SC_PAGESIZE);
        s.size = (n / page + 1) * page;
        s.map_size = s.size + page;
        s.map = (uint8_t *)sure(mmap(NULL, s.map_size, PROT_READ | PROT_WRITE, MAP_PRIVATE | MAP_ANONYMOUS, -1, 0));
        s.base = way == PAGE_BEHIND ? s.map : s.map + page;
        s.p = way == PAGE_BEHIND ? s.base + s.size - n : s.base;
        memset(s.base, way_dirt[way], s.size);
        if (mprotect(way == PAGE_BEHIND ? s.map + s.size : s.map, page, PROT_NONE) != 0) sure(NULL);
    }
    if (n) memset(s.p, way_dirt[way], n);
    return s;
}

/* Bytes that may be read only. */
static inline struct slice lend_bytes(const uint8_t *bytes, size_t n) {
    struct slice s = lend(n);
    if (n) memcpy(s.p, bytes, n);
    if (s.base && mprotect(s.base, s.size, PROT_READ) != 0) sure(NULL);
    return s;
}

/* Whether `n` bytes are all `byte`; says which is not. */
static inline void all_are(const char *what, const uint8_t *p, size_t n, uint8_t byte) {
    size_t i;
    if (n == 0 || (p[0] == byte && memcmp(p, p + 1, n - 1) == 0)) return;
    for (i = 0; p[i] == byte;) i++;
    printf("FAIL: %s (%s%s): %s, byte %zu is %u, not %u\n", case_name, form_names[form], way_names[way], what, i, (unsigned)p[i], (unsigned)byte);
    failed();
}

/* Whether bytes are as they must be; says where they are not. */
static inline void same(const char *what, const uint8_t *got, const uint8_t *want, size_t n) {
    size_t i;
    if (n == 0 || memcmp(got, want, n) == 0) return;
    for (i = 0; got[i] == want[i];) i++;
    printf("FAIL: %s (%s%s): %s, byte %zu is %u, not %u\n", case_name, form_names[form], way_names[way], what, i, (unsigned)got[i], (unsigned)want[i]);
    failed();
}

/* Nothing beside the slice was written; then it is freed. */
static inline void take_back(struct slice s) {
    if (s.base) {
        all_are("memory before the slice", s.base, (size_t)(s.p - s.base), way_dirt[way]);
        all_are("memory behind the slice", s.p + s.n, s.size - s.n - (size_t)(s.p - s.base), way_dirt[way]);
        munmap(s.map, s.map_size);
    } else {
        free(s.p);
    }
}

/* --- records and sections --- */

struct bytes {
    size_t n;
    uint8_t at[100000];
    size_t events; /* how many were put since their count, */
    size_t depth;  /* how many of these are open, and which */
    size_t open[LARK_MAX_RESULT];
};

static inline void put(struct bytes *b, const void *from, size_t n) {
    if (n > sizeof b->at - b->n) sure(NULL);
    if (n) memcpy(b->at + b->n, from, n);
    b->n += n;
}

static inline void put_many(struct bytes *b, uint8_t byte, size_t n) {
    while (n--) put(b, &byte, 1);
}

static inline void put_number(struct bytes *b, size_t number) {
    uint8_t four[4];
    lark_put_number(four, number);
    put(b, four, sizeof four);
}

static inline void put_document(struct bytes *b, const char *text, size_t n) {
    put_number(b, n);
    put(b, text, n);
}

/* The count of the events that follow. */
static inline void put_count(struct bytes *b, size_t events) {
    put_number(b, events);
    b->events = b->depth = 0;
}

/* An event of a section, or of a record that no lark_begin_record would make. In form 2 an exit and the innermost event that is open are partners; an
 * event that has none has 0. */
static inline void put_event(struct bytes *b, unsigned kind, unsigned name, size_t place) {
    size_t number = b->events++, partner = 0;
    put_many(b, (uint8_t)kind, 1);
    put_many(b, (uint8_t)name, 1);
    put_many(b, 0, 2);
    put_number(b, place);
    if (form == OLD) return;
    if (kind == LARK_ENTER) {
        if (b->depth == LARK_MAX_RESULT) sure(NULL);
        b->open[b->depth++] = number;
    } else if (b->depth) {
        partner = b->open[--b->depth];
        lark_put_number(b->at + b->n - 12 * (number - partner), number);
    }
    put_number(b, partner);
}

/* The next of events that are written as document 01 writes them: `+1@0 -1@1`. Behind an event its partner may stand: `+1@0/1 -1@1/0`. */
#define UNSAID SIZE_MAX
static inline int next_event(const char **text, struct lark_event2 *event) {
    const char *c = *text;
    char *end;
    if (*c == 0) return 0;
    event->kind = *c == '-';
    event->name = strtoul(c + 1, &end, 10);
    if ((*c != '+' && *c != '-') || end == c + 1 || *end != '@') {
        printf("FAIL: %s: these are no events: %s\n", case_name, c);
        exit(1);
    }
    event->place = strtoul(end + 1, &end, 10);
    event->partner = *end == '/' ? strtoul(end + 1, &end, 10) : UNSAID;
    while (*end == ' ') end++;
    *text = end;
    return 1;
}

/* Partners that are written out, true or untrue, in place of those in a section. */
static inline void put_partners(uint8_t *section, const char *events) {
    struct lark_event2 event;
    size_t i;
    for (i = 0; form == SECOND && next_event(&events, &event); i++)
        if (event.partner != UNSAID) lark_put_number(section + 4 + 12 * i + 8, event.partner);
}

/* A record, or a section: the bytes of each stay until its next use. */
static struct bytes record_bytes, section_bytes;

/* A record that the header's functions put together: begun, with an event more, and done. */
static struct lark_record building;
static struct lark_record2 building2;
static inline void begin_record(const void *text, size_t n) {
    if (form == OLD) building = lark_begin_record(record_bytes.at, sizeof record_bytes.at, text, n);
    if (form == SECOND) building2 = lark_begin_record2(record_bytes.at, sizeof record_bytes.at, 0, text, n);
}
static inline void add_event(size_t kind, size_t name, size_t place) {
    if (form == OLD) lark_add_event(&building, kind, name, place);
    if (form == SECOND) lark_add_event2(&building2, kind, name, place);
}
static inline const struct bytes *built(void) {
    record_bytes.n = (form == OLD ? building.length : building2.length) - fronts[form];
    memmove(record_bytes.at, record_bytes.at + fronts[form], record_bytes.n);
    return &record_bytes;
}

static inline const struct bytes *record_of(const char *text, size_t n, const char *events) {
    const char *rest = events;
    struct lark_event2 event;
    begin_record(text, n);
    while (next_event(&rest, &event)) add_event(event.kind, event.name, event.place);
    built();
    put_partners(record_bytes.at + 4 + n, events);
    return &record_bytes;
}
static inline const struct bytes *record(const char *text, const char *events) { return record_of(text, strlen(text), events); }

static inline const struct bytes *section(const char *events) {
    const char *rest = events;
    struct lark_event2 event;
    section_bytes.n = 0;
    put_count(&section_bytes, 0);
    while (next_event(&rest, &event)) put_event(&section_bytes, (unsigned)event.kind, (unsigned)event.name, event.place);
    lark_put_number(section_bytes.at, section_bytes.events);
    put_partners(section_bytes.at, events);
    return &section_bytes;
}

/* Where event `i` stands in a record with a document of `d` bytes; behind the last event, the record's end. */
static inline size_t event_place(size_t d, size_t i) { return 8 + d + widths[form] * i; }

/* A record of bare bytes: text with its length, so that zeros may stand in it. */
static inline const struct bytes *raw(const char *text, size_t n) {
    record_bytes.n = 0;
    put(&record_bytes, text, n);
    return &record_bytes;
}
#define RAW(text) raw(text, sizeof(text) - 1)

/* A record as a call is lent it: in form 2 with its first section. */
static inline const struct bytes *handed(const struct bytes *r, uint32_t options) {
    static struct bytes whole;
    whole.n = 0;
    if (form == SECOND) put_number(&whole, 1), put_many(&whole, (uint8_t)options, 1);
    put(&whole, r->at, r->n);
    return &whole;
}

/* A place in that record: numbers 3 to 6 have one. */
static inline size_t handed_place(size_t number, size_t place) { return number >= 3 && number <= 6 ? fronts[form] + place : place; }

/* --- calls, with everything looked at --- */

typedef struct lark_resolved resolver(const uint8_t *, size_t, uint32_t, uint8_t *, size_t, uint8_t *, size_t);
typedef struct lark_resolved resolver2(const uint8_t *, size_t, uint8_t *, size_t, uint8_t *, size_t);
enum { ATTENTION, HEADINGS, LISTS, RESOLVERS };
static resolver *const resolvers[RESOLVERS] = {lark_resolve_attention, lark_resolve_headings, lark_resolve_lists};
static resolver2 *const resolvers2[RESOLVERS] = {lark_resolve_attention2, lark_resolve_headings2, lark_resolve_lists2};

/* A resolver for a record as it was handed over, and lark_read. In the old form the options that are answered are those that were given. */
static inline struct lark_resolved resolve(int which, const uint8_t *record, size_t record_length, uint32_t options, uint8_t *out, size_t out_length,
                                           uint8_t *work, size_t work_length) {
    if (form == SECOND) return resolvers2[which](record, record_length, out, out_length, work, work_length);
    return resolvers[which](record, record_length, options, out, out_length, work, work_length);
}
static inline struct lark_reading2 read_record(const uint8_t *record, size_t record_length, uint32_t options, uint8_t *work, size_t work_length) {
    struct lark_reading old;
    struct lark_reading2 got;
    if (form == SECOND) return lark_read2(record, record_length, work, work_length);
    old = lark_read(record, record_length, options, work, work_length);
    got.number = old.number;
    got.place = old.place;
    got.options = old.number ? 0 : options;
    got.document = old.document;
    got.events = old.events;
    return got;
}

/* The output is the section, if there is one, and behind it as dirty as before. */
static inline void output_is(struct slice out, const struct bytes *want) {
    size_t n = want ? want->n : 0;
    if (n > out.n) {
        fail("the section's length", out.n, n);
        return;
    }
    if (n) same("the section", out.p, want->at, n);
    if (out.n > n) all_are(n ? "output past the section" : "output that must stay", out.p + n, out.n - n, way_dirt[way]);
}

/* A record that was handed over is read. */
static inline void reads_handed(const struct bytes *r, uint32_t options, size_t work_length, struct lark_reading2 want) {
    struct slice in = lend_bytes(r->at, r->n), work = lend(work_length);
    struct lark_reading2 got = read_record(in.p, in.n, options, work.p, work.n);
    equal("number", got.number, want.number);
    equal("place", got.place, want.place);
    equal("options", got.options, want.options);
    equal("document", got.document, want.document);
    equal("events", got.events, want.events);
    same("the record", in.p, r->at, r->n);
    all_are("work memory", work.p, work.n, 0);
    take_back(in);
    take_back(work);
}

static inline void reads(const struct bytes *r, uint32_t options, size_t work_length, size_t number, size_t place, size_t document, size_t events) {
    struct lark_reading2 want;
    want.number = number;
    want.place = handed_place(number, place);
    want.options = number ? 0 : options;
    want.document = document;
    want.events = events;
    reads_handed(handed(r, options), options, work_length, want);
}

/* A record that was handed over is resolved. */
static inline void resolves_handed(int which, const struct bytes *r, uint32_t options, size_t out_length, size_t work_length,
                                   struct lark_resolved want, const struct bytes *result) {
    struct slice in = lend_bytes(r->at, r->n), out = lend(out_length), work = lend(work_length);
    struct lark_resolved got = resolve(which, in.p, in.n, options, out.p, out.n, work.p, work.n);
    equal("number", got.number, want.number);
    equal("place", got.place, want.place);
    equal("events", got.events, want.events);
    equal("groups", got.groups, want.groups);
    equal("tried", got.tried, want.tried);
    same("the record", in.p, r->at, r->n);
    output_is(out, result);
    all_are("work memory", work.p, work.n, 0);
    take_back(in);
    take_back(out);
    take_back(work);
}

/* A resolver accepts and writes this section, into an output of this length. */
static inline void resolves_into(size_t out_length, size_t work_length, int which, const struct bytes *r, uint32_t options, size_t groups,
                                 size_t tried, const struct bytes *result) {
    struct lark_resolved want;
    want.number = want.place = 0;
    want.events = (result->n - 4) / widths[form];
    want.groups = groups;
    want.tried = tried;
    resolves_handed(which, handed(r, options), options, out_length, work_length, want, result);
}

/* The same into ample output, into output of just its length, and with more output and work memory than is needed. 65,536 and 131,072 cut to 16 bits
 * are 0. */
static inline void resolves(int which, const struct bytes *r, uint32_t options, size_t groups, size_t tried, const struct bytes *result) {
    resolves_into(ample[form], LARK_WORK_BYTES, which, r, options, groups, tried, result);
    resolves_into(result->n, LARK_WORK_BYTES, which, r, options, groups, tried, result);
    resolves_into(result->n + 1, LARK_WORK_BYTES + 4099, which, r, options, groups, tried, result);
    resolves_into(131072, LARK_WORK_BYTES + 65536, which, r, options, groups, tried, result);
}

static inline struct lark_resolved refusal(size_t number, size_t place) {
    struct lark_resolved want;
    want.number = number;
    want.place = place;
    want.events = want.groups = want.tried = 0;
    return want;
}

static inline void refuses(int which, const struct bytes *r, uint32_t options, size_t out_length, size_t work_length, size_t number, size_t place) {
    resolves_handed(which, handed(r, options), options, out_length, work_length, refusal(number, handed_place(number, place)), NULL);
}

/* Refused with 6 at a place, with ample output and with none. */
static inline void refuses_shape(int which, const struct bytes *r, uint32_t options, size_t place) {
    refuses(which, r, options, ample[form], LARK_WORK_BYTES, 6, place);
    refuses(which, r, options, 0, LARK_WORK_BYTES, 6, place);
}

/* Behind a document of 300 bytes the first event is refused with 6: at a place that eight bits do not hold. */
static inline void refuses_far_on(int which, const char *events) {
    static char text[300];
    memset(text, 'a', sizeof text);
    refuses_shape(which, record_of(text, sizeof text, events), 63, event_place(300, 0));
}

/* Refused with 8: every output that is shorter than a section of so many events. */
static inline void refuses_output(int which, const struct bytes *r, uint32_t options, size_t events) {
    size_t n;
    for (n = 0; n < 4 + widths[form] * events; n++) refuses(which, r, options, n, LARK_WORK_BYTES, 8, 0);
}

/* --- the program --- */

/* A touch outside of a slice ends the program; the case is named. */
static inline void touched(int sig) {
    static const char text[] = "FAIL: memory that was not lent is touched: ";
    (void)sig;
    if (write(1, text, sizeof text - 1) < 0 || write(1, case_name, strlen(case_name)) < 0 || write(1, "\n", 1) < 0) _exit(2);
    _exit(1);
}

static inline void watch(void) {
    setvbuf(stdout, NULL, _IONBF, 0);
    signal(SIGSEGV, touched);
    signal(SIGBUS, touched);
}

/* The last line says how many cases there were. tests/run asks for it. */
static inline int report(void) {
    printf("%u cases, %u failures\n", cases, failures);
    return failures != 0;
}

/* All cases of a test in every way. */
static inline int in_every_way(void (*all)(void)) {
    watch();
    for (way = 0; way < WAYS; way++) all();
    return report();
}

/* And for either form of a record. */
static inline int in_every_form(void (*all)(void)) {
    watch();
    for (way = 0; way < WAYS; way++)
        for (form = 0; form < FORMS; form++) all();
    return report();
}

#endif
