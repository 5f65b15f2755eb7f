/* Slices of 2^32 bytes and over: a length that is cut to 32 bits comes out as a short one. Such a slice is address space, of which the first pages
 * are memory; the calls have no need to look further. Work memory, all of which is wiped, has work.c.
 */
#include "check.h"

typedef char size_has_64_bits[sizeof(size_t) == 8 ? 1 : -1];
enum { PAGES = 1 << 17 }; /* bytes */
#define OVER ((size_t)1 << 32)

/* OVER + PAGES bytes, of which the first PAGES can be touched: the bytes that are given, then dirt. */
static uint8_t *vast(const void *bytes, size_t n) {
    uint8_t *p = (uint8_t *)sure(mmap(NULL, OVER + PAGES, PROT_NONE, MAP_PRIVATE | MAP_ANONYMOUS, -1, 0));
    if (mprotect(p, PAGES, PROT_READ | PROT_WRITE) != 0) sure(NULL);
    memset(p, 0xa5, PAGES);
    if (n) memcpy(p, bytes, n);
    return p;
}

static uint8_t work[LARK_WORK_BYTES];

static void is_wiped(void) {
    all_are("work memory", work, sizeof work, 0);
    memset(work, 0xa5, sizeof work);
}

/* A resolver with an output of OVER bytes, the record being whole; then with a record that OVER bytes follow. */
static void resolver_lengths(const char *name, int which, const struct bytes *built, size_t groups, const struct bytes *want) {
    const struct bytes *r = handed(built, 63);
    uint8_t *in = vast(r->at, r->n), *out = vast(NULL, 0);
    struct lark_resolved got;
    begin(name);
    got = resolve(which, in, r->n, 63, out, OVER, work, sizeof work);
    equal("number", got.number, 0);
    equal("events", got.events, (want->n - 4) / widths[form]);
    equal("groups", got.groups, groups);
    same("the section", out, want->at, want->n);
    all_are("output past the section", out + want->n, PAGES - want->n, 0xa5);
    is_wiped();
    memset(out, 0xa5, want->n);
    got = resolve(which, in, OVER + r->n, 63, out, PAGES, work, sizeof work);
    equal("number, with a record too long,", got.number, 3);
    equal("place, with a record too long,", got.place, r->n);
    equal("events, with a record too long,", got.events, 0);
    all_are("output that must stay", out, PAGES, 0xa5);
    is_wiped();
    munmap(in, OVER + PAGES);
    munmap(out, OVER + PAGES);
}

static void read_lengths(void) {
    const struct bytes *r = handed(record("ab", "+0@0 -0@2"), 63);
    uint8_t *in = vast(r->at, r->n);
    struct lark_reading2 got;
    begin("lark_read");
    got = read_record(in, OVER + r->n, 63, work, sizeof work);
    equal("number", got.number, 3);
    equal("place", got.place, r->n);
    equal("document", got.document, 0);
    equal("events", got.events, 0);
    is_wiped();
    munmap(in, OVER + PAGES);
}

static void record_lengths(void) {
    read_lengths();
    resolver_lengths("lark_resolve_attention", ATTENTION, record("*a*", "+1@0 -1@1 +0@1 -0@2 +1@2 -1@3"), 1,
                     section("+2@0 +3@0 -3@1 +4@1 +0@1 -0@2 -4@2 +3@2 -3@3 -2@3"));
    resolver_lengths("lark_resolve_headings", HEADINGS, record("# a", "+11@0 +12@0 -12@1 +14@1 -14@2 +0@2 -0@3 -11@3"), 0,
                     section("+11@0 +12@0 -12@1 +14@1 -14@2 +13@2 +0@2 -0@3 -13@3 -11@3"));
    resolver_lengths("lark_resolve_lists", LISTS, record("-", "+15@0 +16@0 +17@0 -17@1 -16@1 -15@1"), 0,
                     section("+20@0 +15@0 +16@0 +17@0 -17@1 -16@1 -15@1 -20@1"));
}

/* The line readers, for which OVER + 4 bytes are too long a line; and a heading into an output of OVER bytes. */
static void line_lengths(void) {
    uint8_t *line = vast("  - ", 4), *hashes = vast("# a", 3), *out = vast(NULL, 0);
    const struct bytes *want = section("+11@0 +12@0 -12@1 +14@1 -14@2 +0@2 -0@3 -11@3");
    struct lark_spaces s;
    struct lark_item i;
    struct lark_going g;
    struct lark_headed h;
    begin("lark_space_or_tab");
    s = lark_space_or_tab(line, OVER + 4, 63, 0, 0, SIZE_MAX);
    equal("number", s.number, 3);
    equal("place", s.place, 16384);
    equal("found", s.found, 0);
    begin("lark_list_item");
    i = lark_list_item(line, OVER + 4, 63, 0, 0);
    equal("number", i.number, 3);
    equal("place", i.place, 16384);
    equal("found", i.found, 0);
    begin("lark_continuation");
    g = lark_continuation(line, OVER + 4, 63, 0, 2, 0, '-');
    equal("number", g.number, 3);
    equal("place", g.place, 16384);
    equal("found", g.found, 0);
    begin("lark_heading");
    h = lark_heading(hashes, OVER + 3, 63, 0, out, PAGES);
    equal("number", h.number, 3);
    equal("place", h.place, 16384);
    equal("found", h.found, 0);
    all_are("output that must stay", out, PAGES, 0xa5);
    h = lark_heading(hashes, 3, 63, 0, out, OVER);
    equal("number, with much output,", h.number, 0);
    equal("found, with much output,", h.found, 1);
    equal("events, with much output,", h.events, 8);
    same("the section", out, want->at, want->n);
    all_are("output past the section", out + want->n, PAGES - want->n, 0xa5);
    munmap(line, OVER + PAGES);
    munmap(hashes, OVER + PAGES);
    munmap(out, OVER + PAGES);
}

int main(void) {
    watch();
    memset(work, 0xa5, sizeof work);
    for (form = 0; form < FORMS; form++) record_lengths();
    form = OLD;
    line_lengths();
    return report();
}
