/* NULL with length 0 is an empty slice: for each slice of each call by itself, and for all of them together. */
#include <ledgerlark.h>

#include <stdio.h>
#include <string.h>

static uint8_t out[LARK_OUT2_BYTES], work[LARK_WORK_BYTES];
static const uint8_t empty[8] = {0}, empty2[13] = {1, 0, 0, 0, 63}; /* no document, no events */
static const uint8_t hash[] = {'#'};
static unsigned cases, failures;

/* The work memory is zero; it is made dirty again. */
static int wiped(void) {
    size_t i;
    int held = 1;
    for (i = 0; i < sizeof work; i++) held = held && work[i] == 0;
    memset(work, 0xa5, sizeof work);
    return held;
}

/* Something held, and the output is as it was: nothing here writes a section. */
static void holds(const char *name, int held) {
    size_t i;
    cases++;
    for (i = 0; i < sizeof out; i++) held = held && out[i] == 0xa5;
    if (!held) {
        printf("FAIL: %s\n", name);
        failures++;
    }
}

/* A resolver, which is of the old form or of form 2. */
struct resolver {
    const char *name;
    struct lark_resolved (*old)(const uint8_t *, size_t, uint32_t, uint8_t *, size_t, uint8_t *, size_t);
    struct lark_resolved (*second)(const uint8_t *, size_t, uint8_t *, size_t, uint8_t *, size_t);
};
static const struct resolver resolvers[] = {{"lark_resolve_attention", lark_resolve_attention, NULL},
                                            {"lark_resolve_headings", lark_resolve_headings, NULL},
                                            {"lark_resolve_lists", lark_resolve_lists, NULL},
                                            {"lark_resolve_attention2", NULL, lark_resolve_attention2},
                                            {"lark_resolve_headings2", NULL, lark_resolve_headings2},
                                            {"lark_resolve_lists2", NULL, lark_resolve_lists2}};

/* Whether it refuses so, lent the empty record or none, an output or none, work memory or none. */
static int refused(const struct resolver *call, int with_record, int with_out, int with_work, size_t number) {
    const uint8_t *in = !with_record ? NULL : call->old ? empty : empty2;
    size_t in_length = !with_record ? 0 : call->old ? sizeof empty : sizeof empty2, out_length = with_out ? sizeof out : 0;
    size_t work_length = with_work ? sizeof work : 0;
    uint8_t *o = with_out ? out : NULL, *w = with_work ? work : NULL;
    struct lark_resolved r = call->old ? call->old(in, in_length, 63, o, out_length, w, work_length)
                                       : call->second(in, in_length, o, out_length, w, work_length);
    return r.number == number && r.place == 0 && r.events == 0 && r.groups == 0 && r.tried == 0 && (!with_work || wiped());
}

static void resolver_nulls(const struct resolver *call) {
    printf("%s\n", call->name);
    holds("record", refused(call, 0, 1, 1, 3));
    holds("output", refused(call, 1, 0, 1, 8));
    holds("work memory", refused(call, 1, 1, 0, 1));
    holds("record and output", refused(call, 0, 0, 1, 3));
    holds("all three", refused(call, 0, 0, 0, 1));
}

int main(void) {
    struct lark_reading r;
    struct lark_reading2 r2;
    struct lark_spaces s;
    struct lark_item i;
    struct lark_going g;
    struct lark_headed h;
    size_t call;
    memset(out, 0xa5, sizeof out);
    memset(work, 0xa5, sizeof work);

    printf("lark_read\n");
    r = lark_read(NULL, 0, 63, work, sizeof work);
    holds("record", r.number == 3 && r.place == 0 && r.document == 0 && r.events == 0 && wiped());
    r = lark_read(empty, sizeof empty, 63, NULL, 0);
    holds("work memory", r.number == 1 && r.place == 0 && r.document == 0 && r.events == 0);
    r = lark_read(NULL, 0, 63, NULL, 0);
    holds("both", r.number == 1 && r.place == 0 && r.document == 0 && r.events == 0);

    printf("lark_read2\n");
    r2 = lark_read2(NULL, 0, work, sizeof work);
    holds("record", r2.number == 3 && r2.place == 0 && r2.options == 0 && r2.document == 0 && r2.events == 0 && wiped());
    r2 = lark_read2(empty2, sizeof empty2, NULL, 0);
    holds("work memory", r2.number == 1 && r2.place == 0 && r2.options == 0 && r2.document == 0 && r2.events == 0);
    r2 = lark_read2(NULL, 0, NULL, 0);
    holds("both", r2.number == 1 && r2.place == 0 && r2.options == 0 && r2.document == 0 && r2.events == 0);

    for (call = 0; call < sizeof resolvers / sizeof *resolvers; call++) resolver_nulls(&resolvers[call]);

    printf("lark_space_or_tab\n");
    s = lark_space_or_tab(NULL, 0, 63, 0, 0, 3);
    holds("line, none asked for", s.number == 0 && s.place == 0 && s.found == 1 && s.taken == 0 && s.left == 0);
    s = lark_space_or_tab(NULL, 0, 63, 3, 1, 3);
    holds("line, one asked for", s.number == 0 && s.place == 0 && s.found == 0 && s.taken == 0 && s.left == 0);
    s = lark_space_or_tab(NULL, 0, 63, LARK_MAX_COLUMN + 1, 0, 3);
    holds("line, column too large", s.number == 2 && s.place == 0 && s.found == 0 && s.taken == 0 && s.left == 0);

    printf("lark_list_item\n");
    i = lark_list_item(NULL, 0, 63, 0, 0);
    holds("line", i.number == 0 && i.place == 0 && i.found == 0 && i.taken == 0 && i.left == 0 && i.size == 0 && i.blank == 0 && i.mark == 0);
    i = lark_list_item(NULL, 0, 63, LARK_MAX_COLUMN + 1, 0);
    holds("line, column too large", i.number == 2 && i.place == 0 && i.found == 0 && i.taken == 0 && i.left == 0 && i.size == 0);

    printf("lark_continuation\n");
    g = lark_continuation(NULL, 0, 63, 0, 2, 0, '-');
    holds("line", g.number == 0 && g.place == 0 && g.found == 1 && g.taken == 0 && g.left == 0 && g.blank == 0);
    g = lark_continuation(NULL, 0, 63, 3, 2, 1, '-');
    holds("line, flag set", g.number == 0 && g.place == 0 && g.found == 0 && g.taken == 0 && g.left == 0 && g.blank == 1);
    g = lark_continuation(NULL, 0, 63, LARK_MAX_COLUMN + 1, 2, 1, '-');
    holds("line, column too large", g.number == 2 && g.place == 0 && g.found == 0 && g.taken == 0 && g.left == 0 && g.blank == 0);

    printf("lark_heading\n");
    h = lark_heading(NULL, 0, 63, 0, out, sizeof out);
    holds("line", h.number == 0 && h.place == 0 && h.found == 0 && h.events == 0);
    h = lark_heading(hash, sizeof hash, 63, 0, NULL, 0);
    holds("output", h.number == 8 && h.place == 0 && h.found == 0 && h.events == 0);
    h = lark_heading(NULL, 0, 63, 3, NULL, 0);
    holds("both", h.number == 0 && h.place == 0 && h.found == 0 && h.events == 0);
    h = lark_heading(NULL, 0, 63, LARK_MAX_COLUMN + 1, NULL, 0);
    holds("both, column too large", h.number == 2 && h.place == 0 && h.found == 0 && h.events == 0);

    printf("%u cases, %u failures\n", cases, failures);
    return failures != 0;
}
