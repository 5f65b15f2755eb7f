/* Two calls beside each other on every record that bench/ has: the families of bench/families.h, and the driver's records, in the file that is named as the
 * argument (`bench records` writes it). They are those of form 2 and of the old form, in one archive; or, with TWO_ARCHIVES defined, those of the old form
 * before a change and after it, in two archives, the older with its names prefixed `older_` (bench/renamed does that).
 *
 * The two take turns, call by call, and each figure is the least of many; all records take their turn in each of several rounds. Both have to answer the same
 * and to write the same events. The wipe of 65,536 bytes is in all figures. The records of one document have their times added up. The last line says where
 * the ratio is greatest.
 *
 * Form 2 has a number more to read in each event, and one to write. The last table shows that the linking is linear: results of ever twice as many events,
 * side by side or within each other. Were it not, its last column would rise within a family.
 */
#include <ledgerlark.h>

#include <stdio.h>
#include <stdlib.h>
#include <string.h>

#include "timing.h"
#include "record.h"
#include "families.h"

/* So often the two are called on a record in one round: at most CALLS times, and once LEAST are made no longer than TURN, in nanoseconds. */
enum { OPTIONS = 59, ROWS = 1024, CALLS = 200, LEAST = 5 };
#ifdef TWO_ARCHIVES
extern __typeof__(lark_resolve_attention) older_lark_resolve_attention, older_lark_resolve_headings, older_lark_resolve_lists;
extern __typeof__(lark_read) older_lark_read;
enum { ROUNDS = 5, TURN = 1000000, WIDTH = 8 };
static const char *const columns = "before, ns | after, ns";
#else
enum { ROUNDS = 12, TURN = 3000000, WIDTH = 12 };
static const char *const columns = "old form, ns | form 2, ns";
#endif
static const char *const names[] = {"attention", "headings", "lists", "read"};
static uint8_t work[LARK_WORK_BYTES], out[LARK_OUT2_BYTES], same[LARK_OUT_BYTES];

static struct row {
    char title[64], name[160];
    enum which which;
    size_t may; /* the refusal that it may get */
    struct lark_record old;
    struct lark_record2 second;
    double first, other; /* the least times */
    struct lark_resolved answer;
} rows[ROWS];
static size_t made;

/* What is only read, and what is linked: n events or somewhat less, flat or deep. */
static void pairs(size_t n) {
    for (size_t i = 0; i < n / 2; i++) pair(DATA, "a");
}
static void containers(size_t n) {
    for (size_t left = n / 2, levels; left; left -= levels) {
        levels = left < LARK_MAX_DEPTH ? left : LARK_MAX_DEPTH;
        for (size_t i = 0; i < levels; i++) event(LARK_ENTER, OTHER);
        for (size_t i = 0; i < levels; i++) event(LARK_EXIT, OTHER);
    }
}
static void groups_in_a_row(size_t n) {
    for (size_t i = 0; i < n / 8; i++) run('*', 1), text("a"), run('*', 1), text(" ");
}
static void groups_in_each_other(size_t n) { run('*', n / 8 * 2), text("a"), run('*', n / 8 * 2); }

static const struct family flat_or_deep[] = {{"Data side by side", pairs},
                                             {"containers 64 deep", containers},
                                             {"groups side by side", groups_in_a_row},
                                             {"groups within each other", groups_in_each_other}};
static const size_t lengths[] = {128, 256, 512, 1024, 2048, 4096, 8000};
/* how many of these lengths each has: as far as 2,048 events and a result of 8,000 go */
static const size_t fit[] = {5, 5, 6, 7};
static const char *const linked = "linking";

/* The record in the making becomes a row. */
static void add(const char *title, const char *name, enum which which, size_t may) {
    struct row *r = rows + made++;
    uint8_t *memory = malloc(LARK_RECORD_BYTES + LARK_RECORD2_BYTES);
    if (made > ROWS || !memory) exit(2);
    snprintf(r->title, sizeof r->title, "%s", title);
    snprintf(r->name, sizeof r->name, "%s", name);
    r->which = which, r->may = may;
    r->old = in_old_form(memory);
    r->second = in_form_2(memory + LARK_RECORD_BYTES, OPTIONS);
    r->first = r->other = 1e18;
}

static void add_grown(const char *title, const struct family *f, enum which which, size_t n, const char *of) {
    char name[160];
    snprintf(name, sizeof name, "%s, %zu %s", f->name, n, of);
    bytes = count = 0;
    f->make(n);
    add(title, name, which, f->may);
}

/* The driver's records: of each a line with its resolver, its length and its name, and the bytes. */
static int add_from(const char *file) {
    static uint8_t given[LARK_RECORD_BYTES];
    char line[256], word[16], name[160];
    size_t length;
    FILE *from = fopen(file, "rb");
    if (!from) return 0;
    while (fgets(line, sizeof line, from)) {
        enum which which = ATTENTION;
        if (sscanf(line, "%15s %zu %159[^\n]", word, &length, name) != 3 || length > sizeof given || fread(given, 1, length, from) != length) return 0;
        while (which < READ && strcmp(word, names[which])) which++;
        bytes = lark_number_at(given);
        memcpy(document, given + 4, bytes);
        count = lark_number_at(given + 4 + bytes);
        for (size_t i = 0; i < count; i++) events[i] = lark_event_at(given + 4 + bytes, i);
        add("of the driver", name, which, 0);
    }
    return !fclose(from);
}

/* The calls that are timed: what stands before their names and behind, the form of the record, and what is given beside it. There is a call in each arm and
 * no choice of function, so that neither of two has a step more than the other. */
#define TIMED(name, before, behind, form, ...) \
    static struct lark_resolved name(const struct row *r) { \
        const uint8_t *record = r->form.bytes; \
        size_t length = r->form.length; \
        switch (r->which) { \
        case ATTENTION: return before##lark_resolve_attention##behind(record, length, __VA_ARGS__ out, sizeof out, work, sizeof work); \
        case HEADINGS: return before##lark_resolve_headings##behind(record, length, __VA_ARGS__ out, sizeof out, work, sizeof work); \
        case LISTS: return before##lark_resolve_lists##behind(record, length, __VA_ARGS__ out, sizeof out, work, sizeof work); \
        default: { \
            struct lark_reading##behind a = before##lark_read##behind(record, length, __VA_ARGS__ work, sizeof work); \
            return (struct lark_resolved){a.number, a.place, 0, a.events, a.document}; \
        } \
        } \
    }
#ifdef TWO_ARCHIVES
TIMED(call_first, older_, , old, OPTIONS, )
TIMED(call_second, , , old, OPTIONS, )
#else
TIMED(call_first, , , old, OPTIONS, )
TIMED(call_second, , 2, second, )
#endif

/* Whether both answer the same and write the same events, and are not refused but with what may be; else the figures are worthless. */
static int agree(struct row *r) {
    struct lark_resolved a = call_first(r), b;
    memcpy(same, out, a.number ? 0 : 4 + 8 * a.events);
    b = call_second(r);
    int alike = a.number == b.number && a.events == b.events && a.groups == b.groups && a.tried == b.tried && (!a.number || a.number == r->may);
    for (size_t i = 0; alike && i < a.events; i++) alike = !memcmp(same + 4 + 8 * i, out + 4 + WIDTH * i, 8);
    if (!alike)
        printf("%s, %s: the answers differ, %zu with %zu events and %zu with %zu\n", names[r->which], r->name, a.number, a.events, b.number, b.events);
    r->answer = a;
    return alike;
}

static void keep_least(double *least, double time) {
    if (time < *least) *least = time;
}

static void turn(struct row *r, double clock) {
    volatile size_t sink;
    double begun = now();
    for (int i = 0; i < CALLS && (i < LEAST || now() - begun < TURN); i++) {
        double from = now();
        sink = call_first(r).events;
        double between = now();
        sink = call_second(r).events;
        double to = now();
        keep_least(&r->first, between - from - clock);
        keep_least(&r->other, to - between - clock);
        (void)sink;
    }
}

int main(int argc, char **argv) {
    for (size_t t = 0; t < LENGTH(tables); t++)
        for (size_t f = 0; f < tables[t].families_length; f++)
            for (size_t s = 0; s < tables[t].sizes_length; s++)
                add_grown(tables[t].title, tables[t].families + f, tables[t].which, tables[t].sizes[s], tables[t].which == ATTENTION ? "runs" : "events");
    if (argc > 1 && !add_from(argv[1])) return printf("%s cannot be read\n", argv[1]), 2;
    for (size_t f = 0; f < 2; f++)
        for (size_t s = 0; s < fit[f]; s++) add_grown("read", flat_or_deep + f, READ, lengths[s], "events");
    for (size_t f = 0; f < LENGTH(flat_or_deep); f++)
        for (size_t s = 0; s < fit[f]; s++) add_grown(linked, flat_or_deep + f, ATTENTION, lengths[s], "written");
    /* An older archive may answer otherwise where the rules were others: that is said, and the record left out. Form 2 may not. */
    size_t kept = 0;
    for (size_t i = 0; i < made; i++) {
        if (agree(rows + i)) rows[kept++] = rows[i];
        else if (WIDTH == 12) return 1;
    }
    made = kept;
    double clock = 1e18;
    for (int i = 0; i < 10000; i++) {
        double from = now();
        keep_least(&clock, now() - from);
    }
    for (int round = 0; round < ROUNDS; round++)
        for (size_t i = 0; i < made; i++) turn(rows + i, clock);
    double greatest = 0;
    const struct row *where = rows;
    const char *title = "";
    for (size_t i = 0, next; i < made; i = next) {
        const struct row *r = rows + i;
        double first = 0, other = 0, given = 0, result = 0;
        for (next = i; next < made && !strcmp(rows[next].name, r->name) && rows[next].which == r->which; next++) {
            first += rows[next].first, other += rows[next].other, result += (double)rows[next].answer.events;
            given += (double)lark_number_at(rows[next].old.bytes + 4 + rows[next].old.document);
        }
        /* What form 2 takes more, shared out to the events that it links. */
        int shared = WIDTH == 12 && !strcmp(r->title, linked);
        if (strcmp(title, r->title))
            printf("%s| %s | events | written | %s | times as long |%s\n|---|--:|--:|--:|--:|--:|%s\n", i ? "\n" : "", r->title, columns,
                   shared ? " more, ns an event written |" : "", shared ? "--:|" : "");
        title = r->title;
        printf("| %s, %s | %.0f | %.0f | %.0f | %.0f | %.3f |", names[r->which], r->name, given, result, first, other, other / first);
        if (shared) printf(" %.2f |", (other - first) / result);
        printf("\n");
        if (other / first > greatest) greatest = other / first, where = r;
    }
    printf("\nThe greatest: %.3f times as long, %s, %s.\n", greatest, names[where->which], where->name);
    return 0;
}
