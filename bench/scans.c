/* What the scans cost before a change and after it, in one run: the same calls of two archives, the older with its names prefixed `older_`
 * (bench/run does that). Long inputs first, then the lines on which a scan in blocks could lose: those with few spaces in front, and short ones.
 * Each figure is the least of many batches of calls; both archives take their turn in each of several rounds, so that a burst of other work on
 * the machine spoils no single row. The bytes taken, or the events, are compared as well. The times of lark_read have the wipe of 65,536 bytes in them.
 *
 * With the word `once` nothing is timed: each call is made once, between two calls of `mark`, the older archive's first, and the rows' names are
 * said. bench/counts counts the instructions between the marks.
 */
#include <ledgerlark.h>

#include <stdio.h>
#include <stdlib.h>
#include <string.h>

#include "timing.h"

extern __typeof__(lark_read) older_lark_read;
#ifdef BEFORE_COLUMNS
/* The older archive is of before 0.5: its line readers take no column and answer no columns left over, and it counts a tab as one byte. */
struct older_spaces {
    size_t number, place, found, taken;
};
struct older_item {
    size_t number, place, found, taken, size, blank, mark;
};
struct older_going {
    size_t number, place, found, taken, blank;
};
extern struct older_spaces older_lark_space_or_tab(const uint8_t *, size_t, uint32_t, size_t, size_t);
extern struct older_item older_lark_list_item(const uint8_t *, size_t, uint32_t, uint32_t);
extern struct older_going older_lark_continuation(const uint8_t *, size_t, uint32_t, size_t, uint32_t, uint32_t);
extern struct lark_headed older_lark_heading(const uint8_t *, size_t, uint32_t, uint8_t *, size_t);
#define OLDER(with, without) GIVEN without
#else
extern __typeof__(lark_space_or_tab) older_lark_space_or_tab;
extern __typeof__(lark_list_item) older_lark_list_item;
extern __typeof__(lark_continuation) older_lark_continuation;
extern __typeof__(lark_heading) older_lark_heading;
#define OLDER(with, without) GIVEN with
#endif

enum { ROUNDS = 61, OPTIONS = 59 };
static uint8_t work[LARK_WORK_BYTES], out[LARK_OUT_BYTES];

enum call { READ, SPACES, ITEM, CONTINUATION, HEADING };
static const char *const names[] = {"lark_read", "lark_space_or_tab", "lark_list_item", "lark_continuation", "lark_heading"};

struct row {
    char name[64];
    enum call call;
    uint8_t *bytes;
    size_t length, batch;
    double before, after;
};
static struct row rows[512];
static size_t count;

/* What each call is given, with a column and without. */
#define EACH(CASE) \
    CASE(READ, lark_read, document, (OPTIONS, work, sizeof work), (OPTIONS, work, sizeof work)) \
    CASE(SPACES, lark_space_or_tab, taken, (OPTIONS, 0, 0, 4 * r->length), (OPTIONS, 0, r->length)) \
    CASE(ITEM, lark_list_item, taken, (OPTIONS, 0, 0), (OPTIONS, 0)) \
    CASE(CONTINUATION, lark_continuation, taken, (OPTIONS, 0, 2, 0, '-'), (OPTIONS, 2, 0, '-')) \
    CASE(HEADING, lark_heading, events, (OPTIONS, 0, out, sizeof out), (OPTIONS, out, sizeof out))
#define GIVEN(...) __VA_ARGS__

/* One call; the number that counts of its answer, for the comparison, or 0 and the refusal. */
static size_t answer(int older, const struct row *r) {
#define CASE(word, name, field, with, without) \
    case word: \
        return older ? older_##name(r->bytes, r->length, OLDER(with, without)).field : name(r->bytes, r->length, GIVEN with).field;
    switch (r->call) { EACH(CASE) }
    abort();
#undef CASE
}

void mark(void);
void __attribute__((noinline)) mark(void) { __asm__ volatile("" ::: "memory"); }

/* Nanoseconds a call of one batch. */
static double batch(int older, const struct row *r) {
    volatile size_t sink = 0;
    double start = now();
#define CASE(word, name, field, with, without) \
    case word: \
        if (older) \
            for (size_t i = 0; i < r->batch; i++) sink += older_##name(r->bytes, r->length, OLDER(with, without)).field; \
        else \
            for (size_t i = 0; i < r->batch; i++) sink += name(r->bytes, r->length, GIVEN with).field; \
        break;
    switch (r->call) { EACH(CASE) }
#undef CASE
    return (now() - start) / (double)r->batch;
}

/* A row of n bytes, as a line or as a record's document: where they are to be put. Its name has the call's in front. */
static uint8_t *add(enum call call, size_t n) {
    struct row *r = rows + count++;
    r->call = call;
    r->bytes = malloc(n + 8);
    r->before = r->after = 1e18;
    r->length = call == READ ? n + 8 : n;
    r->batch = 200000 / (n + 100);
    if (call != READ) return r->bytes;
    lark_put_number(r->bytes, n), lark_put_number(r->bytes + 4 + n, 0);
    return r->bytes + 4;
}

/* Spaces, then letters. */
static void spaced(enum call call, size_t spaces, size_t letters) {
    uint8_t *to = add(call, spaces + letters);
    memset(to, ' ', spaces), memset(to + spaces, 'a', letters);
    snprintf(rows[count - 1].name, sizeof rows->name, "`%s`, %zu spaces and %zu letters", names[call], spaces, letters);
}

/* Letters, then a line feed. */
static void ended(enum call call, size_t letters) {
    uint8_t *to = add(call, letters + 1);
    memset(to, 'a', letters), to[letters] = '\n';
    snprintf(rows[count - 1].name, sizeof rows->name, "`%s`, %zu letters and a line feed", names[call], letters);
}

/* A mark, then some spaces and a letter in turn: n bytes, in which all the spaces between two letters are a scan of their own to the heading reader. */
static void marked(enum call call, char mark, size_t spaces, size_t n) {
    uint8_t *to = add(call, n);
    for (size_t i = 0; i < n; i++) to[i] = i == 0 ? (uint8_t)mark : i % (spaces + 1) ? ' ' : 'a';
    snprintf(rows[count - 1].name, sizeof rows->name, "`%s`, `%c%*sa%*sa ..`, %zu bytes", names[call], mark, (int)spaces, "", (int)spaces, "", n);
}

/* Some bytes, some times; a tab is shown as an arrow. */
static void repeated(enum call call, const char *bytes, size_t times) {
    size_t n = strlen(bytes);
    uint8_t *to = add(call, n * times);
    char shown[16] = "";
    for (size_t i = 0; i < times; i++) memcpy(to + n * i, bytes, n);
    for (size_t i = 0; i < n; i++) strcat(shown, bytes[i] == '\t' ? "→" : (char[]){bytes[i], 0});
    snprintf(rows[count - 1].name, sizeof rows->name, "`%s`, `%s` %zu times", names[call], shown, times);
}

/* The tables: what each holds, and its first row. */
static struct {
    const char *what;
    size_t from;
} tables[16];
static size_t begun;

static void begin(const char *what) {
    tables[begun].what = what;
    tables[begun++].from = count;
}

/* The row from one on and before another that loses most. */
static size_t loses(size_t from, size_t to) {
    size_t most = from;
    for (size_t i = from; i < to; i++)
        if (rows[i].after - rows[i].before > rows[most].after - rows[most].before) most = i;
    return most;
}

int main(int words, char **word) {
    begin("long inputs");
    spaced(READ, 0, 16384), spaced(READ, 0, 1000), spaced(READ, 0, 80);
    spaced(SPACES, 1000, 0), spaced(SPACES, 1000, 80), spaced(SPACES, 200, 80);
    spaced(ITEM, 0, 97), spaced(CONTINUATION, 0, 97), spaced(HEADING, 0, 97);
    spaced(CONTINUATION, 300, 80), spaced(ITEM, 300, 80);
    marked(ITEM, '-', 1, 97), marked(HEADING, '#', 1, 97), marked(HEADING, '#', 1, 1001), marked(HEADING, '#', 3, 1001);
    size_t lengthy = count;
    begin("0 to 31 spaces in front of 80 letters");
    for (size_t k = 0; k < 32; k++) spaced(SPACES, k, 80);
    for (size_t k = 0; k < 32; k++) spaced(CONTINUATION, k, 80);
    begin("0 to 31 spaces and nothing else");
    for (size_t k = 0; k < 32; k++) spaced(SPACES, k, 0);
    for (size_t k = 0; k < 32; k++) spaced(CONTINUATION, k, 0);
    begin("0 to 23 spaces in front of 8 letters");
    for (size_t k = 0; k < 24; k++) spaced(SPACES, k, 8);
    for (size_t k = 0; k < 24; k++) spaced(CONTINUATION, k, 8);
    for (size_t k = 0; k < 24; k++) spaced(ITEM, k, 8);
    begin("lines of 0 to 31 bytes that are nothing");
    for (size_t k = 0; k < 32; k++) spaced(ITEM, 0, k);
    for (size_t k = 0; k < 32; k++) spaced(CONTINUATION, 0, k);
    for (size_t k = 0; k < 32; k++) spaced(HEADING, 0, k);
    begin("lines of 1 to 31 bytes that end in a line feed");
    for (size_t k = 0; k < 31; k++) ended(SPACES, k);
    for (size_t k = 0; k < 31; k++) ended(ITEM, k);
    size_t wordy = count;
    begin("items and headings of 1 to 31 bytes");
    for (size_t k = 1; k < 32; k++) marked(ITEM, '-', 1, k);
    for (size_t k = 1; k < 32; k++) marked(HEADING, '#', 1, k);
    for (size_t k = 1; k < 32; k++) marked(HEADING, '#', 3, k);
    size_t tabbed = count;
    begin("lines with tabs");
    repeated(SPACES, "\t", 250), repeated(SPACES, "\t", 1000), repeated(SPACES, " \t", 500), repeated(SPACES, "  \t", 333);
    for (size_t k = 1; k < 17; k += 1 + k / 4) repeated(SPACES, "\t", k);
    for (size_t k = 1; k < 5; k++) repeated(CONTINUATION, "\t", k);
    repeated(ITEM, "-\ta", 1), repeated(ITEM, "-\t\ta", 1), repeated(HEADING, "#\ta", 1);

#ifndef BEFORE_COLUMNS
    tabbed = count;
#endif
    for (size_t i = 0; i < tabbed; i++)
        if (answer(1, rows + i) != answer(0, rows + i)) return fprintf(stderr, "%s: the two archives differ\n", rows[i].name), 1;
    if (words > 1 && strcmp(word[1], "once")) return fprintf(stderr, "usage: scans [once]\n"), 2;
    if (words > 1) {
        for (size_t i = 0; i < count; i++) {
            for (int older = 1; older >= 0; older--) mark(), answer(older, rows + i);
            mark();
            puts(rows[i].name);
        }
        return 0;
    }
    for (size_t round = 0; round < ROUNDS; round++)
        for (size_t i = 0; i < count; i++) {
            double before = batch(1, rows + i), after = batch(0, rows + i);
            if (before < rows[i].before) rows[i].before = before;
            if (after < rows[i].after) rows[i].after = after;
        }

    for (size_t t = 0; t < begun; t++) {
        printf("| %s | before, ns | after, ns | times as fast |\n|---|--:|--:|--:|\n", tables[t].what);
        for (size_t i = tables[t].from; i < (t + 1 < begun ? tables[t + 1].from : count); i++)
            printf("| %s | %.1f | %.1f | %.1f |\n", rows[i].name, rows[i].before, rows[i].after, rows[i].before / rows[i].after);
        printf("\n");
    }
    size_t line = loses(lengthy, wordy), words_of_one = loses(wordy, tables[begun - 1].from);
    printf("The most that is lost: %.1f ns by a line (%s), %.1f ns by an item or a heading of words of one letter (%s).\n",
           rows[line].after - rows[line].before, rows[line].name, rows[words_of_one].after - rows[words_of_one].before, rows[words_of_one].name);
    return 0;
}
