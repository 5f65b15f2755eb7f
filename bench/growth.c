/* How the time of the three resolvers grows with the record: attention with the number of runs, for families in which the candidates tried
 * grow no faster than the runs; lists and headings with the number of events. Each figure is the least of many calls; the wipe of the work
 * memory, which every call ends with, is shown beside them. Were the growth faster than linear, the last column would rise within a family.
 * All records take their turn in each of several rounds, so that a burst of other work on the machine spoils no single row.
 *
 * Families in which runs both open and close, so that the candidates tried are quadratic, have a table of their own: its last column is what a
 * candidate costs. The last table is of the wipe alone, which is of all that is lent.
 */
#include <ledgerlark.h>

#include <stdio.h>
#include <stdlib.h>
#include <string.h>

#include "timing.h"
#include "record.h"
#include "families.h"

typedef struct lark_resolved resolver(const uint8_t *record, size_t record_length, uint32_t options, uint8_t *out, size_t out_length,
                                      uint8_t *work, size_t work_length);
static resolver *const calls[] = {lark_resolve_attention, lark_resolve_headings, lark_resolve_lists};

enum { WORK = LARK_WORK_BYTES, OUT = LARK_OUT_BYTES, OPTIONS = 59 };
static uint8_t buffer[LARK_RECORD_BYTES], out[OUT], work[WORK];

/* How often a record is called in one round: at most CALLS times, and once LEAST are made no longer than TURN, in nanoseconds. */
enum { ROUNDS = 10, CALLS = 300, LEAST = 5, TURN = 30000000 };

static struct cell {
    double ns;
    size_t events;
    struct lark_resolved answer;
} cells[LENGTH(tables)][7][5];

/* one record, called many times; false if it is refused and may not be, which would make the figure worthless */
static int timed(const struct table *t, const struct family *f, size_t n, struct cell *cell) {
    bytes = count = 0;
    f->make(n);
    struct lark_record record = in_old_form(buffer);
    cell->events = count;
    double begun = now();
    for (int i = 0; i < CALLS && (i < LEAST || now() - begun < TURN); i++) {
        double from = now();
        cell->answer = calls[t->which](record.bytes, record.length, OPTIONS, out, OUT, work, WORK);
        double took = now() - from;
        if (!cell->ns || took < cell->ns) cell->ns = took;
    }
    if (!cell->answer.number || cell->answer.number == f->may) return 1;
    printf("%s %zu: refused %zu at %zu\n", f->name, n, cell->answer.number, cell->answer.place);
    return 0;
}

/* A row of attention, with n runs. A refusal says neither groups nor candidates. */
static void attention_row(const char *name, size_t n, const struct cell *c, double wipe, int by_candidate) {
    if (c->answer.number) printf("| %s | %zu | refused %zu | | %.0f | |\n", name, n, c->answer.number, c->ns);
    else
        printf("| %s | %zu | %zu | %zu | %.0f | %.2f |\n", name, n, c->answer.groups, c->answer.tried, c->ns,
               (c->ns - wipe) / (double)(by_candidate ? c->answer.tried : n));
}

/* lark_read of the empty record with more and more lent: the first call gets memory that was never written, the others get it again */
static void lent(void) {
    static const uint8_t empty[8];
    printf("\n| lent, bytes | first call, ns | least of ten more, ns |\n|---|---|---|\n");
    for (size_t size = WORK; size <= (size_t)WORK << 12; size <<= 4) {
        uint8_t *memory = malloc(size);
        if (!memory) {
            printf("| %zu | not to be had | |\n", size);
            continue;
        }
        double first = 0, least = 0;
        for (int i = 0; i < 11; i++) {
            double from = now();
            struct lark_reading answer = lark_read(empty, sizeof empty, OPTIONS, memory, size);
            double took = now() - from;
            if (answer.number) printf("refused %zu\n", answer.number);
            if (!i) first = took;
            else if (i == 1 || took < least) least = took;
        }
        printf("| %zu | %.0f | %.0f |\n", size, first, least);
        free(memory);
    }
}

int main(void) {
    double wipe = 1e18;
    for (int round = 0; round < ROUNDS; round++) {
        for (int i = 0; i < CALLS; i++) {
            double from = now();
            memset(work, i & 1, WORK);
            __asm__ volatile("" : : "r"(work) : "memory");
            double took = now() - from;
            if (took < wipe) wipe = took;
        }
        for (size_t t = 0; t < LENGTH(tables); t++)
            for (size_t f = 0; f < tables[t].families_length; f++)
                for (size_t s = 0; s < tables[t].sizes_length; s++)
                    if (!timed(&tables[t], &tables[t].families[f], tables[t].sizes[s], &cells[t][f][s])) return 1;
    }
    printf("wipe of %d bytes: %.0f ns\n", WORK, wipe);
    for (size_t t = 0; t < LENGTH(tables); t++) {
        int by_run = tables[t].which == ATTENTION;
        printf("\n| %s | %s | ns a call | less the wipe, %s |\n|---|---|---|---|---|%s\n", tables[t].title,
               by_run ? "runs | groups | tried" : "events | events written", tables[t].each, by_run ? "---|" : "");
        for (size_t f = 0; f < tables[t].families_length; f++)
            for (size_t s = 0; s < tables[t].sizes_length; s++) {
                const struct cell *c = &cells[t][f][s];
                const char *name = tables[t].families[f].name;
                if (by_run) attention_row(name, runs[s], c, wipe, tables[t].families == all_tried);
                else printf("| %s | %zu | %zu | %.0f | %.2f |\n", name, c->events, c->answer.events, c->ns, (c->ns - wipe) / (double)c->events);
            }
    }
    lent();
    return 0;
}
