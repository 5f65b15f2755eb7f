/* What the neighbours of runs cost in lark_resolve_attention, before a change and after it, in one run: the calls of two archives, the older with its names
 * prefixed `older_` (bench/renamed does that). First ASCII texts, where nothing may be lost; then the same paragraph in French, Japanese and Greek, with as many
 * runs; then one character beside each of 1,024 runs, and what it costs over a letter of ASCII there: that is a character found and its class looked up.
 * Each figure is the least of many batches of calls; both archives take their turn in each of several rounds. The wipe of 65,536 bytes is in all of them, and
 * stands by itself in the first row.
 */
#include <ledgerlark.h>

#include <stdio.h>
#include <string.h>

#include "timing.h"

extern __typeof__(lark_resolve_attention) older_lark_resolve_attention;

enum { ROUNDS = 61, OPTIONS = 59, ROWS = 40, RUNS = 1024 };
static uint8_t work[LARK_WORK_BYTES], out[LARK_OUT_BYTES], records[ROWS][LARK_RECORD_BYTES];
static struct row {
    const char *name;
    struct lark_record record;
    size_t runs, batch;
    double before, after;
} rows[ROWS];
static size_t count;

static int is_marker(char byte) { return byte == '*' || byte == '_' || byte == '~'; }

/* A row: a text, so many times, as the record that a tokenizer makes of it. Each stretch of one marker is a run; each stretch of other bytes is Data, unless it is
 * left out, so that there is room for 1,024 runs. */
static void add(const char *name, const char *text, size_t times, int data) {
    static char document[LARK_MAX_DOCUMENT];
    struct row *r = rows + count;
    size_t length = strlen(text), bytes = times * length, at, to;
    for (at = 0; at < bytes; at++) document[at] = text[at % length];
    r->record = lark_begin_record(records[count++], LARK_RECORD_BYTES, document, bytes);
    for (at = 0; at < bytes; at = to) {
        int run = is_marker(document[at]);
        for (to = at + 1; to < bytes && (run ? document[to] == document[at] : !is_marker(document[to])); to++) continue;
        if (!run && !data) continue;
        lark_add_event(&r->record, LARK_ENTER, run ? LARK_NAME_ATTENTION_SEQUENCE : LARK_NAME_DATA, at);
        lark_add_event(&r->record, LARK_EXIT, run ? LARK_NAME_ATTENTION_SEQUENCE : LARK_NAME_DATA, to);
        r->runs += (size_t)run;
    }
    r->name = name, r->batch = 20000 / (r->runs + 10);
    r->before = r->after = 1e18;
}

/* What a call of this archive takes on a row. */
static double batch(__typeof__(lark_resolve_attention) *call, const struct row *r) {
    volatile size_t sink = 0;
    double start = now();
    for (size_t n = 0; n < r->batch; n++) sink += call(r->record.bytes, r->record.length, OPTIONS, out, sizeof out, work, sizeof work).events;
    return (now() - start) / (double)r->batch;
}

static void keep_least(double *least, double time) {
    if (time < *least) *least = time;
}

/* A character before each of the runs, and one after each. */
static const struct side {
    const char *name, *text;
} sides[] = {{"before, a letter of ASCII", "a* "}, {"before, é", "é* "}, {"before, »", "»* "}, {"before, a no-break space", "\302\240* "},
             {"before, α", "α* "}, {"before, 語", "語* "}, {"before, 」", "」* "}, {"before, an em dash", "—* "},
             {"before, an emoji", "😀* "}, {"before, a malformed byte", "\377* "},
             {"after, a letter of ASCII", " *a"}, {"after, é", " *é"}, {"after, «", " *«"}, {"after, a no-break space", " *\302\240"},
             {"after, α", " *α"}, {"after, 語", " *語"}, {"after, 「", " *「"}, {"after, an em dash", " *—"},
             {"after, an emoji", " *😀"}, {"after, a malformed byte", " *\377"}};

int main(void) {
    size_t english, wide, last, letter, behind = 0;
    add("nothing", "", 0, 1);
    add("a chat line without runs", "see you at nine, bring the map", 1, 1);
    add("a chat line of 29 bytes", "*hello* to you, see the _map_", 1, 1);
    add("the same with an accent beside a run", "*hello* to you, see the _maé_", 1, 1);
    english = count;
    add("a paragraph, English", "He said *yes* to the **new** plan, and (_maybe_) to mine. ", 9, 1);
    wide = count;
    add("a paragraph, French", "Il a dit «*oui*» à l’**été** d’hier — et _à_ elle… déjà là. ", 9, 1);
    add("a paragraph, Japanese", "彼は「*はい*」と言い、**新しい**計画と（_私の_）案も。", 9, 1);
    add("a paragraph, Greek", "Είπε *ναι* στο **νέο** σχέδιο — και «_ίσως_» στο δικό μου. ", 9, 1);
    last = count;
    add("`*_`ⁿ, 1,024 runs", "*_", RUNS / 2, 1);
    add("`a_ `ⁿ, 500 runs", "a_ ", 500, 1);
    letter = count;
    for (size_t i = 0; i < sizeof sides / sizeof *sides; i++) {
        if (sides[i].text[0] == ' ' && !behind) behind = count;
        add(sides[i].name, sides[i].text, RUNS, 0);
    }
    for (int round = 0; round < ROUNDS; round++)
        for (size_t i = 0; i < count; i++) {
            keep_least(&rows[i].before, batch(older_lark_resolve_attention, rows + i));
            keep_least(&rows[i].after, batch(lark_resolve_attention, rows + i));
        }
    puts("| text | runs | before, ns | after, ns | after over before | over English |\n|---|--:|--:|--:|--:|--:|");
    for (size_t i = 0; i < letter; i++) {
        printf("| %s | %zu | %.0f | %.0f | %.2f |", rows[i].name, rows[i].runs, rows[i].before, rows[i].after, rows[i].after / rows[i].before);
        if (i >= wide && i < last) printf(" %.2f |\n", rows[i].after / rows[english].after);
        else puts(" |");
    }
    puts("\n| beside each of 1,024 runs | before, ns | after, ns | over a letter of ASCII, ns each |\n|---|--:|--:|--:|");
    for (size_t i = letter; i < count; i++) {
        double base = rows[i < behind ? letter : behind].after;
        printf("| %s | %.0f | %.0f | %.1f |\n", rows[i].name, rows[i].before, rows[i].after, (rows[i].after - base) / RUNS);
    }
    return 0;
}
