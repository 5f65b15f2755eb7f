/* What form 2 has of its own: its first section, its places, its partners, and results of 12 bytes for each event. A record stands here as it is lent,
 * with its first section, and a place as it is answered; options are 63 where nothing else is said. Places and partners are worked out by hand: the
 * document's count at 5, its bytes from 9 on, the events' count at 9 + D, event i at 13 + D + 12 * i. What both forms have in common is in record.c,
 * attention.c, headings.c and lists.c.
 */
#include "check.h"

/* Bare bytes, and the record of a document and its events. `?` is 63. */
static const struct bytes *lent(const char *text, size_t n) {
    static struct bytes bare;
    bare.n = 0;
    put(&bare, text, n);
    return &bare;
}
#define LENT(text) lent(text, sizeof(text) - 1)
static const struct bytes *whole(const char *text, const char *events) { return handed(record(text, events), 63); }

/* All four refuse alike. */
static void all_refuse_with(const struct bytes *r, size_t work_length, size_t number, size_t place) {
    struct lark_reading2 want = {number, place, 0, 0, 0};
    int i;
    reads_handed(r, 0, work_length, want);
    for (i = 0; i < RESOLVERS; i++) {
        resolves_handed(i, r, 0, LARK_OUT2_BYTES, work_length, refusal(number, place), NULL);
        resolves_handed(i, r, 0, 0, work_length, refusal(number, place), NULL);
    }
}
static void all_refuse(const struct bytes *r, size_t number, size_t place) { all_refuse_with(r, LARK_WORK_BYTES, number, place); }

static void good(const struct bytes *r, uint32_t options, size_t document, size_t events) {
    struct lark_reading2 want = {0, 0, options, document, events};
    reads_handed(r, options, LARK_WORK_BYTES, want);
}

/* The whole case, byte by byte, without the functions of check.h that build records. */
static void whole_case(void) {
    static const uint8_t in[] = {
        1, 0, 0, 0, 59,                        /* the options */
        3, 0, 0, 0, '*', 'a', '*',             /* the document */
        6, 0, 0, 0,                            /* six events */
        0, 1, 0, 0, 0, 0, 0, 0, 1, 0, 0, 0,    /* +1@0/1 */
        1, 1, 0, 0, 1, 0, 0, 0, 0, 0, 0, 0,    /* -1@1/0 */
        0, 0, 0, 0, 1, 0, 0, 0, 3, 0, 0, 0,    /* +0@1/3 */
        1, 0, 0, 0, 2, 0, 0, 0, 2, 0, 0, 0,    /* -0@2/2 */
        0, 1, 0, 0, 2, 0, 0, 0, 5, 0, 0, 0,    /* +1@2/5 */
        1, 1, 0, 0, 3, 0, 0, 0, 4, 0, 0, 0};   /* -1@3/4 */
    static const uint8_t want[] = {
        10, 0, 0, 0,                           /* ten events */
        0, 2, 0, 0, 0, 0, 0, 0, 9, 0, 0, 0,    /* +2@0/9 */
        0, 3, 0, 0, 0, 0, 0, 0, 2, 0, 0, 0,    /* +3@0/2 */
        1, 3, 0, 0, 1, 0, 0, 0, 1, 0, 0, 0,    /* -3@1/1 */
        0, 4, 0, 0, 1, 0, 0, 0, 6, 0, 0, 0,    /* +4@1/6 */
        0, 0, 0, 0, 1, 0, 0, 0, 5, 0, 0, 0,    /* +0@1/5 */
        1, 0, 0, 0, 2, 0, 0, 0, 4, 0, 0, 0,    /* -0@2/4 */
        1, 4, 0, 0, 2, 0, 0, 0, 3, 0, 0, 0,    /* -4@2/3 */
        0, 3, 0, 0, 2, 0, 0, 0, 8, 0, 0, 0,    /* +3@2/8 */
        1, 3, 0, 0, 3, 0, 0, 0, 7, 0, 0, 0,    /* -3@3/7 */
        1, 2, 0, 0, 3, 0, 0, 0, 0, 0, 0, 0};   /* -2@3/0 */
    static uint8_t out[200], work[LARK_WORK_BYTES];
    const struct bytes *r;
    struct lark_reading2 read;
    struct lark_resolved got;
    begin("the whole case, byte by byte");
    memset(out, 0xa5, sizeof out);
    memset(work, 0xa5, sizeof work);
    read = lark_read2(in, sizeof in, work, sizeof work);
    equal("number", read.number, 0);
    equal("place", read.place, 0);
    equal("options", read.options, 59);
    equal("document", read.document, 3);
    equal("events", read.events, 6);
    all_are("work memory", work, sizeof work, 0);
    memset(work, 0xa5, sizeof work);
    got = lark_resolve_attention2(in, sizeof in, out, sizeof out, work, sizeof work);
    equal("number", got.number, 0);
    equal("place", got.place, 0);
    equal("events", got.events, 10);
    equal("groups", got.groups, 1);
    equal("tried", got.tried, 1);
    same("the section", out, want, sizeof want);
    all_are("output past the section", out + sizeof want, sizeof out - sizeof want, 0xa5);
    all_are("work memory", work, sizeof work, 0);

    begin("check.h builds the whole case");
    r = handed(record("*a*", "+1@0 -1@1 +0@1 -0@2 +1@2 -1@3"), 59);
    equal("length of the record", r->n, sizeof in);
    same("the record", r->at, in, sizeof in);
    section("+2@0 +3@0 -3@1 +4@1 +0@1 -0@2 -4@2 +3@2 -3@3 -2@3");
    equal("length of the section", section_bytes.n, sizeof want);
    same("the section", section_bytes.at, want, sizeof want);
    begin("check.h takes partners as they are written");
    r = handed(record("*a*", "+1@0/1 -1@1/0 +0@1/3 -0@2/2 +1@2/5 -1@3/4"), 59);
    same("the record", r->at, in, sizeof in);
    equal("an untrue one", record("", "+0@0/7 -0@0")->at[8 + 8], 7);
}

/* --- the first section --- */

static void every_option_byte(void) {
    uint32_t options;
    begin("every option byte");
    for (options = 0; options < 256; options++)
        if (options <= 63)
            good(handed(record("ab", "+0@0 -0@2"), options), options, 2, 2);
        else
            all_refuse(handed(record("ab", "+0@0 -0@2"), options), 2, 0);
}

static void first_section(void) {
    begin("3: the first count is cut off, whatever there is of it");
    all_refuse(LENT(""), 3, 0);
    all_refuse(LENT("\1"), 3, 0);
    all_refuse(LENT("\1\0\0"), 3, 0);
    all_refuse(LENT("\0\0\0"), 3, 0);
    all_refuse(LENT("\xff\xff\xff"), 3, 0);
    begin("3: a first count of 1 and no byte");
    all_refuse(LENT("\1\0\0\0"), 3, 0);
    begin("2: another first count, with nothing behind it");
    all_refuse(LENT("\0\0\0\0"), 2, 0);
    all_refuse(LENT("\2\0\0\0"), 2, 0);
    all_refuse(LENT("\xff\xff\xff\xff"), 2, 0);
    begin("2: another first count before what is good behind a 1");
    all_refuse(LENT("\0\0\0\0?\0\0\0\0\0\0\0\0"), 2, 0);
    all_refuse(LENT("\2\0\0\0?\0\0\0\0\0\0\0\0"), 2, 0);
    all_refuse(LENT("\xff\xff\xff\xff?\0\0\0\0\0\0\0\0"), 2, 0);
    begin("2: another first count, and as many bytes");
    all_refuse(LENT("\0\0\0\0\0\0\0\0\0\0\0\0"), 2, 0);
    all_refuse(LENT("\2\0\0\0??\0\0\0\0\0\0\0\0"), 2, 0);
    begin("2: each byte of the first count is looked at");
    all_refuse(LENT("\1\1\0\0?\0\0\0\0\0\0\0\0"), 2, 0);
    all_refuse(LENT("\1\0\1\0?\0\0\0\0\0\0\0\0"), 2, 0);
    all_refuse(LENT("\1\0\0\1?\0\0\0\0\0\0\0\0"), 2, 0);
    begin("2: options over 63, and nothing behind them");
    all_refuse(LENT("\1\0\0\0@"), 2, 0);
    all_refuse(LENT("\1\0\0\0\xff"), 2, 0);
    begin("a record of the old form");
    all_refuse(LENT("\0\0\0\0\0\0\0\0"), 2, 0);
    all_refuse(LENT("\3\0\0\0*a*\0\0\0\0"), 2, 0);
    begin("a record of the old form whose document is one byte: over 63, or an option byte that the document's count follows");
    all_refuse(LENT("\1\0\0\0a\0\0\0\0"), 2, 0);
    all_refuse(LENT("\1\0\0\0*\0\0\0\0"), 3, 9);
    begin("1 comes before 2 and 3");
    all_refuse_with(LENT("\2\0\0\0"), 65535, 1, 0);
    all_refuse_with(LENT("\1\0\0\0@\0\0\0\0\0\0\0\0"), 65535, 1, 0);
    all_refuse_with(LENT(""), 65535, 1, 0);
    begin("2 comes before 3, 4 and 5");
    all_refuse(LENT("\1\0\0\0@\1\0\0"), 2, 0);
    all_refuse(LENT("\2\0\0\0?\1\0\0\0\r\0\0\0\0"), 2, 0);
    all_refuse(LENT("\1\0\0\0@\0\0\0\0\1\0\0\0\7\7\7\7\7\7\7\7\7\7\7\7"), 2, 0);
}

/* The options are those of the record, for the answer and for what they switch. */
static void options_of_the_record(void) {
    static const char runs[] = "+1@0 -1@1 +0@1 -0@2 +1@2 -1@3";
    begin("`~a~` with options 63");
    resolves(ATTENTION, record("~a~", runs), 63, 1, 1, section("+8@0/9 +9@0/2 -9@1/1 +10@1/6 +0@1/5 -0@2/4 -10@2/3 +9@2/8 -9@3/7 -8@3/0"));
    begin("`~a~` with options 59: none, for 4 is off");
    resolves(ATTENTION, record("~a~", runs), 59, 0, 1, section("+0@0/1 -0@1/0 +0@1/3 -0@2/2 +0@2/5 -0@3/4"));
    begin("`~a~` with options 61: refused, for 2 is off");
    resolves_handed(ATTENTION, handed(record("~a~", runs), 61), 0, LARK_OUT2_BYTES, LARK_WORK_BYTES, refusal(6, 16), NULL);
    begin("`*a*` with options 0: refused, for 1 is off");
    resolves_handed(ATTENTION, handed(record("*a*", runs), 0), 0, LARK_OUT2_BYTES, LARK_WORK_BYTES, refusal(6, 16), NULL);
    begin("13 is an option byte and no carriage return");
    good(LENT("\1\0\0\0\r\0\0\0\0\0\0\0\0"), 13, 0, 0);
}

/* --- places --- */

static void places(void) {
    begin("3: the document's count is cut off");
    all_refuse(LENT("\1\0\0\0?"), 3, 5);
    all_refuse(LENT("\1\0\0\0?\0\0\0"), 3, 5);
    begin("3: a document that runs past the record by a byte");
    all_refuse(LENT("\1\0\0\0?\5\0\0\0abcd"), 3, 5);
    begin("3: the events' count is cut off");
    all_refuse(LENT("\1\0\0\0?\0\0\0\0"), 3, 9);
    all_refuse(LENT("\1\0\0\0?\2\0\0\0ab\0\0\0"), 3, 11);
    begin("3: an event that runs past the record by a byte; an event of 8 bytes");
    all_refuse(LENT("\1\0\0\0?\2\0\0\0ab\1\0\0\0\0\0\0\0\0\0\0\0\0\0\0"), 3, 11);
    all_refuse(LENT("\1\0\0\0?\2\0\0\0ab\1\0\0\0\0\0\0\0\0\0\0\0"), 3, 11);
    begin("3: a byte follows");
    all_refuse(LENT("\1\0\0\0?\0\0\0\0\0\0\0\0\0"), 3, 13);
    all_refuse(LENT("\1\0\0\0?\2\0\0\0ab\1\0\0\0\0\0\0\0\0\0\0\0\0\0\0\0\0"), 3, 27);
    begin("4: a carriage return");
    all_refuse(LENT("\1\0\0\0?\1\0\0\0\r\0\0\0\0"), 4, 9);
    all_refuse(LENT("\1\0\0\0?\3\0\0\0ab\r\0\0\0\0"), 4, 11);
    begin("5: an event, and events left open");
    all_refuse(whole("", "-0@0"), 5, 13);
    all_refuse(whole("", "+0@0"), 5, 25);
    all_refuse(whole("ab", "+0@0 -0@2 +25@2 -25@2"), 5, 39);
    begin("6: the enter of a run, a heading and an item");
    resolves_handed(ATTENTION, whole("ab", "+24@0 +1@0 -1@2 -24@2"), 0, LARK_OUT2_BYTES, LARK_WORK_BYTES, refusal(6, 27), NULL);
    resolves_handed(HEADINGS, whole("ab", "+0@0 -0@1 +11@1 -11@2"), 0, LARK_OUT2_BYTES, LARK_WORK_BYTES, refusal(6, 39), NULL);
    resolves_handed(LISTS, whole("ab", "+0@0 -0@1 +24@1 +15@1 -15@1 -24@2"), 0, LARK_OUT2_BYTES, LARK_WORK_BYTES, refusal(6, 51), NULL);
}

/* --- each byte of an event --- */

/* `ab` with +24@1/3 +2@1/2 -2@2/1 -24@2/0. The events stand at 15, 27, 39 and 51, and the record ends at 63. All values from one to another in a byte
 * of an event: 5 at this place, or good, which is 0. The byte's own value is passed over. */
static const struct damage {
    unsigned event, byte, from, to;
    size_t place;
} damages[] = {
    /* a container's enter: not its kind, which then closes nothing; names that its exit has not; names that are none */
    {0, 0, 0, 255, 15}, {0, 1, 0, 24, 51}, {0, 1, 25, 255, 15}, {0, 2, 0, 255, 15}, {0, 3, 0, 255, 15},
    /* its place: before, which is good; behind the next event's, past the document */
    {0, 4, 0, 1, 0}, {0, 4, 2, 2, 27}, {0, 4, 3, 255, 15}, {0, 5, 0, 255, 15}, {0, 6, 0, 255, 15}, {0, 7, 0, 255, 15},
    /* its partner: at its exit */
    {0, 8, 0, 255, 51}, {0, 9, 0, 255, 51}, {0, 10, 0, 255, 51}, {0, 11, 0, 255, 51},
    /* the enter in it: as an exit it would close the container under another name */
    {1, 0, 0, 255, 27}, {1, 1, 0, 24, 39}, {1, 1, 25, 255, 27}, {1, 2, 0, 255, 27}, {1, 3, 0, 255, 27},
    {1, 4, 0, 0, 27}, {1, 4, 1, 2, 0}, {1, 4, 3, 255, 27}, {1, 5, 0, 255, 27}, {1, 6, 0, 255, 27}, {1, 7, 0, 255, 27},
    {1, 8, 0, 255, 39}, {1, 9, 0, 255, 39}, {1, 10, 0, 255, 39}, {1, 11, 0, 255, 39},
    /* its exit: as an enter it is what the last event does not close */
    {2, 0, 0, 0, 51}, {2, 0, 1, 255, 39}, {2, 1, 0, 255, 39}, {2, 2, 0, 255, 39}, {2, 3, 0, 255, 39},
    {2, 4, 0, 0, 39}, {2, 4, 1, 2, 0}, {2, 4, 3, 255, 39}, {2, 5, 0, 255, 39}, {2, 6, 0, 255, 39}, {2, 7, 0, 255, 39},
    {2, 8, 0, 255, 39}, {2, 9, 0, 255, 39}, {2, 10, 0, 255, 39}, {2, 11, 0, 255, 39},
    /* the container's exit: as an enter it is left open, with the container */
    {3, 0, 0, 0, 63}, {3, 0, 1, 255, 51}, {3, 1, 0, 255, 51}, {3, 2, 0, 255, 51}, {3, 3, 0, 255, 51},
    {3, 4, 0, 255, 51}, {3, 5, 0, 255, 51}, {3, 6, 0, 255, 51}, {3, 7, 0, 255, 51},
    {3, 8, 0, 255, 51}, {3, 9, 0, 255, 51}, {3, 10, 0, 255, 51}, {3, 11, 0, 255, 51}};

static void damaged(void) {
    static struct bytes r;
    static uint8_t work[LARK_WORK_BYTES];
    size_t i, looked = 0;
    unsigned value;
    const struct bytes *sound = whole("ab", "+24@1/3 +2@1/2 -2@2/1 -24@2/0");
    begin("nothing damaged");
    good(sound, 63, 2, 4);
    r.n = 0;
    put(&r, sound->at, sound->n);
    begin("each byte of each event damaged in every way");
    for (i = 0; i < sizeof damages / sizeof *damages; i++) {
        const struct damage *d = &damages[i];
        uint8_t *at = r.at + 15 + 12 * d->event + d->byte, own = *at;
        for (value = d->from; value <= d->to; value++) {
            looked++;
            if (value == own) continue;
            *at = (uint8_t)value;
            if (d->place == 0)
                good(&r, 63, 2, 4);
            else if (value == d->from || value == d->to)
                all_refuse(&r, 5, d->place);
            else {
                struct lark_reading2 got = lark_read2(r.at, r.n, work, sizeof work);
                equal("number", got.number, 5);
                equal("place", got.place, d->place);
            }
        }
        *at = own;
    }
    equal("values looked at", looked, 4 * 12 * 256);
}

/* --- partners that are untrue --- */

/* Events over an empty document, and the place at which they are refused with 5. */
static const struct untrue {
    const char *name, *events;
    size_t place;
} untrues[] = {
    {"an enter's, one more", "+0@0/2 -0@0", 25},
    {"an enter's, itself", "+0@0/0 -0@0", 25},
    {"an enter's, true in its lowest byte", "+0@0/257 -0@0", 25},
    {"an enter's, true in its lower half", "+0@0/65537 -0@0", 25},
    {"an enter's, true but for its highest byte", "+0@0/16777217 -0@0", 25},
    {"an enter's, the largest", "+0@0/4294967295 -0@0", 25},
    {"an exit's, itself", "+0@0 -0@0/1", 25},
    {"an exit's, true in its lowest byte", "+0@0 -0@0/256", 25},
    {"an exit's, true in its lower half", "+0@0 -0@0/65536", 25},
    {"an exit's, true but for its highest byte", "+0@0 -0@0/16777216", 25},
    {"an exit's, the largest", "+0@0 -0@0/4294967295", 25},
    {"both", "+0@0/7 -0@0/7", 25},
    {"counted from 1", "+0@0/2 -0@0/1", 25},
    {"places in the record", "+0@0/25 -0@0/13", 25},
    {"how far away the partner is", "+0@0 -0@0 +0@0/1 -0@0/1", 49},
    {"an exit's, the enter of a pair before", "+0@0 -0@0 +0@0 -0@0/0", 49},
    {"an exit's, the enter of a pair behind", "+0@0 -0@0/2 +0@0 -0@0", 25},
    {"an enter's, the exit of a pair behind", "+0@0/3 -0@0 +0@0 -0@0", 25},
    {"an enter's, the exit of a pair before", "+0@0 -0@0 +0@0/1 -0@0", 49},
    {"two pairs exchanged", "+0@0/3 -0@0/2 +0@0/1 -0@0/0", 25},
    {"a pair in a pair, as if they crossed", "+0@0/2 +0@0/3 -0@0/0 -0@0/1", 37},
    {"the outer enter's", "+0@0/2 +0@0 -0@0 -0@0", 49},
    {"the inner enter's", "+0@0 +0@0/3 -0@0 -0@0", 37},
    {"the inner exit's", "+0@0 +0@0 -0@0/0 -0@0", 37},
    {"the outer exit's", "+0@0 +0@0 -0@0 -0@0/1", 49},
    {"both enters': the inner exit comes first", "+0@0/9 +0@0/9 -0@0 -0@0", 37},
    {"an enter that was left already", "+24@0 +24@0 -24@0 +24@0 +24@0 -24@0 -24@0/4 -24@0", 85},
    {"an event that is never left is not looked at: the record's end", "+0@0/9", 25},
    {"nor is the one round a pair", "+24@0/7 +0@0 -0@0", 49},
    {"but that pair is", "+24@0/7 +0@0 -0@0/0", 37},
    {"an exit with nothing open, whatever its number is", "+0@0 -0@0 -0@0/0", 37},
    {"another cause before the exit, though behind the enter", "+24@0/9 +25@0 -25@0 -24@0", 25},
    {"another exit before it", "+24@0/9 +0@0 -2@0 -24@0", 37},
    {"before another cause", "+0@0 -0@0/1 +25@0 -25@0", 25},
    {"and another cause at once", "+0@0/9 -2@0", 25},
};

static void untrue(void) {
    static char events[12 * 2048];
    size_t i, at = 0;
    for (i = 0; i < sizeof untrues / sizeof *untrues; i++) {
        begin(untrues[i].name);
        all_refuse(whole("", untrues[i].events), 5, untrues[i].place);
    }
    begin("5 comes before 6");
    all_refuse(whole("", "+1@0 -1@0 +11@0 -11@0 +15@0 -15@0/5"), 5, 73);
    begin("3 and 4 come before an untrue partner");
    record("a", "+0@0 -0@0/1");
    put_many(&record_bytes, 0, 1);
    all_refuse(handed(&record_bytes, 63), 3, 38);
    all_refuse(whole("\r", "+0@0 -0@0/1"), 4, 9);
    begin("the last pair of 2,048 events: its numbers are 2,046 and 2,047, and its exit stands at 24,577");
    for (i = 0; i < 1023; i++) at += (size_t)sprintf(events + at, "+0@0 -0@0 ");
    strcpy(events + at, "+0@0/2047 -0@0/2046");
    good(whole("", events), 63, 0, 2048);
    strcpy(events + at, "+0@0/2047 -0@0/1790");
    all_refuse(whole("", events), 5, 24577);
    strcpy(events + at, "+0@0/255 -0@0/2046");
    all_refuse(whole("", events), 5, 24577);
    begin("64 in each other: the exits of the innermost and the outermost stand at 781 and 1,537");
    for (i = at = 0; i < 128; i++) at += (size_t)sprintf(events + at, i < 64 ? "+24@0/%zu " : "-24@0/%zu ", 127 - i);
    good(whole("", events), 63, 0, 128);
    for (i = at = 0; i < 128; i++) at += (size_t)sprintf(events + at, i < 64 ? "+24@0/%zu " : "-24@0/%zu ", i == 64 ? 62 : 127 - i);
    all_refuse(whole("", events), 5, 781);
    for (i = at = 0; i < 128; i++) at += (size_t)sprintf(events + at, i < 64 ? "+24@0/%zu " : "-24@0/%zu ", i == 0 ? 126 : 127 - i);
    all_refuse(whole("", events), 5, 1537);
}

/* --- partners in what is written: numbered in the result --- */

static void partners_written(void) {
    begin("`**a*`: what is left of a run stands before");
    resolves(ATTENTION, record("**a*", "+1@0/1 -1@2/0 +0@2/3 -0@3/2 +1@3/5 -1@4/4"), 59, 1, 1,
             section("+0@0/1 -0@1/0 +2@1/11 +3@1/4 -3@2/3 +4@2/8 +0@2/7 -0@3/6 -4@3/5 +3@3/10 -3@4/9 -2@4/2"));
    begin("`***a***`: a group in a group");
    resolves(ATTENTION, record("***a***", "+1@0/1 -1@3/0 +0@3/3 -0@4/2 +1@4/5 -1@7/4"), 59, 2, 2,
             section("+2@0/17 +3@0/2 -3@1/1 +4@1/14 +5@1/13 +6@1/6 -6@3/5 +7@3/10 +0@3/9 -0@4/8 -7@4/7 +6@4/12 -6@6/11 -5@6/4 -4@6/3 +3@6/16 -3@7/15 "
                     "-2@7/0"));
    begin("`*a*` in a container, behind a pair and before one");
    resolves(ATTENTION, record("*a*", "+24@0/9 +0@0/2 -0@0/1 +1@0/4 -1@1/3 +0@1/6 -0@2/5 +1@2/8 -1@3/7 -24@3/0 +14@3/11 -14@3/10"), 59, 1, 1,
             section("+24@0/13 +0@0/2 -0@0/1 +2@0/12 +3@0/5 -3@1/4 +4@1/9 +0@1/8 -0@2/7 -4@2/6 +3@2/11 -3@3/10 -2@3/3 -24@3/0 +14@3/15 -14@3/14"));
    begin("`a_b_c`: no groups, and all as it was");
    resolves(ATTENTION, record("a_b_c", "+0@0/1 -0@1/0 +1@1/3 -1@2/2 +0@2/5 -0@3/4 +1@3/7 -1@4/6 +0@4/9 -0@5/8"), 59, 0, 0,
             section("+0@0/1 -0@1/0 +0@1/3 -0@2/2 +0@2/5 -0@3/4 +0@3/7 -0@4/6 +0@4/9 -0@5/8"));

    begin("`# a b #`: two events less");
    resolves(HEADINGS,
             record("# a b #", "+11@0/15 +12@0/2 -12@1/1 +14@1/4 -14@2/3 +0@2/6 -0@3/5 +14@3/8 -14@4/7 +0@4/10 -0@5/9 +14@5/12 -14@6/11 +12@6/14 "
                               "-12@7/13 -11@7/0"),
             63, 0, 0,
             section("+11@0/13 +12@0/2 -12@1/1 +14@1/4 -14@2/3 +13@2/8 +0@2/7 -0@5/6 -13@5/5 +14@5/10 -14@6/9 +12@6/12 -12@7/11 -11@7/0"));
    begin("`# a`, in a container, and `#` behind it: two events more, and unchanged");
    resolves(HEADINGS,
             record("# a\n#", "+24@0/9 +11@0/8 +12@0/3 -12@1/2 +14@1/5 -14@2/4 +0@2/7 -0@3/6 -11@3/1 -24@3/0 +21@3/11 -21@4/10 +11@4/15 +12@4/14 "
                              "-12@5/13 -11@5/12"),
             63, 0, 0,
             section("+24@0/11 +11@0/10 +12@0/3 -12@1/2 +14@1/5 -14@2/4 +13@2/9 +0@2/8 -0@3/7 -13@3/6 -11@3/1 -24@3/0 +21@3/13 -21@4/12 +11@4/17 "
                     "+12@4/16 -12@5/15 -11@5/14"));

    begin("`- a`: a list round an item");
    resolves(LISTS, record("- a", "+15@0/9 +16@0/6 +17@0/3 -17@1/2 +14@1/5 -14@2/4 -16@2/1 +0@2/8 -0@3/7 -15@3/0"), 63, 0, 0,
             section("+20@0/11 +15@0/10 +16@0/7 +17@0/4 -17@1/3 +14@1/6 -14@2/5 -16@2/2 +0@2/9 -0@3/8 -15@3/1 -20@3/0"));
    begin("two marks, two lists");
    resolves(LISTS,
             record("-\n*", "+15@0/5 +16@0/4 +17@0/3 -17@1/2 -16@1/1 -15@1/0 +21@1/7 -21@2/6 +15@2/13 +16@2/12 +17@2/11 -17@3/10 -16@3/9 -15@3/8"),
             63, 0, 0,
             section("+20@0/7 +15@0/6 +16@0/5 +17@0/4 -17@1/3 -16@1/2 -15@1/1 -20@1/0 +21@1/9 -21@2/8 "
                     "+20@2/17 +15@2/16 +16@2/15 +17@2/14 -17@3/13 -16@3/12 -15@3/11 -20@3/10"));
    begin("a list in an item of a list of two");
    resolves(LISTS,
             record("- -\n-", "+15@0/13 +16@0/6 +17@0/3 -17@1/2 +14@1/5 -14@2/4 -16@2/1 +15@2/12 +16@2/11 +17@2/10 -17@3/9 -16@3/8 -15@3/7 -15@3/0 "
                              "+21@3/15 -21@4/14 +15@4/21 +16@4/20 +17@4/19 -17@5/18 -16@5/17 -15@5/16"),
             63, 0, 0,
             section("+20@0/25 +15@0/16 +16@0/7 +17@0/4 -17@1/3 +14@1/6 -14@2/5 -16@2/2 +20@2/15 +15@2/14 +16@2/13 +17@2/12 -17@3/11 -16@3/10 "
                     "-15@3/9 -20@3/8 -15@3/1 +21@3/18 -21@4/17 +15@4/24 +16@4/23 +17@4/22 -17@5/21 -16@5/20 -15@5/19 -20@5/0"));
}

/* `**` 1,000 times, `a`, and as many again: 1,000 strong groups in each other. Opener g, from the outermost on, has the events 4g to 4g + 3, and its closer
 * those from 4,000 + 4 * (999 - g) on. */
static void longest(void) {
    static char text[4001];
    static uint8_t out[LARK_OUT2_BYTES], work[LARK_WORK_BYTES];
    const struct bytes *r;
    struct lark_resolved got;
    size_t g;
    begin("8,000 events in 96,004 bytes: numbers of two bytes");
    memset(text, '*', sizeof text);
    text[2000] = 'a';
    r = handed(record_of(text, sizeof text, "+1@0 -1@2000 +1@2001 -1@4001"), 63);
    got = lark_resolve_attention2(r->at, r->n, out, 96004, work, sizeof work);
    equal("number", got.number, 0);
    equal("events", got.events, 8000);
    for (g = 0; g < 1000; g++) {
        equal("the partner of a group's enter", lark_event_at2(out, 4 * g).partner, 7999 - 4 * g);
        equal("that of its first sequence", lark_event_at2(out, 4 * g + 1).partner, 4 * g + 2);
        equal("that of its text", lark_event_at2(out, 4 * g + 3).partner, 7996 - 4 * g);
        equal("that of its second sequence", lark_event_at2(out, 7997 - 4 * g).partner, 7998 - 4 * g);
        equal("that of its exit", lark_event_at2(out, 7999 - 4 * g).partner, 4 * g);
    }
    begin("8,000 events and a byte too few");
    memset(out, 0xa5, sizeof out);
    got = lark_resolve_attention2(r->at, r->n, out, 96003, work, sizeof work);
    equal("number", got.number, 8);
    all_are("output that must stay", out, sizeof out, 0xa5);
}

/* --- output --- */

/* A section of so many events: accepted into an output of just its length, refused into one a byte shorter and into one as long as the old form's. */
static void fits(int which, const char *text, const char *events, size_t groups, size_t n, const char *result) {
    const struct bytes *r = record(text, events), *want = section(result);
    struct lark_resolved accepted = {0, 0, n, groups, groups};
    equal("the length of the section", want->n, 4 + 12 * n);
    resolves_handed(which, handed(r, 63), 63, 4 + 12 * n, LARK_WORK_BYTES, accepted, want);
    resolves_handed(which, handed(r, 63), 63, 4 + 12 * n - 1, LARK_WORK_BYTES, refusal(8, 0), NULL);
    if (n) resolves_handed(which, handed(r, 63), 63, 4 + 8 * n, LARK_WORK_BYTES, refusal(8, 0), NULL);
    resolves_handed(which, handed(r, 63), 63, 3, LARK_WORK_BYTES, refusal(8, 0), NULL);
}
static void outputs(void) {
    int i;
    begin("124 bytes for `*a*`");
    fits(ATTENTION, "*a*", "+1@0 -1@1 +0@1 -0@2 +1@2 -1@3", 1, 10, "+2@0/9 +3@0/2 -3@1/1 +4@1/6 +0@1/5 -0@2/4 -4@2/3 +3@2/8 -3@3/7 -2@3/0");
    begin("124 bytes for `# a`");
    fits(HEADINGS, "# a", "+11@0 +12@0 -12@1 +14@1 -14@2 +0@2 -0@3 -11@3", 0, 10,
         "+11@0/9 +12@0/2 -12@1/1 +14@1/4 -14@2/3 +13@2/8 +0@2/7 -0@3/6 -13@3/5 -11@3/0");
    begin("100 bytes for `-`");
    fits(LISTS, "-", "+15@0 +16@0 +17@0 -17@1 -16@1 -15@1", 0, 8, "+20@0/7 +15@0/6 +16@0/5 +17@0/4 -17@1/3 -16@1/2 -15@1/1 -20@1/0");
    begin("4 bytes for no events");
    for (i = 0; i < RESOLVERS; i++) fits(i, "ab", "", 0, 0, "");
}

/* --- from one call to the next --- */

/* One message after another in the same buffers, none of which is wiped in between. The second is answered as by itself, and what it does not write is
 * still the first's: the library has put nothing of the first there, and nothing of it elsewhere. */
static void earlier_message(void) {
    static uint8_t in[2][200], out[2][400], work[2][LARK_WORK_BYTES];
    const struct bytes *r;
    struct lark_resolved got[2];
    size_t first;
    int i;
    begin("a message after another");
    for (i = 0; i < RESOLVERS; i++) {
        memset(out, 0xa5, sizeof out);
        memset(work, 0xa5, sizeof work);
        r = whole("**the first of them** *is* meant for another", "+24@0/11 +1@0 -1@2 +1@19 -1@21 +1@22 -1@23 +1@25 -1@26 +14@26 -14@27 -24@44");
        memcpy(in[0], r->at, r->n);
        first = 4 + 12 * resolve(i, in[0], r->n, 63, out[0], sizeof out[0], work[0], sizeof work[0]).events;
        r = whole("*a*", "+1@0 -1@1 +0@1 -0@2 +1@2 -1@3");
        memcpy(in[0], r->at, r->n);
        memcpy(in[1], r->at, r->n);
        memcpy(out[1], out[0], sizeof out[1]);
        memset(out[1], 0xa5, 4 + 12 * 10);
        got[0] = resolve(i, in[0], r->n, 63, out[0], sizeof out[0], work[0], sizeof work[0]);
        got[1] = resolve(i, in[1], r->n, 63, out[1], sizeof out[1], work[1], sizeof work[1]);
        equal("number", got[0].number, 0);
        if (first <= 4 + 12 * got[0].events) fail("the length of the first section", first, 4 + 12 * got[0].events + 1);
        same("the answer", (const uint8_t *)&got[0], (const uint8_t *)&got[1], sizeof got[0]);
        same("the section", out[0], out[1], 4 + 12 * got[0].events);
        same("what is left of the first, behind it,", out[0] + 4 + 12 * 10, out[1] + 4 + 12 * 10, sizeof out[0] - 4 - 12 * 10);
        all_are("work memory", work[0], sizeof work[0], 0);
    }
}

/* `- *a*` through two resolvers, by the functions of the header alone; then each enter's exit is found in one step. */
static void handed_on(void) {
    static uint8_t bytes[LARK_RECORD2_BYTES], out[LARK_OUT2_BYTES], work[LARK_WORK_BYTES];
    static const size_t exits[] = {19, 18, 7, 4, 0, 6, 0, 0, 17, 10, 0, 14, 13, 0, 0, 16};
    const char *events = "+15@0 +16@0 +17@0 -17@1 +14@1 -14@2 -16@2 +1@2 -1@3 +0@3 -0@4 +1@4 -1@5 -15@5";
    struct lark_record2 r = lark_begin_record2(bytes, sizeof bytes, LARK_OPTION_ATTENTION, "- *a*", 5);
    struct lark_event2 event;
    struct lark_resolved got;
    size_t i;
    begin("a result that is handed on");
    while (next_event(&events, &event)) lark_add_event2(&r, event.kind, event.name, event.place);
    got = lark_resolve_lists2(r.bytes, r.length, out, sizeof out, work, sizeof work);
    equal("number", got.number, 0);
    equal("events", got.events, 16);
    r = lark_begin_record2(bytes, sizeof bytes, LARK_OPTION_ATTENTION, "- *a*", 5);
    for (i = 0; i < got.events; i++) {
        event = lark_event_at2(out, i);
        lark_add_event2(&r, event.kind, event.name, event.place);
    }
    same("the section, as the builder has it,", r.bytes + 9 + 5, out, 4 + 12 * 16);
    got = lark_resolve_attention2(r.bytes, r.length, out, sizeof out, work, sizeof work);
    equal("number", got.number, 0);
    equal("events", got.events, 20);
    equal("groups", got.groups, 1);
    for (i = 0; i < sizeof exits / sizeof *exits; i++) {
        event = lark_event_at2(out, i);
        if (!exits[i]) continue;
        equal("an enter", event.kind, LARK_ENTER);
        equal("the number of its exit", event.partner, exits[i]);
        equal("an exit", lark_event_at2(out, event.partner).kind, LARK_EXIT);
        equal("the name of an exit", lark_event_at2(out, event.partner).name, event.name);
    }
}

static void all(void) {
    whole_case();
    first_section();
    options_of_the_record();
    places();
    if (way == EXACT) every_option_byte(), damaged(), longest(), earlier_message(), handed_on(); /* what is lent is not what they are about */
    untrue();
    partners_written();
    outputs();
}

int main(void) {
    form = SECOND;
    return in_every_way(all);
}
