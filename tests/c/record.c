/* What all calls on a record have in common, in either form: numbers 1 to 5 of document 01's table, each at its boundary, and the limits that are
 * still good. Each case runs through lark_read and through the three resolvers, with ample output and with none. What form 2 has of its own, its first
 * section and partners, is in form2.c.
 */
#include "check.h"

/* All four refuse alike. In form 2 the options are a byte: greater ones cannot be given. */
static void all_refuse_with(const struct bytes *r, uint32_t options, size_t work_length, size_t number, size_t place) {
    int i;
    if (form == SECOND && options > 255) return;
    reads(r, options, work_length, number, place, 0, 0);
    for (i = 0; i < RESOLVERS; i++) {
        refuses(i, r, options, ample[form], work_length, number, place);
        refuses(i, r, options, 0, work_length, number, place);
    }
}

static void all_refuse(const struct bytes *r, size_t number, size_t place) {
    all_refuse_with(r, 63, LARK_WORK_BYTES, number, place);
}

/* All four accept a record without runs, headings and items; the resolvers write its events as they are. */
static void all_accept(const struct bytes *r, uint32_t options, size_t document, size_t events) {
    static struct bytes copy;
    int i;
    copy.n = 0;
    put(&copy, r->at + 4 + document, 4 + widths[form] * events);
    reads(r, options, LARK_WORK_BYTES, 0, 0, document, events);
    reads(r, options, LARK_WORK_BYTES + 4099, 0, 0, document, events);
    for (i = 0; i < RESOLVERS; i++) resolves(i, r, options, 0, 0, &copy);
}

/* One event in bare bytes, in a record with the document `ab`. Nothing else of it being wrong, it would be left open. */
static const struct bytes *one_event(unsigned kind, unsigned name, unsigned zero, unsigned nought, uint32_t place) {
    record_bytes.n = 0;
    put_document(&record_bytes, "ab", 2);
    put_number(&record_bytes, 1);
    put_many(&record_bytes, (uint8_t)kind, 1);
    put_many(&record_bytes, (uint8_t)name, 1);
    put_many(&record_bytes, (uint8_t)zero, 1);
    put_many(&record_bytes, (uint8_t)nought, 1);
    put_number(&record_bytes, place);
    put_many(&record_bytes, 0, widths[form] - 8);
    return &record_bytes;
}

/* A document of `d` letters, and `pairs` empty pairs of Data at its end. */
static const struct bytes *large(size_t d, size_t pairs) {
    static char letters[LARK_MAX_DOCUMENT + 1];
    size_t i;
    memset(letters, 'a', sizeof letters);
    begin_record(letters, d);
    for (i = 0; i < 2 * pairs; i++) add_event(i % 2 ? LARK_EXIT : LARK_ENTER, LARK_NAME_DATA, d);
    return built();
}

/* `enters` containers that are entered and then `exits` that are left, at place 0 of an empty document. */
static const struct bytes *deep(size_t enters, size_t exits) {
    size_t i;
    begin_record(NULL, 0);
    for (i = 0; i < enters; i++) add_event(LARK_ENTER, LARK_NAME_OTHER_CONTAINER, 0);
    for (i = 0; i < exits; i++) add_event(LARK_EXIT, LARK_NAME_OTHER_CONTAINER, 0);
    return built();
}

static void accepted(void) {
    uint32_t options;
    begin("no document, no events");
    all_accept(RAW("\0\0\0\0\0\0\0\0"), 63, 0, 0);
    begin("a pair of Data");
    all_accept(record("ab", "+0@0 -0@2"), 63, 2, 2);
    begin("equal places, and a place at the document's end");
    all_accept(record("ab", "+24@0 +0@0 -0@0 +0@2 -0@2 -24@2"), 63, 2, 6);
    begin("bytes of every value but a carriage return");
    {
        unsigned byte;
        record_bytes.n = 0;
        put_number(&record_bytes, 255);
        for (byte = 0; byte < 256; byte++)
            if (byte != 13) put_many(&record_bytes, (uint8_t)byte, 1);
        put_number(&record_bytes, 0);
        all_accept(&record_bytes, 63, 255, 0);
    }
    begin("13 as a count, a name and a place is no carriage return");
    all_accept(record("aaaaaaaaaaaaa", "+13@13 -13@13"), 63, 13, 2);
    begin("a document of 16,384 bytes and 2,048 events");
    all_accept(large(16384, 1024), 63, 16384, 2048);
    begin("64 events open");
    all_accept(deep(64, 64), 63, 0, 128);
    begin("every options number");
    for (options = 0; options <= 63; options++) reads(record("ab", "+0@0 -0@2"), options, LARK_WORK_BYTES, 0, 0, 2, 2);
}

static void number_1(void) {
    begin("1: no work memory");
    all_refuse_with(record("ab", "+0@0 -0@2"), 63, 0, 1, 0);
    begin("1: one byte of work memory");
    all_refuse_with(record("ab", "+0@0 -0@2"), 63, 1, 1, 0);
    begin("1: 65,535 bytes of work memory");
    all_refuse_with(record("ab", "+0@0 -0@2"), 63, 65535, 1, 0);
    begin("1 comes before 2, 3, 4 and 5");
    all_refuse_with(RAW("\1\0\0\0\r\1\0\0\0\7\7\7\7\7\7\7\7\7"), 64, 65535, 1, 0);
    begin("1: and no record either");
    all_refuse_with(RAW(""), 63, 65535, 1, 0);
}

static void number_2(void) {
    int bit;
    begin("2: options over 63, each further bit by itself");
    for (bit = 6; bit < 32; bit++) all_refuse_with(record("ab", "+0@0 -0@2"), (uint32_t)1 << bit, LARK_WORK_BYTES, 2, 0);
    begin("2: options over 63, several bits");
    all_refuse_with(record("ab", "+0@0 -0@2"), 65, LARK_WORK_BYTES, 2, 0);
    all_refuse_with(record("ab", "+0@0 -0@2"), 0xffffffffu, LARK_WORK_BYTES, 2, 0);
    begin("2 comes before 3");
    all_refuse_with(RAW("\1"), 64, LARK_WORK_BYTES, 2, 0);
    begin("2 comes before 4 and 5");
    all_refuse_with(record("\r", "-0@0"), 64, LARK_WORK_BYTES, 2, 0);
}

static void number_3(void) {
    begin("3: no record");
    all_refuse(RAW(""), 3, 0);
    begin("3: a first count of one byte");
    all_refuse(RAW("\0"), 3, 0);
    begin("3: a first count of three bytes");
    all_refuse(RAW("\0\0\0"), 3, 0);
    begin("3: a document that runs past the record");
    all_refuse(RAW("\5\0\0\0abcd"), 3, 0);
    begin("3: a document of 16,385 bytes");
    all_refuse(large(16385, 0), 3, 0);
    begin("3: a document of 2^32 - 1 bytes");
    all_refuse(RAW("\xff\xff\xff\xff\0\0\0\0"), 3, 0);
    begin("3: a document of 2^32 - 4 bytes");
    all_refuse(RAW("\xfc\xff\xff\xff\0\0\0\0"), 3, 0);
    begin("3: no second count");
    all_refuse(RAW("\0\0\0\0"), 3, 4);
    begin("3: a second count of three bytes");
    all_refuse(RAW("\2\0\0\0ab\0\0\0"), 3, 6);
    begin("3: events that run past the record by a byte");
    one_event(0, 0, 0, 0, 0);
    record_bytes.n--;
    all_refuse(&record_bytes, 3, 6);
    begin("3: 2,050 events that are all there");
    all_refuse(large(3, 1025), 3, 7);
    begin("3: 2,049 events that are all there");
    record_bytes.n = 0;
    put_document(&record_bytes, "abc", 3);
    put_number(&record_bytes, 2049);
    put_many(&record_bytes, 0, widths[form] * 2049);
    all_refuse(&record_bytes, 3, 7);
    begin("3: 2^32 - 1 events");
    all_refuse(RAW("\0\0\0\0\xff\xff\xff\xff"), 3, 4);
    begin("3: events of 8 bytes that count to 2^32");
    all_refuse(RAW("\0\0\0\0\0\0\0\x20"), 3, 4);
    begin("3: events of 12 bytes that count to 3 * 2^32, and to 8 over 2^32");
    all_refuse(RAW("\0\0\0\0\0\0\0\x40"), 3, 4);
    all_refuse(RAW("\0\0\0\0\x56\x55\x55\x15\0\0\0\0\0\0\0\0"), 3, 4);
    begin("3: a byte follows");
    all_refuse(RAW("\0\0\0\0\0\0\0\0\0"), 3, 8);
    begin("3: bytes follow the last event");
    record("a", "+0@0 -0@0");
    put(&record_bytes, "ab", 2);
    all_refuse(&record_bytes, 3, event_place(1, 2));
    begin("3: 65,536 bytes follow");
    raw("\0\0\0\0\0\0\0\0", 8);
    put_many(&record_bytes, 0, 65536);
    all_refuse(&record_bytes, 3, 8);
    begin("3: a byte follows the longest record");
    large(16384, 1024);
    put_many(&record_bytes, 0, 1);
    all_refuse(&record_bytes, 3, event_place(16384, 2048));
    begin("3 comes before 4, also at a later place");
    all_refuse(RAW("\1\0\0\0\r"), 3, 5);
    all_refuse(RAW("\1\0\0\0\r\0\0\0\0\0"), 3, 9);
    begin("3 comes before 5");
    one_event(7, 7, 7, 7, 7);
    put_many(&record_bytes, 7, 1);
    all_refuse(&record_bytes, 3, event_place(2, 1));
}

static void number_4(void) {
    char text[170];
    size_t n, at;
    begin("4: a carriage return alone");
    all_refuse(record("\r", ""), 4, 4);
    begin("4: the first of two");
    all_refuse(record("ab\r\n\r", ""), 4, 6);
    begin("4: at the document's end");
    all_refuse(record("ab\r", "+0@0 -0@3"), 4, 6);
    begin("4 comes before 5");
    all_refuse(record("ab\r", "-0@0"), 4, 6);
    begin("4: at every place of the blocks that a document is looked at in");
    for (n = 1; n < sizeof text; n++) {
        memset(text, 'a', n);
        text[n] = 0;
        for (at = n > 3 ? n - 3 : 0; at < n; at++) {
            text[at] = '\r';
            reads(record(text, ""), 63, LARK_WORK_BYTES, 4, 4 + at, 0, 0);
            text[at] = 'a';
        }
        reads(record(text, ""), 63, LARK_WORK_BYTES, 0, 0, n, 0);
        /* Behind it, a name of 13, and a count of 13: 5, at the record's end, since these are left open. */
        reads(record(text, "+13@0 -13@0"), 63, LARK_WORK_BYTES, 0, 0, n, 2);
        reads(record(text, "+0@0 +0@0 +0@0 +0@0 +0@0 +0@0 +0@0 +0@0 +0@0 +0@0 +0@0 +0@0 +0@0"), 63, LARK_WORK_BYTES, 5, event_place(n, 13), 0,
              0);
    }
    for (at = 0; at < n - 1; at++) {
        text[at] = '\r';
        reads(record(text, ""), 63, LARK_WORK_BYTES, 4, 4 + at, 0, 0);
        text[at] = 'a';
    }
}

static void number_5(void) {
    begin("5: kind 2");
    all_refuse(one_event(2, 0, 0, 0, 0), 5, event_place(2, 0));
    begin("5: kind 255");
    all_refuse(one_event(255, 0, 0, 0, 0), 5, event_place(2, 0));
    begin("5: name 25");
    all_refuse(one_event(0, 25, 0, 0, 0), 5, event_place(2, 0));
    begin("5: name 255");
    all_refuse(one_event(0, 255, 0, 0, 0), 5, event_place(2, 0));
    begin("5: the first of the zero bytes");
    all_refuse(one_event(0, 0, 1, 0, 0), 5, event_place(2, 0));
    begin("5: the second of the zero bytes");
    all_refuse(one_event(0, 0, 0, 128, 0), 5, event_place(2, 0));
    begin("5: a place past the document");
    all_refuse(one_event(0, 0, 0, 0, 3), 5, event_place(2, 0));
    begin("5: the largest place");
    all_refuse(one_event(0, 0, 0, 0, 0xffffffffu), 5, event_place(2, 0));
    begin("5: a place past an empty document");
    all_refuse(record("", "+0@0 -0@1"), 5, event_place(0, 1));
    begin("5: a place below the event before");
    all_refuse(record("ab", "+0@0 -0@2 +0@1 -0@1"), 5, event_place(2, 2));
    begin("5: an exit without its enter");
    all_refuse(record("ab", "-0@0"), 5, event_place(2, 0));
    begin("5: an exit of another name");
    all_refuse(record("ab", "+0@0 -14@1"), 5, event_place(2, 1));
    begin("5: an exit of an event that is not the innermost");
    all_refuse(record("ab", "+24@0 +0@0 -24@1 -0@1"), 5, event_place(2, 2));
    begin("5: the enter of a 65th open event");
    all_refuse(deep(65, 65), 5, event_place(0, 64));
    begin("5: an event left open");
    all_refuse(record("ab", "+0@0"), 5, event_place(2, 1));
    begin("5: 64 events left open");
    all_refuse(deep(64, 0), 5, event_place(0, 64));
    begin("5: an event left open under one that was closed");
    all_refuse(record("ab", "+24@0 +0@0 -0@1"), 5, event_place(2, 3));
    begin("5: an event left open at the end of the longest record");
    large(16384, 1024);
    record_bytes.at[event_place(16384, 2047)] = LARK_ENTER;
    all_refuse(&record_bytes, 5, event_place(16384, 2048));
    begin("5: the last event of the longest record");
    large(16384, 1024);
    record_bytes.at[event_place(16384, 2047) + 1] = LARK_NAME_SPACE_OR_TAB;
    all_refuse(&record_bytes, 5, event_place(16384, 2047));
    begin("5: the earliest of several");
    all_refuse(record("ab", "+0@0 -0@1 -0@1 +25@1 +0@9"), 5, event_place(2, 2));
    begin("5 comes before the shape of runs, headings and items");
    all_refuse(record("ab", "+1@0 -1@0 +11@0 -11@0 +15@0 -15@0 +0@0"), 5, event_place(2, 7));
}

/* A buffer that is used again: a short record in front of the rest of an earlier one. What is lent is the short record alone. */
static void reused(void) {
    static const struct bytes *r;
    static uint8_t out[LARK_OUT2_BYTES], work[LARK_WORK_BYTES];
    struct lark_reading2 got;
    struct lark_resolved done;
    size_t n, count = fronts[form] + 31;
    int i;
    begin("a buffer that is used again");
    r = handed(record("a message meant for another", "+0@0 -0@27"), 63);
    /* the same document, cut off: its count says 27, but 10 bytes are lent, or 15 with the options */
    got = read_record(r->at, fronts[form] + 10, 63, work, sizeof work);
    equal("number", got.number, 3);
    equal("place", got.place, fronts[form]);
    equal("document", got.document, 0);
    equal("events", got.events, 0);
    /* its events cut off: the earlier record's are still in the buffer behind what is lent */
    for (n = count + 4; n < r->n; n++) {
        got = read_record(r->at, n, 63, work, sizeof work);
        equal("number", got.number, 3);
        equal("place", got.place, count);
        for (i = 0; i < RESOLVERS; i++) {
            memset(out, 0xa5, sizeof out);
            done = resolve(i, r->at, n, 63, out, sizeof out, work, sizeof work);
            equal("number", done.number, 3);
            equal("place", done.place, count);
            all_are("output that must stay", out, sizeof out, 0xa5);
            all_are("work memory", work, sizeof work, 0);
        }
    }
}

static void all(void) {
    accepted();
    number_1();
    number_2();
    number_3();
    number_4();
    number_5();
    reused();
}

int main(void) { return in_every_form(all); }
