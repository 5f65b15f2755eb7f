/* The header: its numbers are document 01's, its structs have the fields in their order and nothing else, each refusal has its words, and the
 * functions that build and read records do so byte by byte. It is included first and alone, so that it has to stand by itself.
 */
#include <ledgerlark.h>

#include <ledgerlark.h> /* a second time does no harm */
#include <stdio.h>
#include <string.h>

static unsigned cases, failures;

static void holds(const char *name, int held) {
    cases++;
    if (!held) {
        printf("FAIL: %s\n", name);
        failures++;
    }
}

/* Field number i of a struct of size_t fields. */
#define FIELD(type, field, i) holds(#type "." #field, offsetof(struct type, field) == (i) * sizeof(size_t))
#define FIELDS(type, n) holds(#type, sizeof(struct type) == (n) * sizeof(size_t))

/* In C++ nothing here throws, and the compiler knows it. */
#if defined __cplusplus && __cplusplus >= 201103L
#define SILENT(call) static_assert(noexcept(call), #call)
SILENT(lark_read(NULL, 0, 0, NULL, 0));
SILENT(lark_resolve_attention(NULL, 0, 0, NULL, 0, NULL, 0));
SILENT(lark_resolve_headings(NULL, 0, 0, NULL, 0, NULL, 0));
SILENT(lark_resolve_lists(NULL, 0, 0, NULL, 0, NULL, 0));
SILENT(lark_read2(NULL, 0, NULL, 0));
SILENT(lark_resolve_attention2(NULL, 0, NULL, 0, NULL, 0));
SILENT(lark_resolve_headings2(NULL, 0, NULL, 0, NULL, 0));
SILENT(lark_resolve_lists2(NULL, 0, NULL, 0, NULL, 0));
SILENT(lark_space_or_tab(NULL, 0, 0, 0, 0, 0));
SILENT(lark_list_item(NULL, 0, 0, 0, 0));
SILENT(lark_continuation(NULL, 0, 0, 0, 0, 0, 0));
SILENT(lark_heading(NULL, 0, 0, 0, NULL, 0));
SILENT(lark_refusal_text(0));
SILENT(lark_number_at(NULL));
SILENT(lark_put_number(NULL, 0));
SILENT(lark_put_byte(NULL, 0));
SILENT(lark_event_of(NULL));
SILENT(lark_event_at(NULL, 0));
SILENT(lark_event_at2(NULL, 0));
SILENT(lark_put_document(NULL, 0, 0, NULL, 0));
SILENT(lark_put_event(NULL, 0, NULL, 0, 0, 0, 0, 0));
SILENT(lark_begin_record(NULL, 0, NULL, 0));
SILENT(lark_begin_record2(NULL, 0, 0, NULL, 0));
SILENT(lark_add_event(NULL, 0, 0, 0));
SILENT(lark_add_event2(NULL, 0, 0, 0));
#elif defined __cplusplus
/* Before C++11 nobody can ask, but a second declaration has to say the same. */
extern "C" struct lark_reading lark_read(const uint8_t *, size_t, uint32_t, uint8_t *, size_t) throw();
extern "C" struct lark_reading2 lark_read2(const uint8_t *, size_t, uint8_t *, size_t) throw();
#endif

/* --- numbers, events and records, byte by byte --- */

/* Whether bytes are these, and those behind them as dirty as they were. */
static uint8_t buffer[128];
static int buffer_is(const uint8_t *want, size_t n) {
    size_t i;
    for (i = n; i < sizeof buffer; i++)
        if (buffer[i] != 0xa5) return 0;
    return n == 0 || memcmp(buffer, want, n) == 0;
}
static void make_dirty(void) { memset(buffer, 0xa5, sizeof buffer); }

/* A number put and read again. */
static void number_is(size_t number, uint8_t a, uint8_t b, uint8_t c, uint8_t d, size_t read) {
    uint8_t want[4];
    want[0] = a, want[1] = b, want[2] = c, want[3] = d;
    make_dirty();
    lark_put_number(buffer, number);
    holds("a number is put into four bytes", buffer_is(want, 4));
    holds("a number is read from four bytes", lark_number_at(want) == read);
}

static void numbers(void) {
    number_is(0, 0, 0, 0, 0, 0);
    number_is(1, 1, 0, 0, 0, 1);
    number_is(0x04030201, 1, 2, 3, 4, 0x04030201);
    number_is(0x80ff0000, 0, 0, 255, 128, 0x80ff0000);
    number_is(0xffffffff, 255, 255, 255, 255, 0xffffffff);
    /* one that needs more is not cut */
    number_is((size_t)0xffffffff + 1, 255, 255, 255, 255, 0xffffffff);
    number_is(((size_t)1 << 63) + 7, 255, 255, 255, 255, 0xffffffff);
    number_is(SIZE_MAX, 255, 255, 255, 255, 0xffffffff);
}

static int event_is(struct lark_event event, size_t kind, size_t name, size_t place) {
    return event.kind == kind && event.name == name && event.place == place;
}
static int event2_is(struct lark_event2 event, size_t kind, size_t name, size_t place, size_t partner) {
    return event.kind == kind && event.name == name && event.place == place && event.partner == partner;
}

/* The record that is being built: in the old form, or in form 2 with options 63. */
static int second;
static struct lark_record record;
static struct lark_record2 record2;
static void begin_in(uint8_t *bytes, size_t room, const void *document, size_t document_length) {
    if (second)
        record2 = lark_begin_record2(bytes, room, 63, document, document_length);
    else
        record = lark_begin_record(bytes, room, document, document_length);
}
static void add(size_t kind, size_t name, size_t place) {
    if (second)
        lark_add_event2(&record2, kind, name, place);
    else
        lark_add_event(&record, kind, name, place);
}
static size_t length(void) { return second ? record2.length : record.length; }

/* In a clean buffer, of which so much may be used. */
static void begin_clean(size_t room, const void *document, size_t document_length) {
    make_dirty();
    begin_in(buffer, room, document, document_length);
}

/* What lark_read answers for it. */
static uint8_t work[LARK_WORK_BYTES];
static int read_is(size_t number, size_t place, size_t document, size_t events) {
    struct lark_reading got;
    struct lark_reading2 got2;
    if (second) {
        got2 = lark_read2(record2.bytes, record2.length, work, sizeof work);
        return got2.number == number && got2.place == place && got2.options == (number ? 0 : 63) && got2.document == document && got2.events == events;
    }
    got = lark_read(record.bytes, record.length, 63, work, sizeof work);
    return got.number == number && got.place == place && got.document == document && got.events == events;
}

/* `*a*` in both forms, with no events, with an enter, which has no partner yet, and with its exit too: the bytes, and how many there are. */
static const uint8_t begun[2][16] = {{3, 0, 0, 0, '*', 'a', '*', 0, 0, 0, 0}, {1, 0, 0, 0, 63, 3, 0, 0, 0, '*', 'a', '*', 0, 0, 0, 0}};
static const uint8_t one[2][28] = {{3, 0, 0, 0, '*', 'a', '*', 1, 0, 0, 0, 0, 24, 0, 0, 0, 0, 0, 0},
                                   {1, 0, 0, 0, 63, 3, 0, 0, 0, '*', 'a', '*', 1, 0, 0, 0, 0, 24, 0, 0, 0, 0, 0, 0, 255, 255, 255, 255}};
static const uint8_t both[2][40] = {
    {3, 0, 0, 0, '*', 'a', '*', 2, 0, 0, 0, 0, 24, 0, 0, 0, 0, 0, 0, 1, 24, 0, 0, 3, 0, 0, 0},
    {1, 0, 0, 0, 63, 3, 0, 0, 0, '*', 'a', '*', 2, 0, 0, 0, 0, 24, 0, 0, 0, 0, 0, 0, 1, 0, 0, 0, 1, 24, 0, 0, 3, 0, 0, 0, 0, 0, 0, 0}};
static const size_t begun_length[] = {11, 16}, one_length[] = {19, 28}, both_length[] = {27, 40};
static int is_begun(void) { return buffer_is(begun[second], begun_length[second]); }
static int is_one(void) { return buffer_is(one[second], one_length[second]); }
static int is_both(void) { return buffer_is(both[second], both_length[second]); }

static void building(void) {
    size_t least = second ? 13 : 8;
    begin_clean(sizeof buffer, "*a*", 3);
    holds("a record begun", is_begun() && length() == begun_length[second]);
    if (second)
        holds("a record begun tells its parts", record2.bytes == buffer && record2.room == sizeof buffer && record2.document == 3);
    else
        holds("a record begun tells its parts", record.bytes == buffer && record.room == sizeof buffer && record.document == 3);
    holds("a record begun is good", read_is(0, 0, 3, 0));
    add(LARK_ENTER, LARK_NAME_OTHER_CONTAINER, 0);
    holds("an event added", is_one() && length() == one_length[second]);
    holds("an event added is left open", read_is(5, one_length[second], 0, 0));
    add(LARK_EXIT, LARK_NAME_OTHER_CONTAINER, 3);
    holds("two events added", is_both() && length() == both_length[second]);
    holds("two events added are good", read_is(0, 0, 3, 2));

    begin_clean(both_length[second], "*a*", 3);
    add(0, 24, 0);
    add(1, 24, 3);
    holds("a buffer that is just long enough", is_both() && length() == both_length[second]);
    add(0, 0, 3);
    holds("a third event does not fit: nothing is written", is_both() && length() == 0);
    holds("what did not fit is refused", read_is(3, 0, 0, 0));
    add(0, 0, 3);
    holds("and stays so", is_both() && length() == 0);

    begin_clean(both_length[second] - 1, "*a*", 3);
    add(0, 24, 0);
    add(1, 24, 3);
    holds("a byte short of two events", is_one() && length() == 0);
    add(1, 24, 3);
    holds("an exit more changes no event", is_one() && length() == 0);

    begin_clean(begun_length[second], "*a*", 3);
    holds("a buffer for the document alone", is_begun() && length() == begun_length[second]);
    begin_clean(begun_length[second] - 1, "*a*", 3);
    holds("a byte short of the document", buffer_is(NULL, 0) && length() == 0);
    add(0, 24, 0);
    add(1, 24, 0);
    holds("no event goes to a record that was not begun", buffer_is(NULL, 0) && length() == 0);
    begin_clean(least - 1, NULL, 0);
    holds("a byte short of no document", buffer_is(NULL, 0) && length() == 0);
    begin_clean(sizeof buffer, "*a*", SIZE_MAX);
    holds("the longest document", buffer_is(NULL, 0) && length() == 0);
    begin_clean(sizeof buffer, "*a*", SIZE_MAX - least + 1);
    holds("a document whose record is as long as none", buffer_is(NULL, 0) && length() == 0);
    begin_in(NULL, 0, NULL, 0);
    add(0, 24, 0);
    add(1, 24, 0);
    holds("no buffer", length() == 0 && read_is(3, 0, 0, 0));
}

/* Documents of no bytes, documents that lie in the buffer, and events that cannot be. */
static void building_more(void) {
    static const uint8_t empty[2][13] = {{0}, {1, 0, 0, 0, 63}};
    static const uint8_t none[2][49] = {{0, 0, 0, 0, 3, 0, 0, 0, 255, 255, 0, 0, 255, 255, 255, 255, 255, 255, 0, 0, 255, 255, 255, 255,
                                         255, 254, 0, 0, 255, 255, 255, 255},
                                        {1, 0, 0, 0, 63, 0, 0, 0, 0, 3, 0, 0, 0, 255, 255, 0, 0, 255, 255, 255, 255, 0, 0, 0, 0,
                                         255, 255, 0, 0, 255, 255, 255, 255, 0, 0, 0, 0, 255, 254, 0, 0, 255, 255, 255, 255, 0, 0, 0, 0}};
    size_t at, least = second ? 13 : 8, all = second ? 49 : 32;
    begin_clean(least, NULL, 0);
    holds("no document", buffer_is(empty[second], least) && length() == least && read_is(0, 0, 0, 0));
    for (at = 0; at < least; at++) {
        make_dirty();
        memcpy(buffer + at, "*a*", 3);
        begin_in(buffer, begun_length[second], buffer + at, 3);
        holds("a document that lies in the buffer", is_begun() && length() == begun_length[second]);
    }
    begin_clean(sizeof buffer, NULL, 0);
    add(256, 256, (size_t)0xffffffff + 1);
    holds("a kind that cannot be is refused", read_is(5, least, 0, 0));
    add(SIZE_MAX, SIZE_MAX, SIZE_MAX);
    add(255, 254, 0xffffffff);
    holds("what does not fit an event is not cut", buffer_is(none[second], all) && length() == all);
    begin_clean(sizeof buffer, NULL, 0);
    add(LARK_ENTER, 256, 0);
    holds("a name that cannot be is refused", read_is(5, least, 0, 0));
    begin_clean(sizeof buffer, NULL, 0);
    add(LARK_ENTER, LARK_NAME_DATA, (size_t)0xffffffff + 1);
    holds("a place that cannot be is refused", read_is(5, least, 0, 0));
}

/* The longest record there is, and an event more. */
static void building_most(void) {
    static uint8_t longest[LARK_RECORD2_BYTES + 12], text[LARK_MAX_DOCUMENT];
    size_t i, most = second ? LARK_RECORD2_BYTES : LARK_RECORD_BYTES, width = second ? 12 : 8, front = second ? 5 : 0;
    memset(text, 'a', sizeof text);
    begin_in(longest, most + width, text, sizeof text);
    for (i = 0; i < LARK_MAX_EVENTS; i++) add(i % 2, LARK_NAME_DATA, 8 * i);
    holds("the longest record", length() == most && read_is(0, 0, LARK_MAX_DOCUMENT, LARK_MAX_EVENTS));
    if (second)
        holds("its last event", event2_is(lark_event_at2(longest + 9 + LARK_MAX_DOCUMENT, 2047), LARK_EXIT, LARK_NAME_DATA, 16376, 2046));
    else
        holds("its last event", event_is(lark_event_at(longest + 4 + LARK_MAX_DOCUMENT, 2047), LARK_EXIT, LARK_NAME_DATA, 16376));
    add(LARK_ENTER, LARK_NAME_DATA, 16384);
    holds("an event more is refused", length() == most + width && read_is(3, front + 4 + LARK_MAX_DOCUMENT, 0, 0));
}

/* An event read from bytes that all differ, and from those behind others. */
static void reading(void) {
    static const uint8_t bytes[] = {9, 9, 9, 9, 1, 24, 0, 0, 3, 4, 5, 6, 7, 8, 9, 10, 0, 7, 0, 0, 2, 0, 0, 0, 11, 12, 13, 14};
    holds("an event read", event_is(lark_event_of(bytes + 4), 1, 24, 0x06050403) && event_is(lark_event_at(bytes, 0), 1, 24, 0x06050403));
    holds("an event read behind one of 8 bytes", event_is(lark_event_at(bytes, 1), 7, 8, 0x0700));
    holds("an event read in form 2", event2_is(lark_event_at2(bytes, 0), 1, 24, 0x06050403, 0x0a090807));
    holds("an event read in form 2 behind another", event2_is(lark_event_at2(bytes, 1), 0, 7, 2, 0x0e0d0c0b));
}

/* --- form 2: options and partners --- */

static void options(void) {
    static const struct {
        uint32_t given;
        uint8_t put;
    } rows[] = {{0, 0}, {1, 1}, {63, 63}, {64, 64}, {255, 255}, {256, 255}, {0x100 + 63, 255}, {0xffffffffu, 255}};
    struct lark_record2 r;
    struct lark_reading2 got;
    size_t i;
    for (i = 0; i < sizeof rows / sizeof *rows; i++) {
        uint8_t want[13] = {1};
        want[4] = rows[i].put;
        make_dirty();
        r = lark_begin_record2(buffer, sizeof buffer, rows[i].given, NULL, 0);
        holds("options go into the record, and are not cut", buffer_is(want, sizeof want) && r.length == sizeof want);
        got = lark_read2(r.bytes, r.length, work, sizeof work);
        holds("options over 63 are refused", got.number == (rows[i].given > 63 ? 2u : 0u) && got.options == (rows[i].given > 63 ? 0 : rows[i].given));
    }
}

/* Event `i` of the record that is being built. */
static struct lark_event2 built(size_t i) { return lark_event_at2(record2.bytes + 9 + record2.document, i); }

static void partners(void) {
    static const size_t nested[] = {7, 2, 1, 6, 5, 4, 3, 0};
    static const char kinds[] = "++-++---";
    size_t i;
    begin_clean(sizeof buffer, "a", 1);
    for (i = 0; i < 8; i++) add(kinds[i] == '-', LARK_NAME_OTHER_CONTAINER, 1);
    for (i = 0; i < 8; i++) holds("a partner, in pairs beside and in each other", built(i).partner == nested[i]);
    holds("eight events", length() == 14 + 12 * 8 && read_is(0, 0, 1, 8));

    begin_clean(sizeof buffer, NULL, 0);
    add(LARK_EXIT, LARK_NAME_DATA, 0);
    holds("an exit with nothing open has no partner", built(0).partner == 0 && record2.open == 0xffffffffu && read_is(5, 13, 0, 0));
    add(LARK_ENTER, LARK_NAME_DATA, 0);
    add(LARK_EXIT, LARK_NAME_DATA, 0);
    add(LARK_EXIT, LARK_NAME_DATA, 0);
    holds("pairs behind it have theirs", built(1).partner == 2 && built(2).partner == 1 && built(3).partner == 0 && read_is(5, 13, 0, 0));

    begin_clean(sizeof buffer, NULL, 0);
    add(LARK_ENTER, LARK_NAME_DATA, 0);
    add(2, LARK_NAME_DATA, 0);
    add((size_t)1 << 32, LARK_NAME_DATA, 0);
    add(((size_t)1 << 32) + 1, LARK_NAME_DATA, 0);
    add(SIZE_MAX, LARK_NAME_DATA, 0);
    holds("what is neither enter nor exit has no partner, and opens and closes nothing",
          built(1).partner == 0 && built(2).partner == 0 && built(3).partner == 0 && built(4).partner == 0 && record2.open == 0);
    add(LARK_EXIT, LARK_NAME_DATA, 0);
    holds("the pair round it has theirs", built(0).partner == 5 && built(5).partner == 0 && read_is(5, 25, 0, 0));

    begin_clean(13 + 12 * 4, NULL, 0);
    add(LARK_ENTER, LARK_NAME_DATA, 0);
    add(LARK_ENTER, LARK_NAME_DATA, 0);
    lark_put_number(buffer + 13 + 12 + 8, 0x00ffffff);
    add(LARK_EXIT, LARK_NAME_DATA, 0);
    add(LARK_EXIT, LARK_NAME_DATA, 0);
    holds("a buffer that was written over: still nothing outside of it is touched", length() == 13 + 12 * 4 && buffer_is(buffer, 13 + 12 * 4));
    holds("and the last exit has no partner", built(3).partner == 0 && read_is(5, 13 + 12 * 3, 0, 0));
}

/* More open than a record may have: all get their partners, and the record is refused at the 65th. */
static void deepest(void) {
    static uint8_t deep[LARK_RECORD2_BYTES];
    size_t i, wrong = 0;
    begin_in(deep, sizeof deep, NULL, 0);
    for (i = 0; i < LARK_MAX_EVENTS; i++) add(i >= LARK_MAX_EVENTS / 2, LARK_NAME_OTHER_CONTAINER, 0);
    for (i = 0; i < LARK_MAX_EVENTS; i++) wrong += built(i).partner != LARK_MAX_EVENTS - 1 - i;
    holds("1,024 open", wrong == 0 && record2.open == 0xffffffffu && read_is(5, 13 + 12 * 64, 0, 0));
}

int main(void) {
    static const int names[] = {LARK_NAME_DATA, LARK_NAME_ATTENTION_SEQUENCE, LARK_NAME_EMPHASIS, LARK_NAME_EMPHASIS_SEQUENCE,
                                LARK_NAME_EMPHASIS_TEXT, LARK_NAME_STRONG, LARK_NAME_STRONG_SEQUENCE, LARK_NAME_STRONG_TEXT,
                                LARK_NAME_GFM_STRIKETHROUGH, LARK_NAME_GFM_STRIKETHROUGH_SEQUENCE, LARK_NAME_GFM_STRIKETHROUGH_TEXT,
                                LARK_NAME_HEADING_ATX, LARK_NAME_HEADING_ATX_SEQUENCE, LARK_NAME_HEADING_ATX_TEXT, LARK_NAME_SPACE_OR_TAB,
                                LARK_NAME_LIST_ITEM, LARK_NAME_LIST_ITEM_PREFIX, LARK_NAME_LIST_ITEM_MARKER, LARK_NAME_LIST_ITEM_VALUE,
                                LARK_NAME_LIST_ORDERED, LARK_NAME_LIST_UNORDERED, LARK_NAME_LINE_ENDING, LARK_NAME_BLANK_LINE_ENDING,
                                LARK_NAME_BLOCK_QUOTE_PREFIX, LARK_NAME_OTHER_CONTAINER};
    static const int refusals[] = {LARK_ACCEPTED, LARK_REFUSED_WORK, LARK_REFUSED_OPTIONS, LARK_REFUSED_COUNT, LARK_REFUSED_RETURN,
                                   LARK_REFUSED_EVENT, LARK_REFUSED_SHAPE, LARK_REFUSED_RESULT, LARK_REFUSED_OUTPUT};
    static const char *const words[] = {"accepted",
                                        "the work memory is under 65,536 bytes",
                                        "the options are over 63, the column over 16,384, or the first count not 1",
                                        "a length does not fit",
                                        "a carriage return",
                                        "an event is not sound",
                                        "not the shape that the resolver asks for",
                                        "the result is over 8,000 events",
                                        "the output is too short for the result",
                                        "no such refusal"};
    char version[32];
    int i;

    holds("25 names", sizeof names / sizeof *names == 25);
    for (i = 0; i < 25; i++) holds("a name", names[i] == i);
    for (i = 0; i < 9; i++) holds("a refusal", refusals[i] == i);
    holds("kinds", LARK_ENTER == 0 && LARK_EXIT == 1);
    holds("options", LARK_OPTION_ATTENTION == 1 && LARK_OPTION_STRIKETHROUGH == 2 && LARK_OPTION_SINGLE_TILDE == 4 &&
                         LARK_OPTION_HEADING == 8 && LARK_OPTION_LIST_ITEM == 16 && LARK_OPTION_CODE_INDENTED == 32 && LARK_MAX_OPTIONS == 63);
    holds("limits", LARK_MAX_DOCUMENT == 16384 && LARK_MAX_LINE == 16384 && LARK_MAX_COLUMN == 16384 && LARK_MAX_EVENTS == 2048 &&
                        LARK_MAX_DEPTH == 64 && LARK_MAX_RESULT == 8000);
    holds("sizes", LARK_WORK_BYTES == 65536 && LARK_OUT_BYTES == 64004 && LARK_RECORD_BYTES == 32776);
    holds("sizes in form 2", LARK_OUT2_BYTES == 96004 && LARK_RECORD2_BYTES == 40973);
    holds("sizes as parts of something else", 2 * LARK_WORK_BYTES == 131072 && 2 * LARK_OUT_BYTES == 128008 && 2 * LARK_RECORD_BYTES == 65552 &&
                                                  2 * LARK_OUT2_BYTES == 192008 && 2 * LARK_RECORD2_BYTES == 81946);
    holds("options are unsigned", LARK_OPTION_ATTENTION - 64 > 63 && LARK_OPTION_STRIKETHROUGH - 64 > 63 && LARK_OPTION_SINGLE_TILDE - 64 > 63 &&
                                      LARK_OPTION_HEADING - 64 > 63 && LARK_OPTION_LIST_ITEM - 64 > 63 && LARK_OPTION_CODE_INDENTED - 64 > 63 &&
                                      LARK_MAX_OPTIONS - 64 > 63);

    sprintf(version, "%d.%d.%d", LARK_VERSION_MAJOR, LARK_VERSION_MINOR, LARK_VERSION_PATCH);
    holds("the version in both forms", strcmp(LARK_VERSION, version) == 0);

    for (i = 0; i < 10; i++) holds("a refusal in words", strcmp(lark_refusal_text((size_t)i), words[i]) == 0);
    holds("the largest number in words", strcmp(lark_refusal_text(SIZE_MAX), words[9]) == 0);
    holds("a number that is 4 in its lower half, in words", strcmp(lark_refusal_text(((size_t)1 << 32) + 4), words[9]) == 0);

    numbers();
    reading();
    for (second = 0; second < 2; second++) {
        building();
        building_more();
        building_most();
    }
    second = 1;
    options();
    partners();
    deepest();

    FIELD(lark_reading, number, 0), FIELD(lark_reading, place, 1), FIELD(lark_reading, document, 2), FIELD(lark_reading, events, 3);
    FIELDS(lark_reading, 4);
    FIELD(lark_reading2, number, 0), FIELD(lark_reading2, place, 1), FIELD(lark_reading2, options, 2), FIELD(lark_reading2, document, 3);
    FIELD(lark_reading2, events, 4), FIELDS(lark_reading2, 5);
    FIELD(lark_resolved, number, 0), FIELD(lark_resolved, place, 1), FIELD(lark_resolved, events, 2), FIELD(lark_resolved, groups, 3);
    FIELD(lark_resolved, tried, 4), FIELDS(lark_resolved, 5);
    FIELD(lark_spaces, number, 0), FIELD(lark_spaces, place, 1), FIELD(lark_spaces, found, 2), FIELD(lark_spaces, taken, 3);
    FIELD(lark_spaces, left, 4), FIELDS(lark_spaces, 5);
    FIELD(lark_item, number, 0), FIELD(lark_item, place, 1), FIELD(lark_item, found, 2), FIELD(lark_item, taken, 3);
    FIELD(lark_item, left, 4), FIELD(lark_item, size, 5), FIELD(lark_item, blank, 6), FIELD(lark_item, mark, 7), FIELDS(lark_item, 8);
    FIELD(lark_going, number, 0), FIELD(lark_going, place, 1), FIELD(lark_going, found, 2), FIELD(lark_going, taken, 3);
    FIELD(lark_going, left, 4), FIELD(lark_going, blank, 5), FIELDS(lark_going, 6);
    FIELD(lark_event, kind, 0), FIELD(lark_event, name, 1), FIELD(lark_event, place, 2), FIELDS(lark_event, 3);
    FIELD(lark_event2, kind, 0), FIELD(lark_event2, name, 1), FIELD(lark_event2, place, 2), FIELD(lark_event2, partner, 3), FIELDS(lark_event2, 4);
    FIELD(lark_headed, number, 0), FIELD(lark_headed, place, 1), FIELD(lark_headed, found, 2), FIELD(lark_headed, events, 3);
    FIELDS(lark_headed, 4);

    printf("%u cases, %u failures\n", cases, failures);
    return failures != 0;
}
