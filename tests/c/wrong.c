/* A library that is wrong in one way, put between a test and the real one by the linker's --wrap. The tests have to see it: what they check is
 * checked. WRONG says which way, by number. tests/run reads beside each number the test that has to fail, and what is wrong.
 */
#include <ledgerlark.h>

#include <string.h>

#define ON_RECORD const uint8_t *record, size_t record_length, uint32_t options
#define RESOLVER ON_RECORD, uint8_t *out, size_t out_length, uint8_t *work, size_t work_length
#define READER2 const uint8_t *record, size_t record_length, uint8_t *work, size_t work_length
#define RESOLVER2 const uint8_t *record, size_t record_length, uint8_t *out, size_t out_length, uint8_t *work, size_t work_length
#define ON_LINE const uint8_t *line, size_t line_length, uint32_t options, size_t column
#define WRAPPED(answer, call, ...) \
    struct answer __real_##call(__VA_ARGS__); \
    struct answer __wrap_##call(__VA_ARGS__)

WRAPPED(lark_reading, lark_read, ON_RECORD, uint8_t *work, size_t work_length);
WRAPPED(lark_resolved, lark_resolve_attention, RESOLVER);
WRAPPED(lark_resolved, lark_resolve_headings, RESOLVER);
WRAPPED(lark_resolved, lark_resolve_lists, RESOLVER);
WRAPPED(lark_reading2, lark_read2, READER2);
WRAPPED(lark_resolved, lark_resolve_attention2, RESOLVER2);
WRAPPED(lark_resolved, lark_resolve_headings2, RESOLVER2);
WRAPPED(lark_resolved, lark_resolve_lists2, RESOLVER2);
WRAPPED(lark_spaces, lark_space_or_tab, ON_LINE, size_t min, size_t max);
WRAPPED(lark_item, lark_list_item, ON_LINE, uint32_t interrupting);
WRAPPED(lark_going, lark_continuation, ON_LINE, size_t size, uint32_t blank, uint32_t mark);
WRAPPED(lark_headed, lark_heading, ON_LINE, uint8_t *out, size_t out_length);

volatile uint8_t seen;

/* A record with another byte in place of some bytes of its document. */
static inline const uint8_t *replaced(const uint8_t *record, size_t n, int least, int most, char by) {
    static uint8_t copy[100000];
    size_t i;
    if (n < 8 || n > sizeof copy) return record;
    memcpy(copy, record, n);
    for (i = 4; i < n && i < 4 + lark_number_at(record); i++)
        if (copy[i] >= least && copy[i] <= most) copy[i] = (uint8_t)by;
    return copy;
}

/* A record with other bytes in place of some, as many of them, wherever these stand in its document. */
static inline const uint8_t *read_as(const uint8_t *record, size_t n, const char *bytes, const char *as) {
    static uint8_t copy[100000];
    size_t i, k = strlen(bytes);
    if (n < 8 || n > sizeof copy || lark_number_at(record) > n - 8) return record;
    memcpy(copy, record, n);
    for (i = 4; i + k <= 4 + lark_number_at(record); i++)
        if (!memcmp(record + i, bytes, k)) memcpy(copy + i, as, k);
    return copy;
}

/* How many of some bytes are the form of a character, or 0: they begin with none. */
static inline size_t form_at(const uint8_t *bytes, size_t n) {
    size_t i, k = bytes[0] < 0x80 ? 1 : bytes[0] < 0xc2 || bytes[0] > 0xf4 ? 0 : bytes[0] < 0xe0 ? 2 : bytes[0] < 0xf0 ? 3 : 4;
    if (k > n) return 0;
    for (i = 1; i < k; i++)
        if (bytes[i] >> 6 != 2) return 0;
    if ((bytes[0] == 0xe0 && bytes[1] < 0xa0) || (bytes[0] == 0xed && bytes[1] > 0x9f)) return 0;
    if ((bytes[0] == 0xf0 && bytes[1] < 0x90) || (bytes[0] == 0xf4 && bytes[1] > 0x8f)) return 0;
    return k;
}

/* A record with another byte in place of each byte of its document that belongs to no character. */
static inline const uint8_t *malformed_as(const uint8_t *record, size_t n, char by) {
    static uint8_t copy[100000];
    size_t i, k, end;
    if (n < 8 || n > sizeof copy || lark_number_at(record) > n - 8) return record;
    memcpy(copy, record, n);
    for (i = 4, end = 4 + lark_number_at(record); i < end; i += k + (k == 0)) {
        k = form_at(record + i, end - i);
        if (k == 0) copy[i] = (uint8_t)by;
    }
    return copy;
}

/* A record whose document ends with E3 80, where the count behind it begins with 80, with spaces in place of them. */
static inline const uint8_t *read_past_the_end(const uint8_t *record, size_t n) {
    size_t end = n < 8 || lark_number_at(record) > n - 8 ? 0 : 4 + lark_number_at(record);
    return end > 6 && !memcmp(record + end - 2, "\xe3\x80\x80", 3) ? read_as(record, n, "\xe3\x80", "  ") : record;
}

/* A line with a space in place of a byte. */
static inline const uint8_t *spaced(const uint8_t *line, size_t n, size_t at) {
    static uint8_t copy[LARK_MAX_LINE];
    if (n > sizeof copy) return line;
    memcpy(copy, line, n);
    copy[at] = ' ';
    return copy;
}

/* How wide the tab is that stands behind so many bytes of a line. */
static inline size_t tab_behind(const uint8_t *line, size_t n, size_t column) {
    size_t i;
    for (i = 0; i < n; i++) column += line[i] == '\t' ? 4 - column % 4 : 1;
    return 4 - column % 4;
}

/* A line in which each tab in front is four spaces, wherever it stands. */
static inline const uint8_t *in_fours(const uint8_t *line, size_t *n) {
    static uint8_t copy[4 * LARK_MAX_LINE];
    size_t i, m = 0;
    if (*n > LARK_MAX_LINE) return line;
    for (i = 0; i < *n && (line[i] == ' ' || line[i] == '\t'); i++) memset(copy + m, ' ', 4), m += line[i] == '\t' ? 4 : 1;
    if (m + (*n - i) > LARK_MAX_LINE) return line;
    if (*n > i) memcpy(copy + m, line + i, *n - i);
    *n = m + (*n - i);
    return copy;
}

/* What was taken of that line, in bytes of the line as it was; and what is left of a tab of four. */
static inline size_t from_fours(const uint8_t *line, size_t taken, size_t *left) {
    size_t i, at = 0;
    for (i = 0; at < taken; i++) {
        size_t wide = line[i] == '\t' ? 4 : 1;
        if (at + wide > taken) {
            *left = at + wide - taken;
            return i;
        }
        at += wide;
    }
    return i;
}

/* How many items of a good record are open at once, at most. */
static inline size_t most_open(const uint8_t *record) {
    const uint8_t *section = record + 4 + lark_number_at(record);
    size_t i, open = 0, most = 0;
    for (i = 0; i < lark_number_at(section); i++) {
        struct lark_event event = lark_event_at(section, i);
        if (event.name == LARK_NAME_LIST_ITEM) open += event.kind == LARK_ENTER ? 1 : (size_t)-1;
        if (open > most) most = open;
    }
    return most;
}

/* Whether an event of a section enters or leaves a heading's text. */
static inline int is_text(const uint8_t *section, size_t i, size_t kind) {
    struct lark_event event = lark_event_at(section, i);
    return event.kind == kind && event.name == LARK_NAME_HEADING_ATX_TEXT;
}

/* An event of a section some places further on. */
static inline void move(uint8_t *section, size_t i, int by) {
    lark_put_number(section + 4 + 8 * i + 4, lark_event_at(section, i).place + (size_t)by);
}

struct lark_reading __wrap_lark_read(ON_RECORD, uint8_t *work, size_t work_length) {
    struct lark_reading r;
#if WRONG == 1 /* record: a byte past the record is read */
    seen = record[record_length];
#elif WRONG == 2 /* record: a byte before the record is read */
    seen = record[-1];
#elif WRONG == 3 /* record: the record's length is cut to 16 bits */
    record_length = (uint16_t)record_length;
#elif WRONG == 4 /* lengths: the record's length is cut to 32 bits */
    record_length = (uint32_t)record_length;
#elif WRONG == 5 /* record: the options are cut to 16 bits */
    options = (uint16_t)options;
#elif WRONG == 6 /* record: the work memory's length is cut to 16 bits */
    work_length = (uint16_t)work_length;
#elif WRONG == 7 /* work: the work memory's length is cut to 32 bits */
    work_length = (uint32_t)work_length;
#elif WRONG == 59 /* record: a carriage return at the last of 128 bytes is missed */
    if (record_length > 4 + 128 && record[4 + 127] == '\r') record = replaced(record, record_length, '\r', '\r', 'a');
#endif
    r = __real_lark_read(record, record_length, options, work, work_length);
#if WRONG == 8 /* record: a byte of work memory is left when it is too short */
    if (r.number == 1 && work_length) work[work_length - 1] = 7;
#elif WRONG == 9 /* record: a byte past the work memory is wiped */
    work[work_length] = 0;
#elif WRONG == 10 /* record: only as much work memory is wiped as is needed */
    if (work_length > LARK_WORK_BYTES) work[LARK_WORK_BYTES] = 7;
#elif WRONG == 11 /* record: a refusal tells more than its number and place */
    if (r.number == 3) r.document = record_length;
#elif WRONG == 12 /* record: a place of 32,768 and over is lost */
    r.place &= 0x7fff;
#endif
    return r;
}

struct lark_resolved __wrap_lark_resolve_attention(RESOLVER) {
    struct lark_resolved r;
    uint8_t held = out_length ? out[0] : 0;
#if WRONG == 13 /* attention: the output's length is cut to 16 bits */
    out_length = (uint16_t)out_length;
#elif WRONG == 14 /* lengths: the output's length is cut to 32 bits */
    out_length = (uint32_t)out_length;
#elif WRONG == 15 /* attention: bytes from 128 up are punctuation */
    record = replaced(record, record_length, 128, 255, '.');
#elif WRONG == 16 /* attention: a form feed is a letter */
    record = replaced(record, record_length, '\f', '\f', 'a');
#elif WRONG == 17 /* attention: option 4 is lost where only option 2 is on too */
    if (options == 6) options = 2;
#elif WRONG == 92 /* attention: classes go by the byte, and bytes from 128 up are other */
    record = replaced(record, record_length, 128, 255, 'a');
#elif WRONG == 93 /* attention: a no-break space is other */
    record = read_as(record, record_length, "\xc2\xa0", "aa");
#elif WRONG == 94 /* attention: U+3000 is other */
    record = read_as(record, record_length, "\xe3\x80\x80", "aaa");
#elif WRONG == 95 /* attention: `«` is other */
    record = read_as(record, record_length, "\xc2\xab", "aa");
#elif WRONG == 96 /* attention: the euro, a symbol, is other */
    record = read_as(record, record_length, "\xe2\x82\xac", "aaa");
#elif WRONG == 97 /* attention: an emoji is other */
    record = read_as(record, record_length, "\xf0\x9f\x98\x80", "aaaa");
#elif WRONG == 98 /* attention: `é` is punctuation */
    record = read_as(record, record_length, "\xc3\xa9", "..");
#elif WRONG == 99 /* attention: the last of the last range is other */
    record = read_as(record, record_length, "\xf0\x9f\xaf\xaf", "aaaa");
#elif WRONG == 100 /* attention: what stands behind the last range is punctuation */
    record = read_as(record, record_length, "\xf0\x9f\xaf\xb0", "....");
#elif WRONG == 101 /* attention: what is new in Unicode 16.0.0 is other */
    record = read_as(record, record_length, "\xf0\x9c\xb0\x80", "aaaa");
#elif WRONG == 102 /* attention: what is newer than Unicode 16.0.0 is punctuation */
    record = read_as(record, record_length, "\xe2\x83\x81", "...");
#elif WRONG == 103 /* attention: U+0085 is whitespace */
    record = read_as(record, record_length, "\xc2\x85", "  ");
#elif WRONG == 104 /* attention: U+2028 is whitespace */
    record = read_as(record, record_length, "\xe2\x80\xa8", "   ");
#elif WRONG == 105 /* attention: U+200B is whitespace */
    record = read_as(record, record_length, "\xe2\x80\x8b", "   ");
#elif WRONG == 106 /* attention: U+FEFF is whitespace */
    record = read_as(record, record_length, "\xef\xbb\xbf", "   ");
#elif WRONG == 107 /* attention: a byte is the character of its number */
    record = read_as(record, record_length, "\xa0", " ");
#elif WRONG == 108 /* attention: malformed is punctuation */
    record = malformed_as(record, record_length, '.');
#elif WRONG == 109 /* attention: malformed is whitespace */
    record = malformed_as(record, record_length, ' ');
#elif WRONG == 110 /* attention: a space in two bytes is a space */
    record = read_as(record, record_length, "\xc0\xa0", "  ");
#elif WRONG == 111 /* attention: `«` in three bytes is punctuation */
    record = read_as(record, record_length, "\xe0\x82\xab", "...");
#elif WRONG == 112 /* attention: U+3000 in four bytes is whitespace */
    record = read_as(record, record_length, "\xf0\x83\x80\x80", "    ");
#elif WRONG == 113 /* attention: a surrogate is punctuation */
    record = read_as(record, record_length, "\xed\xa0\x80", "...");
#elif WRONG == 114 /* attention: what is above 10FFFF is punctuation */
    record = read_as(record, record_length, "\xf4\x90\x80\x80", "....");
#elif WRONG == 115 /* attention: the bytes that a run cuts off are read as if they went on */
    record = read_as(record, record_length, "\xe3\x80*", "  *");
#elif WRONG == 116 /* attention: the bytes behind a run go on with those before it */
    record = read_as(record, record_length, "\xc2**\xa0", " ** ");
#elif WRONG == 117 /* attention: a character is read past the end of the document */
    record = read_past_the_end(record, record_length);
#elif WRONG == 118 /* attention: a byte before a character spoils it */
    record = read_as(record, record_length, "\xc2\xc2\xa0", "aaa");
#elif WRONG == 119 /* attention: a byte behind a character spoils it */
    record = read_as(record, record_length, "\xc2\xa0\xa0", "aaa");
#endif
    r = __real_lark_resolve_attention(record, record_length, options, out, out_length, work, work_length);
#if WRONG == 18 /* attention: the output is cleared on a refusal */
    if (r.number && out_length) memset(out, 0, out_length);
#elif WRONG == 19 /* attention: one byte past the section is written */
    if (!r.number && out_length > 4 + 8 * r.events) out[4 + 8 * r.events] = 0;
#elif WRONG == 20 /* attention: the answer depends on what the output held */
    if (held == 0xa5) r.tried++;
#elif WRONG == 21 /* attention: the last event is off by one place */
    if (!r.number && r.events) out[4 + 8 * r.events - 4]++;
#elif WRONG == 22 /* attention: number 6 is given one event late */
    if (r.number == 6) r.place += 8;
#elif WRONG == 23 /* attention: a result of 8,000 events is said to have 7,999 */
    if (r.events == 8000) r.events--;
#elif WRONG == 24 /* attention: what was tried is counted in 16 bits */
    r.tried &= 0xffff;
#endif
    (void)held;
    return r;
}

struct lark_resolved __wrap_lark_resolve_headings(RESOLVER) {
    struct lark_resolved r;
    size_t i = 0;
#if WRONG == 25 /* headings: option 32 alone is refused */
    if (options == 32) options = 64;
#endif
    r = __real_lark_resolve_headings(record, record_length, options, out, out_length, work, work_length);
#if WRONG == 26 /* headings: the place of number 6 is counted in eight bits */
    if (r.number == 6) r.place &= 255;
#elif WRONG == 56 /* headings: a text begins behind a run of `#` */
    for (i = 0; i < r.events; i++)
        if (is_text(out, i, LARK_ENTER) && record[4 + lark_event_at(out, i).place] == '#') move(out, i, 1), move(out, i + 1, 1);
#elif WRONG == 57 /* headings: a text does not end with a run of `#` */
    for (i = 0; i < r.events; i++)
        if (is_text(out, i, LARK_EXIT) && !memcmp(record + 2 + lark_event_at(out, i).place, " #", 2)) move(out, i - 1, -2), move(out, i, -2);
#elif WRONG == 58 /* headings: a text that begins with a run of `#` holds that and no Data */
    for (i = 0; i < r.events; i++)
        if (is_text(out, i, LARK_ENTER) && record[4 + lark_event_at(out, i).place] == '#') out[4 + 8 * (i + 1) + 1] = out[4 + 8 * (i + 2) + 1] = 12;
#endif
    (void)i;
    return r;
}

struct lark_resolved __wrap_lark_resolve_lists(RESOLVER) {
    struct lark_resolved r = __real_lark_resolve_lists(record, record_length, options, out, out_length, work, work_length);
#if WRONG == 27 /* lists: nine items in each other are said to make a shorter section */
    if (!r.number && most_open(record) > 8) r.events--;
#elif WRONG == 28 /* lists: two items with `)` are an unordered list */
    if (!r.number && r.events > 8 && record[4] == ')' && out[5] == LARK_NAME_LIST_ORDERED) out[5] = LARK_NAME_LIST_UNORDERED;
#endif
    return r;
}

/* --- form 2 --- */

/* Bytes that may be changed, in place of a record of form 2: itself where it is longer than any that is changed here. */
static inline uint8_t *copied(const uint8_t *record, size_t n) {
    static uint8_t copy[100000];
    if (n > sizeof copy) return (uint8_t *)(uintptr_t)record;
    if (n) memcpy(copy, record, n);
    return copy;
}

/* A record with a first count of 1, where `mask` has bits. */
static inline const uint8_t *with_count(const uint8_t *record, size_t n, size_t mask) {
    uint8_t *copy = copied(record, n);
    if (n >= 4) lark_put_number(copy, (lark_number_at(copy) & ~mask) | (1 & mask));
    return copy;
}

/* A record with other options: those of its bits that are in `kept`, and `more`. */
static inline const uint8_t *with_options(const uint8_t *record, size_t n, unsigned kept, unsigned more) {
    uint8_t *copy = copied(record, n);
    if (n >= 5) copy[4] = (uint8_t)((copy[4] & kept) | more);
    return copy;
}

/* The events of a record, or NULL where they do not fit it. */
static inline const uint8_t *section_of(const uint8_t *record, size_t n) {
    size_t d = n < 13 ? 0 : lark_number_at(record + 5);
    if (n < 13 || d > n - 13 || lark_number_at(record + 9 + d) > (n - 13 - d) / 12) return NULL;
    return record + 9 + d;
}

/* The number of the exit that closes event `i`, or of the enter that it closes, by walking; `i` where there is none. */
static inline size_t walked(const uint8_t *section, size_t i) {
    size_t open = 0, at = i, events = lark_number_at(section), kind = lark_event_at2(section, i).kind;
    for (; at < events; at = kind == LARK_ENTER ? at + 1 : at - 1) {
        open += lark_event_at2(section, at).kind == kind ? 1 : (size_t)-1;
        if (open == 0) return at;
    }
    return i;
}

/* A record with true partners in its enters (`kind` 0) or its exits; or with those of their bytes that are in `mask`. */
static inline const uint8_t *with_partners(const uint8_t *record, size_t n, size_t kind, size_t mask) {
    const uint8_t *section = section_of(record, n);
    uint8_t *copy = copied(record, n), *event;
    size_t i;
    for (i = 0; section && i < lark_number_at(section); i++) {
        event = copy + (section - record) + 4 + 12 * i;
        if (event[0] == kind) lark_put_number(event + 8, (walked(section, i) & mask) | (lark_number_at(event + 8) & ~mask));
    }
    return copy;
}

/* Where the old form has the event that stands at a place. */
static inline size_t old_place(const uint8_t *record, size_t place) {
    size_t d = lark_number_at(record + 5);
    return 8 + d + (place - 13 - d) / 12 * 8;
}

/* Partners in a section: those of a name and a kind, or of all where these are 255, put as a number of so many bits. */
static inline void put_partners(uint8_t *out, size_t events, size_t kind, size_t name, size_t mask) {
    size_t i;
    for (i = 0; i < events; i++) {
        struct lark_event2 event = lark_event_at2(out, i);
        if ((kind == 255 || event.kind == kind) && (name == 255 || event.name == name)) lark_put_number(out + 4 + 12 * i + 8, event.partner & mask);
    }
}

/* Partners in a section by the numbers that they have in the record, for the events that the record has too. */
static inline void as_in_record(uint8_t *out, size_t events, const uint8_t *record, size_t n) {
    const uint8_t *section = section_of(record, n);
    size_t i, j, count = lark_number_at(section);
    for (i = j = 0; i < events; i++) {
        size_t from = j;
        while (j < count && memcmp(section + 4 + 12 * j, out + 4 + 12 * i, 8)) j++;
        if (j < count)
            lark_put_number(out + 4 + 12 * i + 8, lark_event_at2(section, j++).partner);
        else
            j = from;
    }
}

/* The events of a section in 8 bytes each; what is behind them is as it was in the output. */
static inline void narrowed(uint8_t *out, size_t events, const uint8_t *held) {
    size_t i;
    for (i = 0; i < events; i++) memmove(out + 4 + 8 * i, out + 4 + 12 * i, 8);
    memcpy(out + 4 + 8 * events, held + 4 + 8 * events, 4 * events);
}

/* A resolver that asks for an output by the old width, and writes what has room in it. */
typedef struct lark_resolved resolver2(RESOLVER2);
static inline struct lark_resolved by_old_width(resolver2 *real, RESOLVER2) {
    static uint8_t ample[LARK_OUT2_BYTES];
    struct lark_resolved r = real(record, record_length, ample, sizeof ample, work, work_length);
    size_t n = 4 + 12 * r.events;
    if (r.number || out_length < 4 + 8 * r.events) return real(record, record_length, out, 0, work, work_length);
    memcpy(out, ample, n < out_length ? n : out_length);
    return r;
}

struct lark_reading2 __wrap_lark_read2(READER2) {
    struct lark_reading2 r;
#if WRONG == 120 /* record: in form 2 a byte past the record is read */
    seen = record[record_length];
#elif WRONG == 121 /* lengths: in form 2 the record's length is cut to 32 bits */
    record_length = (uint32_t)record_length;
#elif WRONG == 122 /* work: in form 2 the work memory's length is cut to 32 bits */
    work_length = (uint32_t)work_length;
#elif WRONG == 123 /* form2: the first count is not looked at */
    record = with_count(record, record_length, 0xffffffff);
#elif WRONG == 124 /* form2: of the first count only the lowest byte is looked at */
    record = with_count(record, record_length, 0xffffff00);
#elif WRONG == 125 /* form2: options over 63 are taken */
    record = with_options(record, record_length, 63, 0);
#elif WRONG == 126 /* form2: the option byte 64 is taken */
    if (record_length > 4 && record[4] == 64) record = with_options(record, record_length, 63, 0);
#elif WRONG == 127 /* form2: an enter's partner is not looked at */
    record = with_partners(record, record_length, LARK_ENTER, 0xffffffff);
#elif WRONG == 128 /* form2: an exit's partner is not looked at */
    record = with_partners(record, record_length, LARK_EXIT, 0xffffffff);
#elif WRONG == 129 /* form2: of an enter's partner only the lower half is looked at */
    record = with_partners(record, record_length, LARK_ENTER, 0xffff0000);
#elif WRONG == 130 /* form2: of an exit's partner the highest byte is not looked at */
    record = with_partners(record, record_length, LARK_EXIT, 0xff000000);
#endif
    r = __real_lark_read2(record, record_length, work, work_length);
#if WRONG == 131 /* record: in form 2 a byte of work memory is left when it is too short */
    if (r.number == 1 && work_length) work[work_length - 1] = 7;
#elif WRONG == 132 /* form2: options are answered as 0 */
    r.options = 0;
#elif WRONG == 133 /* form2: options are answered as 63 */
    if (!r.number) r.options = 63;
#elif WRONG == 134 /* form2: a refusal tells the options */
    if (r.number > 2 && record_length > 4) r.options = record[4];
#elif WRONG == 135 /* form2: another first count that runs past the record is 3 */
    if (r.number == 2 && record_length < 4 + lark_number_at(record)) r.number = 3;
#elif WRONG == 136 /* form2: a first count with no byte behind it is 2 */
    if (r.number == 3 && record_length == 4) r.number = 2;
#elif WRONG == 137 /* form2: the place of options over 63 is that of their byte */
    if (r.number == 2 && lark_number_at(record) == 1) r.place = 4;
#elif WRONG == 138 /* form2: places are counted from the document's count */
    if (r.number > 2 && r.place >= 5) r.place -= 5;
#elif WRONG == 139 /* form2: the place of an event is the old form's */
    if (r.number == 5) r.place = old_place(record, r.place);
#elif WRONG == 140 /* form2: events left open are refused at the last event */
    if (r.number == 5 && r.place == record_length) r.place -= 12;
#elif WRONG == 141 /* form2: an untrue partner is refused at the enter */
    if (r.number == 5 && r.place < record_length && record[r.place] == LARK_EXIT) {
        size_t d = lark_number_at(record + 5), i = (r.place - 13 - d) / 12, enter = walked(record + 9 + d, i);
        if (enter < i && lark_event_at2(record + 9 + d, enter).name == lark_event_at2(record + 9 + d, i).name) r.place = 13 + d + 12 * enter;
    }
#elif WRONG == 142 /* form2: the partner of an event that is left open is looked at */
    if (r.number == 5 && r.place == record_length && lark_event_at2(section_of(record, record_length), 0).partner > 8)
        r.place = 13 + lark_number_at(record + 5);
#endif
    return r;
}

struct lark_resolved __wrap_lark_resolve_attention2(RESOLVER2) {
    static uint8_t held[200000];
    struct lark_resolved r;
    if (out_length && out_length <= sizeof held) memcpy(held, out, out_length);
#if WRONG == 143 /* attention: in form 2 the output's length is cut to 16 bits */
    out_length = (uint16_t)out_length;
#elif WRONG == 144 /* lengths: in form 2 the output's length is cut to 32 bits */
    out_length = (uint32_t)out_length;
#elif WRONG == 145 /* form2: attention goes by options 63, whatever the record has */
    if (record_length > 4 && record[4] <= 63) record = with_options(record, record_length, 0, 63);
#elif WRONG == 146 /* form2: attention goes by options 59, whatever the record has */
    if (record_length > 4 && record[4] <= 63) record = with_options(record, record_length, 0, 59);
#elif WRONG == 147 /* form2: attention takes options over 63 */
    record = with_options(record, record_length, 63, 0);
#elif WRONG == 148 /* form2: attention does not look at the first count */
    record = with_count(record, record_length, 0xffffffff);
#elif WRONG == 149 /* form2: attention takes untrue partners of enters */
    record = with_partners(record, record_length, LARK_ENTER, 0xffffffff);
#elif WRONG == 150 /* form2: attention refuses an output of just the right length */
    if (out_length) out_length--;
#elif WRONG == 151 /* form2: attention asks for an output by the old width */
    return by_old_width(__real_lark_resolve_attention2, record, record_length, out, out_length, work, work_length);
#endif
    r = __real_lark_resolve_attention2(record, record_length, out, out_length, work, work_length);
#if WRONG == 152 /* form2: attention leaves partners 0 */
    put_partners(out, r.events, 255, 255, 0);
#elif WRONG == 153 /* form2: attention leaves the partners of exits 0 */
    put_partners(out, r.events, LARK_EXIT, 255, 0);
#elif WRONG == 154 /* form2: attention leaves the partner of a group's enter 0 */
    put_partners(out, r.events, LARK_ENTER, LARK_NAME_EMPHASIS, 0);
#elif WRONG == 155 /* form2: attention numbers partners as the record does */
    if (r.events) as_in_record(out, r.events, record, record_length);
#elif WRONG == 156 /* attention: partners are cut to 12 bits */
    put_partners(out, r.events, 255, 255, 0xfff);
#elif WRONG == 157 /* form2: partners are cut to eight bits */
    put_partners(out, r.events, 255, 255, 0xff);
#elif WRONG == 158 /* form2: attention writes events of 8 bytes */
    if (r.events) narrowed(out, r.events, held);
#elif WRONG == 159 /* form2: attention writes one byte past the section */
    if (!r.number && out_length > 4 + 12 * r.events) out[4 + 12 * r.events] = 0;
#elif WRONG == 160 /* form2: a refusal writes the count of no events */
    if (r.number && out_length >= 4) memset(out, 0, 4);
#elif WRONG == 161 /* form2: a refusal for the output's length writes what has room */
    if (r.number == 8 && out_length > 12) memset(out + 4, 0, 8);
#elif WRONG == 162 /* attention: in form 2 the place of number 6 is the old form's */
    if (r.number == 6) r.place = old_place(record, r.place);
#elif WRONG == 163 /* form2: the last byte of a partner is not written */
    if (r.events) out[4 + 12 * r.events - 1] = held[4 + 12 * r.events - 1];
#elif WRONG == 164 /* attention: in form 2 a byte of work memory is left */
    if (!r.number) work[LARK_WORK_BYTES - 1] = 7;
#elif WRONG == 178 /* any: the two forms differ in what was tried */
    if (r.groups) r.tried++;
#elif WRONG == 179 /* any: a group's text has no partner in form 2 */
    put_partners(out, r.events, 255, LARK_NAME_STRONG_TEXT, 0);
#endif
    return r;
}

struct lark_resolved __wrap_lark_resolve_headings2(RESOLVER2) {
    struct lark_resolved r;
#if WRONG == 165 /* form2: headings takes untrue partners of exits */
    record = with_partners(record, record_length, LARK_EXIT, 0xffffffff);
#elif WRONG == 166 /* form2: headings does not look at the first count */
    record = with_count(record, record_length, 0xffffffff);
#elif WRONG == 167 /* form2: headings asks for an output by the old width */
    return by_old_width(__real_lark_resolve_headings2, record, record_length, out, out_length, work, work_length);
#endif
    r = __real_lark_resolve_headings2(record, record_length, out, out_length, work, work_length);
#if WRONG == 168 /* form2: headings leaves the partners of a text 0 */
    put_partners(out, r.events, 255, LARK_NAME_HEADING_ATX_TEXT, 0);
#elif WRONG == 169 /* form2: headings numbers partners as the record does */
    if (r.events) as_in_record(out, r.events, record, record_length);
#elif WRONG == 170 /* form2: the place of number 6 is counted from the document's count */
    if (r.number == 6) r.place -= 5;
#elif WRONG == 171 /* headings: in form 2 one byte past the section is written */
    if (!r.number && out_length > 4 + 12 * r.events) out[4 + 12 * r.events] = 0;
#endif
    return r;
}

struct lark_resolved __wrap_lark_resolve_lists2(RESOLVER2) {
    struct lark_resolved r;
#if WRONG == 172 /* form2: lists takes options over 63 */
    record = with_options(record, record_length, 63, 0);
#elif WRONG == 180 /* form2: an output of no bytes is looked at */
    if (out_length == 0) seen = *out;
#elif WRONG == 173 /* form2: lists asks for an output by the old width */
    return by_old_width(__real_lark_resolve_lists2, record, record_length, out, out_length, work, work_length);
#endif
    r = __real_lark_resolve_lists2(record, record_length, out, out_length, work, work_length);
#if WRONG == 174 /* form2: lists leaves the partner of a list's enter 0 */
    put_partners(out, r.events, LARK_ENTER, LARK_NAME_LIST_UNORDERED, 0);
#elif WRONG == 175 /* form2: lists numbers partners as the record does */
    if (r.events) as_in_record(out, r.events, record, record_length);
#elif WRONG == 176 /* form2: lists tells one event less */
    if (r.events) r.events--;
#elif WRONG == 177 /* lists: in form 2 a refusal clears the output */
    if (r.number && out_length) memset(out, 0, out_length);
#endif
    return r;
}

/* --- lines --- */

struct lark_spaces __wrap_lark_space_or_tab(ON_LINE, size_t min, size_t max) {
    struct lark_spaces r;
    const uint8_t *given = line;
#if WRONG == 29 /* lines: `min` is cut to 16 bits */
    min = (uint16_t)min;
#elif WRONG == 30 /* lines: `max` is cut to 16 bits */
    max = (uint16_t)max;
#elif WRONG == 31 /* lines: `min` is cut to 32 bits */
    min = (uint32_t)min;
#elif WRONG == 32 /* lines: `max` is cut to 32 bits */
    max = (uint32_t)max;
#elif WRONG == 33 /* lines: a line's length is cut to 16 bits */
    line_length = (uint16_t)line_length;
#elif WRONG == 34 /* lengths: a line's length is cut to 32 bits */
    line_length = (uint32_t)line_length;
#elif WRONG == 60 /* lines: 32 bytes are spaces where the first 31 are */
    if (line_length >= 32 && line[31] == 'a') line = spaced(line, line_length, 31);
#elif WRONG == 61 /* lines: a maximum of 129 to 135 is passed over */
    if (max > 128 && max < 136) max = 136;
#elif WRONG == 64 /* lines: a tab is 4 columns wide wherever it stands */
    line = in_fours(line, &line_length);
#elif WRONG == 65 /* lines: stops are counted from where the line starts */
    if (column <= LARK_MAX_COLUMN) column = 0;
#elif WRONG == 66 /* lines: a column is cut to 16 bits */
    column = (uint16_t)column;
#elif WRONG == 67 /* lines: a column is cut to 32 bits */
    column = (uint32_t)column;
#elif WRONG == 68 /* lines: the column 16,384 is refused */
    if (column == LARK_MAX_COLUMN) column++;
#elif WRONG == 69 /* lines: the column 16,385 is taken */
    if (column == LARK_MAX_COLUMN + 1) column--;
#elif WRONG == 70 /* lines: a tab that may not be taken whole is not taken at all */
    if (line_length && line[0] == '\t' && max < 4 - column % 4 && column <= LARK_MAX_COLUMN) max = 0;
#endif
    r = __real_lark_space_or_tab(line, line_length, options, column, min, max);
    if (line != given && WRONG == 64) r.taken = from_fours(given, r.taken, &r.left);
#if WRONG == 71 /* lines: the byte of a cut tab is counted among those taken */
    if (r.left) r.taken++;
#elif WRONG == 72 /* lines: the columns left of a tab are those that were taken */
    if (r.left) r.left = tab_behind(line, r.taken, column) - r.left;
#elif WRONG == 73 /* lines: what is left of a cut tab is not told */
    r.left = 0;
#elif WRONG == 74 /* lines: a tab of which nothing may be taken is left over */
    if (r.found && max == 0 && line_length && line[0] == '\t') r.left = tab_behind(line, 0, column);
#endif
    return r;
}

struct lark_item __wrap_lark_list_item(ON_LINE, uint32_t interrupting) {
    struct lark_item r;
#if WRONG == 35 /* lines: only the lowest byte of a flag counts */
    interrupting &= 255;
#elif WRONG == 36 /* lines: a line is read past its end */
    seen = line[line_length];
#elif WRONG == 37 /* lines: only the lower half of a flag counts */
    interrupting &= 0xffff;
#elif WRONG == 38 /* lines: 0 is no digit of a number */
    if (line_length && line[0] == '0') line_length = 0;
#elif WRONG == 39 /* lines: any number that begins with 1 may interrupt */
    if (line_length > 1 && line[0] == '1' && line[1] >= '0' && line[1] <= '9') interrupting = 0;
#elif WRONG == 40 /* lines: a thematic break that is indented is an item */
    if (line_length == 7 && !memcmp(line, "  - - -", 7)) line_length = 4;
#elif WRONG == 41 /* lines: three marks are a thematic break, whatever follows */
    if (line_length > 5 && !memcmp(line, "- - -", 5)) line_length = 5;
#elif WRONG == 62 /* lines: a line feed at the last of 128 bytes is missed */
    if (line_length > 127 && line[127] == '\n') line = spaced(line, line_length, 127);
#elif WRONG == 63 /* lines: of two line feeds in a short line the last ends it */
    const uint8_t *feed = line_length && line_length < 16 ? memchr(line, '\n', line_length) : NULL;
    if (feed && memchr(feed + 1, '\n', line_length - (size_t)(feed - line) - 1)) line = spaced(line, line_length, (size_t)(feed - line));
#elif WRONG == 75 /* lines: the stops behind a marker are counted from where the line starts */
    if (column <= LARK_MAX_COLUMN) column = 0;
#elif WRONG == 76 /* lines: a list item's column is cut to 32 bits */
    column = (uint32_t)column;
#elif WRONG == 77 /* lines: a tab in front of a marker is 4 columns wide wherever it stands */
    if (line_length && line[0] == '\t' && column <= LARK_MAX_COLUMN) column = 0;
#endif
    r = __real_lark_list_item(line, line_length, options, column, interrupting);
#if WRONG == 42 /* lines: an item with `)` is never blank */
    if (r.mark == ')') r.blank = 0;
#elif WRONG == 43 /* lines: an item with `+` is never blank */
    if (r.mark == '+') r.blank = 0;
#elif WRONG == 44 /* lines: the bytes that an item takes are counted in eight bits */
    r.taken &= 255;
#elif WRONG == 45 /* lines: the size of an item is counted in eight bits */
    r.size &= 255;
#elif WRONG == 78 /* lines: the byte of a tab that is cut behind a marker is counted among those taken */
    if (r.left) r.taken++;
#elif WRONG == 79 /* lines: the columns left of a tab behind a marker are those that were taken */
    if (r.left) r.left = tab_behind(line, r.taken, column) - r.left;
#elif WRONG == 80 /* lines: the size of an item is counted from column 0 */
    if (r.found) r.size += column;
#elif WRONG == 81 /* lines: a blank start cuts the tab behind its marker */
    if (r.blank && line_length > r.taken && line[r.taken] == '\t') r.left = tab_behind(line, r.taken, column) - 1;
#elif WRONG == 82 /* lines: the size of an item is counted in bytes */
    if (r.found) r.size = r.taken + r.blank;
#endif
    return r;
}

struct lark_going __wrap_lark_continuation(ON_LINE, size_t size, uint32_t blank, uint32_t mark) {
    struct lark_going r;
#if WRONG == 46 /* lines: `size` is cut to 16 bits */
    size = (uint16_t)size;
#elif WRONG == 47 /* lines: `size` is cut to 32 bits */
    size = (uint32_t)size;
#elif WRONG == 48 /* lines: a continuation depends on the options */
    if (options == 59) size = 0;
#elif WRONG == 83 /* lines: the stops of a continuation are counted from where the line starts */
    if (column <= LARK_MAX_COLUMN) column = 0;
#elif WRONG == 84 /* lines: a continuation's column is cut to 32 bits */
    column = (uint32_t)column;
#endif
    r = __real_lark_continuation(line, line_length, options, column, size, blank, mark);
#if WRONG == 49 /* lines: the flag is lost with the finding */
    if (!r.found) r.blank = 0;
#elif WRONG == 50 /* lines: the answer depends on the mark */
    if (mark == ')' && r.found) r.taken++;
#elif WRONG == 51 /* lines: the bytes that a continuation takes are counted in eight bits */
    r.taken &= 255;
#elif WRONG == 85 /* lines: the byte of a tab that a continuation cuts is counted among those taken */
    if (r.left) r.taken++;
#elif WRONG == 86 /* lines: the columns left of a tab that a continuation cuts are those that were taken */
    if (r.left) r.left = tab_behind(line, r.taken, column) - r.left;
#elif WRONG == 87 /* lines: a blank line that goes on takes a cut tab whole */
    if (r.found && r.left && line_length == r.taken + 1) r.taken++, r.left = 0;
#endif
    return r;
}

struct lark_headed __wrap_lark_heading(ON_LINE, uint8_t *out, size_t out_length) {
#if WRONG == 52 /* heading: an output of just the right length is refused */
    if (out_length) out_length--;
#elif WRONG == 53 /* heading: NULL is looked at */
    seen = *out;
#elif WRONG == 54 /* heading: the output's length is cut to 16 bits */
    out_length = (uint16_t)out_length;
#elif WRONG == 55 /* heading: three `#` are none */
    if (line_length > 3 && !memcmp(line, "### ", 4)) line_length = 0;
#elif WRONG == 88 /* heading: stops are counted from where the line starts */
    if (column <= LARK_MAX_COLUMN) column = 0;
#elif WRONG == 89 /* heading: a tab in front is one column wide */
    if (line_length && line[0] == '\t' && column <= LARK_MAX_COLUMN) column = 3;
#elif WRONG == 90 /* heading: a column is cut to 32 bits */
    column = (uint32_t)column;
#elif WRONG == 91 /* heading: the column 16,385 is taken */
    if (column == LARK_MAX_COLUMN + 1) column--;
#endif
    return __real_lark_heading(line, line_length, options, column, out, out_length);
}
