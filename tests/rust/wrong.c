/* A part of an archive that is wrong in one way. The tests of the Rust binding have to see it: what they check is checked. tests/run puts it
 * into a copy of the archive in which the calls below have `right_` before their names. WRONG says which way, by number, and 0 none; beside
 * each number tests/run reads the test that has to fail, and what is wrong.
 */
#include <ledgerlark.h>

#include <string.h>

struct lark_reading right_lark_read(const uint8_t *, size_t, uint32_t, uint8_t *, size_t);
struct lark_resolved right_lark_resolve_attention(const uint8_t *, size_t, uint32_t, uint8_t *, size_t, uint8_t *, size_t);
struct lark_resolved right_lark_resolve_lists(const uint8_t *, size_t, uint32_t, uint8_t *, size_t, uint8_t *, size_t);
struct lark_reading2 right_lark_read2(const uint8_t *, size_t, uint8_t *, size_t);
struct lark_resolved right_lark_resolve_attention2(const uint8_t *, size_t, uint8_t *, size_t, uint8_t *, size_t);
struct lark_resolved right_lark_resolve_headings2(const uint8_t *, size_t, uint8_t *, size_t, uint8_t *, size_t);
struct lark_resolved right_lark_resolve_lists2(const uint8_t *, size_t, uint8_t *, size_t, uint8_t *, size_t);
struct lark_headed right_lark_heading(const uint8_t *, size_t, uint32_t, size_t, uint8_t *, size_t);
struct lark_spaces right_lark_space_or_tab(const uint8_t *, size_t, uint32_t, size_t, size_t, size_t);
struct lark_item right_lark_list_item(const uint8_t *, size_t, uint32_t, size_t, uint32_t);
struct lark_going right_lark_continuation(const uint8_t *, size_t, uint32_t, size_t, size_t, uint32_t, uint32_t);

struct lark_reading lark_read(const uint8_t *record, size_t record_length, uint32_t options, uint8_t *work, size_t work_length) {
    struct lark_reading r = right_lark_read(record, record_length, options, work, work_length);
#if WRONG == 1 /* refusals: one byte past the work memory is wiped */
    work[work_length] = 0;
#elif WRONG == 2 /* refusals: one byte before the work memory is wiped */
    work[-1] = 0;
#endif
    return r;
}

/* A record with letters in place of those bytes of its document that are at least so much. The copy has room for the longest good record. */
static inline const uint8_t *lettered(const uint8_t *record, size_t n, uint8_t least, uint8_t *copy) {
    size_t i;
    if (n < 8 || n > LARK_RECORD_BYTES || lark_number_at(record) > n - 8) return record;
    memcpy(copy, record, n);
    for (i = 4; i < 4 + lark_number_at(record); i++)
        if (copy[i] >= least) copy[i] = 'a';
    return copy;
}

struct lark_resolved lark_resolve_attention(const uint8_t *record, size_t record_length, uint32_t options, uint8_t *out, size_t out_length,
                                            uint8_t *work, size_t work_length) {
    struct lark_resolved r;
    uint8_t copy[LARK_RECORD_BYTES];
    (void)copy;
#if WRONG == 14 /* attention: bytes from 128 up are letters */
    record = lettered(record, record_length, 0x80, copy);
#elif WRONG == 15 /* attention: what has four bytes in UTF-8 is no character */
    record = lettered(record, record_length, 0xf0, copy);
#endif
    r = right_lark_resolve_attention(record, record_length, options, out, out_length, work, work_length);
#if WRONG == 3 /* attention: one byte past the output is written */
    if (!r.number) out[out_length] = 0;
#elif WRONG == 4 /* attention: one byte before the output is written */
    if (!r.number) out[-1] = 0;
#elif WRONG == 5 /* attention: one byte past the section is written */
    if (!r.number && out_length > 4 + 8 * r.events) out[4 + 8 * r.events] = 0;
#elif WRONG == 6 /* attention: one byte past an output that is too short is written */
    if (r.number == LARK_REFUSED_OUTPUT) out[out_length] = 0;
#endif
    return r;
}

struct lark_resolved lark_resolve_lists(const uint8_t *record, size_t record_length, uint32_t options, uint8_t *out, size_t out_length,
                                        uint8_t *work, size_t work_length) {
    struct lark_resolved r = right_lark_resolve_lists(record, record_length, options, out, out_length, work, work_length);
#if WRONG == 7 /* headings_and_lists: one byte past the output is written */
    if (!r.number) out[out_length] = 0;
#endif
    return r;
}

struct lark_reading2 lark_read2(const uint8_t *record, size_t record_length, uint8_t *work, size_t work_length) {
    struct lark_reading2 r = right_lark_read2(record, record_length, work, work_length), right = r;
    (void)right;
#if WRONG == 16 /* form2: the options that a record has are not told */
    r.options = 0;
#elif WRONG == 17 /* form2: options and document are told in each other's place */
    r.options = right.document, r.document = right.options;
#elif WRONG == 18 /* form2: one byte past the work memory is wiped */
    work[work_length] = 0;
#elif WRONG == 19 /* form2: a carriage return has the place that it has in the old form */
    if (r.number == LARK_REFUSED_RETURN) r.place -= 5;
#elif WRONG == 20 /* form2: a first count other than 1 is one that does not fit */
    if (r.number == LARK_REFUSED_OPTIONS && lark_number_at(record) != 1) r.number = LARK_REFUSED_COUNT;
#endif
    return r;
}

/* The bytes that a record of form 2 has by its counts, if there are so many; else all that there are. */
static inline size_t counted(const uint8_t *record, size_t n) {
    size_t document, events;
    if (n < 13 || (document = lark_number_at(record + 5)) > n - 13) return n;
    events = lark_number_at(record + 9 + document);
    return events > (n - 13 - document) / 12 ? n : 13 + document + 12 * events;
}

/* The number of the partner of event `i` of a section of form 2, where it stands. */
static inline uint8_t *partner(uint8_t *section, size_t i) { return section + 4 + 12 * i + 8; }

/* A record with all options on. The copy has room for the longest good record of form 2. */
static inline const uint8_t *with_all_options(const uint8_t *record, size_t n, uint8_t *copy) {
    if (n < 5 || n > LARK_RECORD2_BYTES || record[4] > LARK_MAX_OPTIONS) return record;
    memcpy(copy, record, n);
    copy[4] = LARK_MAX_OPTIONS;
    return copy;
}

/* A record in which each event that an exit names as its partner names that exit. */
static inline const uint8_t *with_enters_linked(const uint8_t *record, size_t n, uint8_t *copy) {
    uint8_t *section;
    size_t i, events;
    if (n < 13 || n > LARK_RECORD2_BYTES || lark_number_at(record + 5) > n - 13) return record;
    memcpy(copy, record, n);
    section = copy + 9 + lark_number_at(copy + 5);
    events = (size_t)(copy + n - section - 4) / 12;
    for (i = 0; i < events; i++) {
        size_t enter = lark_number_at(partner(section, i));
        if (section[4 + 12 * i] == LARK_EXIT && enter < i) lark_put_number(partner(section, enter), i);
    }
    return copy;
}

struct lark_resolved lark_resolve_attention2(const uint8_t *record, size_t record_length, uint8_t *out, size_t out_length, uint8_t *work,
                                             size_t work_length) {
    struct lark_resolved r;
    uint8_t copy[LARK_RECORD2_BYTES];
    size_t i;
    (void)copy, (void)i;
#if WRONG == 21 /* form2: whatever options a record has, all are on */
    record = with_all_options(record, record_length, copy);
#endif
#if WRONG == 22 /* form2: output and work memory are taken for each other */
    r = right_lark_resolve_attention2(record, record_length, work, work_length, out, out_length);
#elif WRONG == 23 /* form2: the output's last byte is not used */
    r = right_lark_resolve_attention2(record, record_length, out, out_length ? out_length - 1 : 0, work, work_length);
#else
    r = right_lark_resolve_attention2(record, record_length, out, out_length, work, work_length);
#endif
#if WRONG == 24 /* form2: partners are counted from 1 */
    for (i = 0; i < r.events; i++) lark_put_number(partner(out, i), lark_number_at(partner(out, i)) + 1);
#elif WRONG == 25 /* form2: of a partner's number only the lowest byte is written */
    for (i = 0; i < r.events; i++) partner(out, i)[1] = 0;
#elif WRONG == 26 /* attention: only exits have partners */
    for (i = 0; i < r.events; i++)
        if (out[4 + 12 * i] == LARK_ENTER) lark_put_number(partner(out, i), 0);
#elif WRONG == 27 /* form2: the events are laid out as in the old form */
    for (i = 0; i < r.events; i++) memmove(out + 4 + 8 * i, out + 4 + 12 * i, 8);
#elif WRONG == 28 /* form2: one byte past the section is written */
    if (!r.number && out_length > 4 + 12 * r.events) out[4 + 12 * r.events] = 0;
#endif
    return r;
}

struct lark_resolved lark_resolve_headings2(const uint8_t *record, size_t record_length, uint8_t *out, size_t out_length, uint8_t *work,
                                            size_t work_length) {
    struct lark_resolved r;
    uint8_t copy[LARK_RECORD2_BYTES];
    (void)copy;
#if WRONG == 29 /* form2: what number an enter has for its partner does not matter */
    record = with_enters_linked(record, record_length, copy);
#endif
#if WRONG == 30 /* headings_and_lists: lists are resolved in place of headings */
    r = right_lark_resolve_lists2(record, record_length, out, out_length, work, work_length);
#else
    r = right_lark_resolve_headings2(record, record_length, out, out_length, work, work_length);
#endif
#if WRONG == 31 /* form2: an event has the place that it has in the old form */
    if (r.number == LARK_REFUSED_EVENT || r.number == LARK_REFUSED_SHAPE) {
        size_t document = lark_number_at(record + 5);
        r.place = 8 + document + (r.place - 13 - document) / 12 * 8;
    }
#endif
    return r;
}

struct lark_resolved lark_resolve_lists2(const uint8_t *record, size_t record_length, uint8_t *out, size_t out_length, uint8_t *work,
                                         size_t work_length) {
    struct lark_resolved r;
#if WRONG == 32 /* form2: bytes behind the last section are not seen */
    record_length = counted(record, record_length);
#endif
    r = right_lark_resolve_lists2(record, record_length, out, out_length, work, work_length);
#if WRONG == 33 /* headings_and_lists: one byte past the output of form 2 is written */
    if (!r.number) out[out_length] = 0;
#endif
    return r;
}

struct lark_headed lark_heading(const uint8_t *line, size_t line_length, uint32_t options, size_t column, uint8_t *out, size_t out_length) {
    struct lark_headed r;
#if WRONG == 9 /* lines: a heading is read as if it began at column 0 */
    if (column <= LARK_MAX_COLUMN) column = 0;
#elif WRONG == 10 /* refusals: a column over its limit is taken for the limit */
    if (column > LARK_MAX_COLUMN) column = LARK_MAX_COLUMN;
#endif
    r = right_lark_heading(line, line_length, options, column, out, out_length);
#if WRONG == 8 /* lines: one byte past a heading's output is written */
    if (r.found) out[out_length] = 0;
#endif
    return r;
}

struct lark_spaces lark_space_or_tab(const uint8_t *line, size_t line_length, uint32_t options, size_t column, size_t min, size_t max) {
    struct lark_spaces r = right_lark_space_or_tab(line, line_length, options, column, min, max);
#if WRONG == 11 /* lines: what is left of a cut tab is not told */
    r.left = 0;
#endif
    return r;
}

struct lark_item lark_list_item(const uint8_t *line, size_t line_length, uint32_t options, size_t column, uint32_t interrupting) {
    struct lark_item r = right_lark_list_item(line, line_length, options, column, interrupting);
#if WRONG == 12 /* lines: the size of an item is counted from column 0 */
    if (r.found) r.size += column;
#endif
    return r;
}

struct lark_going lark_continuation(const uint8_t *line, size_t line_length, uint32_t options, size_t column, size_t size, uint32_t blank,
                                    uint32_t mark) {
    struct lark_going r = right_lark_continuation(line, line_length, options, column, size, blank, mark);
#if WRONG == 13 /* lines: the byte of a tab that a continuation cuts is counted among those taken */
    if (r.left) r.taken++;
#endif
    return r;
}
