/* Ledgerlark: Markdown resolved over records of events.
 *
 * Twelve calls, all there is to the library. It allocates nothing, keeps nothing between calls and calls nothing of yours. Everything it
 * reads and writes is lent to it for the time of one call. For C99 and C++, where no call throws.
 *
 *     lark_read               is this a good record?
 *     lark_resolve_attention  `*`, `_` and `~` runs become emphasis, strong and strikethrough
 *     lark_resolve_headings   what each heading reads gets a text round it
 *     lark_resolve_lists      neighbouring list items get a list round them
 *     lark_read2, lark_resolve_attention2, lark_resolve_headings2, lark_resolve_lists2
 *                             the same for a record of form 2
 *     lark_space_or_tab       with how many columns of spaces and tabs does a line begin?
 *     lark_list_item          does a list item start on this line?
 *     lark_continuation       does this line go on with a list item?
 *     lark_heading            is this line a heading, and what are its events?
 *
 *
 * A RECORD is a document and its events. Numbers are 32 bits, little endian.
 *
 *     count D, then D bytes: the document
 *     count E, then E events of 8 bytes: kind, name, 0, 0, place
 *
 * The kind is LARK_ENTER or LARK_EXIT, the name one of LARK_NAME_.., the place an offset in the document (4 bytes). Places never fall, and
 * each exit closes the innermost event that is open. A SECTION, which is what a call writes, is the second of these two lines alone: count
 * and events. Event i of a section stands at 4 + 8 * i; event i of a record at 8 + D + 8 * i.
 *
 * FORM 2 of a record has its options in it, and in each event the number of its PARTNER: an enter has that of its exit, an exit that of its enter.
 *
 *     count 1, then 1 byte: the options
 *     count D, then D bytes: the document
 *     count E, then E events of 12 bytes: kind, name, 0, 0, place, partner
 *
 * Events are numbered from 0 within their section. So page code that has an enter finds its exit in one step:
 *
 *     struct lark_event2 matching = lark_event_at2(out, event.partner);
 *
 * The four calls whose names end in 2 take this form, with no options beside it. What they write is its last line: event i of that section stands
 * at 4 + 12 * i, and its partner is numbered in that section and not in the record. Event i of a record stands at 13 + D + 12 * i. All else, limits
 * included, is as in the old form.
 *
 * YOU BRING THE EVENTS. The library has no tokenizer: where the runs, headings and items of a document are comes from you, in part by the line
 * readers. A record is begun with its document, in a buffer of yours, and gets its events one by one:
 *
 *     struct lark_record r = lark_begin_record(buffer, sizeof buffer, text, length);
 *     lark_add_event(&r, LARK_ENTER, LARK_NAME_DATA, 0);
 *     lark_add_event(&r, LARK_EXIT, LARK_NAME_DATA, length);
 *     struct lark_reading answer = lark_read(r.bytes, r.length, options, work, sizeof work);
 *
 * Its counts are right at every step. What does not fit the buffer is not written, and leaves the length 0 for good; every call on a record
 * refuses that with 3, unless 1 or 2 applies, so nothing need be asked in between. LARK_RECORD_BYTES are enough for every good record. What a
 * call has written is read with lark_event_at(out, i), for each i under the answer's `events`.
 *
 * In form 2 it is struct lark_record2, lark_begin_record2, which is given the options too, lark_add_event2, which fills in the partners by itself,
 * LARK_RECORD2_BYTES and lark_event_at2. What lark_heading writes is read with lark_event_at, whichever form the record has that it goes to.
 *
 * To hand a section on to another resolver, begin a record with the same document and add each event of the section. A resolver may write more
 * events than a record may have, and deeper ones, attention most of all; such a record is refused with 3 or 5. So attention comes last.
 *
 * A LINE is bytes from where reading starts. It ends before its first line feed, or where the bytes end.
 *
 * COLUMNS. Indentation is counted in columns, from 0 at the start of the whole line. A space is one column. A tab goes to the next stop, and there
 * is one every 4 columns: so it is 1 to 4 columns wide, by where it stands. `column` says at which column the bytes begin that a line reader is
 * lent: 0 for a whole line, more where something of it was taken before. Up to LARK_MAX_COLUMN all columns with the same remainder by 4 are answered
 * alike, so that for a greater one that remainder can be passed.
 *
 * A CUT TAB. Where a line reader may take some columns of a tab and not all, it takes those. The tab's byte is then not in `taken`, and `left` has the
 * columns of it that were not taken; where no tab was cut `left` is 0. To go on, lend the line from `taken` on, at the column where reading stopped,
 * which is the starting column and the columns taken. A cut tab is then the first byte that is lent, and only what is left of it counts. The columns
 * taken are those of the bytes taken; where a tab was cut, and for an item, they need not be counted:
 *
 *     lark_space_or_tab   `max`, where a tab was cut
 *     lark_list_item      `size` of the answer; one less where `blank` is 1
 *     lark_continuation   `size` as it was passed, where a tab was cut or the line is filled
 *
 *     "-\t\ta" at column 0 is an item with taken 1, left 2 and size 2. Go on with "\t\ta" at column 2: these tabs have 2 and 4 columns.
 *
 *
 * SLICES. A slice is a pointer and then its length in bytes. No alignment is asked for. The slices of one call must not overlap: not what is
 * read with the output or the work memory, and not the output with the work memory. NULL with length 0 is allowed everywhere and is an
 * empty slice. NULL with another length is not allowed, nor is a length that passes the end of your memory: the library cannot see either.
 *
 * MEMORY. The calls on a record need LARK_WORK_BYTES of work memory; what it holds before does not matter. LARK_OUT_BYTES of output are enough for
 * every call, LARK_OUT2_BYTES for one that writes events of form 2; less is enough wherever the section fits. Every call wipes all the work memory
 * that it is lent, however much, and takes time for it: more than LARK_WORK_BYTES gains nothing. More output costs nothing.
 *
 * ANSWERS. An answer is a struct by value. `number` is 0 if the call was accepted. Otherwise it is one of LARK_REFUSED_.., `place` says
 * where, and all other fields are 0. If several refusals apply, the lowest number is given, and for 3, 4 and 5 its earliest place. Places are
 * offsets in the record, or in the line.
 *
 * FINDINGS. "Too few", "not a list item", "not a continuation" and "not a heading" are answers, not refusals: `number` is 0, `found` is 0 and
 * nothing is written. `found` is 1 where the thing asked for is there. After a refusal `found` is 0 too, so look at `number` first.
 *
 * WHAT IS LEFT OF A MESSAGE. After every call, accepted or refused, all of the work memory is zero. After a refusal or a finding the output
 * is as it was. After acceptance the section stands at its start, and every byte past the section is as it was. What is answered and written
 * depends on the bytes read, the options, the other arguments and the lengths alone, never on what the output or the work memory held.
 *
 *
 * THREADS AND SIGNALS. There is no state, so any number of threads may call at once, and a signal handler may call while a call stands still.
 * Each call needs an output and a work memory of its own; what is only read may be shared. A call that is never gone on with (longjmp out of a
 * handler, a thread that is killed) may leave its work memory unwiped.
 *
 * STACK. Under 4 KiB: at most 3,424 bytes were measured, for lark_resolve_attention in either form, the caller's frame and memset's included, and 1,144
 * for any other call. Where memset is bound lazily its very first call takes some KiB more, for the dynamic linker; -Wl,-z,now avoids that.
 * docs/PERFORMANCE.md has every call.
 *
 * PLATFORM. The archive is for x86-64, with the calling convention of System V, in ELF: Linux. Its code is position independent and can be part
 * of a shared library. It needs `memset` and nothing else of a C library.
 *
 * VERSIONS. The middle number goes up with every release that brings something new, and always where a call, a struct, a limit or an answer changes;
 * the last with what is mended. Within one middle number the same input gets the same answer. Structs are returned by value, so a field more in one of
 * them changes how its call is made (the ABI), and no linker sees that. Header, archive and binding belong together: compile anew wherever the
 * middle number has changed. The archive cannot be asked for its version; the pkg-config file that is installed with it has it.
 */
#ifndef LEDGERLARK_H
#define LEDGERLARK_H

#include <stddef.h>
#include <stdint.h>
#include <string.h>

/* No call and no function here throws: in C++ they say so. */
#ifndef __cplusplus
#define LARK_NOEXCEPT
#elif __cplusplus >= 201103L
#define LARK_NOEXCEPT noexcept
#else
#define LARK_NOEXCEPT throw()
#endif

#ifdef __cplusplus
extern "C" {
#endif

#define LARK_VERSION "0.7.0"
#define LARK_VERSION_MAJOR 0
#define LARK_VERSION_MINOR 7
#define LARK_VERSION_PATCH 0

/* Limits. */
#define LARK_MAX_DOCUMENT 16384 /* bytes of a document */
#define LARK_MAX_LINE 16384     /* bytes of a line, those past its line feed included */
#define LARK_MAX_COLUMN 16384   /* the column that a line starts at */
#define LARK_MAX_EVENTS 2048    /* events of a record */
#define LARK_MAX_DEPTH 64       /* events of a record that are open at once */
#define LARK_MAX_RESULT 8000    /* events of a section that is written */

/* Sizes for buffers. */
#define LARK_WORK_BYTES 65536                                               /* the least work memory; more is only more to wipe */
#define LARK_OUT_BYTES (4 + 8 * LARK_MAX_RESULT)                            /* always enough for a section */
#define LARK_OUT2_BYTES (4 + 12 * LARK_MAX_RESULT)                          /* and for one of form 2 */
#define LARK_RECORD_BYTES (8 + LARK_MAX_DOCUMENT + 8 * LARK_MAX_EVENTS)     /* the longest good record */
#define LARK_RECORD2_BYTES (13 + LARK_MAX_DOCUMENT + 12 * LARK_MAX_EVENTS)  /* and that of form 2 */

/* Options, summed. */
#define LARK_OPTION_ATTENTION 1u      /* runs of `*` and `_` */
#define LARK_OPTION_STRIKETHROUGH 2u  /* runs of `~` */
#define LARK_OPTION_SINGLE_TILDE 4u   /* `~a~` strikes through as `~~a~~` does; nothing without option 2 */
#define LARK_OPTION_HEADING 8u        /* lark_heading finds headings */
#define LARK_OPTION_LIST_ITEM 16u     /* lark_list_item finds list items */
#define LARK_OPTION_CODE_INDENTED 32u /* an indentation of four columns is code: no item, no heading. Without it it is free */
#define LARK_MAX_OPTIONS 63u

/* Kinds of events. */
#define LARK_ENTER 0
#define LARK_EXIT 1

/* Names of events. */
#define LARK_NAME_DATA 0
#define LARK_NAME_ATTENTION_SEQUENCE 1 /* a run, not yet resolved */
#define LARK_NAME_EMPHASIS 2
#define LARK_NAME_EMPHASIS_SEQUENCE 3
#define LARK_NAME_EMPHASIS_TEXT 4
#define LARK_NAME_STRONG 5
#define LARK_NAME_STRONG_SEQUENCE 6
#define LARK_NAME_STRONG_TEXT 7
#define LARK_NAME_GFM_STRIKETHROUGH 8
#define LARK_NAME_GFM_STRIKETHROUGH_SEQUENCE 9
#define LARK_NAME_GFM_STRIKETHROUGH_TEXT 10
#define LARK_NAME_HEADING_ATX 11
#define LARK_NAME_HEADING_ATX_SEQUENCE 12
#define LARK_NAME_HEADING_ATX_TEXT 13
#define LARK_NAME_SPACE_OR_TAB 14
#define LARK_NAME_LIST_ITEM 15
#define LARK_NAME_LIST_ITEM_PREFIX 16
#define LARK_NAME_LIST_ITEM_MARKER 17
#define LARK_NAME_LIST_ITEM_VALUE 18
#define LARK_NAME_LIST_ORDERED 19
#define LARK_NAME_LIST_UNORDERED 20
#define LARK_NAME_LINE_ENDING 21
#define LARK_NAME_BLANK_LINE_ENDING 22
#define LARK_NAME_BLOCK_QUOTE_PREFIX 23
#define LARK_NAME_OTHER_CONTAINER 24 /* any other container */

/* Refusals: the values of `number`, and what `place` then is. */
#define LARK_ACCEPTED 0
#define LARK_REFUSED_WORK 1    /* less than LARK_WORK_BYTES of work memory. Place 0 */
#define LARK_REFUSED_OPTIONS 2 /* options over LARK_MAX_OPTIONS, or a column over LARK_MAX_COLUMN; in form 2 also a first count that is not 1.
                                * Place 0 */
#define LARK_REFUSED_COUNT 3   /* a count is cut off, over its limit, or promises more than the record has: the place of that count, which is
                                * 0 or 4 + D, in form 2 0, 5 or 9 + D. Bytes after the last section: the place of the first of them. A line over
                                * LARK_MAX_LINE: 16,384 */
#define LARK_REFUSED_RETURN 4  /* a carriage return in the document or line: its place */
#define LARK_REFUSED_EVENT 5   /* an event is not sound: a kind, name or place that cannot be, bytes that should be 0, an exit that closes
                                * another event than the innermost, too many open: the place of that event. Events left open: the place
                                * after the record's last byte. In form 2 also a pair of which one partner or both are untrue: the place of
                                * its exit */
#define LARK_REFUSED_SHAPE 6   /* a run, heading or list item that the resolver cannot take: the place of its enter event */
#define LARK_REFUSED_RESULT 7  /* the section would have over LARK_MAX_RESULT events. Place 0 */
#define LARK_REFUSED_OUTPUT 8  /* the output is shorter than the section. Place 0 */

/* A refusal in words. Any number may be asked for. */
static inline const char *lark_refusal_text(size_t number) LARK_NOEXCEPT {
    switch (number) {
    case LARK_ACCEPTED: return "accepted";
    case LARK_REFUSED_WORK: return "the work memory is under 65,536 bytes";
    case LARK_REFUSED_OPTIONS: return "the options are over 63, the column over 16,384, or the first count not 1";
    case LARK_REFUSED_COUNT: return "a length does not fit";
    case LARK_REFUSED_RETURN: return "a carriage return";
    case LARK_REFUSED_EVENT: return "an event is not sound";
    case LARK_REFUSED_SHAPE: return "not the shape that the resolver asks for";
    case LARK_REFUSED_RESULT: return "the result is over 8,000 events";
    case LARK_REFUSED_OUTPUT: return "the output is too short for the result";
    default: return "no such refusal";
    }
}

/* The number that stands in four bytes, least byte first: a count, an event's place, which stands 4 bytes into the event, or its partner, which
 * stands 8 bytes into it. */
static inline size_t lark_number_at(const uint8_t *bytes) LARK_NOEXCEPT {
    size_t number = 0;
    int i;
    for (i = 3; i >= 0; i--) number = number << 8 | bytes[i];
    return number;
}

/* Puts a number into four bytes. One that is over 4,294,967,295 is put as that, which no call takes for a count, a place or a partner. */
static inline void lark_put_number(uint8_t *bytes, size_t number) LARK_NOEXCEPT {
    int i;
    if (number > 0xffffffffu) number = 0xffffffffu;
    for (i = 0; i < 4; i++) bytes[i] = (number >> (8 * i)) & 255;
}

/* Puts a number into a byte. One that is over 255 is put as that, which no call takes for options, a kind or a name. */
static inline void lark_put_byte(uint8_t *byte, size_t number) LARK_NOEXCEPT { *byte = number > 255 ? 255 : number & 255; }

/* An event, its fields apart. */
struct lark_event {
    size_t kind;  /* LARK_ENTER or LARK_EXIT */
    size_t name;  /* one of LARK_NAME_.. */
    size_t place; /* an offset in the document, or in the line for lark_heading */
};

/* The same in form 2. */
struct lark_event2 {
    size_t kind;
    size_t name;
    size_t place;
    size_t partner; /* the number of the exit that an enter has, or of the enter that an exit has */
};

/* The event whose bytes begin here: in form 2, all but the partner. */
static inline struct lark_event lark_event_of(const uint8_t *bytes) LARK_NOEXCEPT {
    struct lark_event event;
    event.kind = bytes[0];
    event.name = bytes[1];
    event.place = lark_number_at(bytes + 4);
    return event;
}

/* Event `i` of a section that a call has written; `i` has to be under the `events` of its answer. The section of a record that lark_read has
 * accepted begins at record + 4 + answer.document. */
static inline struct lark_event lark_event_at(const uint8_t *section, size_t i) LARK_NOEXCEPT { return lark_event_of(section + 4 + 8 * i); }

/* The same in form 2. The section of a record that lark_read2 has accepted begins at record + 9 + answer.document. Every partner that a call has
 * written or accepted is under `events` too. */
static inline struct lark_event2 lark_event_at2(const uint8_t *section, size_t i) LARK_NOEXCEPT {
    const uint8_t *bytes = section + 4 + 12 * i;
    struct lark_event apart = lark_event_of(bytes);
    struct lark_event2 event;
    event.kind = apart.kind;
    event.name = apart.name;
    event.place = apart.place;
    event.partner = lark_number_at(bytes + 8);
    return event;
}

/* A record that is put together in a buffer. Begin it with lark_begin_record, and lend `bytes` and `length` to a call. */
struct lark_record {
    uint8_t *bytes;  /* the buffer */
    size_t length;   /* bytes of the record, or 0: something did not fit */
    size_t room;     /* bytes of the buffer */
    size_t document; /* bytes of the document */
};

/* The same in form 2. Begin it with lark_begin_record2. */
struct lark_record2 {
    uint8_t *bytes;
    size_t length;
    size_t room;
    size_t document;
    size_t open; /* the number of the innermost enter that is open, or 4,294,967,295: none is */
};

/* For the functions below: puts a document and a count of no events, from `front` on, if the buffer has room. The bytes of the record, or 0. */
static inline size_t lark_put_document(uint8_t *bytes, size_t room, size_t front, const void *document, size_t document_length) LARK_NOEXCEPT {
    if (room < front + 8 || room - front - 8 < document_length) return 0;
    if (document_length) memmove(bytes + front + 4, document, document_length);
    lark_put_number(bytes + front, document_length);
    lark_put_number(bytes + front + 4 + document_length, 0);
    return front + 8 + document_length;
}

/* For the functions below: puts an event of `width` bytes, but for its partner, behind the others of the section that begins at `section`, and
 * counts it, if the buffer has room for it and all before did fit. The event's bytes, or NULL. */
static inline uint8_t *lark_put_event(uint8_t *bytes, size_t room, size_t *length, size_t section, size_t width, size_t kind, size_t name,
                                      size_t place) LARK_NOEXCEPT {
    uint8_t *event;
    if (*length == 0 || room - *length < width) {
        *length = 0;
        return NULL;
    }
    event = bytes + *length;
    lark_put_byte(event, kind);
    lark_put_byte(event + 1, name);
    event[2] = event[3] = 0;
    lark_put_number(event + 4, place);
    *length += width;
    lark_put_number(bytes + section, (*length - section - 4) / width);
    return event;
}

/* A record of a document and no events yet, if the buffer has room for it. The document may lie in the buffer. */
static inline struct lark_record lark_begin_record(uint8_t *bytes, size_t room, const void *document, size_t document_length) LARK_NOEXCEPT {
    struct lark_record record;
    record.bytes = bytes;
    record.length = lark_put_document(bytes, room, 0, document, document_length);
    record.room = room;
    record.document = document_length;
    return record;
}

/* The same in form 2. Options over 255 are put as 255, which no call takes. */
static inline struct lark_record2 lark_begin_record2(uint8_t *bytes, size_t room, uint32_t options, const void *document,
                                                     size_t document_length) LARK_NOEXCEPT {
    struct lark_record2 record;
    record.bytes = bytes;
    record.length = lark_put_document(bytes, room, 5, document, document_length); /* first, since the document may lie where the options go */
    record.room = room;
    record.document = document_length;
    record.open = 0xffffffffu;
    if (record.length) {
        lark_put_number(bytes, 1);
        lark_put_byte(bytes + 4, options);
    }
    return record;
}

/* Adds an event to a record, and counts it, if the buffer has room for it and all before did fit. A kind or name over 255 is put as 255, which no
 * call takes. */
static inline void lark_add_event(struct lark_record *record, size_t kind, size_t name, size_t place) LARK_NOEXCEPT {
    lark_put_event(record->bytes, record->room, &record->length, 4 + record->document, 8, kind, name, place);
}

/* The same in form 2. An exit is the partner of the innermost enter that is open, and both get their numbers with it. Until then an enter has the
 * number of the one that was open before it: so there is no stack, and no bound to how many are open. */
static inline void lark_add_event2(struct lark_record2 *record, size_t kind, size_t name, size_t place) LARK_NOEXCEPT {
    size_t section = 9 + record->document, partner = 0, number;
    uint8_t *event = lark_put_event(record->bytes, record->room, &record->length, section, 12, kind, name, place), *enter;
    if (event == NULL) return;
    number = (record->length - section - 4) / 12 - 1;
    if (kind == LARK_ENTER) {
        partner = record->open;
        record->open = number;
    } else if (kind == LARK_EXIT && record->open < number) { /* none is not under it; nor is what does not stand in the buffer */
        partner = record->open;
        enter = record->bytes + section + 4 + 12 * partner;
        record->open = lark_number_at(enter + 8);
        lark_put_number(enter + 8, number);
    }
    lark_put_number(event + 8, partner);
}

/* The answer of lark_read. */
struct lark_reading {
    size_t number;   /* 0, or the refusal */
    size_t place;    /* where */
    size_t document; /* bytes of the document */
    size_t events;   /* events of the record */
};

/* The answer of lark_read2. */
struct lark_reading2 {
    size_t number;   /* 0, or the refusal */
    size_t place;    /* where */
    size_t options;  /* the options that the record has in it */
    size_t document; /* bytes of the document */
    size_t events;   /* events of the record */
};

/* The answer of a resolver. */
struct lark_resolved {
    size_t number; /* 0, or the refusal */
    size_t place;  /* where */
    size_t events; /* events of the section: 4 + 8 * events bytes were written, 4 + 12 * events in form 2 */
    size_t groups; /* attention: groups formed. Otherwise 0 */
    size_t tried;  /* attention: openers looked at on the way. Otherwise 0 */
};

/* The answer of lark_space_or_tab. */
struct lark_spaces {
    size_t number; /* 0, or the refusal */
    size_t place;  /* where */
    size_t found;  /* 1, or 0: too few */
    size_t taken;  /* bytes taken, without a cut tab */
    size_t left;   /* columns left of the cut tab, or 0 */
};

/* The answer of lark_list_item. `size`, `blank` and `mark` are what lark_continuation wants for the lines that follow. */
struct lark_item {
    size_t number; /* 0, or the refusal */
    size_t place;  /* where */
    size_t found;  /* 1, or 0: not a list item */
    size_t taken;  /* bytes from the line's start to where the item's content begins, without a cut tab; to the marker's end if nothing follows it */
    size_t left;   /* columns left of the cut tab, or 0 */
    size_t size;   /* the columns of spaces and tabs that further lines of the item need: those from the starting column to where its content begins */
    size_t blank;  /* 1 if nothing but spaces and tabs follows the marker */
    size_t mark;   /* the marker byte: `*`, `+`, `-`, or the `.` or `)` behind the digits */
};

/* The answer of lark_continuation. */
struct lark_going {
    size_t number; /* 0, or the refusal */
    size_t place;  /* where */
    size_t found;  /* 1, or 0: not a continuation */
    size_t taken;  /* bytes taken, without a cut tab */
    size_t left;   /* columns left of the cut tab, or 0 */
    size_t blank;  /* the flag for the next line: also after the finding "not a continuation"; 0 after a refusal */
};

/* The answer of lark_heading. */
struct lark_headed {
    size_t number; /* 0, or the refusal */
    size_t place;  /* where */
    size_t found;  /* 1, or 0: not a heading */
    size_t events; /* events of the section: 4 + 8 * events bytes were written */
};

/* Whether a record is good, and how large its parts are.
 *
 * Reads the record. Writes nothing but zeros, over all of the work memory. Refuses with 1 to 5. */
struct lark_reading lark_read(const uint8_t *record, size_t record_length, uint32_t options, uint8_t *work, size_t work_length) LARK_NOEXCEPT;

/* Each run of `*`, `_` or `~` (a pair of name 1) becomes what it opens and closes; what is left of a run becomes Data.
 *
 *     `*a*`    +1@0 -1@1 +0@1 -0@2 +1@2 -1@3
 *     becomes  +2@0 +3@0 -3@1 +4@1 +0@1 -0@2 -4@2 +3@2 -3@3 -2@3
 *
 * What a run can open or close goes by what stands beside it. There the document is read as UTF-8: it is the character that ends right at the run,
 * and the one that begins right behind it. Whitespace is the general category Zs, a tab, a line feed, a form feed, and the document's beginning and
 * end; punctuation is the categories P and S of Unicode 16.0.0. All else is other. So are bytes that are no character; none are refused for that.
 *
 * Reads the record. Writes a section of all events to the output, and zeros over all of the work memory. All other events stay.
 *
 * Refuses with 1 to 5 as lark_read does, with 7 and 8, and with 6 unless each run is entered and at once left, at a later place; has one byte
 * all through, `*`, `_` or `~`; is not followed by that byte; and has its option on: 1 for `*` and `_`, 2 for `~`. */
struct lark_resolved lark_resolve_attention(const uint8_t *record, size_t record_length, uint32_t options, uint8_t *out, size_t out_length,
                                            uint8_t *work, size_t work_length) LARK_NOEXCEPT;

/* In each heading (name 11) a text (13) goes from the first Data or `#` run (12) after the opening run to the last one; one Data pair is left in it.
 * A `#` run that is the last thing other than space or tab (14) is the closing run and stays out: `# a # #` reads `a #`. Where nothing is left to
 * read, as in `# #`, the heading stays as it is.
 *
 *     `# a b #`  +11@0 +12@0 -12@1 +14@1 -14@2 +0@2 -0@3 +14@3 -14@4 +0@4 -0@5 +14@5 -14@6 +12@6 -12@7 -11@7
 *     becomes    +11@0 +12@0 -12@1 +14@1 -14@2 +13@2 +0@2 -0@5 -13@5 +14@5 -14@6 +12@6 -12@7 -11@7
 *
 * Of a line that lark_heading read, the text is what CommonMark 0.31 has parsed as the heading's inline content.
 *
 * Reads the record. Writes a section of all events to the output, and zeros over all of the work memory. All other events stay. Options are
 * looked at for number 2 only.
 *
 * Refuses with 1 to 5 as lark_read does, with 8, and with 6 unless each heading holds only pairs of 0, 12 and 14 with nothing in them, and
 * begins with at most one 14 and then a 12. Number 7 is not given: no record has a result as long. */
struct lark_resolved lark_resolve_headings(const uint8_t *record, size_t record_length, uint32_t options, uint8_t *out, size_t out_length,
                                           uint8_t *work, size_t work_length) LARK_NOEXCEPT;

/* A list goes round neighbouring items (name 15) of one mark: ordered (19) for `.` and `)`, else unordered (20). Items neighbour each other
 * when only whole 14, 21, 22 and 23 that hold no item stand between them.
 *
 *     `- a`    +15@0 +16@0 +17@0 -17@1 +14@1 -14@2 -16@2 +0@2 -0@3 -15@3
 *     becomes  +20@0 +15@0 +16@0 +17@0 -17@1 +14@1 -14@2 -16@2 +0@2 -0@3 -15@3 -20@3
 *
 * Reads the record. Writes a section of all events to the output, and zeros over all of the work memory. All events stay. Options are looked
 * at for number 2 only.
 *
 * Refuses with 1 to 5 as lark_read does, with 8, and with 6 unless each item begins with at most one 14 and then a 16, which holds an optional
 * 18, then a 17 over one byte of `*+-.)`, then at most one 14, these pairs having nothing in them; and unless some event stands between an
 * item's exit and the next item's enter. Number 7 is not given: no record has a result as long. */
struct lark_resolved lark_resolve_lists(const uint8_t *record, size_t record_length, uint32_t options, uint8_t *out, size_t out_length,
                                        uint8_t *work, size_t work_length) LARK_NOEXCEPT;

/* lark_read for a record of form 2. It tells the record's options too. */
struct lark_reading2 lark_read2(const uint8_t *record, size_t record_length, uint8_t *work, size_t work_length) LARK_NOEXCEPT;

/* lark_resolve_attention for a record of form 2, by the options that the record has in it. The section that is written has events of 12 bytes; all
 * partners in it are true.
 *
 *     `*a*`    +1@0/1 -1@1/0 +0@1/3 -0@2/2 +1@2/5 -1@3/4
 *     becomes  +2@0/9 +3@0/2 -3@1/1 +4@1/6 +0@1/5 -0@2/4 -4@2/3 +3@2/8 -3@3/7 -2@3/0
 *
 * Refuses with 1 to 5 as lark_read2 does, and else as lark_resolve_attention does: with 8 where the output is under 4 + 12 * events. */
struct lark_resolved lark_resolve_attention2(const uint8_t *record, size_t record_length, uint8_t *out, size_t out_length, uint8_t *work,
                                             size_t work_length) LARK_NOEXCEPT;

/* lark_resolve_headings for a record of form 2. What is written and refused differs as it does for lark_resolve_attention2. */
struct lark_resolved lark_resolve_headings2(const uint8_t *record, size_t record_length, uint8_t *out, size_t out_length, uint8_t *work,
                                            size_t work_length) LARK_NOEXCEPT;

/* lark_resolve_lists for a record of form 2. What is written and refused differs as it does for lark_resolve_attention2. */
struct lark_resolved lark_resolve_lists2(const uint8_t *record, size_t record_length, uint8_t *out, size_t out_length, uint8_t *work,
                                         size_t work_length) LARK_NOEXCEPT;

/* The spaces and tabs that a line begins with, at most `max` columns of them; a tab may be cut there. Fewer columns than `min` is the finding "too
 * few", also where `min` is more than `max`; the part of a cut tab that is taken counts. Any `min` and `max` will do: 0 and SIZE_MAX set no bound.
 *
 *     "\ta" at column 0   max 1: taken 0, left 3   max 4: taken 1, left 0   max 0: taken 0, left 0
 *     "\ta" at column 3   max 1: taken 1, left 0
 *
 * Reads the line. Writes nothing. Refuses with 2, 3 and 4. */
struct lark_spaces lark_space_or_tab(const uint8_t *line, size_t line_length, uint32_t options, size_t column, size_t min, size_t max) LARK_NOEXCEPT;

/* Whether a list item starts on a line, with option 16 on: `*`, `+`, `-`, or 1 to 9 digits and `.` or `)`, then a space, a tab or the end. A
 * thematic break, as `- - -` or `***`, is no item. `interrupting` (0, or any other value for yes) says that the line would interrupt a
 * paragraph: then a number must be exactly `1`, and something must follow the marker.
 *
 * Behind the marker 1 to 4 columns are taken, all there are; of 5 or more, one. A tab may be cut there.
 *
 *     "-\ta" at column 0: taken 2, left 0, size 4   at column 2: taken 2, left 0, size 2
 *     "-\t" at column 0: taken 1, left 0, size 2, blank
 *
 * Reads the line. Writes nothing. Refuses with 2, 3 and 4. */
struct lark_item lark_list_item(const uint8_t *line, size_t line_length, uint32_t options, size_t column, uint32_t interrupting) LARK_NOEXCEPT;

/* Whether a line goes on with a list item. `size`, `blank` and `mark` are the item's, from lark_list_item, and `blank` from then on from the
 * call for the line before. A blank line goes on unless `blank` is set, and up to `size` columns of its spaces and tabs are taken. Any other line
 * clears the flag, and goes on if it begins with `size` columns of spaces and tabs, and with one at least: those `size` are taken. A tab may be cut.
 *
 *     "\ta" at column 0, size 2: taken 0, left 2   size 4: taken 1, left 0
 *
 * `blank` is 0, or any other value for set. `mark` `.` or `)` is an ordered item, any other value a bulleted one; the answer does not depend
 * on it. No option need be on.
 *
 * Reads the line. Writes nothing. Refuses with 2, 3 and 4. */
struct lark_going lark_continuation(const uint8_t *line, size_t line_length, uint32_t options, size_t column, size_t size, uint32_t blank,
                                    uint32_t mark) LARK_NOEXCEPT;

/* Whether a line is a heading, with option 8 on: 1 to 6 `#`, then a space, a tab or the end. Its events go from enter to exit of 11, with
 * places in the line, and are not yet resolved: spaces and tabs (14), `#` runs behind a break (12), and Data between. The column matters only for
 * how far the line is indented; places are bytes, and a tab is one.
 *
 *     `# a b`  +11@0 +12@0 -12@1 +14@1 -14@2 +0@2 -0@3 +14@3 -14@4 +0@4 -0@5 -11@5
 *
 * Reads the line. Writes the section to the output. Refuses with 2, 3 and 4, and for a heading with 7 and 8. */
struct lark_headed lark_heading(const uint8_t *line, size_t line_length, uint32_t options, size_t column, uint8_t *out,
                                size_t out_length) LARK_NOEXCEPT;

#ifdef __cplusplus
}
#endif

#endif
