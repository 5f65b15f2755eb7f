/* What the two sides of the bridge lay out for each other, at the start of the memory that they share. They are compiled for two processors, so
 * every field has a width of its own.
 */
#ifndef CALLS_H
#define CALLS_H

#include <stdint.h>

/* The bytes that are shared. Those that no call uses take no room. */
#define SHARED ((size_t)256 << 20)

enum {
    READ, RESOLVE_ATTENTION, RESOLVE_HEADINGS, RESOLVE_LISTS,
    READ2, RESOLVE_ATTENTION2, RESOLVE_HEADINGS2, RESOLVE_LISTS2,
    SPACE_OR_TAB, LIST_ITEM, CONTINUATION, HEADING
};

/* The slices of a call: what is read, the output, the work memory. */
enum { INPUT, OUT, WORK, SLICES };

struct call {
    uint32_t name;           /* which of the twelve */
    uint32_t options;        /* beside what is read; 0 in form 2, which has them in it */
    uint64_t place[SLICES];  /* where each slice stands in what is shared; 0 is NULL */
    uint64_t length[SLICES]; /* and its length */
    uint64_t column;         /* where a line starts */
    uint64_t argument[3];    /* the other arguments that are no slice, in their order */
    uint64_t answer[8];      /* the fields of what is answered, in their order */
};

#endif
