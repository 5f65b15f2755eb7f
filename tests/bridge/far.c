/* The far side of the bridge, for x86-64: linked with the library, and started by near.c. Standard input is the memory that is shared, standard
 * output a socket. For each byte that comes from it the call that is laid out is made, and a byte goes back. It ends when the socket does.
 */
#define _POSIX_C_SOURCE 200809L
#include "calls.h"

#include <ledgerlark.h>
#include <string.h>
#include <sys/mman.h>
#include <unistd.h>

static uint8_t *shared;

/* Where a slice stands, or NULL. */
static uint8_t *slice(const struct call *c, int which) { return c->place[which] ? shared + c->place[which] : NULL; }

/* Answers are structs of nothing but size_t, which are 64 bits here. */
#define ANSWER(struct_name, made)          \
    do {                                   \
        struct struct_name r = made;       \
        memcpy(c->answer, &r, sizeof r);   \
    } while (0)

/* Makes the call that is laid out, and lays out its answer. */
static void make(struct call *c) {
    const uint8_t *in = slice(c, INPUT);
    uint8_t *out = slice(c, OUT), *work = slice(c, WORK);
    size_t in_length = c->length[INPUT], out_length = c->length[OUT], work_length = c->length[WORK];
    size_t column = c->column;
    uint32_t options = c->options, flag = (uint32_t)c->argument[0], blank = (uint32_t)c->argument[1], mark = (uint32_t)c->argument[2];
    switch (c->name) {
    case READ: ANSWER(lark_reading, lark_read(in, in_length, options, work, work_length)); break;
    case RESOLVE_ATTENTION: ANSWER(lark_resolved, lark_resolve_attention(in, in_length, options, out, out_length, work, work_length)); break;
    case RESOLVE_HEADINGS: ANSWER(lark_resolved, lark_resolve_headings(in, in_length, options, out, out_length, work, work_length)); break;
    case RESOLVE_LISTS: ANSWER(lark_resolved, lark_resolve_lists(in, in_length, options, out, out_length, work, work_length)); break;
    case READ2: ANSWER(lark_reading2, lark_read2(in, in_length, work, work_length)); break;
    case RESOLVE_ATTENTION2: ANSWER(lark_resolved, lark_resolve_attention2(in, in_length, out, out_length, work, work_length)); break;
    case RESOLVE_HEADINGS2: ANSWER(lark_resolved, lark_resolve_headings2(in, in_length, out, out_length, work, work_length)); break;
    case RESOLVE_LISTS2: ANSWER(lark_resolved, lark_resolve_lists2(in, in_length, out, out_length, work, work_length)); break;
    case SPACE_OR_TAB: ANSWER(lark_spaces, lark_space_or_tab(in, in_length, options, column, c->argument[0], c->argument[1])); break;
    case LIST_ITEM: ANSWER(lark_item, lark_list_item(in, in_length, options, column, flag)); break;
    case CONTINUATION: ANSWER(lark_going, lark_continuation(in, in_length, options, column, c->argument[0], blank, mark)); break;
    case HEADING: ANSWER(lark_headed, lark_heading(in, in_length, options, column, out, out_length)); break;
    }
}

int main(void) {
    char turn;
    shared = mmap(NULL, SHARED, PROT_READ | PROT_WRITE, MAP_SHARED, 0, 0);
    if (shared == MAP_FAILED) return 1;
    while (read(1, &turn, 1) == 1) {
        make((struct call *)shared);
        if (write(1, &turn, 1) != 1) return 1;
    }
    return 0;
}
