/* `*a*` resolved, and its events printed. */
#include <ledgerlark.h>
#include <stdio.h>

static uint8_t bytes[LARK_RECORD_BYTES], out[LARK_OUT_BYTES], work[LARK_WORK_BYTES];

int main(void) {
    /* the document, then its events: a run from 0 to 1, data from 1 to 2, a run from 2 to 3 */
    struct lark_record record = lark_begin_record(bytes, sizeof bytes, "*a*", 3);
    lark_add_event(&record, LARK_ENTER, LARK_NAME_ATTENTION_SEQUENCE, 0);
    lark_add_event(&record, LARK_EXIT, LARK_NAME_ATTENTION_SEQUENCE, 1);
    lark_add_event(&record, LARK_ENTER, LARK_NAME_DATA, 1);
    lark_add_event(&record, LARK_EXIT, LARK_NAME_DATA, 2);
    lark_add_event(&record, LARK_ENTER, LARK_NAME_ATTENTION_SEQUENCE, 2);
    lark_add_event(&record, LARK_EXIT, LARK_NAME_ATTENTION_SEQUENCE, 3);

    struct lark_resolved r = lark_resolve_attention(record.bytes, record.length, LARK_OPTION_ATTENTION, out, sizeof out, work, sizeof work);
    printf("%s, groups %zu, events %zu:", lark_refusal_text(r.number), r.groups, r.events);
    for (size_t i = 0; i < r.events; i++) {
        struct lark_event event = lark_event_at(out, i);
        printf(" %c%zu@%zu", event.kind == LARK_ENTER ? '+' : '-', event.name, event.place);
    }
    printf("\n");
    return r.number != LARK_ACCEPTED;
}
