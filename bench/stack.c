/* How much stack each call takes. A thread gets a stack that is painted beforehand; it makes one call and ends; the lowest byte that is no
 * longer paint shows how deep the call went. The depth is counted from the frame that makes the call, and the same is done with a call that
 * does nothing, so that what the thread itself takes is seen. Ends with 1 if a call passes 4 KiB.
 */
#include <ledgerlark.h>

#include <pthread.h>
#include <stdio.h>
#include <string.h>

#include "record.h"

enum { WORK = LARK_WORK_BYTES, OUT = LARK_OUT2_BYTES, OPTIONS = 59, STACK = 1 << 18, PAINT = 0xa7, MOST = 4096 };
static uint8_t first[LARK_RECORD_BYTES], other[LARK_RECORD2_BYTES], out[OUT], work[WORK], line[1024];
static uint8_t stack[STACK] __attribute__((aligned(4096)));
static struct lark_record record;
static struct lark_record2 record2;
static uint8_t *frame;
static volatile size_t answered, refused;

static void close_record(void) {
    record = in_old_form(first);
    record2 = in_form_2(other, OPTIONS);
}

/* the records: 1,024 runs with groups; as many with characters of two to four bytes between; 62 levels of items; one long heading */
static void runs(void) {
    bytes = count = 0;
    for (int i = 0; i < 1024; i++) pair(1, i % 2 ? "_" : "*");
    close_record();
}
static void wide_runs(void) {
    static const char *const between[] = {"\303\251", "\343\200\214", "\360\237\230\200"};
    bytes = count = 0;
    for (int i = 0; i < 1024; i++) pair(1, i % 2 ? "_" : "*"), text(between[i % 3]);
    close_record();
}
static void items(void) {
    bytes = count = 0;
    for (int i = 0; i < 62; i++) event(LARK_ENTER, 15), event(LARK_ENTER, 16), pair(17, "-"), event(LARK_EXIT, 16);
    for (int i = 0; i < 62; i++) event(LARK_EXIT, 15);
    close_record();
}
static void headings(void) {
    bytes = count = 0;
    event(LARK_ENTER, 11), pair(12, "#");
    for (int i = 0; i < 500; i++) pair(14, " "), pair(0, "a");
    event(LARK_EXIT, 11);
    close_record();
}
static void words(void) {
    memset(line, 'a', sizeof line);
    memcpy(line, "# ", 2);
    for (size_t i = 3; i < sizeof line; i += 2) line[i] = ' ';
}
static void digits(void) {
    memset(line, ' ', sizeof line);
    memcpy(line, "123456789. a", 12);
}
static void blanks(void) {
    memset(line, ' ', sizeof line);
    line[sizeof line - 1] = 'a';
}

static void nothing(void) { __asm__ volatile("" : : : "memory"); }
static void attention(void) { refused = lark_resolve_attention(record.bytes, record.length, OPTIONS, out, OUT, work, WORK).number; }
static void resolve_headings(void) { refused = lark_resolve_headings(record.bytes, record.length, OPTIONS, out, OUT, work, WORK).number; }
static void lists(void) { refused = lark_resolve_lists(record.bytes, record.length, OPTIONS, out, OUT, work, WORK).number; }
static void reads(void) { refused = lark_read(record.bytes, record.length, OPTIONS, work, WORK).number; }
static void attention2(void) { refused = lark_resolve_attention2(record2.bytes, record2.length, out, OUT, work, WORK).number; }
static void resolve_headings2(void) { refused = lark_resolve_headings2(record2.bytes, record2.length, out, OUT, work, WORK).number; }
static void lists2(void) { refused = lark_resolve_lists2(record2.bytes, record2.length, out, OUT, work, WORK).number; }
static void reads2(void) { refused = lark_read2(record2.bytes, record2.length, work, WORK).number; }
static void spaces(void) { answered = lark_space_or_tab(line, sizeof line, OPTIONS, 0, 0, 9999).found; }
static void item(void) { answered = lark_list_item(line, sizeof line, OPTIONS, 0, 0).found; }
static void going(void) { answered = lark_continuation(line, sizeof line, OPTIONS, 0, 2, 0, '-').found; }
static void headed(void) { answered = lark_heading(line, sizeof line, OPTIONS, 0, out, OUT).found; }

static void *in_thread(void *call) {
    frame = __builtin_frame_address(0);
    (*(void (**)(void))call)();
    return NULL;
}

static long depth(void (*call)(void)) {
    pthread_t thread;
    pthread_attr_t attributes;
    memset(stack, PAINT, sizeof stack);
    pthread_attr_init(&attributes);
    if (pthread_attr_setstack(&attributes, stack, sizeof stack)) return -1;
    if (pthread_create(&thread, &attributes, in_thread, &call)) return -1;
    pthread_join(thread, NULL);
    uint8_t *lowest = stack;
    while (*lowest == PAINT) lowest++;
    return frame - lowest;
}

int main(void) {
    static const struct {
        const char *name;
        void (*input)(void), (*call)(void);
        int found;
    } calls[] = {{"lark_read", runs, reads, 0},
                 {"lark_resolve_attention, on ASCII", runs, attention, 0},
                 {"lark_resolve_attention", wide_runs, attention, 0},
                 {"lark_resolve_headings", headings, resolve_headings, 0},
                 {"lark_resolve_lists", items, lists, 0},
                 {"lark_read2", runs, reads2, 0},
                 {"lark_resolve_attention2, on ASCII", runs, attention2, 0},
                 {"lark_resolve_attention2", wide_runs, attention2, 0},
                 {"lark_resolve_headings2", headings, resolve_headings2, 0},
                 {"lark_resolve_lists2", items, lists2, 0},
                 {"lark_space_or_tab", blanks, spaces, 1},
                 {"lark_list_item", digits, item, 1},
                 {"lark_continuation", blanks, going, 1},
                 {"lark_heading", words, headed, 1}};
    long least = depth(nothing), worst = 0;
    if (least < 0) return puts("no thread"), 2;
    printf("| call | bytes of stack |\n|---|--:|\n| none | %ld |\n", least);
    for (size_t i = 0; i < sizeof calls / sizeof *calls; i++) {
        calls[i].input();
        answered = refused = 9;
        long deep = depth(calls[i].call);
        if (calls[i].found ? answered != 1 : refused != 0) return printf("%s did not take its input\n", calls[i].name), 2;
        printf("| `%s` | %ld |\n", calls[i].name, deep);
        if (deep > worst) worst = deep;
    }
    return worst > MOST;
}
