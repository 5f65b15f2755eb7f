/* lark_resolve_lists in either form: which items get a list round them, by document 01's rule, and numbers 6 and 8. No record can bring number 7
 * about: an item has six events at least and a list adds two.
 */
#include "check.h"

static void lists(const char *text, uint32_t options, const char *events, const char *result) {
    resolves(LISTS, record(text, events), options, 0, 0, section(result));
}

/* An item of six events with its mark at `at`: no space, no content. */
#define ITEM(at, end) "+15@" at " +16@" at " +17@" at " -17@" end " -16@" end " -15@" end " "

static void joined(void) {
    begin("one item");
    lists("- a", 63, "+15@0 +16@0 +17@0 -17@1 +14@1 -14@2 -16@2 +0@2 -0@3 -15@3",
          "+20@0 +15@0 +16@0 +17@0 -17@1 +14@1 -14@2 -16@2 +0@2 -0@3 -15@3 -20@3");
    begin("an ordered item, indented");
    lists(" 1. a", 63, "+15@0 +14@0 -14@1 +16@1 +18@1 -18@2 +17@2 -17@3 +14@3 -14@4 -16@4 +0@4 -0@5 -15@5",
          "+19@0 +15@0 +14@0 -14@1 +16@1 +18@1 -18@2 +17@2 -17@3 +14@3 -14@4 -16@4 +0@4 -0@5 -15@5 -19@5");
    begin("two items of one mark");
    lists("- a\n- b", 63,
          "+15@0 +16@0 +17@0 -17@1 +14@1 -14@2 -16@2 +0@2 -0@3 -15@3 +21@3 -21@4 +15@4 +16@4 +17@4 -17@5 +14@5 -14@6 -16@6 +0@6 -0@7 -15@7",
          "+20@0 +15@0 +16@0 +17@0 -17@1 +14@1 -14@2 -16@2 +0@2 -0@3 -15@3 +21@3 -21@4 "
          "+15@4 +16@4 +17@4 -17@5 +14@5 -14@6 -16@6 +0@6 -0@7 -15@7 -20@7");
    begin("every mark makes its kind of list");
    lists("*", 63, ITEM("0", "1"), "+20@0 " ITEM("0", "1") "-20@1");
    lists("+", 63, ITEM("0", "1"), "+20@0 " ITEM("0", "1") "-20@1");
    lists("-", 63, ITEM("0", "1"), "+20@0 " ITEM("0", "1") "-20@1");
    lists(".", 63, ITEM("0", "1"), "+19@0 " ITEM("0", "1") "-19@1");
    lists(")", 63, ITEM("0", "1"), "+19@0 " ITEM("0", "1") "-19@1");
    begin("two items of every mark");
    lists("*\n*", 63, ITEM("0", "1") "+21@1 -21@2 " ITEM("2", "3"), "+20@0 " ITEM("0", "1") "+21@1 -21@2 " ITEM("2", "3") "-20@3");
    lists("+\n+", 63, ITEM("0", "1") "+21@1 -21@2 " ITEM("2", "3"), "+20@0 " ITEM("0", "1") "+21@1 -21@2 " ITEM("2", "3") "-20@3");
    lists("-\n-", 63, ITEM("0", "1") "+21@1 -21@2 " ITEM("2", "3"), "+20@0 " ITEM("0", "1") "+21@1 -21@2 " ITEM("2", "3") "-20@3");
    lists(".\n.", 63, ITEM("0", "1") "+21@1 -21@2 " ITEM("2", "3"), "+19@0 " ITEM("0", "1") "+21@1 -21@2 " ITEM("2", "3") "-19@3");
    lists(")\n)", 63, ITEM("0", "1") "+21@1 -21@2 " ITEM("2", "3"), "+19@0 " ITEM("0", "1") "+21@1 -21@2 " ITEM("2", "3") "-19@3");
    begin("two marks, two lists");
    lists("-\n*", 63, ITEM("0", "1") "+21@1 -21@2 " ITEM("2", "3"), "+20@0 " ITEM("0", "1") "-20@1 +21@1 -21@2 +20@2 " ITEM("2", "3") "-20@3");
    lists(".\n)", 63, ITEM("0", "1") "+21@1 -21@2 " ITEM("2", "3"), "+19@0 " ITEM("0", "1") "-19@1 +21@1 -21@2 +19@2 " ITEM("2", "3") "-19@3");
    begin("14, 21, 22 and 23 may stand between");
    lists("-\n\n> -", 63, ITEM("0", "1") "+21@1 -21@2 +22@2 -22@3 +23@3 +14@4 -14@5 -23@5 +14@5 -14@5 " ITEM("5", "6"),
          "+20@0 " ITEM("0", "1") "+21@1 -21@2 +22@2 -22@3 +23@3 +14@4 -14@5 -23@5 +14@5 -14@5 " ITEM("5", "6") "-20@6");
    begin("Data between keeps lists apart");
    lists("-a-", 63, ITEM("0", "1") "+0@1 -0@2 " ITEM("2", "3"), "+20@0 " ITEM("0", "1") "-20@1 +0@1 -0@2 +20@2 " ITEM("2", "3") "-20@3");
    begin("24 between keeps lists apart");
    lists("-a-", 63, ITEM("0", "1") "+24@1 -24@2 " ITEM("2", "3"), "+20@0 " ITEM("0", "1") "-20@1 +24@1 -24@2 +20@2 " ITEM("2", "3") "-20@3");
    begin("an item in what stands between keeps lists apart");
    lists("-a-a-", 63, ITEM("0", "1") "+23@1 " ITEM("2", "3") "-23@4 " ITEM("4", "5"),
          "+20@0 " ITEM("0", "1") "-20@1 +23@1 +20@2 " ITEM("2", "3") "-20@3 -23@4 +20@4 " ITEM("4", "5") "-20@5");
    begin("a list in an item");
    lists("- -\n-", 63, "+15@0 +16@0 +17@0 -17@1 +14@1 -14@2 -16@2 " ITEM("2", "3") "-15@3 +21@3 -21@4 " ITEM("4", "5"),
          "+20@0 +15@0 +16@0 +17@0 -17@1 +14@1 -14@2 -16@2 +20@2 " ITEM("2", "3") "-20@3 -15@3 +21@3 -21@4 " ITEM("4", "5") "-20@5");
    begin("runs and headings are not looked at");
    lists("a", 63, "+1@0 -1@0 +11@0 -11@1", "+1@0 -1@0 +11@0 -11@1");
    begin("no events");
    lists("", 63, "", "");
}

static void every_option(void) {
    uint32_t options;
    begin("every options number, and none need be on");
    for (options = 0; options <= 63; options++) lists("-", options, ITEM("0", "1"), "+20@0 " ITEM("0", "1") "-20@1");
}

/* Refused with 6 at an event. */
static void shape(const char *text, const char *events, size_t at) {
    refuses_shape(LISTS, record(text, events), 63, event_place(strlen(text), at));
}

static void number_6(void) {
    begin("6: an item with nothing in it");
    shape("-", "+15@0 -15@1", 0);
    begin("6: no marker in the prefix");
    shape("-", "+15@0 +16@0 -16@1 -15@1", 0);
    begin("6: two spaces before the prefix");
    shape("  -", "+15@0 +14@0 -14@1 +14@1 -14@2 +16@2 +17@2 -17@3 -16@3 -15@3", 0);
    begin("6: something else before the prefix");
    shape("-", "+15@0 +0@0 -0@0 +16@0 +17@0 -17@1 -16@1 -15@1", 0);
    begin("6: a marker over two bytes");
    shape("--", "+15@0 +16@0 +17@0 -17@2 -16@2 -15@2", 0);
    begin("6: a marker over no byte");
    shape("-", "+15@0 +16@0 +17@0 -17@0 -16@0 -15@0", 0);
    begin("6: a marker that is no mark");
    shape("a", "+15@0 +16@0 +17@0 -17@1 -16@1 -15@1", 0);
    begin("6: a marker that holds a pair");
    shape("-", "+15@0 +16@0 +17@0 +0@0 -0@1 -17@1 -16@1 -15@1", 0);
    begin("6: two spaces in the prefix");
    shape("-  ", "+15@0 +16@0 +17@0 -17@1 +14@1 -14@2 +14@2 -14@3 -16@3 -15@3", 0);
    begin("6: two values");
    shape("1.", "+15@0 +16@0 +18@0 -18@0 +18@0 -18@1 +17@1 -17@2 -16@2 -15@2", 0);
    begin("6: an item right after an item: the later offends");
    shape("--", ITEM("0", "1") ITEM("1", "2"), 6);
    begin("6: the earliest item that offends");
    shape("-\n-", ITEM("0", "1") "+21@1 -21@2 +15@2 -15@2 +21@2 -21@2 +15@2 -15@3", 8);
    begin("6: far on");
    refuses_far_on(LISTS, "+15@0 -15@0");
    begin("an empty pair between two items is enough");
    lists("--", 63, ITEM("0", "1") "+14@1 -14@1 " ITEM("1", "2"), "+20@0 " ITEM("0", "1") "+14@1 -14@1 " ITEM("1", "2") "-20@2");
}

static void number_8(void) {
    begin("8: every length that is too short for the eight events that `-` becomes");
    refuses_output(LISTS, record("-", ITEM("0", "1")), 63, 8);
    begin("8: every length that is too short for no events");
    refuses_output(LISTS, record("", ""), 63, 0);
}

/* An item up to where its content begins, and a whole one with none. */
static void put_start(struct bytes *b, size_t at) {
    put_event(b, LARK_ENTER, 15, at);
    put_event(b, LARK_ENTER, 16, at);
    put_event(b, LARK_ENTER, 17, at);
    put_event(b, LARK_EXIT, 17, at + 1);
    put_event(b, LARK_EXIT, 16, at + 1);
}
static void put_item(struct bytes *b, size_t at) {
    put_start(b, at);
    put_event(b, LARK_EXIT, 15, at + 1);
}

/* Items in each other as deep as a record goes: 62, and the prefix and marker of the last. Each has a list of its own. */
static void deep(void) {
    size_t i;
    begin("62 items in each other");
    record_bytes.n = section_bytes.n = 0;
    put_number(&record_bytes, 62);
    put_many(&record_bytes, '-', 62);
    put_count(&record_bytes, 62 * 6);
    put_count(&section_bytes, 62 * 8);
    for (i = 0; i < 62; i++) {
        put_event(&section_bytes, LARK_ENTER, 20, i);
        put_start(&record_bytes, i);
        put_start(&section_bytes, i);
    }
    for (i = 0; i < 62; i++) {
        put_event(&record_bytes, LARK_EXIT, 15, 62);
        put_event(&section_bytes, LARK_EXIT, 15, 62);
        put_event(&section_bytes, LARK_EXIT, 20, 62);
    }
    resolves(LISTS, &record_bytes, 63, 0, 0, &section_bytes);
}

/* As many items as a record can hold, in one list, and each in a list of its own. */
static void many(void) {
    size_t i;
    begin("256 items of one list");
    record_bytes.n = section_bytes.n = 0;
    put_number(&record_bytes, 256);
    put_many(&record_bytes, '-', 256);
    put_count(&record_bytes, 256 * 6 + 255 * 2);
    put_count(&section_bytes, 256 * 6 + 255 * 2 + 2);
    put_event(&section_bytes, LARK_ENTER, 20, 0);
    for (i = 0; i < 256; i++) {
        if (i) {
            put_event(&record_bytes, LARK_ENTER, 21, i);
            put_event(&record_bytes, LARK_EXIT, 21, i);
            put_event(&section_bytes, LARK_ENTER, 21, i);
            put_event(&section_bytes, LARK_EXIT, 21, i);
        }
        put_item(&record_bytes, i);
        put_item(&section_bytes, i);
    }
    put_event(&section_bytes, LARK_EXIT, 20, 256);
    resolves(LISTS, &record_bytes, 63, 0, 0, &section_bytes);

    begin("256 lists of one item");
    record_bytes.n = section_bytes.n = 0;
    put_number(&record_bytes, 256);
    for (i = 0; i < 256; i++) put_many(&record_bytes, i % 2 ? '.' : '-', 1);
    put_count(&record_bytes, 256 * 6 + 255 * 2);
    put_count(&section_bytes, 256 * 8 + 255 * 2);
    for (i = 0; i < 256; i++) {
        if (i) {
            put_event(&record_bytes, LARK_ENTER, 21, i);
            put_event(&record_bytes, LARK_EXIT, 21, i);
            put_event(&section_bytes, LARK_ENTER, 21, i);
            put_event(&section_bytes, LARK_EXIT, 21, i);
        }
        put_item(&record_bytes, i);
        put_event(&section_bytes, LARK_ENTER, i % 2 ? 19 : 20, i);
        put_item(&section_bytes, i);
        put_event(&section_bytes, LARK_EXIT, i % 2 ? 19 : 20, i + 1);
    }
    resolves(LISTS, &record_bytes, 63, 0, 0, &section_bytes);
}

static void all(void) {
    joined();
    if (way == EXACT) every_option(); /* once is enough: what is lent is not what it is about */
    number_6();
    number_8();
    deep();
    many();
}

int main(void) { return in_every_form(all); }
