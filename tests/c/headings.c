/* lark_resolve_headings in either form: the text rule on document 01's cases, and numbers 6 and 8. No record can bring number 7 about: a heading of
 * six events becomes one of eight, so that 2,048 events become 2,730 at most.
 */
#include "check.h"

static void headings(const char *text, uint32_t options, const char *events, const char *result) {
    resolves(HEADINGS, record(text, events), options, 0, 0, section(result));
}

static void texts(void) {
    begin("`# a b`: one Data is left in the text");
    headings("# a b", 63, "+11@0 +12@0 -12@1 +14@1 -14@2 +0@2 -0@3 +14@3 -14@4 +0@4 -0@5 -11@5",
             "+11@0 +12@0 -12@1 +14@1 -14@2 +13@2 +0@2 -0@5 -13@5 -11@5");
    begin("`# a#`: text 2 to 4");
    headings("# a#", 59, "+11@0 +12@0 -12@1 +14@1 -14@2 +0@2 -0@4 -11@4", "+11@0 +12@0 -12@1 +14@1 -14@2 +13@2 +0@2 -0@4 -13@4 -11@4");
    begin("`# #a`: the text is `#a`");
    headings("# #a", 63, "+11@0 +12@0 -12@1 +14@1 -14@2 +12@2 -12@3 +0@3 -0@4 -11@4",
             "+11@0 +12@0 -12@1 +14@1 -14@2 +13@2 +0@2 -0@4 -13@4 -11@4");
    begin("`# a # #`: the text is `a #`, and the closing run stays out");
    headings("# a # #", 63, "+11@0 +12@0 -12@1 +14@1 -14@2 +0@2 -0@3 +14@3 -14@4 +12@4 -12@5 +14@5 -14@6 +12@6 -12@7 -11@7",
             "+11@0 +12@0 -12@1 +14@1 -14@2 +13@2 +0@2 -0@5 -13@5 +14@5 -14@6 +12@6 -12@7 -11@7");
    begin("`# a # b`: a run before Data closes nothing");
    headings("# a # b", 63, "+11@0 +12@0 -12@1 +14@1 -14@2 +0@2 -0@3 +14@3 -14@4 +12@4 -12@5 +14@5 -14@6 +0@6 -0@7 -11@7",
             "+11@0 +12@0 -12@1 +14@1 -14@2 +13@2 +0@2 -0@7 -13@7 -11@7");
    begin("`# ## #`: the text is `##`, as Data");
    headings("# ## #", 63, "+11@0 +12@0 -12@1 +14@1 -14@2 +12@2 -12@4 +14@4 -14@5 +12@5 -12@6 -11@6",
             "+11@0 +12@0 -12@1 +14@1 -14@2 +13@2 +0@2 -0@4 -13@4 +14@4 -14@5 +12@5 -12@6 -11@6");
    begin("`# a # `: spaces behind the closing run");
    headings("# a # ", 63, "+11@0 +12@0 -12@1 +14@1 -14@2 +0@2 -0@3 +14@3 -14@4 +12@4 -12@5 +14@5 -14@6 -11@6",
             "+11@0 +12@0 -12@1 +14@1 -14@2 +13@2 +0@2 -0@3 -13@3 +14@3 -14@4 +12@4 -12@5 +14@5 -14@6 -11@6");
    begin("a closing run right behind Data, and of two the last");
    headings("#a#", 63, "+11@0 +12@0 -12@1 +0@1 -0@2 +12@2 -12@3 -11@3", "+11@0 +12@0 -12@1 +13@1 +0@1 -0@2 -13@2 +12@2 -12@3 -11@3");
    headings("#a##", 63, "+11@0 +12@0 -12@1 +0@1 -0@2 +12@2 -12@3 +12@3 -12@4 -11@4",
             "+11@0 +12@0 -12@1 +13@1 +0@1 -0@3 -13@3 +12@3 -12@4 -11@4");
    begin("` # a`: spaces in front");
    headings(" # a", 63, "+11@0 +14@0 -14@1 +12@1 -12@2 +14@2 -14@3 +0@3 -0@4 -11@4",
             "+11@0 +14@0 -14@1 +12@1 -12@2 +14@2 -14@3 +13@3 +0@3 -0@4 -13@4 -11@4");
    begin("`#`: no text, unchanged");
    headings("#", 63, "+11@0 +12@0 -12@1 -11@1", "+11@0 +12@0 -12@1 -11@1");
    begin("`# #`: no text, unchanged");
    headings("# #", 63, "+11@0 +12@0 -12@1 +14@1 -14@2 +12@2 -12@3 -11@3", "+11@0 +12@0 -12@1 +14@1 -14@2 +12@2 -12@3 -11@3");
    begin("two headings, in a container and beside it");
    headings("# a\n# b", 63,
             "+24@0 +11@0 +12@0 -12@1 +14@1 -14@2 +0@2 -0@3 -11@3 +21@3 -21@4 -24@4 +11@4 +12@4 -12@5 +14@5 -14@6 +0@6 -0@7 -11@7",
             "+24@0 +11@0 +12@0 -12@1 +14@1 -14@2 +13@2 +0@2 -0@3 -13@3 -11@3 +21@3 -21@4 -24@4 "
             "+11@4 +12@4 -12@5 +14@5 -14@6 +13@6 +0@6 -0@7 -13@7 -11@7");
    begin("runs and items are not looked at");
    headings("a", 63, "+1@0 -1@0 +15@0 -15@1", "+1@0 -1@0 +15@0 -15@1");
    begin("no events");
    headings("", 63, "", "");
}

static void every_option(void) {
    uint32_t options;
    begin("every options number, and none need be on");
    for (options = 0; options <= 63; options++)
        headings("#a", options, "+11@0 +12@0 -12@1 +0@1 -0@2 -11@2", "+11@0 +12@0 -12@1 +13@1 +0@1 -0@2 -13@2 -11@2");
}

/* Refused with 6 at an event. */
static void shape(const char *text, const char *events, size_t at) {
    refuses_shape(HEADINGS, record(text, events), 63, event_place(strlen(text), at));
}

static void number_6(void) {
    begin("6: a heading with nothing in it");
    shape("#", "+11@0 -11@1", 0);
    begin("6: no sequence");
    shape("a", "+11@0 +0@0 -0@1 -11@1", 0);
    begin("6: a space alone");
    shape(" ", "+11@0 +14@0 -14@1 -11@1", 0);
    begin("6: two spaces and then the sequence");
    shape("  #", "+11@0 +14@0 -14@1 +14@1 -14@2 +12@2 -12@3 -11@3", 0);
    begin("6: another name");
    shape("# a", "+11@0 +12@0 -12@1 +24@1 -24@2 -11@3", 0);
    begin("6: a pair that holds one");
    shape("# a", "+11@0 +12@0 -12@1 +0@2 +0@2 -0@3 -0@3 -11@3", 0);
    begin("6: a heading in a heading: the outer offends");
    shape("# a", "+11@0 +12@0 -12@1 +11@1 +12@1 -12@1 -11@1 -11@3", 0);
    begin("6: a heading that is resolved already");
    shape("# a", "+11@0 +12@0 -12@1 +14@1 -14@2 +13@2 +0@2 -0@3 -13@3 -11@3", 0);
    begin("6: the earliest heading that offends");
    shape("# a", "+11@0 +12@0 -12@1 -11@1 +11@2 -11@3 +11@3 -11@3", 4);
    begin("6: far on");
    refuses_far_on(HEADINGS, "+11@0 -11@0");
}

static void number_8(void) {
    begin("8: every length that is too short for the ten events that `# a b` becomes");
    refuses_output(HEADINGS, record("# a b", "+11@0 +12@0 -12@1 +14@1 -14@2 +0@2 -0@3 +14@3 -14@4 +0@4 -0@5 -11@5"), 63, 10);
    begin("8: every length that is too short for no events");
    refuses_output(HEADINGS, record("", ""), 63, 0);
}

/* As many headings as a record can hold. */
static void many(void) {
    size_t i;
    begin("341 headings of six events");
    record_bytes.n = section_bytes.n = 0;
    put_document(&record_bytes, "#a", 2);
    put_count(&record_bytes, 341 * 6);
    put_count(&section_bytes, 341 * 8);
    for (i = 0; i < 341; i++) {
        size_t at = i == 340 ? 2 : 0, end = i < 339 ? 0 : 2;
        put_event(&record_bytes, LARK_ENTER, 11, at);
        put_event(&record_bytes, LARK_ENTER, 12, at);
        put_event(&record_bytes, LARK_EXIT, 12, end);
        put_event(&record_bytes, LARK_ENTER, 0, end);
        put_event(&record_bytes, LARK_EXIT, 0, end);
        put_event(&record_bytes, LARK_EXIT, 11, end);
        put_event(&section_bytes, LARK_ENTER, 11, at);
        put_event(&section_bytes, LARK_ENTER, 12, at);
        put_event(&section_bytes, LARK_EXIT, 12, end);
        put_event(&section_bytes, LARK_ENTER, 13, end);
        put_event(&section_bytes, LARK_ENTER, 0, end);
        put_event(&section_bytes, LARK_EXIT, 0, end);
        put_event(&section_bytes, LARK_EXIT, 13, end);
        put_event(&section_bytes, LARK_EXIT, 11, end);
    }
    resolves(HEADINGS, &record_bytes, 63, 0, 0, &section_bytes);
}

static void all(void) {
    texts();
    if (way == EXACT) every_option(); /* once is enough: what is lent is not what it is about */
    number_6();
    number_8();
    many();
}

int main(void) { return in_every_form(all); }
