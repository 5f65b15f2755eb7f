/* lark_heading: what is a heading and what is not, at which column, the events of its line, and numbers 2, 3, 4, 7 and 8. */
#include "check.h"

static void heading_with(const char *text, size_t n, uint32_t options, size_t column, size_t out_length, size_t number, size_t place,
                         size_t found, size_t events, const struct bytes *result) {
    struct slice line = lend_bytes((const uint8_t *)text, n), out = lend(out_length);
    struct lark_headed got = lark_heading(line.p, line.n, options, column, out.p, out.n);
    equal("number", got.number, number);
    equal("place", got.place, place);
    equal("found", got.found, found);
    equal("events", got.events, events);
    same("the line", line.p, (const uint8_t *)text, n);
    output_is(out, result);
    take_back(line);
    take_back(out);
}

/* The section comes into ample output, and into output of just its length. 65,536 cut to 16 bits is 0. */
static void gives(size_t column, const char *text, size_t n, uint32_t options, const struct bytes *result) {
    size_t events = (result->n - 4) / 8;
    heading_with(text, n, options, column, LARK_OUT_BYTES, 0, 0, 1, events, result);
    heading_with(text, n, options, column, result->n, 0, 0, 1, events, result);
    heading_with(text, n, options, column, result->n + 1, 0, 0, 1, events, result);
    heading_with(text, n, options, column, 65536, 0, 0, 1, events, result);
}
#define heading_at(column, text, options, result) gives(column, text, sizeof(text) - 1, options, section(result))
#define heading(text, options, result) heading_at(0, text, options, result)

static void none(size_t column, const char *text, size_t n, uint32_t options) {
    heading_with(text, n, options, column, LARK_OUT_BYTES, 0, 0, 0, 0, NULL);
    heading_with(text, n, options, column, 0, 0, 0, 0, 0, NULL);
}
#define no_heading_at(column, text, options) none(column, text, sizeof(text) - 1, options)
#define no_heading(text, options) no_heading_at(0, text, options)

static void refused_at(size_t column, const char *text, size_t n, uint32_t options, size_t out_length, size_t number, size_t place) {
    heading_with(text, n, options, column, out_length, number, place, 0, 0, NULL);
}
static void refused(const char *text, size_t n, uint32_t options, size_t out_length, size_t number, size_t place) {
    refused_at(0, text, n, options, out_length, number, place);
}

static void found(void) {
    begin("`# a b`");
    heading("# a b", 59, "+11@0 +12@0 -12@1 +14@1 -14@2 +0@2 -0@3 +14@3 -14@4 +0@4 -0@5 -11@5");
    begin("its option alone");
    heading("# a b", 8, "+11@0 +12@0 -12@1 +14@1 -14@2 +0@2 -0@3 +14@3 -14@4 +0@4 -0@5 -11@5");
    begin("`# a#`");
    heading("# a#", 59, "+11@0 +12@0 -12@1 +14@1 -14@2 +0@2 -0@4 -11@4");
    begin("`# #a#`: a `#` run followed directly by Data");
    heading("# #a#", 59, "+11@0 +12@0 -12@1 +14@1 -14@2 +12@2 -12@3 +0@3 -0@5 -11@5");
    begin("`## a ##`");
    heading("## a ##", 59, "+11@0 +12@0 -12@2 +14@2 -14@3 +0@3 -0@4 +14@4 -14@5 +12@5 -12@7 -11@7");
    begin("six `#` alone");
    heading("######", 59, "+11@0 +12@0 -12@6 -11@6");
    begin("`#` and a line feed");
    heading("#\na", 59, "+11@0 +12@0 -12@1 -11@1");
    begin("`#` and a tab");
    heading("#\ta", 59, "+11@0 +12@0 -12@1 +14@1 -14@2 +0@2 -0@3 -11@3");
    begin("one or two spaces in front");
    heading(" # a", 59, "+11@0 +14@0 -14@1 +12@1 -12@2 +14@2 -14@3 +0@3 -0@4 -11@4");
    heading("  # a", 59, "+11@0 +14@0 -14@2 +12@2 -12@3 +14@3 -14@4 +0@4 -0@5 -11@5");
    begin("a tab in front, which is 4 columns, without option 32");
    heading("\t# a", 27, "+11@0 +14@0 -14@1 +12@1 -12@2 +14@2 -14@3 +0@3 -0@4 -11@4");
    begin("three spaces in front, and spaces behind");
    heading("   # a \t", 59, "+11@0 +14@0 -14@3 +12@3 -12@4 +14@4 -14@5 +0@5 -0@6 +14@6 -14@8 -11@8");
    begin("four spaces in front without option 32");
    heading("    # a", 27, "+11@0 +14@0 -14@4 +12@4 -12@5 +14@5 -14@6 +0@6 -0@7 -11@7");
    begin("zero bytes and bytes from 128 up are Data");
    heading("# \0\xc3\xa9", 59, "+11@0 +12@0 -12@1 +14@1 -14@2 +0@2 -0@5 -11@5");
}

/* A tab goes to the next stop, so that the column says whether what is in front is too much. Behind the `#` it does not matter, and places stay. */
static void at_columns(void) {
    static const char tabbed[] = "+11@0 +14@0 -14@1 +12@1 -12@2 +14@2 -14@3 +0@3 -0@4 -11@4";
    size_t column;
    begin("a tab in front is 4, 3, 2 and 1 columns");
    no_heading_at(0, "\t# a", 59);
    heading_at(1, "\t# a", 59, tabbed);
    heading_at(2, "\t# a", 59, tabbed);
    heading_at(3, "\t# a", 59, tabbed);
    no_heading_at(4, "\t# a", 59);
    heading_at(5, "\t# a", 59, tabbed);
    no_heading_at(LARK_MAX_COLUMN, "\t# a", 59);
    heading_at(LARK_MAX_COLUMN - 1, "\t# a", 59, tabbed);
    begin("spaces and a tab in front");
    heading_at(1, "  \t#", 59, "+11@0 +14@0 -14@3 +12@3 -12@4 -11@4");
    heading_at(3, "\t  #", 59, "+11@0 +14@0 -14@3 +12@3 -12@4 -11@4");
    no_heading_at(2, "  \t#", 59);
    no_heading_at(2, "\t  #", 59);
    no_heading_at(3, "\t\t#", 59);
    begin("at every column: three spaces in front, four, and a tab without option 32");
    for (column = 0; column <= 9; column++) {
        heading_at(column, "   #", 59, "+11@0 +14@0 -14@3 +12@3 -12@4 -11@4");
        no_heading_at(column, "    #", 59);
        heading_at(column, "\t# a", 27, tabbed);
        heading_at(column, "#\t\ta", 59, "+11@0 +12@0 -12@1 +14@1 -14@3 +0@3 -0@4 -11@4");
    }
    begin("the greatest column");
    heading_at(LARK_MAX_COLUMN, "#", 59, "+11@0 +12@0 -12@1 -11@1");
}

/* Two to six `#` and a word; one has cases of its own. */
static void more_hashes(void) {
    begin("two to six `#` and a word");
    heading("## a", 59, "+11@0 +12@0 -12@2 +14@2 -14@3 +0@3 -0@4 -11@4");
    heading("### a", 59, "+11@0 +12@0 -12@3 +14@3 -14@4 +0@4 -0@5 -11@5");
    heading("#### a", 59, "+11@0 +12@0 -12@4 +14@4 -14@5 +0@5 -0@6 -11@6");
    heading("##### a", 59, "+11@0 +12@0 -12@5 +14@5 -14@6 +0@6 -0@7 -11@7");
    heading("###### a", 59, "+11@0 +12@0 -12@6 +14@6 -14@7 +0@7 -0@8 -11@8");
}

/* Option 8 finds headings, and option 32 keeps those indented by four from being found. The others do nothing. */
static void every_option(void) {
    uint32_t options;
    begin("every options number");
    for (options = 0; options <= 63; options++) {
        if (options & 8)
            heading("#", options, "+11@0 +12@0 -12@1 -11@1");
        else
            no_heading("#", options);
        if ((options & 8) && !(options & 32))
            heading("    #", options, "+11@0 +14@0 -14@4 +12@4 -12@5 -11@5");
        else
            no_heading("    #", options);
    }
}

/* One word to the end of the longest line. */
static void longest_line(void) {
    static char line[LARK_MAX_LINE];
    memset(line, 'a', sizeof line);
    memcpy(line, "# ", 2);
    begin("a line of 16,384 bytes");
    gives(0, line, sizeof line, 63, section("+11@0 +12@0 -12@1 +14@1 -14@2 +0@2 -0@16384 -11@16384"));
    begin("a line of 16,383 bytes, which ends with a space");
    line[16382] = ' ';
    gives(0, line, 16383, 63, section("+11@0 +12@0 -12@1 +14@1 -14@2 +0@2 -0@16382 +14@16382 -14@16383 -11@16383"));
}

static void not_found(void) {
    begin("an empty line is none");
    no_heading("", 59);
    begin("text is none");
    no_heading("a", 59);
    no_heading("\n# a", 59);
    begin("seven `#` are none");
    no_heading("#######", 59);
    no_heading("####### a", 59);
    begin("`#a` is none");
    no_heading("#a", 59);
    begin("`#` and a form feed is none");
    no_heading("#\fa", 59);
    begin("four spaces in front with option 32: none");
    no_heading("    # a", 59);
    begin("none without option 8");
    no_heading("# a", 55);
}

static void refusals(void) {
    static char longer[65536 + 3];
    size_t i;
    int bit;
    memset(longer, ' ', sizeof longer);
    longer[0] = '#';
    begin("2: options over 63");
    for (bit = 6; bit < 32; bit++) refused("# a", 3, (uint32_t)1 << bit, LARK_OUT_BYTES, 2, 0);
    refused("# a", 3, 65, LARK_OUT_BYTES, 2, 0);
    refused("# a", 3, 0xffffffffu, LARK_OUT_BYTES, 2, 0);
    begin("2: a column over 16,384");
    refused_at(LARK_MAX_COLUMN + 1, "# a", 3, 63, LARK_OUT_BYTES, 2, 0);
    for (bit = 15; bit < 64; bit++) refused_at((size_t)1 << bit, "# a", 3, 63, LARK_OUT_BYTES, 2, 0);
    refused_at(SIZE_MAX, "# a", 3, 63, 0, 2, 0);
    begin("2, for the column, comes before 3, 4 and 8");
    refused_at(LARK_MAX_COLUMN + 1, "\r", 1, 63, LARK_OUT_BYTES, 2, 0);
    refused_at(LARK_MAX_COLUMN + 1, longer, 16385, 63, LARK_OUT_BYTES, 2, 0);
    refused_at(LARK_MAX_COLUMN + 1, "#", 1, 63, 0, 2, 0);
    begin("2 comes before 3 and 4");
    refused("\r", 1, 64, LARK_OUT_BYTES, 2, 0);
    refused(longer, 16385, 64, LARK_OUT_BYTES, 2, 0);
    begin("3: a line of 16,385 bytes");
    refused(longer, 16385, 63, LARK_OUT_BYTES, 3, 16384);
    refused(longer, 65536, 63, 0, 3, 16384);
    refused(longer, 65536 + 3, 63, LARK_OUT_BYTES, 3, 16384);
    begin("3: also past a line feed, and before 4");
    longer[1] = '\n';
    longer[2] = '\r';
    refused(longer, 16385, 63, LARK_OUT_BYTES, 3, 16384);
    begin("4: a carriage return");
    refused("# a\r\n", 5, 63, LARK_OUT_BYTES, 4, 3);
    refused("a\r", 2, 63, 0, 4, 1);
    begin("4: also past a line feed");
    refused("# a\n\r", 5, 63, LARK_OUT_BYTES, 4, 4);
    begin("8: every length under 68 for `# a`");
    for (i = 0; i < 68; i++) refused("# a", 3, 63, i, 8, 0);
    heading("# a", 63, "+11@0 +12@0 -12@1 +14@1 -14@2 +0@2 -0@3 -11@3");
}

/* `#` and 1,999 times ` a`: 3,999 pieces, 8,000 events. One more space is one piece more. */
static void longest(void) {
    static char line[1 + 2 * 1999 + 1];
    size_t i;
    line[0] = '#';
    section_bytes.n = 0;
    put_number(&section_bytes, 8000);
    put_event(&section_bytes, LARK_ENTER, 11, 0);
    put_event(&section_bytes, LARK_ENTER, 12, 0);
    put_event(&section_bytes, LARK_EXIT, 12, 1);
    for (i = 0; i < 1999; i++) {
        size_t at = 1 + 2 * i;
        line[at] = ' ';
        line[at + 1] = 'a';
        put_event(&section_bytes, LARK_ENTER, 14, at);
        put_event(&section_bytes, LARK_EXIT, 14, at + 1);
        put_event(&section_bytes, LARK_ENTER, 0, at + 1);
        put_event(&section_bytes, LARK_EXIT, 0, at + 2);
    }
    put_event(&section_bytes, LARK_EXIT, 11, 3999);
    line[3999] = ' ';
    begin("8,000 events: the longest section");
    gives(0, line, 3999, 63, &section_bytes);
    begin("8: the longest section, a byte short");
    refused(line, 3999, 63, LARK_OUT_BYTES - 1, 8, 0);
    begin("7: 8,002 events");
    refused(line, 4000, 63, LARK_OUT_BYTES, 7, 0);
    refused(line, 4000, 63, 100000, 7, 0);
    begin("7 comes before 8");
    refused(line, 4000, 63, 0, 7, 0);
}

/* What decides, at each place of the blocks that a line is scanned in, and of the lines that are shorter than these. */
static void every_place(void) {
    static char line[176];
    char events[160];
    size_t n, at;
    for (n = 1; n <= 170; n += n < 40 || (n > 120 && n < 140) ? 1 : 10) {
        begin("every place: a carriage return is refused");
        memset(line, 'a', n);
        line[0] = '#';
        for (at = 1; at < n; at++) {
            line[at] = '\r';
            refused(line, n, 59, LARK_OUT_BYTES, 4, at);
            line[at] = 'a';
        }
        begin("every place: spaces behind the `#`, up to a letter and up to a line feed");
        memset(line, ' ', n + 2);
        line[0] = '#';
        line[n + 1] = 'a';
        sprintf(events, "+11@0 +12@0 -12@1 +14@1 -14@%zu +0@%zu -0@%zu -11@%zu", n + 1, n + 1, n + 2, n + 2);
        gives(0, line, n + 2, 59, section(events));
        line[n + 1] = '\n';
        line[n + 2] = 'a';
        sprintf(events, "+11@0 +12@0 -12@1 +14@1 -14@%zu -11@%zu", n + 1, n + 1);
        gives(0, line, n + 3, 59, section(events));
        begin("every place: spaces in front");
        memset(line, ' ', n);
        line[n] = '#';
        sprintf(events, "+11@0 +14@0 -14@%zu +12@%zu -12@%zu -11@%zu", n, n, n + 1, n + 1);
        gives(0, line, n + 1, 27, section(events));
    }
}

static void all(void) {
    found();
    at_columns();
    more_hashes();
    every_option();
    longest_line();
    not_found();
    refusals();
    longest();
    every_place();
}

int main(void) { return in_every_way(all); }
