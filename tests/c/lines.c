/* The three line readers that write nothing: lark_space_or_tab, lark_list_item and lark_continuation. Document 01's cases by line, every finding,
 * and numbers 2, 3 and 4. Numbers that are passed are tried at every power of two, so that one that is cut to fewer bits comes out as 0. What decides
 * is tried at every place of the blocks that a line is scanned in. Tabs are tried at every column of a stop, and short lines with tabs against what
 * the same line answers with spaces in their place.
 */
#include "check.h"

#define LINE(text) text, sizeof(text) - 1

enum { SIZE_BITS = 8 * sizeof(size_t) };
#define POWER(bit) ((size_t)1 << (bit))

static void spaces_with(const char *text, size_t n, uint32_t options, size_t column, size_t min, size_t max, size_t number, size_t place,
                        size_t found, size_t taken, size_t left) {
    struct slice line = lend_bytes((const uint8_t *)text, n);
    struct lark_spaces got = lark_space_or_tab(line.p, line.n, options, column, min, max);
    equal("number", got.number, number);
    equal("place", got.place, place);
    equal("found", got.found, found);
    equal("taken", got.taken, taken);
    equal("left", got.left, left);
    same("the line", line.p, (const uint8_t *)text, n);
    take_back(line);
}

static void item_with(const char *text, size_t n, uint32_t options, size_t column, uint32_t interrupting, size_t number, size_t place,
                      size_t found, size_t taken, size_t left, size_t size, size_t blank, size_t mark) {
    struct slice line = lend_bytes((const uint8_t *)text, n);
    struct lark_item got = lark_list_item(line.p, line.n, options, column, interrupting);
    equal("number", got.number, number);
    equal("place", got.place, place);
    equal("found", got.found, found);
    equal("taken", got.taken, taken);
    equal("left", got.left, left);
    equal("size", got.size, size);
    equal("blank", got.blank, blank);
    equal("mark", got.mark, mark);
    same("the line", line.p, (const uint8_t *)text, n);
    take_back(line);
}

/* A continuation, with each kind of mark: the answer does not depend on it. */
static void going_with(const char *text, size_t n, uint32_t options, size_t column, size_t size, uint32_t flag, size_t number, size_t place,
                       size_t found, size_t taken, size_t left, size_t blank) {
    static const uint32_t marks[] = {'-', '*', '+', '.', ')', 0, 'a', 256 + '.', 0xffffffffu};
    size_t i;
    for (i = 0; i < sizeof marks / sizeof *marks; i++) {
        struct slice line = lend_bytes((const uint8_t *)text, n);
        struct lark_going got = lark_continuation(line.p, line.n, options, column, size, flag, marks[i]);
        equal("number", got.number, number);
        equal("place", got.place, place);
        equal("found", got.found, found);
        equal("taken", got.taken, taken);
        equal("left", got.left, left);
        equal("blank", got.blank, blank);
        same("the line", line.p, (const uint8_t *)text, n);
        take_back(line);
    }
}

/* At a column. */
static void taken_at(size_t column, const char *text, size_t n, size_t min, size_t max, size_t bytes, size_t left) {
    spaces_with(text, n, 63, column, min, max, 0, 0, 1, bytes, left);
}
static void too_few_at(size_t column, const char *text, size_t n, size_t min, size_t max) {
    spaces_with(text, n, 63, column, min, max, 0, 0, 0, 0, 0);
}
static void item_at(size_t column, const char *text, size_t n, uint32_t options, size_t bytes, size_t left, size_t size, size_t blank, char mark) {
    item_with(text, n, options, column, 0, 0, 0, 1, bytes, left, size, blank, (size_t)mark);
}
static void no_item_at(size_t column, const char *text, size_t n, uint32_t options) {
    item_with(text, n, options, column, 0, 0, 0, 0, 0, 0, 0, 0, 0);
}
static void goes_at(size_t column, const char *text, size_t n, size_t size, size_t bytes, size_t left) {
    going_with(text, n, 63, column, size, 0, 0, 0, 1, bytes, left, 0);
}
static void stops_at(size_t column, const char *text, size_t n, size_t size) { going_with(text, n, 63, column, size, 0, 0, 0, 0, 0, 0, 0); }

/* At column 0, with no tab cut. */
static void taken(const char *text, size_t n, size_t min, size_t max, size_t want) { taken_at(0, text, n, min, max, want, 0); }
static void too_few(const char *text, size_t n, size_t min, size_t max) { too_few_at(0, text, n, min, max); }

static void item(const char *text, size_t n, uint32_t options, uint32_t interrupting, size_t bytes, size_t size, size_t blank, char mark) {
    item_with(text, n, options, 0, interrupting, 0, 0, 1, bytes, 0, size, blank, (size_t)mark);
}
static void no_item(const char *text, size_t n, uint32_t options, uint32_t interrupting) {
    item_with(text, n, options, 0, interrupting, 0, 0, 0, 0, 0, 0, 0, 0);
}

static void goes(const char *text, size_t n, size_t size, uint32_t flag, size_t bytes, size_t blank) {
    going_with(text, n, 63, 0, size, flag, 0, 0, 1, bytes, 0, blank);
}
static void stops(const char *text, size_t n, size_t size, uint32_t flag, size_t blank) {
    going_with(text, n, 63, 0, size, flag, 0, 0, 0, 0, 0, blank);
}

/* All three refuse alike. The flag of a continuation is then 0, whatever was passed. */
static void all_refuse_at(size_t column, const char *text, size_t n, uint32_t options, size_t number, size_t place) {
    spaces_with(text, n, options, column, 0, 9, number, place, 0, 0, 0);
    item_with(text, n, options, column, 0, number, place, 0, 0, 0, 0, 0, 0);
    item_with(text, n, options, column, 1, number, place, 0, 0, 0, 0, 0, 0);
    going_with(text, n, options, column, 2, 0, number, place, 0, 0, 0, 0);
    going_with(text, n, options, column, 2, 1, number, place, 0, 0, 0, 0);
}
static void all_refuse(const char *text, size_t n, uint32_t options, size_t number, size_t place) {
    all_refuse_at(0, text, n, options, number, place);
    all_refuse_at(LARK_MAX_COLUMN, text, n, options, number, place);
}

/* The longest line: all spaces but for what it ends with. */
static const char *longest(const char *end) {
    static char line[LARK_MAX_LINE];
    memset(line, ' ', sizeof line);
    memcpy(line + sizeof line - strlen(end), end, strlen(end));
    return line;
}

static void space_or_tab(void) {
    uint32_t options;
    int bit;
    begin("space-or-tab: an empty line, none asked for");
    taken(LINE(""), 0, 3, 0);
    begin("space-or-tab: an empty line is too few for one");
    too_few(LINE(""), 1, 3);
    begin("space-or-tab: spaces and tabs, all of which fit: what is taken is counted in bytes");
    taken(LINE("\t \ta"), 2, 9, 3);
    begin("space-or-tab: up to the maximum");
    taken(LINE("    a"), 1, 2, 2);
    begin("space-or-tab: too few");
    too_few(LINE("  a"), 3, 9);
    begin("space-or-tab: exactly the minimum");
    taken(LINE("  a"), 2, 9, 2);
    begin("space-or-tab: a minimum over the maximum is too few");
    too_few(LINE("   a"), 2, 1);
    begin("space-or-tab: a maximum of 0");
    taken(LINE("  a"), 0, 0, 0);
    begin("space-or-tab: the line ends before its first line feed");
    taken(LINE("  \n  "), 0, 9, 2);
    too_few(LINE("\n  "), 1, 9);
    begin("space-or-tab: other white space is not taken");
    taken(LINE(" \f "), 0, 9, 1);
    taken(LINE(" \v "), 0, 9, 1);
    taken(LINE(" \0 "), 0, 9, 1);
    begin("space-or-tab: the largest numbers");
    taken(LINE("   a"), 0, SIZE_MAX, 3);
    too_few(LINE("   a"), SIZE_MAX, SIZE_MAX);
    begin("space-or-tab: every power of two from 4 on as minimum and as maximum, 65,536 and 2^32 among them");
    for (bit = 2; bit < SIZE_BITS; bit++) {
        too_few(LINE("   a"), POWER(bit), SIZE_MAX);
        too_few(LINE("   a"), POWER(bit), 3);
        too_few(LINE(""), POWER(bit), POWER(bit));
        taken(LINE("   a"), 0, POWER(bit), 3);
        taken(LINE("   a"), 3, POWER(bit), 3);
        taken(LINE(""), 0, POWER(bit), 0);
    }
    begin("space-or-tab: a line of 16,384 spaces");
    taken(longest(""), LARK_MAX_LINE, 16384, SIZE_MAX, 16384);
    taken(longest(""), LARK_MAX_LINE, 0, 16383, 16383);
    too_few(longest(""), LARK_MAX_LINE, 16385, SIZE_MAX);
    taken(longest(""), 300, 0, SIZE_MAX, 300);
    begin("space-or-tab: more than there may be, and just as many");
    taken(LINE("       a"), 5, 5, 5);
    begin("space-or-tab: every options number");
    for (options = 0; options <= 63; options++) spaces_with(LINE("  a"), options, 0, 0, 9, 0, 0, 1, 2, 0);
}

/* What holds of a marker that may interrupt, whatever its mark: behind it stands nothing but blanks, or something. */
static void every_rest(const char *marker) {
    static const struct {
        size_t indent; /* spaces before the marker */
        const char *behind;
        size_t taken, blank; /* the bytes taken behind the marker; whether nothing but blanks is there */
    } rests[] = {
        {0, "", 0, 1},   {0, " ", 0, 1},     {0, " \t      ", 0, 1}, {0, "\n", 0, 1},    {0, "  \na", 0, 1},  {3, "", 0, 1},    {2, "\t\t", 0, 1},
        {0, " a", 1, 0}, {0, "  a", 2, 0},   {0, "    a", 4, 0},     {0, " a\n ", 1, 0}, {3, " a", 1, 0},     {0, "     a", 1, 0}, {1, "    a", 4, 0},
        {2, "     a", 1, 0},
    };
    static const char *const none[] = {"a", "\f", "\v a", "#"};
    static char line[64];
    size_t w = strlen(marker), i;
    char mark = marker[w - 1];
    for (i = 0; i < sizeof rests / sizeof *rests; i++) {
        size_t end = rests[i].indent + w, size = end + (rests[i].blank ? 1 : rests[i].taken);
        size_t n = (size_t)sprintf(line, "%*s%s%s", (int)rests[i].indent, "", marker, rests[i].behind);
        item(line, n, 63, 0, end + rests[i].taken, size, rests[i].blank, mark);
        if (rests[i].blank)
            no_item(line, n, 63, 1);
        else
            item(line, n, 63, 1, end + rests[i].taken, size, 0, mark);
    }
    for (i = 0; i < sizeof none / sizeof *none; i++) no_item(line, (size_t)sprintf(line, "%s%s", marker, none[i]), 63, 0);
    no_item(line, (size_t)sprintf(line, "    %s a", marker), 63, 0);
    item(line, (size_t)sprintf(line, "    %s a", marker), 31, 0, 4 + w + 1, 4 + w + 1, 0, mark);
}

static void list_item(void) {
    uint32_t options;
    int bit;
    begin("item: every mark, with every kind of rest");
    every_rest("-");
    every_rest("*");
    every_rest("+");
    every_rest("1.");
    every_rest("1)");
    begin("item: `1)` with nothing behind it is blank");
    item(LINE("1)"), 59, 0, 2, 3, 1, ')');
    item(LINE("1)  \n"), 59, 0, 2, 3, 1, ')');
    begin("item: every digit, and what stands beside them in ASCII");
    item(LINE("0. a"), 59, 0, 3, 3, 0, '.');
    item(LINE("9) a"), 59, 0, 3, 3, 0, ')');
    item(LINE("234567890) a"), 59, 0, 11, 11, 0, ')');
    no_item(LINE("/. a"), 59, 0);
    no_item(LINE(":. a"), 59, 0);
    begin("item: on the longest line, the indentation being free");
    item(longest("- a"), LARK_MAX_LINE, 31, 0, 16383, 16383, 0, '-');
    item(longest("-"), LARK_MAX_LINE, 31, 0, 16384, 16385, 1, '-');
    item(longest("123456789)"), LARK_MAX_LINE, 31, 0, 16384, 16385, 1, ')');
    begin("item: `- a`");
    item(LINE("- a"), 59, 0, 2, 2, 0, '-');
    begin("item: `* a` and `+ a`");
    item(LINE("* a"), 59, 0, 2, 2, 0, '*');
    item(LINE("+ a"), 59, 0, 2, 2, 0, '+');
    begin("item: its option alone");
    item(LINE("- a"), 16, 0, 2, 2, 0, '-');
    begin("item: none without option 16");
    no_item(LINE("- a"), 47, 0);
    begin("item: `123456789. a` has size 11");
    item(LINE("123456789. a"), 59, 0, 11, 11, 0, '.');
    begin("item: `1) a`");
    item(LINE("1) a"), 59, 0, 3, 3, 0, ')');
    begin("item: `100. a`");
    item(LINE("100. a"), 59, 0, 5, 5, 0, '.');
    begin("item: ten digits are none");
    no_item(LINE("1234567890. a"), 59, 0);
    no_item(LINE("1234567890) a"), 59, 0);
    begin("item: digits alone are none");
    no_item(LINE("12"), 59, 0);
    no_item(LINE("12 a"), 59, 0);
    begin("item: `-    a` (4 spaces) has size 5");
    item(LINE("-    a"), 59, 0, 5, 5, 0, '-');
    begin("item: `-     a` (5 spaces) has size 2");
    item(LINE("-     a"), 59, 0, 2, 2, 0, '-');
    begin("item: no space after the marker");
    no_item(LINE("-a"), 59, 0);
    begin("item: a tab after the marker is 3 columns there");
    item(LINE("-\ta"), 59, 0, 2, 4, 0, '-');
    begin("item: `   - a` has an indentation of 3");
    item(LINE("   - a"), 59, 0, 5, 5, 0, '-');
    begin("item: a tab in front is 4 columns, and so none with option 32");
    no_item(LINE("\t- a"), 59, 0);
    item(LINE("\t- a"), 27, 0, 3, 6, 0, '-');
    begin("item: `    - a` is none with option 32");
    no_item(LINE("    - a"), 59, 0);
    begin("item: `    - a` is one without option 32");
    item(LINE("    - a"), 27, 0, 6, 6, 0, '-');
    begin("item: `- - -` is a thematic break");
    no_item(LINE("- - -"), 59, 0);
    no_item(LINE("***"), 59, 0);
    no_item(LINE("* *\t* \nx"), 59, 0);
    begin("item: a thematic break that is indented, and one of four marks");
    no_item(LINE("  - - -"), 59, 0);
    no_item(LINE("- - - -"), 59, 0);
    begin("item: two marks are no thematic break, nor are `+`");
    item(LINE("- -"), 59, 0, 2, 2, 0, '-');
    item(LINE("+ + +"), 59, 0, 2, 2, 0, '+');
    begin("item: three marks and something else, and two kinds of marks, are no thematic break");
    item(LINE("- - - a"), 59, 0, 2, 2, 0, '-');
    item(LINE("- * -"), 59, 0, 2, 2, 0, '-');
    begin("item: a blank start");
    item(LINE("-"), 59, 0, 1, 2, 1, '-');
    item(LINE(" 12.  \t\na"), 59, 0, 4, 5, 1, '.');
    begin("item: a form feed is not blank");
    item(LINE("- \f"), 59, 0, 2, 2, 0, '-');
    begin("item: `2. a` interrupting is none");
    no_item(LINE("2. a"), 59, 1);
    item(LINE("2. a"), 59, 0, 3, 3, 0, '.');
    begin("item: `1. a` interrupting");
    item(LINE("1. a"), 59, 1, 3, 3, 0, '.');
    begin("item: `01. a` interrupting is none");
    no_item(LINE("01. a"), 59, 1);
    begin("item: `12. a` interrupting is none");
    no_item(LINE("12. a"), 59, 1);
    item(LINE("12. a"), 59, 0, 4, 4, 0, '.');
    begin("item: a blank start interrupting is none");
    no_item(LINE("-"), 59, 1);
    no_item(LINE("1.  "), 59, 1);
    begin("item: a bullet interrupting");
    item(LINE("- a"), 59, 1, 2, 2, 0, '-');
    begin("item: any value but 0 is interrupting");
    for (bit = 0; bit < 32; bit++) no_item(LINE("2. a"), 59, (uint32_t)1 << bit);
    no_item(LINE("2) a"), 59, 0xffffffffu);
    begin("item: an empty line is none");
    no_item(LINE(""), 59, 0);
    no_item(LINE("\n- a"), 59, 0);
    begin("item: text is none");
    no_item(LINE("a"), 59, 0);
    begin("item: every options number");
    for (options = 0; options <= 63; options++) {
        if (options & 16)
            item(LINE("- a"), options, 0, 2, 2, 0, '-');
        else
            no_item(LINE("- a"), options, 0);
        if ((options & 16) && !(options & 32))
            item(LINE("    - a"), options, 0, 6, 6, 0, '-');
        else
            no_item(LINE("    - a"), options, 0);
    }
}

static void continuation(void) {
    uint32_t options;
    int bit;
    begin("continuation: a filled line with size of spaces");
    goes(LINE("  a"), 2, 0, 2, 0);
    begin("continuation: more spaces stay");
    goes(LINE("     a"), 2, 0, 2, 0);
    begin("continuation: a tab is 4 columns in front, of which 2 are taken");
    goes_at(0, LINE("\t a"), 2, 0, 2);
    begin("continuation: a tab and a space are 5 columns");
    goes(LINE("\t a"), 5, 0, 2, 0);
    stops(LINE("\t a"), 6, 0, 0);
    begin("continuation: too few spaces stop it");
    stops(LINE(" a"), 2, 0, 0);
    begin("continuation: no space stops it");
    stops(LINE("a"), 2, 0, 0);
    begin("continuation: a filled line clears the flag, whether it goes on");
    goes(LINE("  a"), 2, 1, 2, 0);
    begin("continuation: a filled line clears the flag, or not");
    stops(LINE(" a"), 2, 1, 0);
    begin("continuation: a blank line goes on and takes up to size");
    goes(LINE(""), 2, 0, 0, 0);
    goes(LINE(" "), 2, 0, 1, 0);
    goes(LINE("    "), 2, 0, 2, 0);
    goes(LINE(" \n   a"), 2, 0, 1, 0);
    begin("continuation: a blank line stops it if the flag is set, which stays");
    stops(LINE(""), 2, 1, 1);
    stops(LINE("   "), 2, 1, 1);
    stops(LINE("\na"), 2, 1, 1);
    begin("continuation: any value but 0 is a flag, and comes back as 1");
    for (bit = 0; bit < 32; bit++) stops(LINE(""), 2, (uint32_t)1 << bit, 1);
    stops(LINE(""), 2, 0xffffffffu, 1);
    begin("continuation: size 0 still asks for a space or tab");
    stops(LINE("a"), 0, 0, 0);
    goes(LINE(" a"), 0, 0, 0, 0);
    begin("continuation: the largest size");
    stops(LINE("   a"), SIZE_MAX, 0, 0);
    goes(LINE("   "), SIZE_MAX, 0, 3, 0);
    begin("continuation: every power of two from 4 on as size, 65,536 and 2^32 among them");
    for (bit = 2; bit < SIZE_BITS; bit++) {
        stops(LINE("   a"), POWER(bit), 0, 0);
        goes(LINE("   "), POWER(bit), 0, 3, 0);
        goes(LINE(""), POWER(bit), 0, 0, 0);
        stops(LINE(""), POWER(bit), 1, 1);
    }
    begin("continuation: the longest line");
    goes(longest("a"), LARK_MAX_LINE, 16383, 0, 16383, 0);
    stops(longest("a"), LARK_MAX_LINE, 16384, 0, 0);
    goes(longest(""), LARK_MAX_LINE, 16384, 0, 16384, 0);
    goes(longest(""), LARK_MAX_LINE, 300, 0, 300, 0);
    goes(longest(""), 400, 400, 0, 400, 0);
    begin("continuation: a form feed is not blank");
    stops(LINE("\f"), 2, 0, 0);
    stops(LINE("\f"), 2, 1, 0);
    begin("continuation: every options number, and none need be on");
    for (options = 0; options <= 63; options++) {
        going_with(LINE("  a"), options, 0, 2, 0, 0, 0, 1, 2, 0, 0);
        going_with(LINE(" a"), options, 0, 2, 0, 0, 0, 0, 0, 0, 0);
    }
}

static void refusals(void) {
    static char longer[65536 + 16384];
    int bit;
    memset(longer, ' ', sizeof longer);
    begin("2: options over 63");
    for (bit = 6; bit < 32; bit++) all_refuse(LINE("- a"), (uint32_t)1 << bit, 2, 0);
    all_refuse(LINE("- a"), 65, 2, 0);
    all_refuse(LINE("- a"), 0xffffffffu, 2, 0);
    begin("2: a column over 16,384, and not one of 16,384");
    all_refuse_at(LARK_MAX_COLUMN + 1, LINE("- a"), 63, 2, 0);
    for (bit = 15; bit < SIZE_BITS; bit++) all_refuse_at(POWER(bit), LINE("- a"), 63, 2, 0);
    all_refuse_at(SIZE_MAX, LINE(""), 63, 2, 0);
    taken_at(LARK_MAX_COLUMN, LINE("  a"), 0, 9, 2, 0);
    item_at(LARK_MAX_COLUMN, LINE("- a"), 63, 2, 0, 2, 0, '-');
    goes_at(LARK_MAX_COLUMN, LINE("  a"), 2, 2, 0);
    begin("2, for the column, comes before 3 and 4");
    all_refuse_at(LARK_MAX_COLUMN + 1, LINE("\r"), 63, 2, 0);
    all_refuse_at(LARK_MAX_COLUMN + 1, longer, 16385, 63, 2, 0);
    begin("2 comes before 3 and 4");
    all_refuse(LINE("\r"), 64, 2, 0);
    all_refuse(longer, 16385, 64, 2, 0);
    begin("3: a line of 16,385 bytes");
    all_refuse(longer, 16385, 63, 3, 16384);
    begin("3: a line of 65,536 bytes, and of more");
    all_refuse(longer, 65536, 63, 3, 16384);
    all_refuse(longer, 65536 + 3, 63, 3, 16384);
    all_refuse(longer, sizeof longer, 63, 3, 16384);
    begin("3: also past a line feed");
    longer[0] = '\n';
    all_refuse(longer, 16385, 63, 3, 16384);
    begin("3 comes before 4");
    longer[0] = '\r';
    all_refuse(longer, 16385, 63, 3, 16384);
    begin("4: a carriage return");
    all_refuse(LINE("\r"), 63, 4, 0);
    all_refuse(LINE("- a\r\n"), 63, 4, 3);
    begin("4: the first of two");
    all_refuse(LINE("a\rb\r"), 63, 4, 1);
    begin("4: also past a line feed");
    all_refuse(LINE("\n\r"), 63, 4, 1);
    begin("4: the last byte of the longest line");
    longer[0] = ' ';
    longer[16383] = '\r';
    all_refuse(longer, 16384, 63, 4, 16383);
}

/* Lines are scanned in blocks of 128, 32 and 8 bytes, and what is shorter than 16 by the byte. Of each length round these, and of one block and another
 * behind it: the byte that decides stands at each place. */
static void every_place(void) {
    static const size_t lengths[] = {1, 2, 7, 8, 9, 15, 16, 17, 31, 32, 33, 39, 40, 41, 127, 128, 129, 136, 137, 159, 160, 161, 168, 169};
    static char line[200];
    size_t i, n, at;
    for (i = 0; i < sizeof lengths / sizeof *lengths; i++) {
        n = lengths[i];
        begin("every place: spaces up to the line's end, and up to a maximum");
        memset(line, ' ', n);
        for (at = 0; at < n; at++) taken(line, n, 0, at, at);
        taken(line, n, n, SIZE_MAX, n);
        begin("every place: all spaces in front of an item, and a size that is just reached");
        for (at = 0; at + 3 < n; at++) {
            memcpy(line + at, "- a", 3);
            item(line, at + 3, 27, 0, at + 2, at + 2, 0, '-');
            if (at > 0) goes(line, at + 3, at, 1, at, 0);
            memset(line, ' ', n);
        }
        begin("every place: a letter and a byte with its highest bit set end the spaces, and a tab does not");
        for (at = 0; at < n; at++) {
            line[at] = 'a';
            taken(line, n, at, SIZE_MAX, at);
            line[at] = (char)(128 + ' ');
            taken(line, n, at, SIZE_MAX, at);
            line[at] = (char)(128 + '\t');
            taken(line, n, at, SIZE_MAX, at);
            line[at] = '\t';
            taken(line, n, n, SIZE_MAX, n);
            line[at] = ' ';
        }
        begin("every place: a line feed ends the line, whatever stands behind it");
        for (at = 1; at < n; at++) {
            line[0] = '-';
            line[n - 1] = 'a';
            line[at] = '\n';
            item(line, n, 63, 0, 1, 2, 1, '-');
            line[0] = ' ';
            stops(line, n, 2, 1, 1);
            memset(line, ' ', n);
        }
        begin("every place: of two line feeds the first ends the line, and of two carriage returns the first is named");
        for (at = 1; at + 1 < n; at++) {
            line[0] = '-';
            line[at] = '\n';
            line[at + 1] = 'a';
            line[n - 1] = '\n';
            item(line, n, 63, 0, 1, 2, 1, '-');
            line[at] = line[n - 1] = '\r';
            item_with(line, n, 63, 0, 0, 4, at, 0, 0, 0, 0, 0, 0);
            memset(line, ' ', n);
        }
        begin("every place: a carriage return is refused, in text and among spaces");
        for (at = 0; at < n; at++) {
            line[at] = '\r';
            spaces_with(line, n, 63, 0, 0, 9, 4, at, 0, 0, 0);
            going_with(line, n, 63, 0, 2, 1, 4, at, 0, 0, 0, 0);
            line[at] = ' ';
        }
        memset(line, 'a', n);
        for (at = 0; at < n; at++) {
            line[at] = '\r';
            item_with(line, n, 63, 0, 0, 4, at, 0, 0, 0, 0, 0, 0);
            line[at] = 'a';
        }
    }
}

/* What stands behind a marker with tabs in it, by the column there: on a stop, and 1, 2 and 3 past one. What is taken, in bytes and in columns, and
 * what is left. */
static void tabs_behind(const char *marker) {
    static const struct {
        const char *behind;
        struct {
            size_t taken, columns, left;
        } at[4];
    } rests[] = {
        {"\ta", {{1, 4, 0}, {1, 3, 0}, {1, 2, 0}, {1, 1, 0}}},    {" \ta", {{2, 4, 0}, {2, 3, 0}, {2, 2, 0}, {1, 1, 0}}},
        {"  \ta", {{3, 4, 0}, {3, 3, 0}, {1, 1, 0}, {1, 1, 0}}},  {"\t a", {{0, 1, 3}, {2, 4, 0}, {2, 3, 0}, {2, 2, 0}}},
        {"\t  a", {{0, 1, 3}, {0, 1, 2}, {3, 4, 0}, {3, 3, 0}}},  {"\t\ta", {{0, 1, 3}, {0, 1, 2}, {0, 1, 1}, {1, 1, 0}}},
        {" \t a", {{1, 1, 0}, {3, 4, 0}, {3, 3, 0}, {1, 1, 0}}},  {"\t\t\t\t\ta", {{0, 1, 3}, {0, 1, 2}, {0, 1, 1}, {1, 1, 0}}},
        {"\t\f", {{1, 4, 0}, {1, 3, 0}, {1, 2, 0}, {1, 1, 0}}},
    };
    static const size_t columns[] = {0, 1, 2, 3, 4, 5, 6, 7, 8, 1023, LARK_MAX_COLUMN - 1, LARK_MAX_COLUMN};
    static char line[64];
    size_t w = strlen(marker), i, j, indent;
    char mark = marker[w - 1];
    for (i = 0; i < sizeof rests / sizeof *rests; i++)
        for (j = 0; j < sizeof columns / sizeof *columns; j++)
            for (indent = 0; indent < 4; indent++) {
                size_t end = indent + w, past = (columns[j] + end) % 4;
                size_t n = (size_t)sprintf(line, "%*s%s%s", (int)indent, "", marker, rests[i].behind);
                item_at(columns[j], line, n, 63, end + rests[i].at[past].taken, rests[i].at[past].left, end + rests[i].at[past].columns, 0, mark);
                n = (size_t)sprintf(line, "%*s%s\t \t", (int)indent, "", marker);
                item_at(columns[j], line, n, 63, end, 0, end + 1, 1, mark);
            }
}

static void tabs(void) {
    size_t column, k;
    begin("tab: whole and cut at each maximum, at each column of a stop");
    for (column = 0; column < 8; column++) {
        size_t wide = 4 - column % 4;
        taken_at(column, LINE("\ta"), 0, 0, 0, 0);
        for (k = 1; k < wide; k++) taken_at(column, LINE("\ta"), k, k, 0, wide - k);
        for (k = wide; k < wide + 4; k++) taken_at(column, LINE("\ta"), wide, k, 1, 0);
        for (k = 1; k < wide + 4; k++) {
            if (k < wide)
                taken_at(column, LINE("\t"), k, k, 0, wide - k);
            else if (k == wide)
                taken_at(column, LINE("\t\t"), k, k, 1, 0);
            else
                taken_at(column, LINE("\t\t"), k, k, 1, wide + 4 - k);
        }
        too_few_at(column, LINE("\ta"), wide + 1, 9);
        too_few_at(column, LINE("\ta"), 2, 1);
    }
    begin("tab: `\\t` up to 1 column");
    taken_at(0, LINE("\t"), 0, 1, 0, 3);
    begin("tab: ` \\t` up to 1 column is not cut");
    taken_at(0, LINE(" \t"), 0, 1, 1, 0);
    begin("tab: of `\\t` up to none is nothing taken, and nothing left");
    taken_at(0, LINE("\t"), 0, 0, 0, 0);
    begin("tab: a part of a tab counts for the minimum");
    taken_at(0, LINE("\t"), 2, 2, 0, 2);
    begin("tab: spaces before a tab, up to the same stop");
    taken_at(0, LINE(" \ta"), 4, 4, 2, 0);
    taken_at(0, LINE("  \ta"), 4, 4, 3, 0);
    taken_at(0, LINE("   \ta"), 4, 4, 4, 0);
    taken_at(0, LINE("    \ta"), 8, 8, 5, 0);
    taken_at(0, LINE("   \ta"), 3, 3, 3, 0);
    taken_at(0, LINE("  \ta"), 3, 3, 2, 1);
    taken_at(1, LINE("  \ta"), 0, 9, 3, 0);
    too_few_at(1, LINE("  \ta"), 4, 9);
    begin("tab: a line feed behind a tab");
    taken_at(0, LINE("\t\n\t"), 4, 9, 1, 0);
    begin("tab: the greatest column");
    taken_at(LARK_MAX_COLUMN, LINE("\ta"), 4, 9, 1, 0);
    taken_at(LARK_MAX_COLUMN, LINE("\ta"), 1, 1, 0, 3);
    taken_at(LARK_MAX_COLUMN - 1, LINE("\ta"), 1, 9, 1, 0);
    too_few_at(LARK_MAX_COLUMN - 1, LINE("\ta"), 2, 9);
    begin("tab: behind every mark");
    tabs_behind("-");
    tabs_behind("*");
    tabs_behind("+");
    tabs_behind("1.");
    tabs_behind("12)");
    tabs_behind("123456789.");
    begin("tab: `-\\ta`");
    item_at(0, LINE("-\ta"), 63, 2, 0, 4, 0, '-');
    item_at(2, LINE("-\ta"), 63, 2, 0, 2, 0, '-');
    begin("tab: `-\\t\\ta`, the tab behind the marker being cut");
    item_at(0, LINE("-\t\ta"), 63, 1, 2, 2, 0, '-');
    begin("tab: a size is counted from the starting column");
    item_at(5, LINE("  - a"), 63, 4, 0, 4, 0, '-');
    begin("tab: in front of a marker, with option 32 and without");
    no_item_at(0, LINE("\t- a"), 63);
    item_at(0, LINE("\t- a"), 31, 3, 0, 6, 0, '-');
    item_at(1, LINE("\t- a"), 63, 3, 0, 5, 0, '-');
    item_at(2, LINE("\t- a"), 63, 3, 0, 4, 0, '-');
    item_at(3, LINE("\t- a"), 63, 3, 0, 3, 0, '-');
    no_item_at(4, LINE("\t- a"), 63);
    item_at(1, LINE(" \t- a"), 63, 4, 0, 5, 0, '-');
    no_item_at(3, LINE(" \t- a"), 63);
    item_at(3, LINE(" \t- a"), 31, 4, 0, 7, 0, '-');
    begin("tab: a blank start is taken up to its marker, and cuts none");
    item_at(0, LINE("-\t"), 63, 1, 0, 2, 1, '-');
    begin("tab: on a blank line that goes on");
    goes_at(0, LINE("\t"), 2, 0, 2);
    goes_at(2, LINE("\t"), 2, 1, 0);
    goes_at(3, LINE("\t\t"), 3, 1, 2);
    goes_at(0, LINE("\t"), 0, 0, 0);
    goes_at(0, LINE("\t"), 9, 1, 0);
    going_with(LINE("\t"), 63, 0, 2, 1, 0, 0, 0, 0, 0, 1);
    begin("tab: on a filled line that goes on, or does not");
    goes_at(0, LINE("\ta"), 2, 0, 2);
    goes_at(0, LINE("\ta"), 0, 0, 0);
    goes_at(0, LINE("\ta"), 4, 1, 0);
    goes_at(2, LINE("\ta"), 2, 1, 0);
    goes_at(2, LINE("\ta"), 1, 0, 1);
    stops_at(0, LINE("\ta"), 5);
    stops_at(3, LINE("\ta"), 2);
    goes_at(3, LINE("\t\ta"), 2, 1, 3);
    goes_at(0, LINE(" \ta"), 3, 1, 1);
    begin("tab: going on from a cut one, at the column where it was cut");
    item_at(0, LINE("-\t\ta"), 63, 1, 2, 2, 0, '-');
    taken_at(2, LINE("\t\ta"), 6, 9, 2, 0);
    goes_at(0, LINE("\t\ta"), 2, 0, 2);
    taken_at(2, LINE("\t\ta"), 6, 9, 2, 0);
    taken_at(2, LINE("\t\ta"), 1, 1, 0, 1);
    taken_at(3, LINE("\t\ta"), 5, 9, 2, 0);
}

/* Runs of tabs, and of spaces before tabs, round the lengths of the blocks that a line is scanned in. */
static void long_tabs(void) {
    static const size_t lengths[] = {1, 7, 8, 9, 15, 16, 17, 31, 32, 33, 39, 40, 41, 127, 128, 129, 136, 159, 160, 161};
    static char line[LARK_MAX_LINE];
    size_t i, n, k, at, column;
    for (i = 0; i < sizeof lengths / sizeof *lengths; i++) {
        n = lengths[i];
        begin("long runs: tabs alone, cut in the last, and whole");
        memset(line, '\t', n);
        line[n] = 'a';
        for (column = 0; column < 4; column++) {
            size_t all = 4 * n - column;
            taken_at(column, line, n + 1, all, SIZE_MAX, n, 0);
            taken_at(column, line, n + 1, all, all, n, 0);
            too_few_at(column, line, n + 1, all + 1, SIZE_MAX);
            for (k = 1; k < 4 && k < all; k++) taken_at(column, line, n + 1, 0, all - k, n - 1, k);
            goes_at(column, line, n + 1, all, n, 0);
            stops_at(column, line, n + 1, all + 1);
            goes_at(column, line, n, all + 1, n, 0);
        }
        begin("long runs: spaces, then two tabs, with a maximum before them, in them and behind them");
        memset(line, ' ', n);
        memcpy(line + n, "\t\ta", 3);
        for (column = 0; column < 4; column++) {
            size_t wide = 4 - (column + n) % 4, max;
            for (max = n - 1; max <= n + wide + 4; max++) {
                if (max <= n)
                    taken_at(column, line, n + 3, max, max, max, 0);
                else if (max < n + wide)
                    taken_at(column, line, n + 3, max, max, n, n + wide - max);
                else if (max == n + wide)
                    taken_at(column, line, n + 3, max, max, n + 1, 0);
                else
                    taken_at(column, line, n + 3, max, max, n + (max < n + wide + 4 ? 1 : 2), n + wide + 4 - max);
            }
            goes_at(column, line, n + 3, n + 1, wide == 1 ? n + 1 : n, wide - 1);
        }
        begin("long runs: a tab at each place of spaces ends on a stop, and a marker behind them stands there");
        for (at = 0; at < n; at++) {
            size_t stop = at + 4 - at % 4;
            memset(line, ' ', n);
            memcpy(line + n, "- a", 3);
            line[at] = '\t';
            taken_at(0, line, n + 3, stop + (n - at - 1), SIZE_MAX, n, 0);
            too_few_at(0, line, n + 3, stop + (n - at), SIZE_MAX);
            item_at(0, line, n + 3, 31, n + 2, 0, stop + (n - at - 1) + 2, 0, '-');
        }
    }
    begin("long runs: 16,384 tabs at the greatest column");
    memset(line, '\t', sizeof line);
    taken_at(LARK_MAX_COLUMN, line, sizeof line, 65536, SIZE_MAX, 16384, 0);
    taken_at(LARK_MAX_COLUMN, line, sizeof line, 65535, 65535, 16383, 1);
    too_few_at(LARK_MAX_COLUMN, line, sizeof line, 65537, SIZE_MAX);
    taken_at(LARK_MAX_COLUMN - 1, line, sizeof line, 65533, SIZE_MAX, 16384, 0);
    goes_at(LARK_MAX_COLUMN, line, sizeof line, 65535, 16383, 1);
    line[16383] = '-';
    item_at(LARK_MAX_COLUMN, line, sizeof line, 31, 16384, 0, 65534, 1, '-');
}

/* How many columns so many bytes have; each that is no tab has one. */
static size_t columns_of(const char *text, size_t n, size_t column) {
    size_t i, at = column;
    for (i = 0; i < n; i++) at += text[i] == '\t' ? 4 - at % 4 : 1;
    return at - column;
}

/* Columns taken, from what an answer says of the bytes: with a cut tab, up to its stop less what is left of it. */
static size_t columns_taken(const char *text, size_t taken, size_t left, size_t column) {
    return columns_of(text, left ? taken + 1 : taken, column) - left;
}

/* A line, and the same with spaces in place of its tabs, answer alike at a column; and what a reading leaves is read as it is in one go. */
static void both_alike(const char *line, size_t n, const char *wide, size_t m, size_t column) {
    static const uint32_t options[] = {63, 31};
    const uint8_t *p = (const uint8_t *)line, *q = (const uint8_t *)wide;
    size_t all = lark_space_or_tab(q, m, 63, column, 0, SIZE_MAX).taken, k;
    for (k = 0; k < 10; k++) {
        struct lark_spaces s = lark_space_or_tab(p, n, 63, column, 1, k), t = lark_space_or_tab(q, m, 63, column, 1, k), rest;
        struct lark_going g = lark_continuation(p, n, 63, column, k, 0, '-'), h = lark_continuation(q, m, 63, column, k, 0, '-');
        size_t columns = columns_taken(line, s.taken, s.left, column), further;
        equal("found of spaces", s.found, t.found);
        equal("columns of spaces", columns, t.taken);
        rest = lark_space_or_tab(p + s.taken, n - s.taken, 63, column + columns, 0, SIZE_MAX);
        further = columns_taken(line + s.taken, rest.taken, rest.left, column + columns);
        equal("columns in two goes", columns + further, all);
        equal("found of a continuation", g.found, h.found);
        equal("columns of a continuation", columns_taken(line, g.taken, g.left, column), h.taken);
    }
    for (k = 0; k < 2; k++) {
        struct lark_item a = lark_list_item(p, n, options[k], column, 0), b = lark_list_item(q, m, options[k], column, 0);
        equal("found of an item", a.found, b.found);
        equal("columns of an item", columns_taken(line, a.taken, a.left, column), b.taken);
        equal("size of an item", a.size, b.size);
        equal("flag of an item", a.blank, b.blank);
        equal("mark of an item", a.mark, b.mark);
    }
}

/* The standard has it that tabs behave as if they were replaced by spaces up to the next stop. So each line of up to five spaces, tabs, marks and
 * letters is asked as it is and with spaces in place of all its tabs, at each column of a stop. */
static void as_spaces(void) {
    static const char letters[] = " \t-a";
    size_t n, i, j, column;
    if (way != EXACT) return;
    begin("tabs behave as if they were replaced by spaces");
    for (n = 0; n <= 5; n++)
        for (i = 0; i < POWER(2 * n); i++)
            for (column = 0; column < 4; column++) {
                char line[8], wide[32];
                size_t m = 0;
                for (j = 0; j < n; j++) {
                    line[j] = letters[i >> 2 * j & 3];
                    wide[m++] = line[j] == '\t' ? ' ' : line[j];
                    while (line[j] == '\t' && (column + m) % 4) wide[m++] = ' ';
                }
                both_alike(line, n, wide, m, column);
            }
}

static void all(void) {
    space_or_tab();
    list_item();
    continuation();
    tabs();
    long_tabs();
    as_spaces();
    refusals();
    every_place();
}

int main(void) { return in_every_way(all); }
