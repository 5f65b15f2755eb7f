/* lark_resolve_attention in either form: document 01's whole case in bare bytes, its cases by line, what may stand beside a run, and numbers 6, 7 and
 * 8. Every section is written here by hand from the document's rules: closing pieces in match order, the leftover, opening pieces with the last match
 * first.
 */
#include "check.h"

static void attention(const char *text, uint32_t options, const char *events, size_t groups, size_t tried, const char *result) {
    resolves(ATTENTION, record(text, events), options, groups, tried, section(result));
}

/* The whole case, byte by byte, without the functions of check.h that build records. */
static void whole_case(void) {
    static const uint8_t in[] = {
        3, 0, 0, 0, '*', 'a', '*',  /* the document */
        6, 0, 0, 0,                 /* six events */
        0, 1, 0, 0, 0, 0, 0, 0,     /* +1@0 */
        1, 1, 0, 0, 1, 0, 0, 0,     /* -1@1 */
        0, 0, 0, 0, 1, 0, 0, 0,     /* +0@1 */
        1, 0, 0, 0, 2, 0, 0, 0,     /* -0@2 */
        0, 1, 0, 0, 2, 0, 0, 0,     /* +1@2 */
        1, 1, 0, 0, 3, 0, 0, 0};    /* -1@3 */
    static const uint8_t want[] = {
        10, 0, 0, 0,                /* ten events */
        0, 2, 0, 0, 0, 0, 0, 0,     /* +2@0 */
        0, 3, 0, 0, 0, 0, 0, 0,     /* +3@0 */
        1, 3, 0, 0, 1, 0, 0, 0,     /* -3@1 */
        0, 4, 0, 0, 1, 0, 0, 0,     /* +4@1 */
        0, 0, 0, 0, 1, 0, 0, 0,     /* +0@1 */
        1, 0, 0, 0, 2, 0, 0, 0,     /* -0@2 */
        1, 4, 0, 0, 2, 0, 0, 0,     /* -4@2 */
        0, 3, 0, 0, 2, 0, 0, 0,     /* +3@2 */
        1, 3, 0, 0, 3, 0, 0, 0,     /* -3@3 */
        1, 2, 0, 0, 3, 0, 0, 0};    /* -2@3 */
    static uint8_t out[200], work[LARK_WORK_BYTES];
    struct lark_resolved got;
    begin("the whole case, byte by byte");
    memset(out, 0xa5, sizeof out);
    memset(work, 0xa5, sizeof work);
    got = lark_resolve_attention(in, sizeof in, 59, out, sizeof out, work, sizeof work);
    equal("number", got.number, 0);
    equal("place", got.place, 0);
    equal("events", got.events, 10);
    equal("groups", got.groups, 1);
    equal("tried", got.tried, 1);
    same("the section", out, want, sizeof want);
    all_are("output past the section", out + sizeof want, sizeof out - sizeof want, 0xa5);
    all_are("work memory", work, sizeof work, 0);

    begin("check.h builds the whole case");
    record("*a*", "+1@0 -1@1 +0@1 -0@2 +1@2 -1@3");
    equal("length of the record", record_bytes.n, sizeof in);
    same("the record", record_bytes.at, in, sizeof in);
    section("+2@0 +3@0 -3@1 +4@1 +0@1 -0@2 -4@2 +3@2 -3@3 -2@3");
    equal("length of the section", section_bytes.n, sizeof want);
    same("the section", section_bytes.at, want, sizeof want);
}

static void by_line(void) {
    begin("`*a*`");
    attention("*a*", 59, "+1@0 -1@1 +0@1 -0@2 +1@2 -1@3", 1, 1, "+2@0 +3@0 -3@1 +4@1 +0@1 -0@2 -4@2 +3@2 -3@3 -2@3");
    begin("`*a*` with its option alone");
    attention("*a*", 1, "+1@0 -1@1 +0@1 -0@2 +1@2 -1@3", 1, 1, "+2@0 +3@0 -3@1 +4@1 +0@1 -0@2 -4@2 +3@2 -3@3 -2@3");
    begin("`**a**`");
    attention("**a**", 59, "+1@0 -1@2 +0@2 -0@3 +1@3 -1@5", 1, 1, "+5@0 +6@0 -6@2 +7@2 +0@2 -0@3 -7@3 +6@3 -6@5 -5@5");
    begin("`**a*`: leftover at 0, emphasis 1");
    attention("**a*", 59, "+1@0 -1@2 +0@2 -0@3 +1@3 -1@4", 1, 1, "+0@0 -0@1 +2@1 +3@1 -3@2 +4@2 +0@2 -0@3 -4@3 +3@3 -3@4 -2@4");
    begin("`*a**`: leftover at 3");
    attention("*a**", 59, "+1@0 -1@1 +0@1 -0@2 +1@2 -1@4", 1, 1, "+2@0 +3@0 -3@1 +4@1 +0@1 -0@2 -4@2 +3@2 -3@3 -2@3 +0@3 -0@4");
    begin("`***a***`: strong inside emphasis");
    attention("***a***", 59, "+1@0 -1@3 +0@3 -0@4 +1@4 -1@7", 2, 2,
              "+2@0 +3@0 -3@1 +4@1 +5@1 +6@1 -6@3 +7@3 +0@3 -0@4 -7@4 +6@4 -6@6 -5@6 -4@6 +3@6 -3@7 -2@7");
    begin("`a**b*c`: none");
    attention("a**b*c", 59, "+0@0 -0@1 +1@1 -1@3 +0@3 -0@4 +1@4 -1@5 +0@5 -0@6", 0, 1,
              "+0@0 -0@1 +0@1 -0@3 +0@3 -0@4 +0@4 -0@5 +0@5 -0@6");
    begin("`a***b***c`: two groups");
    attention("a***b***c", 59, "+0@0 -0@1 +1@1 -1@4 +0@4 -0@5 +1@5 -1@8 +0@8 -0@9", 2, 2,
              "+0@0 -0@1 +2@1 +3@1 -3@2 +4@2 +5@2 +6@2 -6@4 +7@4 +0@4 -0@5 -7@5 +6@5 -6@7 -5@7 -4@7 +3@7 -3@8 -2@8 +0@8 -0@9");
    begin("`a_b_c`: none");
    attention("a_b_c", 59, "+0@0 -0@1 +1@1 -1@2 +0@2 -0@3 +1@3 -1@4 +0@4 -0@5", 0, 0,
              "+0@0 -0@1 +0@1 -0@2 +0@2 -0@3 +0@3 -0@4 +0@4 -0@5");
    begin("`~~a~~`");
    attention("~~a~~", 2, "+1@0 -1@2 +0@2 -0@3 +1@3 -1@5", 1, 1, "+8@0 +9@0 -9@2 +10@2 +0@2 -0@3 -10@3 +9@3 -9@5 -8@5");
    begin("`~~~a~~~`: none");
    attention("~~~a~~~", 59, "+1@0 -1@3 +0@3 -0@4 +1@4 -1@7", 0, 1, "+0@0 -0@3 +0@3 -0@4 +0@4 -0@7");
    begin("`~a~` without option 4: none");
    attention("~a~", 59, "+1@0 -1@1 +0@1 -0@2 +1@2 -1@3", 0, 1, "+0@0 -0@1 +0@1 -0@2 +0@2 -0@3");
    begin("`~a~` with option 4");
    attention("~a~", 63, "+1@0 -1@1 +0@1 -0@2 +1@2 -1@3", 1, 1, "+8@0 +9@0 -9@1 +10@1 +0@1 -0@2 -10@2 +9@2 -9@3 -8@3");
    begin("`~a~` with options 2 and 4 alone");
    attention("~a~", 6, "+1@0 -1@1 +0@1 -0@2 +1@2 -1@3", 1, 1, "+8@0 +9@0 -9@1 +10@1 +0@1 -0@2 -10@2 +9@2 -9@3 -8@3");
    begin("a byte that is no character before `_a_`: none");
    attention("\x80_a_", 63, "+1@1 -1@2 +0@2 -0@3 +1@3 -1@4", 0, 0, "+0@1 -0@2 +0@2 -0@3 +0@3 -0@4");
    begin("`*a _b* c_`: one group");
    attention("*a _b* c_", 59, "+1@0 -1@1 +0@1 -0@3 +1@3 -1@4 +0@4 -0@5 +1@5 -1@6 +0@6 -0@8 +1@8 -1@9", 1, 1,
              "+2@0 +3@0 -3@1 +4@1 +0@1 -0@3 +0@3 -0@4 +0@4 -0@5 -4@5 +3@5 -3@6 -2@6 +0@6 -0@8 +0@8 -0@9");
    begin("`****a** b*c`: one group, as the crate has it");
    attention("****a** b*c", 59, "+1@0 -1@4 +0@4 -0@5 +1@5 -1@7 +0@7 -0@9 +1@9 -1@10 +0@10 -0@11", 1, 2,
              "+0@0 -0@2 +5@2 +6@2 -6@4 +7@4 +0@4 -0@5 -7@5 +6@5 -6@7 -5@7 +0@7 -0@9 +0@9 -0@10 +0@10 -0@11");
    begin("`a*_b_*`: two groups, as the crate has it");
    attention("a*_b_*", 59, "+0@0 -0@1 +1@1 -1@2 +1@2 -1@3 +0@3 -0@4 +1@4 -1@5 +1@5 -1@6", 2, 2,
              "+0@0 -0@1 +2@1 +3@1 -3@2 +4@2 +2@2 +3@2 -3@3 +4@3 +0@3 -0@4 -4@4 +3@4 -3@5 -2@5 -4@5 +3@5 -3@6 -2@6");
    begin("runs in two containers do not match");
    attention("*a*", 59, "+24@0 +1@0 -1@1 -24@1 +0@1 -0@2 +24@2 +1@2 -1@3 -24@3", 0, 0,
              "+24@0 +0@0 -0@1 -24@1 +0@1 -0@2 +24@2 +0@2 -0@3 -24@3");
    begin("no runs: the events as they are");
    attention("ab", 0, "+11@0 +13@0 -13@2 -11@2", 0, 0, "+11@0 +13@0 -13@2 -11@2");
}

/* Two runs of one `*`, and nothing else for events: whether they become a group. */
#define TWO(text, n, a, b, c, d, group) \
    resolves_once(record_of(text, n, "+1@" a " -1@" b " +1@" c " -1@" d), group, \
                  section(group ? "+2@" a " +3@" a " -3@" b " +4@" b " -4@" c " +3@" c " -3@" d " -2@" d : "+0@" a " -0@" b " +0@" c " -0@" d))
static void resolves_once(const struct bytes *r, int group, const struct bytes *result) {
    resolves_into(result->n, LARK_WORK_BYTES, ATTENTION, r, 63, (size_t)group, (size_t)group, result);
}

/* Every byte beside a run. A letter on the other side: the run opens (closes) if the byte is other. The document's end on the other side: it does
 * unless the byte is whitespace. Beside `*`, `_` and `~` it does in any case. From 128 up a byte alone is no character, and other. */
static void neighbours(void) {
    static const char punctuation[] = "!\"#$%&'()*+,-./:;<=>?@[\\]^_`{|}~";
    char text[5];
    int byte;
    begin("32 punctuation marks");
    equal("how many there are", sizeof punctuation - 1, 32);
    begin("every byte beside a run");
    for (byte = 0; byte < 256; byte++) {
        int white = byte == '\t' || byte == '\n' || byte == '\f' || byte == ' ', marker = byte == '*' || byte == '_' || byte == '~';
        int other = !white && !memchr(punctuation, byte, 32);
        if (byte == '\r') continue;
        text[0] = 'a', text[1] = '*', text[2] = (char)byte, text[3] = 'b', text[4] = '*';
        if (byte != '*') TWO(text, 5, "1", "2", "4", "5", other || marker);
        if (byte != '*') TWO(text + 1, 4, "0", "1", "3", "4", !white);
        text[0] = '*', text[1] = 'b', text[2] = (char)byte, text[3] = '*', text[4] = 'a';
        TWO(text, 5, "0", "1", "3", "4", other || marker);
        TWO(text, 4, "0", "1", "3", "4", !white);
    }
}

/* French and Japanese quotation marks and dashes, with a letter outside of them and without; then inside the runs. */
static void quotations(void) {
    begin("`«*a*»`");
    attention("\xc2\xab*a*\xc2\xbb", 59, "+0@0 -0@2 +1@2 -1@3 +0@3 -0@4 +1@4 -1@5 +0@5 -0@7", 1, 1,
              "+0@0 -0@2 +2@2 +3@2 -3@3 +4@3 +0@3 -0@4 -4@4 +3@4 -3@5 -2@5 +0@5 -0@7");
    begin("`x«_a_»x`");
    attention("x\xc2\xab_a_\xc2\xbbx", 59, "+1@3 -1@4 +1@5 -1@6", 1, 1, "+2@3 +3@3 -3@4 +4@4 -4@5 +3@5 -3@6 -2@6");
    begin("`x「_a_」x`");
    attention("x\xe3\x80\x8c_a_\xe3\x80\x8dx", 59, "+1@4 -1@5 +1@6 -1@7", 1, 1, "+2@4 +3@4 -3@5 +4@5 -4@6 +3@6 -3@7 -2@7");
    begin("`x—~~a~~—x`");
    attention("x\xe2\x80\x94~~a~~\xe2\x80\x94x", 59, "+1@4 -1@6 +1@7 -1@9", 1, 1, "+8@4 +9@4 -9@6 +10@6 -10@7 +9@7 -9@9 -8@9");
    begin("`x*«a»*x`: none, for the first run cannot open");
    attention("x*\xc2\xab" "a\xc2\xbb*x", 59, "+1@1 -1@2 +1@7 -1@8", 0, 0, "+0@1 -0@2 +0@7 -0@8");
    begin("`*«a»*`: one group, for it stands at the beginning");
    attention("*\xc2\xab" "a\xc2\xbb*", 59, "+1@0 -1@1 +1@6 -1@7", 1, 1, "+2@0 +3@0 -3@1 +4@1 -4@6 +3@6 -3@7 -2@7");
    begin("`é_a_字`: none, for letters stand beside it");
    attention("\xc3\xa9_a_\xe5\xad\x97", 59, "+1@2 -1@3 +1@4 -1@5", 0, 0, "+0@2 -0@3 +0@4 -0@5");
    begin("a no-break space and U+3000 inside `**`: none");
    attention("x**\xc2\xa0" "a\xe3\x80\x80**x", 59, "+1@1 -1@3 +1@9 -1@11", 0, 0, "+0@1 -0@3 +0@9 -0@11");
}

/* Three runs, of one, two and one markers, with nothing else for events: the second at a place, the third at the end. Two of them make a group. */
enum pair { FIRST_TWO, LAST_TWO, FIRST_AND_LAST };
static void put_opening(size_t at) {
    put_event(&section_bytes, LARK_ENTER, 2, at);
    put_event(&section_bytes, LARK_ENTER, 3, at);
    put_event(&section_bytes, LARK_EXIT, 3, at + 1);
    put_event(&section_bytes, LARK_ENTER, 4, at + 1);
}
static void put_closing(size_t at) {
    put_event(&section_bytes, LARK_EXIT, 4, at);
    put_event(&section_bytes, LARK_ENTER, 3, at);
    put_event(&section_bytes, LARK_EXIT, 3, at + 1);
    put_event(&section_bytes, LARK_EXIT, 2, at + 1);
}
static void put_pair(struct bytes *b, unsigned name, size_t from, size_t to) {
    put_event(b, LARK_ENTER, name, from);
    put_event(b, LARK_EXIT, name, to);
}
static void three(const char *text, size_t n, size_t second, enum pair pair) {
    size_t third = n - 1;
    record_bytes.n = section_bytes.n = 0;
    put_document(&record_bytes, text, n);
    put_count(&record_bytes, 6);
    put_pair(&record_bytes, 1, 0, 1);
    put_pair(&record_bytes, 1, second, second + 2);
    put_pair(&record_bytes, 1, third, third + 1);
    put_count(&section_bytes, pair == FIRST_AND_LAST ? 10 : 12);
    if (pair == LAST_TWO)
        put_pair(&section_bytes, 0, 0, 1), put_pair(&section_bytes, 0, second, second + 1), put_opening(second + 1);
    else
        put_opening(0);
    if (pair == FIRST_TWO) put_closing(second), put_pair(&section_bytes, 0, second + 1, second + 2), put_pair(&section_bytes, 0, third, third + 1);
    if (pair == FIRST_AND_LAST) put_pair(&section_bytes, 0, second, second + 2);
    if (pair != FIRST_TWO) put_closing(third);
    resolves_into(section_bytes.n, LARK_WORK_BYTES, ATTENTION, &record_bytes, 59, 1, pair == FIRST_AND_LAST ? 3 : 1, &section_bytes);
}

/* Some bytes before the second run of `*a{..}**.a*`, and after that of `*a.**{..}a*`. Before a run: if they are other it closes, if whitespace it
 * opens, if punctuation both; and then the rule of three keeps it from either group. After a run: the other way round. */
enum neighbour { OTHER, WHITESPACE, PUNCTUATION };
static const enum pair pair_before[] = {FIRST_TWO, LAST_TWO, FIRST_AND_LAST}, pair_after[] = {LAST_TWO, FIRST_TWO, FIRST_AND_LAST};
static void beside(const char *name, const char *c, size_t n, enum neighbour before, enum neighbour after) {
    char text[20];
    begin(name);
    memcpy(text, "*a", 2), memcpy(text + 2, c, n), memcpy(text + 2 + n, "**.a*", 5);
    three(text, n + 7, n + 2, pair_before[before]);
    memcpy(text, "*a.**", 5), memcpy(text + 5, c, n), memcpy(text + 5 + n, "a*", 2);
    three(text, n + 7, 3, pair_after[after]);
}
#define BESIDE(name, c, both) beside(name, c, sizeof(c) - 1, both, both)
#define BESIDES(name, c, before, after) beside(name, c, sizeof(c) - 1, before, after)

/* Characters of one to four bytes, by the categories of Unicode 16.0.0. */
static void characters(void) {
    BESIDE("a letter", "b", OTHER);
    BESIDE("a space", " ", WHITESPACE);
    BESIDE("a full stop", ".", PUNCTUATION);
    BESIDE("NUL", "\0", OTHER);
    BESIDE("a vertical tab", "\v", OTHER);
    BESIDE("a form feed", "\f", WHITESPACE);

    BESIDE("Pc: U+203F", "\xe2\x80\xbf", PUNCTUATION);
    BESIDE("Pd: U+2014, a dash", "\xe2\x80\x94", PUNCTUATION);
    BESIDE("Ps: U+300C", "\xe3\x80\x8c", PUNCTUATION);
    BESIDE("Pe: U+300D", "\xe3\x80\x8d", PUNCTUATION);
    BESIDE("Pi: U+00AB", "\xc2\xab", PUNCTUATION);
    BESIDE("Pf: U+00BB", "\xc2\xbb", PUNCTUATION);
    BESIDE("Po: U+00A1", "\xc2\xa1", PUNCTUATION);
    BESIDE("Sm: U+00D7", "\xc3\x97", PUNCTUATION);
    BESIDE("Sc: U+20AC, the euro", "\xe2\x82\xac", PUNCTUATION);
    BESIDE("Sk: U+00A8", "\xc2\xa8", PUNCTUATION);
    BESIDE("So: U+00A9", "\xc2\xa9", PUNCTUATION);
    BESIDE("So: U+1F600, an emoji", "\xf0\x9f\x98\x80", PUNCTUATION);
    BESIDE("So: U+FFFD", "\xef\xbf\xbd", PUNCTUATION);
    BESIDE("So since version 16.0.0: U+1CC00", "\xf0\x9c\xb0\x80", PUNCTUATION);

    BESIDE("right before a range of P and S: U+A873", "\xea\xa1\xb3", OTHER);
    BESIDE("its first: U+A874", "\xea\xa1\xb4", PUNCTUATION);
    BESIDE("its last: U+A877", "\xea\xa1\xb7", PUNCTUATION);
    BESIDE("right behind it: U+A878", "\xea\xa1\xb8", OTHER);
    BESIDE("right before the last range: U+1FB93", "\xf0\x9f\xae\x93", OTHER);
    BESIDE("its first: U+1FB94", "\xf0\x9f\xae\x94", PUNCTUATION);
    BESIDE("its last: U+1FBEF", "\xf0\x9f\xaf\xaf", PUNCTUATION);
    BESIDE("right behind it: U+1FBF0", "\xf0\x9f\xaf\xb0", OTHER);

    BESIDE("Zs: U+00A0, a no-break space", "\xc2\xa0", WHITESPACE);
    BESIDE("Zs: U+1680", "\xe1\x9a\x80", WHITESPACE);
    BESIDE("Zs: U+2000", "\xe2\x80\x80", WHITESPACE);
    BESIDE("Zs: U+200A", "\xe2\x80\x8a", WHITESPACE);
    BESIDE("Zs: U+202F", "\xe2\x80\xaf", WHITESPACE);
    BESIDE("Zs: U+205F", "\xe2\x81\x9f", WHITESPACE);
    BESIDE("Zs: U+3000", "\xe3\x80\x80", WHITESPACE);

    BESIDE("Ll: U+00E9", "\xc3\xa9", OTHER);
    BESIDE("Lo: U+5B57", "\xe5\xad\x97", OTHER);
    BESIDE("Mn: U+0301", "\xcc\x81", OTHER);
    BESIDE("Nd: U+0660", "\xd9\xa0", OTHER);
    BESIDE("No: U+00BD", "\xc2\xbd", OTHER);
    BESIDE("Cf: U+00AD", "\xc2\xad", OTHER);
    BESIDE("Cf: U+200B", "\xe2\x80\x8b", OTHER);
    BESIDE("Cf: U+FEFF", "\xef\xbb\xbf", OTHER);
    BESIDE("Cc: U+0085", "\xc2\x85", OTHER);
    BESIDE("Zl: U+2028", "\xe2\x80\xa8", OTHER);
    BESIDE("Zp: U+2029", "\xe2\x80\xa9", OTHER);
    BESIDE("Co: U+E000", "\xee\x80\x80", OTHER);
    BESIDE("Cn: U+10FFFF", "\xf4\x8f\xbf\xbf", OTHER);
    BESIDE("not yet there in version 16.0.0: U+20C1", "\xe2\x83\x81", OTHER);
}

/* What is no character is other. One that ends at the run, or begins behind it, counts, whatever stands beyond it. */
static void malformed(void) {
    static const char followers[] = "\x80\x80\x80";
    char c[4];
    int byte;
    BESIDE("`*` in two bytes", "\xc0\xaa", OTHER);
    BESIDE("`*` in three bytes", "\xe0\x80\xaa", OTHER);
    BESIDE("`*` in four bytes", "\xf0\x80\x80\xaa", OTHER);
    BESIDE("a space in two bytes", "\xc0\xa0", OTHER);
    BESIDE("a space in three bytes", "\xe0\x80\xa0", OTHER);
    BESIDE("a space in four bytes", "\xf0\x80\x80\xa0", OTHER);
    BESIDE("`«` in three bytes", "\xe0\x82\xab", OTHER);
    BESIDE("`«` in four bytes", "\xf0\x80\x82\xab", OTHER);
    BESIDE("U+3000 in four bytes", "\xf0\x83\x80\x80", OTHER);
    BESIDE("the first surrogate", "\xed\xa0\x80", OTHER);
    BESIDE("the last surrogate", "\xed\xbf\xbf", OTHER);
    BESIDE("above 10FFFF", "\xf4\x90\x80\x80", OTHER);
    BESIDE("far above 10FFFF", "\xf5\x80\x80\x80", OTHER);
    BESIDE("five bytes", "\xf8\x88\x80\x80\x80", OTHER);
    BESIDE("six bytes", "\xfc\x84\x80\x80\x80\x80", OTHER);
    for (byte = 0xf5; byte <= 0xff; byte++) {
        c[0] = (char)byte, memcpy(c + 1, followers, 3);
        beside("a byte from F5 up", c, 1, OTHER, OTHER);
        beside("a byte from F5 up and three that follow", c, 4, OTHER, OTHER);
    }
    BESIDE("U+3000, its last byte cut off", "\xe3\x80", OTHER);
    BESIDE("a dash, its last byte cut off", "\xe2\x80", OTHER);
    BESIDE("an emoji, its last byte cut off", "\xf0\x9f\x98", OTHER);
    BESIDE("the last byte of a no-break space", "\xa0", OTHER);
    BESIDE("the last byte of `«`", "\xab", OTHER);
    BESIDE("the last two bytes of U+3000", "\x80\x80", OTHER);
    BESIDES("C2 C2 A0", "\xc2\xc2\xa0", WHITESPACE, OTHER);
    BESIDES("C2 A0 A0", "\xc2\xa0\xa0", OTHER, WHITESPACE);
    BESIDES("E3 80 C2 AB", "\xe3\x80\xc2\xab", PUNCTUATION, OTHER);
    BESIDES("C2 AB E3 80", "\xc2\xab\xe3\x80", OTHER, PUNCTUATION);
}

/* A run between the bytes of a character, and one where the document's end or beginning cuts a character. */
static void cut(void) {
    size_t i;
    begin("a run between the two bytes of a no-break space");
    three("*a\xc2**\xa0" "a*", 8, 3, FIRST_AND_LAST);
    begin("a run behind the first of the three bytes of U+3000");
    three("*a\xe3**\x80\x80" "a*", 9, 3, FIRST_AND_LAST);
    begin("a run behind the second of them");
    three("*a\xe3\x80**\x80" "a*", 9, 4, FIRST_AND_LAST);
    begin("a run between the bytes of an emoji");
    three("*a\xf0\x9f**\x98\x80" "a*", 10, 4, FIRST_AND_LAST);
    begin("a no-break space at the end");
    attention("*a.**\xc2\xa0", 59, "+1@0 -1@1 +1@3 -1@5", 1, 1, "+2@0 +3@0 -3@1 +4@1 -4@3 +3@3 -3@4 -2@4 +0@4 -0@5");
    begin("cut by the end");
    attention("*a.**\xc2", 59, "+1@0 -1@1 +1@3 -1@5", 0, 0, "+0@0 -0@1 +0@3 -0@5");
    attention("*a.**\xe3\x80", 59, "+1@0 -1@1 +1@3 -1@5", 0, 0, "+0@0 -0@1 +0@3 -0@5");
    attention("*a.**\xf0\x9f\x98", 59, "+1@0 -1@1 +1@3 -1@5", 0, 0, "+0@0 -0@1 +0@3 -0@5");
    begin("a no-break space at the beginning");
    attention("\xc2\xa0**.a*", 59, "+1@2 -1@4 +1@6 -1@7", 1, 1, "+0@2 -0@3 +2@3 +3@3 -3@4 +4@4 -4@6 +3@6 -3@7 -2@7");
    begin("cut by the beginning");
    attention("\xa0**.a*", 59, "+1@1 -1@3 +1@5 -1@6", 0, 0, "+0@1 -0@3 +0@5 -0@6");
    attention("\x80\x80**.a*", 59, "+1@2 -1@4 +1@6 -1@7", 0, 0, "+0@2 -0@4 +0@6 -0@7");

    begin("cut by the end, where the count of 128 events, 80 00 00 00, would go on");
    record_bytes.n = section_bytes.n = 0;
    put_document(&record_bytes, "*a.**\xe3\x80", 7);
    put_count(&record_bytes, 128), put_count(&section_bytes, 128);
    put_pair(&record_bytes, 1, 0, 1), put_pair(&section_bytes, 0, 0, 1);
    put_pair(&record_bytes, 1, 3, 5), put_pair(&section_bytes, 0, 3, 5);
    for (i = 0; i < 62; i++) put_pair(&record_bytes, 0, 5, 5), put_pair(&section_bytes, 0, 5, 5);
    resolves(ATTENTION, &record_bytes, 59, 0, 0, &section_bytes);
}

/* Options 1, 2 and 4 by what they do; the others do nothing. */
static void every_option(void) {
    static const char a[] = "+1@0 -1@1 +0@1 -0@2 +1@2 -1@3";
    uint32_t options;
    begin("every options number");
    for (options = 0; options <= 63; options++) {
        if (options & 1)
            attention("*a*", options, a, 1, 1, "+2@0 +3@0 -3@1 +4@1 +0@1 -0@2 -4@2 +3@2 -3@3 -2@3");
        else
            refuses(ATTENTION, record("*a*", a), options, ample[form], LARK_WORK_BYTES, 6, event_place(3, 0));
        if (!(options & 2))
            refuses(ATTENTION, record("~a~", a), options, ample[form], LARK_WORK_BYTES, 6, event_place(3, 0));
        else if (options & 4)
            attention("~a~", options, a, 1, 1, "+8@0 +9@0 -9@1 +10@1 +0@1 -0@2 -10@2 +9@2 -9@3 -8@3");
        else
            attention("~a~", options, a, 0, 1, "+0@0 -0@1 +0@1 -0@2 +0@2 -0@3");
    }
}

/* Refused with 6 at an event. */
static void shape(const char *text, uint32_t options, const char *events, size_t at) {
    refuses_shape(ATTENTION, record(text, events), options, event_place(strlen(text), at));
}

static void number_6(void) {
    begin("6: a run of no bytes");
    shape("*", 63, "+1@0 -1@0", 0);
    begin("6: an event inside a run");
    shape("*", 63, "+1@0 +0@0 -0@0 -1@1", 0);
    begin("6: a run inside a run: the outer offends");
    shape("*", 63, "+1@0 +1@0 -1@1 -1@1", 0);
    begin("6: two markers in one run");
    shape("*_", 63, "+1@0 -1@2", 0);
    begin("6: a byte that is no marker");
    shape("a", 63, "+1@0 -1@1", 0);
    begin("6: the marker goes on behind the run");
    shape("**", 63, "+1@0 -1@1", 0);
    begin("6: option 1 is off");
    shape("*", 62, "+1@0 -1@1", 0);
    shape("_", 62, "+1@0 -1@1", 0);
    begin("6: option 2 is off");
    shape("~~", 61, "+1@0 -1@2", 0);
    begin("6: the earliest run that offends");
    shape("*a*ba", 63, "+0@0 -0@0 +1@0 -1@1 +0@1 -0@2 +1@2 -1@4 +1@4 -1@5", 6);
    begin("6: far on");
    refuses_far_on(ATTENTION, "+1@0 -1@0");
    begin("a run behind its own marker is good");
    attention("**", 63, "+1@1 -1@2", 0, 0, "+0@1 -0@2");
}

/* `n` markers, `a`, `n` markers, as two runs and nothing else. */
static const struct bytes *twice(size_t n) {
    record_bytes.n = 0;
    put_number(&record_bytes, 2 * n + 1);
    put_many(&record_bytes, '*', n);
    put_many(&record_bytes, 'a', 1);
    put_many(&record_bytes, '*', n);
    put_count(&record_bytes, 4);
    put_event(&record_bytes, LARK_ENTER, 1, 0);
    put_event(&record_bytes, LARK_EXIT, 1, n);
    put_event(&record_bytes, LARK_ENTER, 1, n + 1);
    put_event(&record_bytes, LARK_EXIT, 1, 2 * n + 1);
    return &record_bytes;
}

static void number_7(void) {
    size_t i;
    begin("7: 1,001 groups, 8,008 events");
    refuses(ATTENTION, twice(2001), 63, ample[form], LARK_WORK_BYTES, 7, 0);
    refuses(ATTENTION, twice(2001), 63, 100000, LARK_WORK_BYTES, 7, 0);
    begin("7 comes before 8");
    refuses(ATTENTION, twice(2001), 63, 0, LARK_WORK_BYTES, 7, 0);
    begin("7: 4,096 groups");
    refuses(ATTENTION, twice(8191), 63, ample[form], LARK_WORK_BYTES, 7, 0);
    begin("6 comes before 7, also behind the last group");
    twice(2001);
    record_bytes.n = 4 + 4003;
    put_count(&record_bytes, 6);
    put_event(&record_bytes, LARK_ENTER, 1, 0);
    put_event(&record_bytes, LARK_EXIT, 1, 2001);
    put_event(&record_bytes, LARK_ENTER, 1, 2002);
    put_event(&record_bytes, LARK_EXIT, 1, 4003);
    put_event(&record_bytes, LARK_ENTER, 1, 4003);
    put_event(&record_bytes, LARK_EXIT, 1, 4003);
    refuses(ATTENTION, &record_bytes, 63, ample[form], LARK_WORK_BYTES, 6, event_place(4003, 4));

    begin("1,000 groups, 8,000 events: the longest result");
    section_bytes.n = 0;
    put_count(&section_bytes, 8000);
    for (i = 0; i < 1000; i++) {
        put_event(&section_bytes, LARK_ENTER, 5, 2 * i);
        put_event(&section_bytes, LARK_ENTER, 6, 2 * i);
        put_event(&section_bytes, LARK_EXIT, 6, 2 * i + 2);
        put_event(&section_bytes, LARK_ENTER, 7, 2 * i + 2);
    }
    for (i = 0; i < 1000; i++) {
        put_event(&section_bytes, LARK_EXIT, 7, 2001 + 2 * i);
        put_event(&section_bytes, LARK_ENTER, 6, 2001 + 2 * i);
        put_event(&section_bytes, LARK_EXIT, 6, 2003 + 2 * i);
        put_event(&section_bytes, LARK_EXIT, 5, 2003 + 2 * i);
    }
    resolves(ATTENTION, twice(2000), 63, 1000, 1000, &section_bytes);
    begin("8: the longest result, a byte short");
    refuses(ATTENTION, twice(2000), 63, ample[form] - 1, LARK_WORK_BYTES, 8, 0);
}

/* `a~~~` 1,024 times and `a`: every run opens and closes, and none matches, being over 2. The first looks at no run, the next at one, and so
 * on: 1,024 * 1,023 / 2. */
static void most_tried(void) {
    size_t i;
    begin("523,776 tried");
    record_bytes.n = section_bytes.n = 0;
    put_number(&record_bytes, 4 * 1024 + 1);
    for (i = 0; i < 1024; i++) put(&record_bytes, "a~~~", 4);
    put(&record_bytes, "a", 1);
    put_count(&record_bytes, 2048);
    put_count(&section_bytes, 2048);
    for (i = 0; i < 1024; i++) {
        put_event(&record_bytes, LARK_ENTER, 1, 4 * i + 1);
        put_event(&record_bytes, LARK_EXIT, 1, 4 * i + 4);
        put_event(&section_bytes, LARK_ENTER, 0, 4 * i + 1);
        put_event(&section_bytes, LARK_EXIT, 0, 4 * i + 4);
    }
    resolves(ATTENTION, &record_bytes, 63, 0, 523776, &section_bytes);
}

static void number_8(void) {
    begin("8: every length that is too short for the ten events that `*a*` becomes");
    refuses_output(ATTENTION, record("*a*", "+1@0 -1@1 +0@1 -0@2 +1@2 -1@3"), 59, 10);
    begin("8: every length that is too short for no events");
    refuses_output(ATTENTION, record("", ""), 59, 0);
}

static void all(void) {
    if (form == OLD) whole_case(); /* form2.c has the other */
    by_line();
    quotations();
    if (way == EXACT) neighbours(), characters(), malformed(), every_option(); /* once is enough: what is lent is not what they are about */
    cut();
    number_6();
    number_7();
    most_tried();
    number_8();
}

int main(void) { return in_every_form(all); }
