/* The records that grow, for the programs here that time calls on them: families for attention, by the number of runs, and for lists and headings, by the
 * number of events.
 */
static void run(char marker, size_t size) {
    event(LARK_ENTER, LARK_NAME_ATTENTION_SEQUENCE);
    while (size--) document[bytes++] = (uint8_t)marker;
    event(LARK_EXIT, LARK_NAME_ATTENTION_SEQUENCE);
}

/* the families of attention: n runs each */
static void nested(size_t n) {
    for (size_t i = 0; i < n / 2; i++) run('*', 1 + i % 2), text("a ");
    for (size_t i = n / 2; i-- > 0;) text(" b"), run('*', 1 + i % 2);
}
static void alternating(size_t n) {
    for (size_t i = 0; i < n; i++) run(i % 2 ? '_' : '*', 1);
}
static void lines(size_t n) {
    for (size_t i = 0; i < n; i++) text("a"), run('_', 1), text(" ");
}
static void openers(size_t n) {
    for (size_t i = 0; i < n; i++) text(" "), run('*', 1), text("a");
}
static void closers(size_t n) {
    for (size_t i = 0; i < n; i++) text("a"), run('*', 1), text(" ");
}

/* The families in which runs both open and close, and try those before them. Of more than two tildes no size fits. A run of six takes two from
 * the four that are left of the run before and has four left itself; four and two make a multiple of three, so it skips every run on its chain. */
static void between(char marker, size_t size, const char *side) { text(side), run(marker, size), text(side); }
static void threes(size_t n) {
    for (size_t i = 0; i < n; i++) between('~', 3, "a");
}
static void in_turn(size_t n) {
    for (size_t i = 0; i < n; i++) between('~', 3 + i % 10, "a");
}
static void mixed(size_t n) {
    uint32_t state = 1;
    for (size_t i = 0; i < n; i++) state = 1664525 * state + 1013904223, between('~', 3 + (state >> 16) % 10, "a");
}
/* four, then sixes, then ones, of which every second takes the one before it: as many sixes as leave 1,024 runs a result of 8,000 events */
static void sixes(char marker, size_t n, const char *side) {
    for (size_t i = 0, many = 651 * n / 1024; i < n; i++) between(marker, !i ? 4 : i < many ? 6 : 1, side);
}
static void stars(size_t n) { sixes('*', n, "a"); }
static void lows(size_t n) { sixes('_', n, "."); }
/* twos that open only, then four, then sixes: no record of `*` was found that tries more and has a result that fits */
static void most(size_t n) {
    for (size_t i = 0, few = 279 * n / 1024; i < n; i++) {
        if (i < few) text(" "), run('*', 2), text("a");
        else between('*', i == few ? 4 : 6, "a");
    }
}
/* four and then sixes alone: of 1,024 runs the result is too long, which is known when all has been tried */
static void too_long(size_t n) {
    for (size_t i = 0; i < n; i++) between('*', i ? 6 : 4, "a");
}

/* the families of lists and headings: as many whole parts as n events have room for */
enum { DATA, HEADING = 11, SEQUENCE, SPACE = 14, ITEM, PREFIX, MARKER, LINE_ENDING = 21, BLANK_LINE_ENDING, OTHER = 24 };

/* an item's start: 5 events */
static void item(const char *mark) {
    event(LARK_ENTER, ITEM);
    event(LARK_ENTER, PREFIX);
    pair(MARKER, mark);
    event(LARK_EXIT, PREFIX);
}
static void one_list(size_t n) {
    while (count + 8 <= n) item("-"), event(LARK_EXIT, ITEM), pair(LINE_ENDING, "\n");
}
static void items_with_text(size_t n) {
    while (count + 14 <= n) {
        item("-"), event(LARK_ENTER, OTHER), pair(DATA, "text"), pair(DATA, "more"), event(LARK_EXIT, OTHER), event(LARK_EXIT, ITEM);
        pair(LINE_ENDING, "\n");
    }
}
static void nested_items(size_t n) {
    while (count + 8 <= n) {
        size_t levels = 0;
        while (levels < 62 && count + 6 + levels + 2 <= n) item("-"), levels++;
        while (levels--) event(LARK_EXIT, ITEM);
        pair(LINE_ENDING, "\n");
    }
}
static void in_containers(size_t n) {
    while (count + 10 <= n) event(LARK_ENTER, OTHER), item("-"), event(LARK_EXIT, ITEM), event(LARK_EXIT, OTHER), pair(LINE_ENDING, "\n");
}
static void marks_alternate(size_t n) {
    for (size_t i = 0; count + 8 <= n; i++) item(i % 2 ? "*" : "-"), event(LARK_EXIT, ITEM), pair(LINE_ENDING, "\n");
}
static void far_apart(size_t n) {
    while (count + 38 <= n) {
        item("-"), event(LARK_EXIT, ITEM);
        for (int i = 0; i < 16; i++) pair(BLANK_LINE_ENDING, "\n");
    }
}
static void many_headings(size_t n) {
    while (count + 14 <= n) {
        event(LARK_ENTER, HEADING), pair(SEQUENCE, "##"), pair(SPACE, " "), pair(DATA, "text"), pair(SPACE, " "), pair(DATA, "more");
        event(LARK_EXIT, HEADING), pair(LINE_ENDING, "\n");
    }
}
static void one_heading(size_t n) {
    event(LARK_ENTER, HEADING), pair(SEQUENCE, "##"), pair(SPACE, " "), pair(DATA, "a");
    while (count + 5 <= n) pair(SPACE, " "), pair(DATA, "a");
    event(LARK_EXIT, HEADING);
}
static void heading_of_hashes(size_t n) {
    event(LARK_ENTER, HEADING), pair(SEQUENCE, "##");
    while (count + 5 <= n) pair(SPACE, " "), pair(SEQUENCE, "#");
    event(LARK_EXIT, HEADING);
}
static void heading_without_text(size_t n) {
    event(LARK_ENTER, HEADING), pair(SEQUENCE, "##");
    while (count + 3 <= n) pair(SPACE, " ");
    event(LARK_EXIT, HEADING);
}

/* the calls on a record; the families are for resolvers */
enum which { ATTENTION, HEADINGS, LISTS, READ };
struct family {
    const char *name;
    void (*make)(size_t);
    size_t may; /* the refusal that its largest record gets; 0 if it gets none */
};
struct table {
    const char *title, *each; /* `each` is what the last column of bench/growth.c shares the time out to */
    enum which which;
    const struct family *families;
    size_t families_length;
    const size_t *sizes;
    size_t sizes_length;
};

#define LENGTH(a) (sizeof(a) / sizeof *(a))
static const struct family attention[] = {{"`nested`", nested}, {"`*_*_`", alternating}, {"`a_ `", lines}, {"` *a`", openers}, {"`a* `", closers}};
static const struct family all_tried[] = {{"`~`: 3", threes},
                                          {"`~`: 3 to 12 in turn", in_turn},
                                          {"`~`: 3 to 12 mixed", mixed},
                                          {"`*`: 4, 6 .., 1 ..", stars},
                                          {"`_`: 4, 6 .., 1 ..", lows},
                                          {"`*`: 2 .., 4, 6 ..", most},
                                          {"`*`: 4, 6 ..", too_long, 7}};
static const struct family lists[] = {{"one list", one_list},
                                      {"items with text", items_with_text},
                                      {"62 levels", nested_items},
                                      {"each in a container", in_containers},
                                      {"marks alternate", marks_alternate},
                                      {"16 blank lines between", far_apart}};
static const struct family headings[] = {{"many headings", many_headings},
                                         {"one heading", one_heading},
                                         {"one of `#` runs", heading_of_hashes},
                                         {"no text", heading_without_text}};
static const size_t runs[] = {16, 64, 256, 1024}, sizes[] = {64, 256, 512, 1024, 2048};
static const struct table tables[] = {{"attention", "a run", ATTENTION, attention, LENGTH(attention), runs, LENGTH(runs)},
                                      {"attention, runs that open and close", "a candidate", ATTENTION, all_tried, LENGTH(all_tried), runs,
                                       LENGTH(runs)},
                                      {"lists", "an event", LISTS, lists, LENGTH(lists), sizes, LENGTH(sizes)},
                                      {"headings", "an event", HEADINGS, headings, LENGTH(headings), sizes, LENGTH(sizes)}};
