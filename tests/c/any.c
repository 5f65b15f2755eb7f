/* Any record, line, options, column and lengths, good or broken: made by a generator with a fixed start, the same in every run.
 *
 * What must come is not known here, but what must hold of it is. Each call is made twice, in memory that held other bytes and with a page that
 * may not be touched behind the slices the first time and before them the second; both must answer and write alike. A refusal says its number
 * and place and nothing else. What a resolver writes is again a list of sound events, in form 2 with true partners. A record that is not broken is
 * answered alike in both forms, but for places. At the end each kind of answer must have come up.
 */
#include "check.h"

/* RESOLVE and one of the resolvers is its call. The calls before SPACES are on a record, and are made in either form. */
enum { READ, RESOLVE, SPACES = RESOLVE + RESOLVERS, ITEM, GOING, HEADING, CALLS };
enum { INPUTS = 1500, FIELDS = 8 };

static uint32_t state = 2463534242u;
static uint32_t below(uint32_t n) {
    state ^= state << 13 & 0xffffffffu;
    state ^= state >> 17;
    state ^= state << 5 & 0xffffffffu;
    return state % n;
}
static int once_in(uint32_t n) { return below(n) == 0; }

/* --- records --- */

static struct bytes text;
static unsigned open_names[80];
static size_t depth;

static void pair(unsigned name, size_t from, size_t to) {
    add_event(LARK_ENTER, name, from);
    add_event(LARK_EXIT, name, to);
}
static void enter(unsigned name, size_t place) {
    add_event(LARK_ENTER, name, place);
    open_names[depth++] = name;
}

/* A text of few different bytes, with events as a tokenizer might make them: runs, items, headings, containers. From 128 up the bytes make a no-break
 * space, a quotation mark, U+3000 and the like, or are no character. */
static void make_record(void) {
    static const char letters[] = "**__~~ab .-\n#\xc2\xa0\xab\xe3\x80";
    size_t i, n = below(40), at = 0;
    text.n = depth = 0;
    for (i = 0; i < n; i++) put_many(&text, (uint8_t)letters[below(sizeof letters - 1)], 1);
    if (n && once_in(16)) text.at[below((uint32_t)n)] = '\r';
    begin_record(text.at, text.n);
    while (at < n) {
        uint8_t byte = text.at[at];
        size_t end = at + 1;
        if (once_in(8) && depth < 60) enter(once_in(2) ? LARK_NAME_OTHER_CONTAINER : below(25), at);
        if (strchr("*-.", byte) && once_in(6) && depth < 60) {
            pair(LARK_NAME_LINE_ENDING, at, at);
            enter(LARK_NAME_LIST_ITEM, at);
            add_event(LARK_ENTER, LARK_NAME_LIST_ITEM_PREFIX, at);
            pair(LARK_NAME_LIST_ITEM_MARKER, at, end);
            add_event(LARK_EXIT, LARK_NAME_LIST_ITEM_PREFIX, end);
        } else if (byte == '#' && once_in(2)) {
            add_event(LARK_ENTER, LARK_NAME_HEADING_ATX, at);
            pair(LARK_NAME_HEADING_ATX_SEQUENCE, at, end);
            while (end < n && once_in(2)) pair(once_in(3) ? LARK_NAME_SPACE_OR_TAB : LARK_NAME_DATA, end, end + 1), end++;
            add_event(LARK_EXIT, LARK_NAME_HEADING_ATX, end);
        } else if (strchr("*_~", byte)) {
            while (end < n && text.at[end] == byte) end++;
            pair(LARK_NAME_ATTENTION_SEQUENCE, at, end);
        } else {
            pair(byte == '\n' ? LARK_NAME_LINE_ENDING : LARK_NAME_DATA, at, end);
        }
        at = end;
        if (depth && once_in(6)) add_event(LARK_EXIT, open_names[--depth], at);
    }
    while (depth) add_event(LARK_EXIT, open_names[--depth], n);
    built();
}

/* Something of it is broken: a byte changed, the end cut off, or bytes added. */
static void break_bytes(struct bytes *b) {
    switch (below(3)) {
    case 0:
        if (b->n) b->at[below((uint32_t)b->n)] = (uint8_t)(once_in(2) ? below(26) : below(256));
        break;
    case 1:
        b->n = below((uint32_t)b->n + 1);
        break;
    default:
        put_many(b, (uint8_t)below(256), 1 + below(20));
    }
}

static void make_line(struct bytes *b) {
    static const char letters[] = "  \t-*+1290.)##a";
    static const char *const fronts[] = {"", "- ", " 12. ", "1) ", "# ", "   ##\t", "\t", "-\t"};
    const char *front = fronts[below(8)];
    size_t i, n = below(24);
    b->n = 0;
    put(b, front, strlen(front));
    for (i = 0; i < n; i++) put_many(b, (uint8_t)letters[below(sizeof letters - 1)], 1);
    if (once_in(4)) put_many(b, '\n', 1);
    if (once_in(16)) put_many(b, '\r', 1);
    if (once_in(8)) break_bytes(b);
}

/* --- one call, and everything looked at --- */

struct given {
    const struct bytes *in;
    uint32_t options, flag, mark;
    size_t out_length, work_length, column, min, max;
};

static const char *const call_names[CALLS] = {"lark_read",         "lark_resolve_attention", "lark_resolve_headings", "lark_resolve_lists",
                                              "lark_space_or_tab", "lark_list_item",         "lark_continuation",     "lark_heading"};

/* The fields of the answer, and what was written. */
static void make(int call, struct given g, size_t fields[FIELDS], struct bytes *wrote) {
    struct slice in = lend_bytes(g.in->at, g.in->n), out = lend(g.out_length), work = lend(call < SPACES ? g.work_length : 0);
    size_t n = 0, i;
    memset(fields, 0, FIELDS * sizeof *fields);
    switch (call) {
    case READ: {
        struct lark_reading2 r = read_record(in.p, in.n, g.options, work.p, work.n);
        memcpy(fields, &r, sizeof r);
        break;
    }
    case RESOLVE + ATTENTION:
    case RESOLVE + HEADINGS:
    case RESOLVE + LISTS: {
        struct lark_resolved r = resolve(call - RESOLVE, in.p, in.n, g.options, out.p, out.n, work.p, work.n);
        memcpy(fields, &r, sizeof r);
        n = r.number ? 0 : 4 + widths[form] * r.events;
        break;
    }
    case SPACES: {
        struct lark_spaces r = lark_space_or_tab(in.p, in.n, g.options, g.column, g.min, g.max);
        memcpy(fields, &r, sizeof r);
        break;
    }
    case ITEM: {
        struct lark_item r = lark_list_item(in.p, in.n, g.options, g.column, g.flag);
        memcpy(fields, &r, sizeof r);
        break;
    }
    case GOING: {
        struct lark_going r = lark_continuation(in.p, in.n, g.options, g.column, g.min, g.flag, g.mark);
        memcpy(fields, &r, sizeof r);
        break;
    }
    default: {
        struct lark_headed r = lark_heading(in.p, in.n, g.options, g.column, out.p, out.n);
        memcpy(fields, &r, sizeof r);
        n = r.found ? 4 + 8 * r.events : 0;
    }
    }
    wrote->n = 0;
    if (n > out.n) {
        fail("the section's length", n, out.n);
    } else {
        put(wrote, out.p, n);
        all_are("output past the section", out.p + n, out.n - n, way_dirt[way]);
    }
    all_are("work memory", work.p, work.n, 0);
    if (fields[0] > 8) fail("number", fields[0], 8);
    for (i = 2; i < FIELDS && fields[0]; i++) equal("a field of a refusal", fields[i], 0);
    take_back(in);
    take_back(out);
    take_back(work);
}

static size_t answers[FORMS][CALLS][9], findings[CALLS], cuts[CALLS];

/* What is left of a cut tab: at most 3 columns, of a tab that stands where the bytes taken end. */
static void cut_is_sound(int call, struct given g, const size_t fields[FIELDS]) {
    if (fields[4] > 3) fail("columns left", fields[4], 3);
    if (fields[3] >= g.in->n || g.in->at[fields[3]] != '\t') fail("the place of a cut tab", fields[3], g.in->n);
    cuts[call]++;
}

/* What a resolver wrote is, behind the document, a record again, if it is not too deep. In form 2 it is said here too what true partners are. */
static void section_is_sound(struct given g, const struct bytes *wrote, size_t events) {
    static struct bytes resolved;
    static uint8_t work[LARK_WORK_BYTES];
    struct lark_reading2 r = read_record(g.in->at, g.in->n, g.options, work, sizeof work);
    size_t i;
    resolved.n = 0;
    put(&resolved, g.in->at, fronts[form] + 4 + r.document);
    put(&resolved, wrote->at, wrote->n);
    r = read_record(resolved.at, resolved.n, g.options, work, sizeof work);
    equal("number for what came out", r.number, 0);
    equal("events of what came out", r.events, events);
    for (i = 0; form == SECOND && i < events; i++) {
        struct lark_event2 event = lark_event_at2(wrote->at, i), partner;
        if (event.partner >= events) {
            fail("a partner", event.partner, events);
            continue;
        }
        partner = lark_event_at2(wrote->at, event.partner);
        equal("the partner of a partner", partner.partner, i);
        equal("the name of a partner", partner.name, event.name);
        equal("the kind of a partner", partner.kind, !event.kind);
        equal("an enter before its exit", event.partner > i, event.kind == LARK_ENTER);
    }
}

/* A call made both ways: the fields of its answer, and what was written. */
struct made {
    size_t fields[FIELDS];
    struct bytes wrote;
};
static void both_ways(int call, struct given g, struct made *first) {
    static struct made second;
    size_t i;
    case_name = call_names[call];
    way = PAGE_BEHIND;
    make(call, g, first->fields, &first->wrote);
    way = PAGE_BEFORE;
    make(call, g, second.fields, &second.wrote);
    for (i = 0; i < FIELDS; i++) equal("a field, the second time,", second.fields[i], first->fields[i]);
    equal("the length written, the second time,", second.wrote.n, first->wrote.n);
    same("what is written the second time", second.wrote.at, first->wrote.at, first->wrote.n);
    if (first->fields[0] <= 8) answers[form][call][first->fields[0]]++;
    if (call >= SPACES && !first->fields[0] && !first->fields[2]) findings[call]++;
    if (call >= SPACES && call <= GOING && first->fields[2] && first->fields[4]) cut_is_sound(call, g, first->fields);
    if (call >= RESOLVE && call < SPACES && !first->fields[0]) section_is_sound(g, &first->wrote, first->fields[2]);
}

/* A record in both forms: the same answers, and the same events, each where that form has it. */
static void alike(int call, const struct made *old, const struct made *second) {
    size_t i, place = old->fields[1], number = old->fields[0];
    case_name = call_names[call];
    if (number == 5 || number == 6) place += 5 + (place - 8 - text.n) / 8 * 4;
    if (number == 3 || number == 4) place += 5;
    equal("place in form 2", second->fields[1], place);
    for (i = 0; i < FIELDS; i++)
        if (i != 1) equal("a field in form 2", second->fields[i], old->fields[i]);
    if (number || call == READ) return;
    same("the count in form 2", second->wrote.at, old->wrote.at, 4);
    for (i = 0; i < old->fields[2]; i++) same("an event in form 2", second->wrote.at + 4 + 12 * i, old->wrote.at + 4 + 8 * i, 8);
}

int main(void) {
    static struct made done[FORMS][SPACES], on_line;
    static struct bytes line, whole;
    int i, call;
    size_t number;
    watch();
    for (i = 0; i < INPUTS; i++) {
        struct given g;
        uint32_t start, options = once_in(16) ? below(256) : once_in(32) ? state : 63 - (once_in(8) ? below(64) : 0);
        int broken = once_in(3), no_room = once_in(16);
        size_t room = once_in(3) ? below(50) : 400, more = no_room ? below(4) : 4 + below(8);
        g.flag = below(3);
        g.mark = state;
        g.column = once_in(32) ? state : once_in(4) ? LARK_MAX_COLUMN - below(4) : below(9);
        g.min = below(6);
        g.max = once_in(8) ? SIZE_MAX : below(6);
        g.work_length = once_in(16) ? below(65536) : LARK_WORK_BYTES + (once_in(4) ? below(99) : 0);
        start = state;
        for (form = 0; form < FORMS; form++) {
            const struct bytes *r;
            state = start;
            make_record();
            r = handed(&record_bytes, options);
            whole.n = 0;
            put(&whole, r->at, r->n);
            if (broken) break_bytes(&whole);
            g.in = &whole;
            g.options = form == OLD ? options : whole.n > 4 ? whole.at[4] : 0;
            g.out_length = (no_room ? 0 : widths[form] * room) + more;
            for (call = READ; call < SPACES; call++) both_ways(call, g, &done[form][call]);
        }
        for (call = READ; call < SPACES; call++)
            if (!broken && options <= 255) alike(call, &done[OLD][call], &done[SECOND][call]);
        form = OLD;
        make_line(&line);
        g.in = &line;
        g.options = options;
        g.out_length = (no_room ? 0 : 8 * room) + more;
        for (call = SPACES; call <= HEADING; call++) both_ways(call, g, &on_line);
    }
    for (form = 0; form < FORMS; form++)
        for (call = 0; call < (form == OLD ? CALLS : SPACES); call++)
            for (number = 0; number < 9; number++) {
                int a_line = call >= SPACES, writes = call != READ && (!a_line || call == HEADING);
                int can = number == 0 || (number == 1 && !a_line) || (number >= 2 && number <= 4) || (number == 5 && !a_line) ||
                          (number == 6 && writes && !a_line) || (number == 8 && writes);
                size_t came = answers[form][call][number];
                if (a_line && number == 3) can = 0; /* no line here is that long */
                case_name = call_names[call];
                cases++;
                if ((came != 0) != can) printf("number %zu: ", number), fail("answers of it", came, (size_t)can);
                if (a_line && number == 0 && !findings[call]) fail("findings", 0, 1);
                if (a_line && number == 0 && call != HEADING && !cuts[call]) fail("cut tabs", 0, 1);
                if (a_line && number == 0 && findings[call] == came) fail("findings alone", 1, 0);
            }
    return report();
}
