/* What the programs here share that make records: a document and its events, which grow together, and the record of both in either form. */
static uint8_t document[LARK_MAX_DOCUMENT];
static struct lark_event events[LARK_MAX_EVENTS];
static size_t bytes, count;

static void event(size_t kind, size_t name) {
    events[count].kind = kind, events[count].name = name, events[count].place = bytes;
    count++;
}

static void text(const char *t) {
    while (*t) document[bytes++] = (uint8_t)*t++;
}

/* a leaf pair over some bytes */
static void pair(size_t name, const char *t) {
    event(LARK_ENTER, name);
    text(t);
    event(LARK_EXIT, name);
}

static inline struct lark_record in_old_form(uint8_t *to) {
    struct lark_record record = lark_begin_record(to, LARK_RECORD_BYTES, document, bytes);
    for (size_t i = 0; i < count; i++) lark_add_event(&record, events[i].kind, events[i].name, events[i].place);
    return record;
}

static inline struct lark_record2 in_form_2(uint8_t *to, uint32_t options) {
    struct lark_record2 record = lark_begin_record2(to, LARK_RECORD2_BYTES, options, document, bytes);
    for (size_t i = 0; i < count; i++) lark_add_event2(&record, events[i].kind, events[i].name, events[i].place);
    return record;
}
