/* The near side of the bridge: the twelve calls for a processor that is not x86-64, so that programs which cannot be compiled for x86-64 here are
 * tested with the library all the same. Each call is made by a second process (far.c), which the emulator runs. FAR is that process's command
 * line: strings with commas between them.
 *
 * What a slice holds is copied into memory that both share, and back. Round each copy lie guards. What the library writes there, it would have
 * written round the caller's slice: it is written there too, so that a test sees of a wrong library what it sees on x86-64.
 */
#define _GNU_SOURCE
#include "calls.h"

#include <ledgerlark.h>
#include <pthread.h>
#include <spawn.h>
#include <stdio.h>
#include <stdlib.h>
#include <string.h>
#include <sys/mman.h>
#include <sys/socket.h>
#include <unistd.h>

#define GUARD 64  /* bytes before and behind each slice */
#define LAID 0xe3 /* what they hold */

extern char **environ;

static pthread_mutex_t one_at_a_time = PTHREAD_MUTEX_INITIALIZER;
static uint8_t *shared;
static int far_end;

/* Ends the program where something did not hold: then there is no answer to give. */
static void check(int held, const char *what) {
    if (held) return;
    fprintf(stderr, "bridge: %s\n", what);
    abort();
}

/* Starts the far side. It ends by itself when this process does, since its socket is then closed. */
static void start(void) {
    static char *far[] = {FAR, NULL};
    posix_spawn_file_actions_t actions;
    pid_t process;
    int ends[2], memory = memfd_create("ledgerlark", MFD_CLOEXEC);
    check(memory >= 0 && ftruncate(memory, (off_t)SHARED) == 0, "no memory to share");
    shared = mmap(NULL, SHARED, PROT_READ | PROT_WRITE, MAP_SHARED, memory, 0);
    check(shared != MAP_FAILED, "no memory to share");
    check(socketpair(AF_UNIX, SOCK_STREAM | SOCK_CLOEXEC, 0, ends) == 0, "no socket");
    posix_spawn_file_actions_init(&actions);
    posix_spawn_file_actions_adddup2(&actions, memory, 0);
    posix_spawn_file_actions_adddup2(&actions, ends[1], 1);
    check(posix_spawn(&process, far[0], &actions, NULL, far, environ) == 0, "the far side does not start");
    posix_spawn_file_actions_destroy(&actions);
    close(memory);
    close(ends[1]);
    far_end = ends[0];
}

/* A slice of the caller's. */
struct slice {
    uint8_t *bytes;
    size_t length;
};

/* Lays out a slice between guards from `at` on, and says where they end. */
static size_t lay(struct call *c, int which, struct slice slice, size_t at) {
    check(slice.length <= SHARED && at + slice.length + 2 * GUARD <= SHARED, "the slices are longer than what is shared");
    memset(shared + at, LAID, GUARD);
    at += GUARD;
    c->place[which] = slice.bytes ? at : 0;
    c->length[which] = slice.length;
    if (slice.length) memcpy(shared + at, slice.bytes, slice.length);
    memset(shared + at + slice.length, LAID, GUARD);
    return at + slice.length + GUARD;
}

/* Brings back what was changed, in the slice and round it. What is only read may stand where nothing can be written. */
static void bring_back(const uint8_t *copy, struct slice slice) {
    size_t i;
    if (slice.length && memcmp(slice.bytes, copy, slice.length)) memcpy(slice.bytes, copy, slice.length);
    for (i = 1; i <= GUARD; i++) {
        if (*(copy - i) != LAID) *(slice.bytes - i) = *(copy - i);
    }
    for (i = slice.length; i < slice.length + GUARD; i++) {
        if (copy[i] != LAID) slice.bytes[i] = copy[i];
    }
}

/* Makes a call of which name, options and arguments are there, and gives it back with its answer. */
static struct call cross(struct call c, const uint8_t *in, size_t in_length, uint8_t *out, size_t out_length, uint8_t *work, size_t work_length) {
    struct slice slices[SLICES] = {{(uint8_t *)(uintptr_t)in, in_length}, {out, out_length}, {work, work_length}};
    size_t at = sizeof c;
    char turn = 0;
    int i;
    pthread_mutex_lock(&one_at_a_time);
    if (!shared) start();
    for (i = 0; i < SLICES; i++) at = lay(&c, i, slices[i], at);
    memcpy(shared, &c, sizeof c);
    check(send(far_end, &turn, 1, MSG_NOSIGNAL) == 1 && recv(far_end, &turn, 1, 0) == 1, "the far side is gone");
    memcpy(&c, shared, sizeof c);
    for (i = 0; i < SLICES; i++) {
        if (slices[i].bytes) bring_back(shared + c.place[i], slices[i]);
    }
    pthread_mutex_unlock(&one_at_a_time);
    return c;
}

/* The twelve calls, as the header has them. */

struct lark_reading lark_read(const uint8_t *record, size_t record_length, uint32_t options, uint8_t *work, size_t work_length) {
    struct call c = {.name = READ, .options = options};
    c = cross(c, record, record_length, NULL, 0, work, work_length);
    return (struct lark_reading){c.answer[0], c.answer[1], c.answer[2], c.answer[3]};
}

struct lark_reading2 lark_read2(const uint8_t *record, size_t record_length, uint8_t *work, size_t work_length) {
    struct call c = {.name = READ2};
    c = cross(c, record, record_length, NULL, 0, work, work_length);
    return (struct lark_reading2){c.answer[0], c.answer[1], c.answer[2], c.answer[3], c.answer[4]};
}

static struct lark_resolved resolve(uint32_t name, const uint8_t *record, size_t record_length, uint32_t options, uint8_t *out, size_t out_length,
                                    uint8_t *work, size_t work_length) {
    struct call c = {.name = name, .options = options};
    c = cross(c, record, record_length, out, out_length, work, work_length);
    return (struct lark_resolved){c.answer[0], c.answer[1], c.answer[2], c.answer[3], c.answer[4]};
}

#define RESOLVER(call, name)                                                                                                           \
    struct lark_resolved call(const uint8_t *record, size_t record_length, uint32_t options, uint8_t *out, size_t out_length,           \
                              uint8_t *work, size_t work_length) {                                                                      \
        return resolve(name, record, record_length, options, out, out_length, work, work_length);                                       \
    }
RESOLVER(lark_resolve_attention, RESOLVE_ATTENTION)
RESOLVER(lark_resolve_headings, RESOLVE_HEADINGS)
RESOLVER(lark_resolve_lists, RESOLVE_LISTS)

#define RESOLVER2(call, name)                                                                                                          \
    struct lark_resolved call(const uint8_t *record, size_t record_length, uint8_t *out, size_t out_length, uint8_t *work,              \
                              size_t work_length) {                                                                                     \
        return resolve(name, record, record_length, 0, out, out_length, work, work_length);                                             \
    }
RESOLVER2(lark_resolve_attention2, RESOLVE_ATTENTION2)
RESOLVER2(lark_resolve_headings2, RESOLVE_HEADINGS2)
RESOLVER2(lark_resolve_lists2, RESOLVE_LISTS2)

struct lark_spaces lark_space_or_tab(const uint8_t *line, size_t line_length, uint32_t options, size_t column, size_t min, size_t max) {
    struct call c = {.name = SPACE_OR_TAB, .options = options, .column = column, .argument = {min, max}};
    c = cross(c, line, line_length, NULL, 0, NULL, 0);
    return (struct lark_spaces){c.answer[0], c.answer[1], c.answer[2], c.answer[3], c.answer[4]};
}

struct lark_item lark_list_item(const uint8_t *line, size_t line_length, uint32_t options, size_t column, uint32_t interrupting) {
    struct call c = {.name = LIST_ITEM, .options = options, .column = column, .argument = {interrupting}};
    c = cross(c, line, line_length, NULL, 0, NULL, 0);
    return (struct lark_item){c.answer[0], c.answer[1], c.answer[2], c.answer[3], c.answer[4], c.answer[5], c.answer[6], c.answer[7]};
}

struct lark_going lark_continuation(const uint8_t *line, size_t line_length, uint32_t options, size_t column, size_t size, uint32_t blank,
                                    uint32_t mark) {
    struct call c = {.name = CONTINUATION, .options = options, .column = column, .argument = {size, blank, mark}};
    c = cross(c, line, line_length, NULL, 0, NULL, 0);
    return (struct lark_going){c.answer[0], c.answer[1], c.answer[2], c.answer[3], c.answer[4], c.answer[5]};
}

struct lark_headed lark_heading(const uint8_t *line, size_t line_length, uint32_t options, size_t column, uint8_t *out, size_t out_length) {
    struct call c = {.name = HEADING, .options = options, .column = column};
    c = cross(c, line, line_length, out, out_length, NULL, 0);
    return (struct lark_headed){c.answer[0], c.answer[1], c.answer[2], c.answer[3]};
}
