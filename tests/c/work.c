/* Work memory of 2^32 bytes: a length that is cut to 32 bits comes out as 0. All of it is wiped, so it has to be memory: 2 MiB, seen 2,048 times.
 * Under an emulator that takes minutes.
 */
#define _GNU_SOURCE /* memfd_create */
#include "check.h"

typedef char size_has_64_bits[sizeof(size_t) == 8 ? 1 : -1];
enum { PIECE = 1 << 21 };
#define OVER ((size_t)1 << 32)

int main(void) {
    uint8_t out[4], *work = (uint8_t *)sure(mmap(NULL, OVER, PROT_NONE, MAP_PRIVATE | MAP_ANONYMOUS, -1, 0));
    int file = memfd_create("work", 0), i;
    size_t at;
    watch();
    if (file < 0 || ftruncate(file, PIECE) != 0) sure(NULL);
    for (at = 0; at < OVER; at += PIECE) sure(mmap(work + at, PIECE, PROT_READ | PROT_WRITE, MAP_SHARED | MAP_FIXED, file, 0));
    for (form = 0; form < FORMS; form++) {
        const struct bytes *empty = handed(record("", ""), 63);
        begin("lark_read");
        memset(work, 0xa5, PIECE);
        equal("number", read_record(empty->at, empty->n, 63, work, OVER).number, 0);
        all_are("work memory", work, PIECE, 0);
        for (i = 0; i < RESOLVERS; i++) {
            begin("a resolver");
            memset(work, 0xa5, PIECE);
            equal("number", resolve(i, empty->at, empty->n, 63, out, sizeof out, work, OVER).number, 0);
            all_are("work memory", work, PIECE, 0);
        }
    }
    return report();
}
