/* What the programs here share that time calls: the clock, and for those that time two archives beside each other a way to move the code of both by MOVED
 * bytes. Where the linker puts it matters for loops of a few instructions, so bench/run makes such a program several times over.
 */
#include <time.h>

#if MOVED
#define QUOTED(number) #number
#define SKIP(number) __asm__(".section .text.moved,\"ax\"\n.skip " QUOTED(number) "\n.text")
SKIP(MOVED);
#endif

/* Nanoseconds since some moment. */
static double now(void) {
    struct timespec t;
    clock_gettime(CLOCK_MONOTONIC, &t);
    return 1e9 * (double)t.tv_sec + (double)t.tv_nsec;
}
