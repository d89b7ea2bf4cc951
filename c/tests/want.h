/* What is wanted and isn't so is told on standard error, and counted. Threads may want at the same time. */
#ifndef VIMALORUA_WANT_H
#define VIMALORUA_WANT_H
#include <stdio.h>

static _Atomic int failures;

static void want(const char *file, int line, long long is, long long wanted) {
    if (is != wanted) {
        fprintf(stderr, "%s:%d: %lld in place of %lld\n", file, line, is, wanted);
        failures++;
    }
}

#define WANT(is, wanted) want(__FILE__, __LINE__, (long long)(is), (long long)(wanted))

/* Calls again where memory was refused, and wants that nothing had changed. Nothing is refused the second time. */
#define AGAIN(call, unchanged)                   \
    do {                                         \
        int32_t status = (call);                 \
        if (status == VIMALORUA_OUT_OF_MEMORY) { \
            refused = 1;                         \
            WANT(unchanged, 1);                  \
            status = (call);                     \
        }                                        \
        WANT(status, VIMALORUA_DONE);            \
    } while (0)
#endif
