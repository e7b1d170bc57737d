/* Links the library: a panel (shim 0) stores a ramp step and then a ready word, and a heater (shim 1) reads both. */
#include "gombultsei.h"
#include <stdio.h>

enum { RELAXED, ACQUIRE, RELEASE };
enum { STEP, READY };

int main(void)
{
    struct gombultsei_exchange list[] = {
        { .call = { GOMBULTSEI_STORE, RELAXED, 0, STEP, 730 } },
        { .call = { GOMBULTSEI_STORE, RELEASE, 0, READY, 1 } },
        { .call = { .kind = GOMBULTSEI_UP, .shim = 0 } },
        { .call = { .kind = GOMBULTSEI_UP, .shim = 0 } },
        { .call = { GOMBULTSEI_LOAD, ACQUIRE, 1, READY, 0 } },
        { .call = { .kind = GOMBULTSEI_UP, .shim = 1 } },
        { .call = { .kind = GOMBULTSEI_DOWN, .shim = 1 } },
        { .call = { GOMBULTSEI_LOAD, RELAXED, 1, STEP, 0 } },
        { .call = { .kind = GOMBULTSEI_UP, .shim = 1 } },
        { .call = { .kind = GOMBULTSEI_DOWN, .shim = 1 } },
    };
    size_t count = sizeof list / sizeof *list;
    if (gombultsei_run(2, 2, list, count) != 0)
        return 1;
    for (size_t at = 0; at < count; at++) {
        struct gombultsei_answer answer = list[at].answer;
        printf("%u %u %llu\n", (unsigned)answer.kind, (unsigned)answer.number, (unsigned long long)answer.carried);
    }
    return 0;
}
