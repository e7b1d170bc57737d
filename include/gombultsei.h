/* The static library gombultsei (crates/gombultsei): the board of docs/PROTOCOL.md over a ring. */
#ifndef GOMBULTSEI_H
#define GOMBULTSEI_H

#include <stddef.h>
#include <stdint.h>

enum gombultsei_call { GOMBULTSEI_LOAD = 1, GOMBULTSEI_STORE, GOMBULTSEI_FENCE, GOMBULTSEI_EVICT, GOMBULTSEI_UP, GOMBULTSEI_DOWN };

/* GOMBULTSEI_NO_CALL: the kind of the call is none of those above, and nothing was done. */
enum gombultsei_said {
    GOMBULTSEI_NO_CALL,
    GOMBULTSEI_DONE,
    GOMBULTSEI_WAITS,
    GOMBULTSEI_VALUE,
    GOMBULTSEI_ENDED,
    GOMBULTSEI_HANDLED,
    GOMBULTSEI_REFUSED
};

/* A call does not look at the numbers that it does not take. */
struct gombultsei_numbers {
    uint8_t kind;
    uint8_t strength;
    uint32_t shim;
    uint32_t line;
    uint32_t value;
};

/* `number` is the kind of the message that was handled, or the number of the refusal; `carried` the word that a load gave, or the lane
   that a refusal carries. They are 0 where there is none. */
struct gombultsei_answer {
    uint32_t kind;
    uint32_t number;
    uint64_t carried;
};

struct gombultsei_exchange {
    struct gombultsei_numbers call;
    struct gombultsei_answer answer;
};

/* Makes a board of so many shims and lines over a new ring, and does the calls of the list on it, one after the other; each exchange is
   given its answer. The result is 0. Where there is no such board it is 1, the number of that refusal, and the list stays as it was. */
uint8_t gombultsei_run(uint32_t shims, uint32_t lines, struct gombultsei_exchange *exchanges, size_t count);

#endif
