/* Books that are slow to compile: long chains that are met again and again. */
#ifndef SLOW_BOOKS_H
#define SLOW_BOOKS_H
#include "draft.h"

/* `count` more states in a line, each entered from the one before by the same events. */
static inline uint16_t slow_on(draft *d, uint16_t from, uint32_t count, uint32_t events) {
    for (; count; count--) {
        uint16_t next = draft_state(d);
        for (uint32_t e = 0; e < events; e++) d->to[from][0x20 + e] = next;
        from = next;
    }
    return from;
}

/* Every state is alive after as many events: chains of 1 to 511 members, each the rest of the next. */
static inline void slow_line(draft *d) { d->mark[slow_on(d, 0, 511, 4)] = 1; }

/* On the line stands document 01's family: nine states, each alive or not as two of the four events decide, so that 511
   places have a chain of 500 members and more. */
static inline void slow_tower(draft *d) {
    uint16_t top = slow_on(d, 0, 500, 4), first = draft_state(d);
    d->to[top][0x20] = d->to[top][0x21] = first;
    d->mark[slow_on(d, first, 8, 4)] = 1;
}

/* Few events on the line and many at its top: each edge of a top asks the whole line, where most events are not. */
static inline void slow_tops(draft *d) {
    uint16_t at = slow_on(d, 0, 500, 2);
    for (uint32_t k = 0; k < 4; k++) at = slow_on(d, at, 1, 200);
    d->mark[at] = 1;
}

/* A line of 511 states, the first of which is one of two, as the last event decides. The chains of a
   level differ in their last member alone, so that each is compared to its end with one that is not the same, and three events
   of four want the place that is compared last. */
static inline void slow_firsts(draft *d) {
    uint16_t usual = draft_state(d), other = draft_state(d), next = draft_state(d);
    for (uint32_t e = 0x20; e < 0x24; e++) {
        d->to[0][e] = e < 0x23 ? usual : other;
        d->to[usual][e] = d->to[other][e] = next;
    }
    d->mark[slow_on(d, next, 508, 4)] = 1;
}

/* The slowest known: a line of 511 states by four events, which are unlike at one state two thirds up, where three of them
   skip a state, and at the top eleven. */
static inline void slow_found(draft *d) {
    d->mark[slow_on(d, 0, 511, 4)] = 1;
    for (uint32_t e = 0; e < 4; e++) {
        d->to[373][0x20 + e] = e == 2 ? 374 : 375;
        d->to[374][0x20 + e] = 376;
        for (uint32_t s = 500; s < 511; s++) {
            const char *skips = s == 500 ? "0001" : s % 2 ? "1001" : "0000";
            d->to[s][0x20 + e] = (uint16_t)(s + 1 + (skips[e] == '1'));
        }
    }
}
#endif
