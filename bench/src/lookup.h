/* The target of an event among `count` edges that rise by event, 0 where there is none. Few edges are read one after
   the other; among many the index is boxed in first (an event among n rising bytes has an index between
   event + n - 256 and event) and the box is halved without branches. */
#ifndef LOOKUP_H
#define LOOKUP_H
#include "contest.h"

static inline __attribute__((always_inline)) uint32_t lookup(const uint8_t *edge, uint32_t count, uint32_t event) {
    if (count <= 8) {
        for (const uint8_t *end = edge + 4 * count; edge < end; edge += 4) {
            uint32_t e = le32(edge);
            if ((e & 255) >= event) return (e & 255) == event ? e >> 16 : 0;
        }
        return 0;
    }
    uint32_t low = event + count > 256 ? event + count - 256 : 0, high = event < count ? event + 1 : count;
    if (low >= high) return 0;
    edge += 4 * low;
    for (uint32_t left = high - low; left > 1;) {
        uint32_t half = left / 2;
        edge = edge[4 * half] <= event ? edge + 4 * half : edge;
        left -= half;
    }
    uint32_t e = le32(edge);
    return (e & 255) == event ? e >> 16 : 0;
}
#endif
