/* c-dense: a limit. The same records from a table outside document 01's format, made at build time: target and failure
   steps for each place and class of events. Up to 1 MiB, against an image of at most 30,732 bytes. */
#include <stdlib.h>
#include "contest.h"

typedef struct {
    uint32_t Q, shift;
    uint8_t class[256];
    uint32_t *row;
    uint16_t link[PLACES_MOST];
    uint64_t record[PLACES_MOST];
} dense;

void *dense_build(const contestant *self, const workload *w) {
    (void)self;
    static uint8_t image[IMAGE_MOST];
    answer made = tuned_compile(w->book, w->nbook, image, sizeof image);
    if (made.number) return NULL;
    dense *d = calloc(1, sizeof *d);
    const uint32_t Q = d->Q = (uint32_t)made.b;
    const uint8_t *edges = image + 14 * Q;
    uint8_t used[256] = {0};
    uint32_t classes = 1;                           /* class 0: events of no edge */
    for (uint32_t k = 0; k < made.c; k++) used[edges[4 * k]] = 1;
    for (uint32_t e = 0; e < 256; e++)
        if (used[e]) d->class[e] = (uint8_t)classes++;
    if (classes > 256)                              /* every event is used: no class 0 is needed */
        for (uint32_t e = 0; e < 256; e++) d->class[e] = (uint8_t)e;
    while ((1u << d->shift) < classes && d->shift < 8) d->shift++;
    d->row = aligned_alloc(64, (sizeof(uint32_t) * Q << d->shift) + 64 - (sizeof(uint32_t) * Q << d->shift) % 64);
    for (uint32_t p = 0; p < Q; p++) {
        const uint8_t *r = image + 14 * p;
        uint32_t fallback = le16(r + 4), *row = d->row + ((size_t)p << d->shift);
        for (uint32_t k = 0; k < 1u << d->shift; k++)
            row[k] = p ? d->row[((size_t)fallback << d->shift) + k] + 0x10000 : 0;
        const uint8_t *edge = edges + 4 * le16(r);
        for (uint32_t j = 0, count = le16(r + 2); j < count; j++) row[d->class[edge[4 * j]]] = le16(edge + 4 * j + 2);
        d->link[p] = (uint16_t)le16(r + 10);
        d->record[p] = le16(image + 14 * fallback + 10) | (uint64_t)le16(r + 6) << 32 | (uint64_t)r[12] << 48;
    }
    return d;
}
void dense_drop(void *built) {
    free(((dense *)built)->row);
    free(built);
}
size_t dense_memory(void *built) { return sizeof(dense) + (4u * ((dense *)built)->Q << ((dense *)built)->shift); }

uint64_t dense_walk(void *built, const uint8_t *log, size_t nlog, size_t run, uint8_t *list, size_t room,
                    drain_call drain, void *to) {
    const dense *d = built;
    (void)run;
    uint8_t *at = list, *const end = list + (room & ~(size_t)7);
    const uint32_t shift = d->shift;
    uint32_t p = 0;
    uint64_t steps = 0, total = 0;
    for (size_t i = 0; i < nlog; i++) {
        const uint32_t x = d->row[((size_t)p << shift) + d->class[log[i]]];
        p = x & 0xffff;
        steps += x >> 16;
        uint32_t link = d->link[p];
        if (__builtin_expect(link != 0, 0)) {
            if ((size_t)(end - at) < 8 * (size_t)d->Q) {
                total += (uint64_t)(at - list) / 8;
                if (drain) drain(to, list, (size_t)(at - list) / 8);
                at = list;
            }
            do {
                const uint64_t r = d->record[link];
                put64(at, (uint32_t)(i + 1) | (r & 0x00ffffff00000000ull));
                at += 8;
                link = r & 0xffff;
            } while (link);
        }
    }
    if (drain) drain(to, list, (size_t)(at - list) / 8);
    steps_walked = steps;
    return total + (uint64_t)(at - list) / 8;
}
