/* A book while it is made: where each event leads from each state, 0 for nowhere. Numbers rise along edges if states
   are taken in that order, which every maker here does. */
#ifndef DRAFT_H
#define DRAFT_H
#include <stdio.h>
#include <stdlib.h>
#include "contest.h"

typedef struct {
    uint16_t to[STATES_MOST][256];
    uint8_t mark[STATES_MOST];
    uint32_t states;
} draft;

static inline void draft_clear(draft *d) {
    memset(d, 0, sizeof *d);
    d->states = 1;
}
static inline uint16_t draft_state(draft *d) {
    if (d->states == STATES_MOST) {
        fprintf(stderr, "a book of more than 512 states\n");
        exit(1);
    }
    return (uint16_t)d->states++;
}
static inline void draft_word(draft *d, const uint8_t *events, uint32_t length, uint8_t mark) {
    uint32_t s = 0;
    for (uint32_t i = 0; i < length; i++) {
        if (!d->to[s][events[i]]) d->to[s][events[i]] = draft_state(d);
        s = d->to[s][events[i]];
    }
    d->mark[s] = mark;
}
static inline uint32_t draft_width(const draft *d, uint32_t s) {
    uint32_t width = 0;
    for (uint32_t e = 0; e < 256; e++) width += d->to[s][e] != 0;
    return width;
}
/* States that nothing leads to go; the rest keep their order, so that numbers still rise along edges. */
static inline void draft_prune(draft *d) {
    uint16_t reached[STATES_MOST] = {1}, number[STATES_MOST];
    uint32_t left = 0;
    for (uint32_t s = 0; s < d->states; s++)
        for (uint32_t e = 0; reached[s] && e < 256; e++)
            if (d->to[s][e]) reached[d->to[s][e]] = 1;
    for (uint32_t s = 0; s < d->states; s++) number[s] = (uint16_t)(reached[s] ? left++ : 0);
    for (uint32_t s = 0; s < d->states; s++) {
        if (!reached[s]) continue;
        uint16_t row[256];
        for (uint32_t e = 0; e < 256; e++) row[e] = d->to[s][e] ? number[d->to[s][e]] : 0;
        memcpy(d->to[number[s]], row, sizeof row);
        d->mark[number[s]] = d->mark[s];
    }
    d->states = left;
}
/* The book's bytes; 0 where it has too many edges. */
static inline size_t draft_write(const draft *d, uint8_t *book) {
    uint32_t S = d->states, E = 0;
    uint8_t *o = book;
    for (uint32_t s = 0; s < S; s++, o += 4) {
        uint32_t width = draft_width(d, s);
        o[0] = d->mark[s];
        o[1] = 0;
        put16(o + 2, width);
        E += width;
    }
    if (E > EDGES_MOST) return 0;
    for (uint32_t s = 0; s < S; s++)
        for (uint32_t e = 0; e < 256; e++)
            if (d->to[s][e]) {
                o[0] = (uint8_t)e;
                o[1] = 0;
                put16(o + 2, d->to[s][e]);
                o += 4;
            }
    put32(o, 4 * S + 4 * E + 12);
    put16(o + 4, S);
    put16(o + 6, E);
    put16(o + 8, 1);
    o[10] = 'S';
    o[11] = 'B';
    return (size_t)(o + 12 - book);
}
#endif
