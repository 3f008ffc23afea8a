/* c-rules: the compile in C under the rules that the proved compile keeps, so that the price of the rules and the price
   of the language can be told apart:
     - no edges are kept; the work arrays have 512 and 1,024 entries;
     - a place's next place is computed anew each time, through its fallbacks, upwards from the chain's end;
     - a chain met again is read to its end, and so is the chain that it is compared with;
     - whether a state stands in the rest of a chain is asked of an array of seen states, fresh for each edge;
     - when a place is opened, an event that leads from every state of its chain, and from the start, to where one of the
       three events before it leads is passed over, as the chain after it was met; until eight events are not like that;
     - places and edges are counted first, and written afterwards;
     - what an event makes of the rest of a chain is then read from the image, as far as it is written.
   Everything else is as fast as could be made. COUNT_READS counts entries read, for the search of slow books. */
#include "contest.h"
#include "lookup.h"
#ifdef COUNT_READS
uint64_t reads;
#define READ() reads++
#else
#define READ() (void)0
#endif

typedef struct {
    const uint8_t *states, *edges;      /* the book's tables */
    uint16_t first[512];                /* a state's first edge */
    uint16_t newest[512];               /* a head's newest place; 0 is empty, as place 0 is in no head's list */
    uint16_t earlier[1024];             /* the earlier place of the same head */
    uint16_t head[1024], level[1024], fallback[1024];
    uint32_t places;
} work;

static answer refused(uint32_t number) { return (answer){number, 0, 0, 0, 0, 0}; }

static inline uint32_t edge_count(const work *w, uint32_t state) { return le16(w->states + 4 * state + 2); }

static inline int same_chain(const work *w, uint32_t a, uint32_t b) {
    while (a && b) {
        READ();
        if (w->head[a] != w->head[b] || w->level[a] != w->level[b]) return 0;
        a = w->fallback[a];
        b = w->fallback[b];
    }
    return a == b;
}

/* The place whose chain has this head at this level and then the chain of the place rest; 0 where there is none. */
static inline uint32_t find(const work *w, uint32_t state, uint32_t level, uint32_t rest) {
    for (uint32_t q = w->newest[state]; q; q = w->earlier[q]) {
        READ();
        if (w->level[q] == level && same_chain(w, w->fallback[q], rest)) return q;
    }
    return 0;
}

/* The place of what follows the head in p's chain after an event. The states of its chain are then seen. */
static uint32_t rest_after(const work *w, uint32_t p, uint32_t event, uint8_t seen[512]) {
    memset(seen, 0, 512);
    if (!p) return 0;
    uint16_t chain[512];                /* a chain has at most 511 members, and place 0 ends it */
    uint32_t n = 0, rest = 0;
    for (uint32_t f = w->fallback[p]; f; f = w->fallback[f]) chain[n++] = (uint16_t)f;
    chain[n++] = 0;
    while (n) {
        uint32_t f = chain[--n], head = w->head[f];
        READ();
        uint32_t state = lookup(w->edges + 4 * w->first[head], edge_count(w, head), event);
        if (!state || seen[state]) continue;
        seen[state] = 1;
        rest = find(w, state, w->level[f] + 1u, rest);
    }
    return rest;
}

/* Most states of a long chain have few edges, and none by either event. */
static inline int leads_alike(const uint8_t *edge, uint32_t count, uint32_t a, uint32_t b) {
    if (count <= 8) {
        const uint8_t *at = edge, *end = edge + 4 * count;
        while (at < end && *at != a && *at != b) at += 4;
        if (at == end) return 1;
    }
    return lookup(edge, count, a) == lookup(edge, count, b);
}

/* Whether every state of p's chain but its head, and the start, leads by both events to the same state, or by both to
   none. */
static int alike(const work *w, uint32_t p, uint32_t a, uint32_t b) {
    while (p) {
        p = w->fallback[p];
        READ();
        uint32_t head = w->head[p];
        if (!leads_alike(w->edges + 4 * w->first[head], edge_count(w, head), a, b)) return 0;
    }
    return 1;
}

/* Whether one of the three edges before edge j of p's head leads alike. */
static int met_before(const work *w, uint32_t p, const uint8_t *first, uint32_t j) {
    const uint8_t *edge = first + 4 * j;
    for (uint32_t k = j > 3 ? j - 3 : 0; k < j; k++)
        if (le16(first + 4 * k + 2) == le16(edge + 2) && alike(w, p, first[4 * k], edge[0])) return 1;
    return 0;
}

/* Numbers the places breadth first: whether there are at most 1,024. */
static int number_places(work *w) {
    uint8_t seen[512];
    for (uint32_t p = 0; p < w->places; p++) {
        uint32_t head = w->head[p], count = edge_count(w, head);
        const uint8_t *first = w->edges + 4 * w->first[head], *edge = first;
        for (uint32_t j = 0, tries = 8; j < count; j++, edge += 4) {
            if (tries && met_before(w, p, first, j)) continue;
            if (tries) tries--;
            uint32_t state = le16(edge + 2), level = w->level[p] + 1u, rest = rest_after(w, p, edge[0], seen);
            if (seen[state] || find(w, state, level, rest)) continue;
            if (w->places == 1024) return 0;
            uint32_t q = w->places++;
            w->head[q] = (uint16_t)state;
            w->level[q] = (uint16_t)level;
            w->fallback[q] = (uint16_t)rest;
            w->earlier[q] = w->newest[state];
            w->newest[state] = (uint16_t)q;
        }
    }
    return 1;
}

/* The number of the edge with this event among the edges of a state, which rise; `count` where there is none. */
static inline uint32_t edge_number(const uint8_t *edge, uint32_t count, uint32_t event) {
    uint32_t j = 0, left = count;
    while (left) {
        uint32_t half = left / 2, found = edge[4 * (j + half)];
        if (found == event) return j + half;
        if (found < event) j += half + 1, left -= half + 1;
        else left = half;
    }
    return count;
}

/* The same as rest_after, by a walk over the image: the edges of the places below p are written, `start` has those of
   place 0. */
static inline uint32_t rest_written(const work *w, const uint8_t *out, const uint16_t start[256], uint32_t p, uint32_t event) {
    if (!p) return 0;
    for (uint32_t g = w->fallback[p]; g; g = w->fallback[g]) {
        uint32_t head = w->head[g], count = edge_count(w, head);
        READ();
        uint32_t i = edge_number(w->edges + 4 * w->first[head], count, event);
        if (i < count) return le16(out + 14 * w->places + 4 * (le16(out + 14 * g) + i) + 2);
    }
    return start[event];
}

answer rules_compile(const uint8_t *book, size_t n, uint8_t *out, size_t room) {
    answer checked = plain_check_book(book, n);
    if (checked.number) return checked;
    uint32_t S = (uint32_t)checked.a, T = 0;
    work w;
    w.states = book + n - le32(book + n - 12);
    w.edges = w.states + 4 * S;
    w.places = 1;
    memset(w.newest, 0, sizeof w.newest);
    w.head[0] = w.level[0] = w.fallback[0] = w.earlier[0] = 0;
    for (uint32_t s = 0, k = 0; s < S; s++) {
        w.first[s] = (uint16_t)k;
        k += edge_count(&w, s);
    }
    if (!number_places(&w)) return refused(14);
    for (uint32_t p = 0; p < w.places; p++) T += edge_count(&w, w.head[p]);
    if (T > 4096) return refused(15);
    uint32_t length = 14 * w.places + 4 * T + 12, first = 0;
    if (room < length) return refused(16);
    uint8_t *to = out + 14 * w.places;
    uint16_t start[256] = {0};
    for (uint32_t p = 0; p < w.places; p++) {
        uint32_t head = w.head[p], count = edge_count(&w, head), mark = w.states[4 * head];
        uint8_t *r = out + 14 * p;
        put16(r, first);
        put16(r + 2, count);
        put16(r + 4, w.fallback[p]);
        put16(r + 6, w.level[p]);
        put16(r + 8, head);
        put16(r + 10, mark ? p : p ? le16(out + 14 * w.fallback[p] + 10) : 0);
        put16(r + 12, mark);
        const uint8_t *edge = w.edges + 4 * w.first[head];
        for (uint32_t j = 0; j < count; j++, edge += 4, to += 4) {
            uint32_t rest = rest_written(&w, out, start, p, edge[0]), target = find(&w, le16(edge + 2), w.level[p] + 1u, rest);
            if (!target) target = rest;         /* the state stands in the rest already */
            if (!p) start[edge[0]] = (uint16_t)target;
            put32(to, edge[0] | target << 16);
        }
        first += count;
    }
    put32(to, length);
    put16(to + 4, w.places);
    put16(to + 6, T);
    put16(to + 8, 1);
    to[10] = 'S';
    to[11] = 'M';
    return (answer){0, 0, length, w.places, T, 0};
}
