/* c-plain: document 01 in straightforward C, each rule where the document has it. Edges are searched one after the
   other, numbers are read byte by byte, a chain met again is compared whole, records are counted before they are
   written, and a run checks its image first. */
#include "contest.h"

static uint32_t u16(const uint8_t *p) { return p[0] | p[1] << 8; }
static uint32_t u32(const uint8_t *p) { return u16(p) | u16(p + 2) << 16; }
static void w16(uint8_t *p, uint32_t v) {
    p[0] = v & 255;
    p[1] = v >> 8 & 255;
}
static void w32(uint8_t *p, uint32_t v) {
    w16(p, v & 65535);
    w16(p + 2, v >> 16);
}
static answer refused(uint32_t number, uint32_t place) { return (answer){number, place, 0, 0, 0, 0}; }

answer plain_check_book(const uint8_t *book, size_t n) {
    if (n < 12) return refused(1, 0);
    if (n > BOOK_MOST) return refused(2, 0);
    const uint8_t *trailer = book + n - 12;
    if (trailer[10] != 'S' || trailer[11] != 'B') return refused(3, 0);
    if (u16(trailer + 8) != 1) return refused(4, 0);
    uint32_t distance = u32(trailer), S = u16(trailer + 4), E = u16(trailer + 6);
    if (S < 1 || S > STATES_MOST || E > EDGES_MOST) return refused(5, 0);
    if (distance != 4 * S + 4 * E + 12 || distance > n) return refused(6, 0);
    const uint8_t *states = book + n - distance, *edges = states + 4 * S;
    for (uint32_t i = 0; i < S + E; i++)
        if (states[4 * i + 1]) return refused(7, 4 * i);
    uint32_t sum = 0;
    for (uint32_t s = 0; s < S; s++) sum += u16(states + 4 * s + 2);
    if (sum != E) return refused(8, 0);
    uint32_t k = 0;
    for (uint32_t s = 0; s < S; s++)
        for (uint32_t j = 0, count = u16(states + 4 * s + 2); j < count; j++, k++)
            if (j && edges[4 * k] <= edges[4 * k - 4]) return refused(9, 4 * (S + k));
    uint8_t entered[STATES_MOST] = {0};
    k = 0;
    for (uint32_t s = 0; s < S; s++)
        for (uint32_t j = 0, count = u16(states + 4 * s + 2); j < count; j++, k++) {
            uint32_t target = u16(edges + 4 * k + 2);
            if (target <= s || target >= S) return refused(10, 4 * (S + k));
            entered[target] = 1;
        }
    if (states[0]) return refused(11, 0);
    for (uint32_t s = 1; s < S; s++)
        if (!entered[s]) return refused(12, 4 * s);
    for (uint32_t s = 1; s < S; s++)
        if (!states[4 * s] && !u16(states + 4 * s + 2)) return refused(13, 4 * s);
    return (answer){0, 0, S, E, 0, 0};
}

answer plain_check_image(const uint8_t *image, size_t n) {
    if (n < 12) return refused(17, 0);
    const uint8_t *trailer = image + n - 12;
    uint32_t Q = u16(trailer + 4), T = u16(trailer + 6);
    if (trailer[10] != 'S' || trailer[11] != 'M' || u16(trailer + 8) != 1) return refused(17, 0);
    if (Q < 1 || Q > PLACES_MOST || T > 4096) return refused(17, 0);
    if (u32(trailer) != 14 * Q + 4 * T + 12 || n != 14 * Q + 4 * T + 12) return refused(17, 0);
    uint32_t sum = 0;
    for (uint32_t p = 0; p < Q; p++) {
        const uint8_t *r = image + 14 * p;
        uint32_t fallback = u16(r + 4), level = u16(r + 6), head = u16(r + 8), link = u16(r + 10), mark = r[12];
        if (u16(r) != sum || r[13]) return refused(18, 14 * p);
        if (p == 0) {
            if (fallback || level || head || link || mark) return refused(18, 0);
        } else {
            if (head < 1 || head > 511 || fallback >= p) return refused(18, 14 * p);
            const uint8_t *f = image + 14 * fallback;
            if (level <= u16(f + 6) || link != (mark ? p : u16(f + 10))) return refused(18, 14 * p);
        }
        sum += u16(r + 2);
    }
    if (sum != T) return refused(18, 14 * Q);
    uint32_t k = 0;
    for (uint32_t p = 0; p < Q; p++) {
        uint32_t count = u16(image + 14 * p + 2), level = u16(image + 14 * p + 6);
        for (uint32_t j = 0; j < count; j++, k++) {
            const uint8_t *edge = image + 14 * Q + 4 * k;
            uint32_t target = u16(edge + 2);
            if (edge[1] || (j && edge[0] <= edge[-4]) || target < 1 || target >= Q ||
                u16(image + 14 * target + 6) > level + 1)
                return refused(19, 14 * Q + 4 * k);
        }
    }
    return (answer){0, 0, Q, T, 0, 0};
}

/* ---- compile ---- */
typedef struct {
    uint16_t head, fallback, level, earlier;
    uint32_t first;
} place_made;

typedef struct {
    const uint8_t *states, *edges;
    uint32_t first[STATES_MOST];
    place_made place[PLACES_MOST];
    uint16_t newest[STATES_MOST];       /* 0 is empty: place 0 is in no head's list */
    uint32_t Q, T;
    uint16_t target[PLACES_MOST * 256];
} work;

static uint32_t next_place(const work *w, uint32_t p, uint8_t event) {
    for (;;) {
        uint32_t s = w->place[p].head, count = u16(w->states + 4 * s + 2);
        const uint8_t *edge = w->edges + 4 * w->first[s];
        for (uint32_t j = 0; j < count; j++)
            if (edge[4 * j] == event) return w->target[w->place[p].first + j];
        if (p == 0) return 0;
        p = w->place[p].fallback;
    }
}
static int in_chain(const work *w, uint32_t p, uint32_t state) {
    for (; p; p = w->place[p].fallback)
        if (w->place[p].head == state) return 1;
    return 0;
}
static int same_chain(const work *w, uint32_t a, uint32_t b) {
    while (a && b) {
        if (w->place[a].head != w->place[b].head || w->place[a].level != w->place[b].level) return 0;
        a = w->place[a].fallback;
        b = w->place[b].fallback;
    }
    return a == b;
}
static void write_image(const work *w, uint8_t *out, uint32_t length) {
    uint8_t *trailer = out + length - 12;
    for (uint32_t p = 0; p < w->Q; p++) {
        const place_made *x = &w->place[p];
        uint32_t s = x->head, count = u16(w->states + 4 * s + 2), mark = w->states[4 * s];
        uint8_t *r = out + 14 * p;
        w16(r, x->first);
        w16(r + 2, count);
        w16(r + 4, x->fallback);
        w16(r + 6, x->level);
        w16(r + 8, s);
        w16(r + 10, mark ? p : p ? u16(out + 14 * x->fallback + 10) : 0);
        r[12] = (uint8_t)mark;
        r[13] = 0;
        for (uint32_t j = 0; j < count; j++) {
            uint8_t *edge = out + 14 * w->Q + 4 * (x->first + j);
            edge[0] = w->edges[4 * (w->first[s] + j)];
            edge[1] = 0;
            w16(edge + 2, w->target[x->first + j]);
        }
    }
    w32(trailer, length);
    w16(trailer + 4, w->Q);
    w16(trailer + 6, w->T);
    w16(trailer + 8, 1);
    trailer[10] = 'S';
    trailer[11] = 'M';
}

answer plain_compile(const uint8_t *book, size_t n, uint8_t *out, size_t room) {
    answer checked = plain_check_book(book, n);
    if (checked.number) return checked;
    uint32_t S = (uint32_t)checked.a;
    static work w;
    memset(w.place, 0, sizeof w.place);
    memset(w.newest, 0, sizeof w.newest);
    w.states = book + n - u32(book + n - 12);
    w.edges = w.states + 4 * S;
    w.Q = 1;
    w.T = 0;
    for (uint32_t s = 0, k = 0; s < S; s++) {
        w.first[s] = k;
        k += u16(w.states + 4 * s + 2);
    }
    for (uint32_t p = 0; p < w.Q; p++) {
        uint32_t s = w.place[p].head, count = u16(w.states + 4 * s + 2), level = w.place[p].level + 1u;
        w.place[p].first = w.T;
        for (uint32_t j = 0; j < count; j++) {
            const uint8_t *edge = w.edges + 4 * (w.first[s] + j);
            uint32_t state = u16(edge + 2), rest = p ? next_place(&w, w.place[p].fallback, edge[0]) : 0, q = rest;
            if (!in_chain(&w, rest, state)) {
                for (q = w.newest[state]; q; q = w.place[q].earlier)
                    if (w.place[q].level == level && same_chain(&w, w.place[q].fallback, rest)) break;
                if (!q) {
                    if (w.Q == PLACES_MOST) return refused(14, 0);
                    q = w.Q++;
                    w.place[q] = (place_made){(uint16_t)state, (uint16_t)rest, (uint16_t)level, w.newest[state], 0};
                    w.newest[state] = (uint16_t)q;
                }
            }
            w.target[w.T++] = (uint16_t)q;
        }
    }
    if (w.T > 4096) return refused(15, 0);
    uint32_t length = 14 * w.Q + 4 * w.T + 12;
    if (room < length) return refused(16, 0);
    write_image(&w, out, length);
    return (answer){0, 0, length, w.Q, w.T, 0};
}

/* ---- run ---- */
static uint32_t edge_of(const uint8_t *image, uint32_t Q, uint32_t p, uint8_t event) {
    uint32_t first = u16(image + 14 * p), count = u16(image + 14 * p + 2);
    const uint8_t *edge = image + 14 * Q + 4 * first;
    for (uint32_t j = 0; j < count; j++)
        if (edge[4 * j] == event) return u16(edge + 4 * j + 2);
    return 0;
}
static uint32_t link_after(const uint8_t *image, uint32_t link) {
    return u16(image + 14 * u16(image + 14 * link + 4) + 10);
}

answer plain_run(const uint8_t *image, size_t nimage, uint32_t place, uint32_t base, const uint8_t *log, size_t n,
                 uint8_t *out, size_t room) {
    answer checked = plain_check_image(image, nimage);
    if (checked.number) return checked;
    uint32_t Q = (uint32_t)checked.a;
    if (place >= Q) return refused(20, 0);
    if (n > 4294967295u - base) return refused(21, 0);
    uint64_t records = 0, steps = 0, most = room / 8;
    size_t i;
    for (i = 0; i < n; i++) {
        uint32_t q = place, tried = 0, target, count = 0;
        while (!(target = edge_of(image, Q, q, log[i])) && q) {
            q = u16(image + 14 * q + 4);
            tried++;
        }
        uint32_t link = u16(image + 14 * target + 10);
        for (uint32_t l = link; l; l = link_after(image, l)) count++;
        if (count > most - records) break;
        for (uint32_t l = link; l; l = link_after(image, l)) {
            uint8_t *r = out + 8 * records++;
            w32(r, base + (uint32_t)i + 1);
            w16(r + 4, u16(image + 14 * l + 6));
            r[6] = image[14 * l + 12];
            r[7] = 0;
        }
        place = target;
        steps += tried;
    }
    return (answer){0, 0, i, place, records, steps};
}
