/* c-tuned: THE REFERENCE. Document 01's formats and calls in C made fast by hand, with nothing but scratch on the stack.
   The run trusts its image; c-checked is the same run with the image's check in front, as document 01 asks. */
#include "contest.h"
#include "lookup.h"

static answer refused(uint32_t number) { return (answer){number, 0, 0, 0, 0, 0}; }

/* ---- run ----
   Place 0 is a table of 256 targets made at each call. Where the log is long enough to pay for it, places and records
   are packed into 8 bytes each (16.5 KiB of stack in all); otherwise they are read in the image. */
#define INLINE static inline __attribute__((always_inline))

typedef struct {
    const uint8_t *image, *edges;
    uint32_t Q;
    const uint64_t *places, *records;       /* the packed tables; NULL: read the image */
} view;

/* first edge, edge count, fallback; packed, the link too */
INLINE uint64_t place_of(view v, uint32_t p) { return v.places ? v.places[p] : le64(v.image + 14 * (size_t)p); }
INLINE uint32_t link_of(view v, uint32_t p) {
    return v.places ? (uint32_t)(v.places[p] >> 48) : le16(v.image + 14 * (size_t)p + 10);
}
/* the next link in bits 0-15, then level and mark where a record has them */
INLINE uint64_t record_of(view v, uint32_t p) {
    if (v.records) return v.records[p];
    const uint8_t *r = v.image + 14 * (size_t)p;
    const uint64_t x = le64(r + 6);         /* level, head, link, mark, zero */
    return le16(v.image + 14 * (size_t)le16(r + 4) + 10) | (x & 0xffff) << 32 | (x & 0x00ff000000000000ull);
}

INLINE answer walk(view v, uint32_t place, uint32_t base, const uint8_t *log, size_t n, uint8_t *out, size_t room) {
    uint16_t zero[256];
    memset(zero, 0, sizeof zero);
    for (uint32_t j = 0, count = le16(v.image + 2); j < count; j++)
        zero[v.edges[4 * j]] = (uint16_t)le16(v.edges + 4 * j + 2);
    uint8_t *at = out, *const end = out + (room & ~(size_t)7);
    uint32_t p = place;
    uint64_t steps = 0;
    size_t i = 0;
    for (; i < n; i++) {
        uint32_t q = p, tried = 0;
        if (q == 0) {
            while (i < n && !zero[log[i]]) i++;     /* nothing begins: most events of a quiet log */
            if (i == n) break;
            q = zero[log[i]];
        } else {
            const uint32_t event = log[i];
            for (;;) {
                const uint64_t r = place_of(v, q);
                const uint32_t target = lookup(v.edges + 4 * (r & 0xffff), r >> 16 & 0xffff, event);
                if (target) {
                    q = target;
                    break;
                }
                q = r >> 32 & 0xffff;
                tried++;
                if (q == 0) {
                    q = zero[event];
                    break;
                }
            }
        }
        uint32_t link = link_of(v, q);
        if (link) {
            /* a chain has fewer than Q members, so that records are counted first only near the end of the room */
            if ((size_t)(end - at) < 8 * (size_t)v.Q) {
                size_t need = 0;
                for (uint32_t l = link; l; l = record_of(v, l) & 0xffff) need += 8;
                if (need > (size_t)(end - at)) break;
            }
            const uint64_t ends = (uint32_t)(base + (uint32_t)i + 1);
            do {
                const uint64_t r = record_of(v, link);
                put64(at, ends | (r & 0x00ffffff00000000ull));
                at += 8;
                link = r & 0xffff;
            } while (link);
        }
        p = q;
        steps += tried;
    }
    return (answer){0, 0, i, p, (uint64_t)(at - out) / 8, steps};
}

static answer run_in_place(view v, uint32_t place, uint32_t base, const uint8_t *log, size_t n, uint8_t *out,
                           size_t room) {
    v.places = v.records = NULL;
    return walk(v, place, base, log, n, out, room);
}
static answer run_packed(view v, uint32_t place, uint32_t base, const uint8_t *log, size_t n, uint8_t *out,
                         size_t room) {
    uint64_t places[PLACES_MOST], records[PLACES_MOST];
    for (uint32_t p = 0; p < v.Q; p++) {
        places[p] = (place_of(v, p) & 0xffffffffffffull) | (uint64_t)link_of(v, p) << 48;
        records[p] = record_of(v, p);
    }
    v.places = places;
    v.records = records;
    return walk(v, place, base, log, n, out, room);
}

answer tuned_run(const uint8_t *image, size_t nimage, uint32_t place, uint32_t base, const uint8_t *log, size_t n,
                 uint8_t *out, size_t room) {
    const uint32_t Q = le16(image + nimage - 8);
    if (place >= Q) return refused(20);
    if (n > 4294967295u - base) return refused(21);
    view v = {image, image + 14 * Q, Q, NULL, NULL};
    return n < 4 * (size_t)Q ? run_in_place(v, place, base, log, n, out, room)
                             : run_packed(v, place, base, log, n, out, room);
}

answer checked_run(const uint8_t *image, size_t nimage, uint32_t place, uint32_t base, const uint8_t *log, size_t n,
                   uint8_t *out, size_t room) {
    answer checked = plain_check_image(image, nimage);
    return checked.number ? checked : tuned_run(image, nimage, place, base, log, n, out, room);
}

/* ---- compile ----
   Head, level and fallback tell a chain met again; every edge's target is kept, so that the next place of a fallback
   is looked up and never computed twice; place 0 is a table. */
answer tuned_compile(const uint8_t *book, size_t n, uint8_t *out, size_t room) {
    answer checked = plain_check_book(book, n);
    if (checked.number) return checked;
    const uint32_t S = (uint32_t)checked.a;
    const uint8_t *states = book + n - le32(book + n - 12), *edges = states + 4 * S;
    struct { uint16_t head, fallback, level, earlier; } place[PLACES_MOST];
    uint32_t first_of[PLACES_MOST], Q = 1, T = 0;
    uint16_t first[STATES_MOST], newest[STATES_MOST], zero[256];
    static uint16_t target[PLACES_MOST * 256];
    memset(newest, 0, sizeof newest);
    memset(zero, 0, sizeof zero);
    memset(&place[0], 0, sizeof place[0]);
    for (uint32_t s = 0, k = 0; s < S; s++) {
        first[s] = (uint16_t)k;
        k += le16(states + 4 * s + 2);
    }
    for (uint32_t p = 0; p < Q; p++) {
        const uint32_t s = place[p].head, count = le16(states + 4 * s + 2), level = place[p].level + 1u;
        first_of[p] = T;
        for (uint32_t j = 0; j < count; j++) {
            const uint8_t *x = edges + 4 * (first[s] + j);
            const uint32_t event = x[0], state = le16(x + 2);
            uint32_t rest = 0, q;
            for (uint32_t f = place[p].fallback; p; f = place[f].fallback) {
                if (!f) {
                    rest = zero[event];
                    break;
                }
                const uint32_t head = place[f].head;
                const uint8_t *y = edges + 4 * first[head];
                uint32_t width = le16(states + 4 * head + 2), k = 0, found;
                if (width > 8) {
                    for (; width > 1; width -= width / 2) k = y[4 * (k + width / 2)] <= event ? k + width / 2 : k;
                    found = y[4 * k] == event;
                } else {
                    while (k < width && y[4 * k] < event) k++;
                    found = k < width && y[4 * k] == event;
                }
                if (found) {
                    rest = target[first_of[f] + k];
                    break;
                }
            }
            for (q = rest; q && place[q].head != state; q = place[q].fallback) {}
            if (q) {
                q = rest;
            } else {
                for (q = newest[state]; q; q = place[q].earlier)
                    if (place[q].level == level && place[q].fallback == rest) break;
                if (!q) {
                    if (Q == PLACES_MOST) return refused(14);
                    q = Q++;
                    place[q].head = (uint16_t)state;
                    place[q].fallback = (uint16_t)rest;
                    place[q].level = (uint16_t)level;
                    place[q].earlier = newest[state];
                    newest[state] = (uint16_t)q;
                }
            }
            if (!p) zero[event] = (uint16_t)q;
            target[T++] = (uint16_t)q;
        }
    }
    if (T > 4096) return refused(15);
    const uint32_t length = 14 * Q + 4 * T + 12;
    if (room < length) return refused(16);
    uint8_t *edge = out + 14 * Q, *trailer = out + length - 12;
    for (uint32_t p = 0; p < Q; p++) {
        uint8_t *r = out + 14 * p;
        const uint32_t s = place[p].head, count = le16(states + 4 * s + 2), mark = states[4 * s];
        const uint8_t *x = edges + 4 * first[s];
        put16(r, first_of[p]);
        put16(r + 2, count);
        put16(r + 4, place[p].fallback);
        put16(r + 6, place[p].level);
        put16(r + 8, s);
        put16(r + 10, mark ? p : p ? le16(out + 14 * place[p].fallback + 10) : 0);
        put16(r + 12, mark);
        for (uint32_t j = 0; j < count; j++, edge += 4, x += 4)
            put32(edge, x[0] | (uint32_t)target[first_of[p] + j] << 16);
    }
    put32(trailer, length);
    put16(trailer + 4, Q);
    put16(trailer + 6, T);
    put16(trailer + 8, 1);
    trailer[10] = 'S';
    trailer[11] = 'M';
    return (answer){0, 0, length, Q, T, 0};
}
