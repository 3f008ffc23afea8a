/* A changed input is mostly refused by its trailer. Here some of what a change broke is set right again, now more and
 * now less of it, so that every refusal is met, and accepted books and images are met too. Not instrumented: what it
 * decides is no path. */
#include "call.h"

#include <string.h>

size_t LLVMFuzzerMutate(uint8_t *data, size_t size, size_t most);
size_t LLVMFuzzerCustomMutator(uint8_t *data, size_t size, size_t most, unsigned seed);

static uint32_t get16(const uint8_t *at) { return (uint32_t)at[0] | (uint32_t)at[1] << 8; }

static void set16(uint8_t *at, size_t number)
{
    at[0] = (uint8_t)number;
    at[1] = (uint8_t)(number >> 8);
}

static void set_trailer(uint8_t *trailer, size_t distance, size_t first, size_t edges, uint8_t letter)
{
    set16(trailer, distance & 65535);
    set16(trailer + 2, distance >> 16);
    set16(trailer + 4, first);
    set16(trailer + 6, edges);
    set16(trailer + 8, 1);
    trailer[10] = 'S';
    trailer[11] = letter;
}

/* Counts that add up: each takes what is left at most, the last all of it. `stride` is a record's length. */
static void repair_counts(uint8_t *first_count, size_t stride, size_t records, size_t edges)
{
    size_t left = edges;
    for (size_t i = 0; i < records; i++) {
        uint8_t *count = first_count + stride * i;
        size_t own = get16(count) < left ? get16(count) : left;
        if (i + 1 == records)
            own = left;
        set16(count, own);
        left -= own;
    }
}

/* Events that rise within a record's edges. */
static void repair_events(uint8_t *edge, size_t count)
{
    for (size_t j = 1; j < count; j++)
        if (edge[4 * j] <= edge[4 * (j - 1)] && edge[4 * (j - 1)] < 255)
            edge[4 * j] = (uint8_t)(edge[4 * (j - 1)] + 1);
}

static void repair_book(uint8_t *book, size_t n, unsigned seed)
{
    if (n < 16 || n > 65536)
        return;
    uint8_t *trailer = book + n - 12;
    size_t records = (n - 12) / 4;
    size_t states = get16(trailer + 4) % 513, edges = get16(trailer + 6) % 2049;
    if (states < 1)
        states = 1;
    if (states > records)
        states = records;
    if (edges > records - states)
        edges = records - states;
    set_trailer(trailer, 4 * states + 4 * edges + 12, states, edges, 'B');
    uint8_t *state = trailer - 4 * (states + edges), *edge = state + 4 * states;
    if (seed & 1)
        return;
    for (size_t i = 0; i < states + edges; i++)
        state[4 * i + 1] = 0;
    repair_counts(state + 2, 4, states, edges);
    if (seed & 2)
        return;
    state[0] = 0;
    for (size_t s = 0, k = 0; s < states; s++) {
        size_t count = get16(state + 4 * s + 2);
        repair_events(edge + 4 * k, count);
        for (size_t j = 0; j < count; j++, k++) {
            size_t target = get16(edge + 4 * k + 2);
            if (s + 1 < states && (target <= s || target >= states))
                set16(edge + 4 * k + 2, s + 1 + target % (states - 1 - s));
        }
        /* What has no edge out is a signature's end. */
        if (s > 0 && count == 0 && state[4 * s] == 0 && (seed & 4))
            state[4 * s] = 1;
    }
}

static void repair_image(uint8_t *image, size_t n, unsigned seed)
{
    if (n < 26 || n % 2 != 0)
        return;
    uint8_t *trailer = image + n - 12;
    size_t places = get16(trailer + 4) % 1025;
    if (places < 1)
        places = 1;
    if (places > (n - 12) / 14)
        places = (n - 12) / 14;
    /* What the places leave must be whole edges. */
    if ((n - 12 - 14 * places) % 4 != 0)
        places = places > 1 ? places - 1 : places + 1;
    if (14 * places + 12 > n)
        return;
    size_t edges = (n - 12 - 14 * places) / 4;
    set_trailer(trailer, n, places, edges, 'M');
    if (edges > 4096 || (seed & 1))
        return;
    repair_counts(image + 2, 14, places, edges);
    memset(image + 4, 0, 10);
    for (size_t p = 0, sum = 0; p < places; sum += get16(image + 14 * p + 2), p++) {
        uint8_t *record = image + 14 * p;
        set16(record, sum);
        record[13] = 0;
        if (p == 0)
            continue;
        size_t fallback = get16(record + 4) % p, below = get16(image + 14 * fallback + 6);
        set16(record + 4, fallback);
        if (get16(record + 6) <= below)
            set16(record + 6, below + 1);
        set16(record + 8, 1 + get16(record + 8) % 511);
        set16(record + 10, record[12] != 0 ? p : get16(image + 14 * fallback + 10));
    }
    if (seed & 2)
        return;
    for (size_t p = 0, k = 0; p < places; p++) {
        size_t count = get16(image + 14 * p + 2), level = get16(image + 14 * p + 6);
        uint8_t *edge = image + 14 * places + 4 * k;
        repair_events(edge, count);
        for (size_t j = 0; j < count; j++, k++) {
            size_t target = get16(edge + 4 * j + 2);
            edge[4 * j + 1] = 0;
            if (places > 1 && (target < 1 || target >= places))
                target = 1 + target % (places - 1);
            /* Down to a level that may be reached: every fallback is lower, and all but the empty chain is a place. */
            while (target > 0 && target < places && get16(image + 14 * target + 6) > level + 1 &&
                   get16(image + 14 * target + 4) > 0)
                target = get16(image + 14 * target + 4);
            set16(edge + 4 * j + 2, target);
        }
    }
}

size_t LLVMFuzzerCustomMutator(uint8_t *data, size_t size, size_t most, unsigned seed)
{
    size = LLVMFuzzerMutate(data, size, most);
    if (size == 0 || seed % 4 == 0)
        return size;
    unsigned function = data[0] & 15;
    if (function >= FUNCTIONS || size < header_of(function))
        return size;
    uint8_t *main = data + header_of(function);
    size_t left = size - header_of(function);
    if (has_log(function)) {
        size_t nlog = get16(main - 2);
        nlog = nlog < left ? nlog : left;
        main += nlog;
        left -= nlog;
    }
    switch (function) {
    case CHECK_BOOK: case COMPILE: case WHOLE:
        repair_book(main, left, seed >> 8);
        break;
    case CHECK_IMAGE: case FALLBACK: case LEVEL: case MARK: case EDGE: case STEP: case RUN:
        repair_image(main, left, seed >> 8);
        break;
    default:
        break;
    }
    return size;
}
