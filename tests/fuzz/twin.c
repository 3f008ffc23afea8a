/* The twin: document 01 in plain C. Byte-wise little-endian reads, linear searches, chains compared whole, records
 * counted before they are written. Branches are left apart where one would do: the fuzzer sees what was decided. */
#include "twin.h"

#include <string.h>

static uint32_t number16(const uint8_t *at) { return (uint32_t)at[0] | (uint32_t)at[1] << 8; }
static uint32_t number32(const uint8_t *at) { return number16(at) | number16(at + 2) << 16; }

static void put16(uint8_t *at, uint32_t number)
{
    at[0] = (uint8_t)number;
    at[1] = (uint8_t)(number >> 8);
}

static void put32(uint8_t *at, uint32_t number)
{
    put16(at, number & 65535);
    put16(at + 2, number >> 16);
}

static gusemrak_answer refused(uint32_t number, uint32_t place)
{
    return (gusemrak_answer){number, place, 0, 0, 0, 0};
}

static gusemrak_answer answered(uint64_t a, uint64_t b, uint64_t c, uint64_t d)
{
    return (gusemrak_answer){0, 0, a, b, c, d};
}

/* ---- Books: "The book", refusals 1 to 13 ---- */

/* Each number is judged over the whole book before the next. */
gusemrak_answer twin_check_book(const uint8_t *book, size_t n)
{
    if (n < 12)
        return refused(1, 0);
    if (n > 65536)
        return refused(2, 0);
    const uint8_t *trailer = book + n - 12;
    if (trailer[10] != 'S')
        return refused(3, 0);
    if (trailer[11] != 'B')
        return refused(3, 0);
    if (number16(trailer + 8) != 1)
        return refused(4, 0);
    uint32_t states = number16(trailer + 4), edges = number16(trailer + 6), distance = number32(trailer);
    if (states < 1)
        return refused(5, 0);
    if (states > 512)
        return refused(5, 0);
    if (edges > 2048)
        return refused(5, 0);
    if (distance != 4 * states + 4 * edges + 12)
        return refused(6, 0);
    if (distance > n)
        return refused(6, 0);
    const uint8_t *state = book + n - distance, *edge = state + 4 * states;
    for (uint32_t i = 0; i < states + edges; i++)
        if (state[4 * i + 1] != 0)
            return refused(7, 4 * i);
    uint32_t sum = 0;
    for (uint32_t s = 0; s < states; s++)
        sum += number16(state + 4 * s + 2);
    if (sum != edges)
        return refused(8, 0);
    for (uint32_t s = 0, k = 0; s < states; s++)
        for (uint32_t j = 0, count = number16(state + 4 * s + 2); j < count; j++, k++)
            if (j > 0 && edge[4 * k] <= edge[4 * (k - 1)])
                return refused(9, 4 * (states + k));
    uint8_t edge_in[512] = {0};
    for (uint32_t s = 0, k = 0; s < states; s++)
        for (uint32_t j = 0, count = number16(state + 4 * s + 2); j < count; j++, k++) {
            uint32_t target = number16(edge + 4 * k + 2);
            if (target <= s)
                return refused(10, 4 * (states + k));
            if (target >= states)
                return refused(10, 4 * (states + k));
            edge_in[target] = 1;
        }
    if (state[0] != 0)
        return refused(11, 0);
    for (uint32_t s = 1; s < states; s++)
        if (!edge_in[s])
            return refused(12, 4 * s);
    for (uint32_t s = 1; s < states; s++)
        if (state[4 * s] == 0 && number16(state + 4 * s + 2) == 0)
            return refused(13, 4 * s);
    return answered(states, edges, 0, 0);
}

/* ---- Compile: "Chains and places", refusals 14 to 16 ---- */

enum { MOST_PLACES = 1024, MOST_EDGES = 4096 };

struct place {
    uint32_t head, fallback, level, first;
    uint32_t earlier; /* the place before it with the same head, 0 for none */
};

/* The book that is compiled, and what is known of its places. */
static const uint8_t *book_state, *book_edge;
static uint32_t first_edge[512], newest[512];
static struct place places[MOST_PLACES];
static uint32_t place_count, edge_count;
/* Over 4,096 edges are counted on, as over 1,024 places are refused before them: each place has at most 256. */
static uint32_t target_of[MOST_PLACES * 256];

static uint32_t edges_of(uint32_t state) { return number16(book_state + 4 * state + 2); }
static const uint8_t *edge_of(uint32_t state, uint32_t j) { return book_edge + 4 * (first_edge[state] + j); }

/* Where an event leads from a place whose edges are all known. */
static uint32_t place_after(uint32_t place, uint8_t event)
{
    for (;;) {
        uint32_t head = places[place].head;
        for (uint32_t j = 0; j < edges_of(head); j++)
            if (edge_of(head, j)[0] == event)
                return target_of[places[place].first + j];
        if (place == 0)
            return 0;
        place = places[place].fallback;
    }
}

static int in_chain(uint32_t place, uint32_t state)
{
    for (; place != 0; place = places[place].fallback)
        if (places[place].head == state)
            return 1;
    return 0;
}

static int same_chain(uint32_t one, uint32_t other)
{
    for (; one != 0 && other != 0; one = places[one].fallback, other = places[other].fallback) {
        if (places[one].head != places[other].head)
            return 0;
        if (places[one].level != places[other].level)
            return 0;
    }
    return one == other;
}

/* The place of the chain with this head and this rest; 0 where it would be the 1,025th. */
static uint32_t place_of(uint32_t head, uint32_t level, uint32_t rest)
{
    for (uint32_t q = newest[head]; q != 0; q = places[q].earlier)
        if (places[q].level == level && same_chain(places[q].fallback, rest))
            return q;
    if (place_count == MOST_PLACES)
        return 0;
    places[place_count] = (struct place){head, rest, level, 0, newest[head]};
    newest[head] = place_count;
    return place_count++;
}

static void write_image(uint8_t *out, uint32_t length)
{
    uint8_t *edge = out + 14 * place_count, *trailer = out + length - 12;
    for (uint32_t p = 0; p < place_count; p++) {
        const struct place *place = &places[p];
        uint8_t *record = out + 14 * p, mark = book_state[4 * place->head];
        put16(record, place->first);
        put16(record + 2, edges_of(place->head));
        put16(record + 4, place->fallback);
        put16(record + 6, place->level);
        put16(record + 8, place->head);
        put16(record + 10, mark != 0 ? p : p == 0 ? 0 : number16(out + 14 * place->fallback + 10));
        record[12] = mark;
        record[13] = 0;
        for (uint32_t j = 0; j < edges_of(place->head); j++) {
            uint8_t *at = edge + 4 * (place->first + j);
            at[0] = edge_of(place->head, j)[0];
            at[1] = 0;
            put16(at + 2, target_of[place->first + j]);
        }
    }
    put32(trailer, length);
    put16(trailer + 4, place_count);
    put16(trailer + 6, edge_count);
    put16(trailer + 8, 1);
    trailer[10] = 'S';
    trailer[11] = 'M';
}

gusemrak_answer twin_compile(const uint8_t *book, size_t n, uint8_t *out, size_t room)
{
    gusemrak_answer checked = twin_check_book(book, n);
    if (checked.number != 0)
        return checked;
    uint32_t states = (uint32_t)checked.a;
    book_edge = book + n - 12 - 4 * checked.b;
    book_state = book_edge - 4 * states;
    for (uint32_t s = 0, k = 0; s < states; k += edges_of(s), s++)
        first_edge[s] = k;
    memset(newest, 0, sizeof newest);
    places[0] = (struct place){0, 0, 0, 0, 0};
    place_count = 1;
    edge_count = 0;
    for (uint32_t p = 0; p < place_count; p++) {
        uint32_t head = places[p].head;
        places[p].first = edge_count;
        for (uint32_t j = 0; j < edges_of(head); j++) {
            const uint8_t *edge = edge_of(head, j);
            uint32_t state = number16(edge + 2);
            uint32_t rest = p == 0 ? 0 : place_after(places[p].fallback, edge[0]);
            /* A state found anywhere in the rest of the chain is dropped. */
            uint32_t target = in_chain(rest, state) ? rest : place_of(state, places[p].level + 1, rest);
            if (target == 0)
                return refused(14, 0);
            target_of[edge_count++] = target;
        }
    }
    if (edge_count > MOST_EDGES)
        return refused(15, 0);
    uint32_t length = 14 * place_count + 4 * edge_count + 12;
    if (room < length)
        return refused(16, 0);
    write_image(out, length);
    return answered(length, place_count, edge_count, 0);
}

/* ---- Images: "The image", refusals 17 to 20 ---- */

static int place_record_wrong(const uint8_t *image, uint32_t p, uint32_t sum)
{
    const uint8_t *record = image + 14 * p;
    uint32_t fallback = number16(record + 4), level = number16(record + 6);
    uint32_t head = number16(record + 8), link = number16(record + 10), mark = record[12];
    if (number16(record) != sum)
        return 1;
    if (record[13] != 0)
        return 1;
    if (p == 0)
        return fallback != 0 || level != 0 || head != 0 || link != 0 || mark != 0;
    if (head < 1)
        return 1;
    if (head > 511)
        return 1;
    if (fallback >= p)
        return 1;
    if (level <= number16(image + 14 * fallback + 6))
        return 1;
    return link != (mark != 0 ? p : number16(image + 14 * fallback + 10));
}

gusemrak_answer twin_check_image(const uint8_t *image, size_t n)
{
    if (n < 12)
        return refused(17, 0);
    const uint8_t *trailer = image + n - 12;
    uint32_t count = number16(trailer + 4), edges = number16(trailer + 6);
    if (trailer[10] != 'S')
        return refused(17, 0);
    if (trailer[11] != 'M')
        return refused(17, 0);
    if (number16(trailer + 8) != 1)
        return refused(17, 0);
    if (count < 1 || count > 1024)
        return refused(17, 0);
    if (edges > 4096)
        return refused(17, 0);
    if (number32(trailer) != 14 * count + 4 * edges + 12)
        return refused(17, 0);
    if (n != 14 * count + 4 * edges + 12)
        return refused(17, 0);
    uint32_t sum = 0;
    for (uint32_t p = 0; p < count; p++) {
        if (place_record_wrong(image, p, sum))
            return refused(18, 14 * p);
        sum += number16(image + 14 * p + 2);
    }
    if (sum != edges)
        return refused(18, 14 * count);
    for (uint32_t p = 0, k = 0; p < count; p++)
        for (uint32_t j = 0; j < number16(image + 14 * p + 2); j++, k++) {
            const uint8_t *edge = image + 14 * count + 4 * k;
            uint32_t target = number16(edge + 2);
            if (edge[1] != 0)
                return refused(19, 14 * count + 4 * k);
            if (j > 0 && edge[0] <= edge[-4])
                return refused(19, 14 * count + 4 * k);
            if (target < 1 || target >= count)
                return refused(19, 14 * count + 4 * k);
            if (number16(image + 14 * target + 6) > number16(image + 14 * p + 6) + 1)
                return refused(19, 14 * count + 4 * k);
        }
    return answered(count, edges, 0, 0);
}

/* What a question begins with: 17 to 19, then 20. Number 0 where it may be asked. */
static gusemrak_answer opened(const uint8_t *image, size_t n, uint32_t place)
{
    gusemrak_answer checked = twin_check_image(image, n);
    if (checked.number != 0)
        return checked;
    if (place >= checked.a)
        return refused(20, 0);
    return checked;
}

gusemrak_answer twin_fallback(const uint8_t *image, size_t n, uint32_t place)
{
    gusemrak_answer open = opened(image, n, place);
    return open.number != 0 ? open : answered(number16(image + 14 * place + 4), 0, 0, 0);
}

gusemrak_answer twin_level(const uint8_t *image, size_t n, uint32_t place)
{
    gusemrak_answer open = opened(image, n, place);
    return open.number != 0 ? open : answered(number16(image + 14 * place + 6), 0, 0, 0);
}

gusemrak_answer twin_mark(const uint8_t *image, size_t n, uint32_t place)
{
    gusemrak_answer open = opened(image, n, place);
    return open.number != 0 ? open : answered(image[14 * place + 12], 0, 0, 0);
}

/* The target of a place's own edge, 0 where it has none. */
static uint32_t target(const uint8_t *image, uint32_t count, uint32_t place, uint8_t event)
{
    uint32_t first = number16(image + 14 * place);
    for (uint32_t j = 0; j < number16(image + 14 * place + 2); j++) {
        const uint8_t *edge = image + 14 * count + 4 * (first + j);
        if (edge[0] == event)
            return number16(edge + 2);
    }
    return 0;
}

gusemrak_answer twin_edge(const uint8_t *image, size_t n, uint32_t place, uint8_t event)
{
    gusemrak_answer open = opened(image, n, place);
    if (open.number != 0)
        return open;
    uint32_t to = target(image, (uint32_t)open.a, place, event);
    return answered(to != 0, to, 0, 0);
}

/* One event of a walk: the place after it; the failure steps are added to `steps`. */
static uint32_t walked(const uint8_t *image, uint32_t count, uint32_t place, uint8_t event, uint64_t *steps)
{
    for (;;) {
        uint32_t to = target(image, count, place, event);
        if (to != 0)
            return to;
        if (place == 0)
            return 0;
        place = number16(image + 14 * place + 4);
        *steps += 1;
    }
}

gusemrak_answer twin_step(const uint8_t *image, size_t n, uint32_t place, uint8_t event)
{
    gusemrak_answer open = opened(image, n, place);
    if (open.number != 0)
        return open;
    uint64_t steps = 0;
    uint32_t to = walked(image, (uint32_t)open.a, place, event, &steps);
    return answered(to, number16(image + 14 * to + 6), steps, 0);
}

/* ---- Runs and lists, refusals 21 to 24 ---- */

/* The records after an event, written where `out` is not null: one for each marked place of the chain. */
static size_t records(const uint8_t *image, uint32_t place, uint32_t end, uint8_t *out)
{
    size_t count = 0;
    for (; place != 0; place = number16(image + 14 * place + 4)) {
        uint8_t mark = image[14 * place + 12];
        if (mark == 0)
            continue;
        if (out != NULL) {
            uint8_t *record = out + 8 * count;
            put32(record, end);
            put16(record + 4, number16(image + 14 * place + 6));
            record[6] = mark;
            record[7] = 0;
        }
        count++;
    }
    return count;
}

gusemrak_answer twin_run(const uint8_t *image, size_t n, uint32_t place, uint32_t base,
                         const uint8_t *log, size_t nlog, uint8_t *out, size_t room)
{
    gusemrak_answer open = opened(image, n, place);
    if (open.number != 0)
        return open;
    if (base + (uint64_t)nlog > 4294967295u)
        return refused(21, 0);
    size_t taken = 0, written = 0;
    uint64_t steps = 0;
    for (; taken < nlog; taken++) {
        uint64_t of_this = 0;
        uint32_t next = walked(image, (uint32_t)open.a, place, log[taken], &of_this);
        size_t count = records(image, next, 0, NULL);
        if (count > room / 8 - written)
            break;
        if (count > 0)
            records(image, next, base + (uint32_t)taken + 1, out + 8 * written);
        written += count;
        place = next;
        steps += of_this;
    }
    return answered(taken, place, written, steps);
}

gusemrak_answer twin_short_list(const uint8_t *list, size_t n, uint8_t *out, size_t room)
{
    if (n % 8 != 0)
        return refused(22, 0);
    size_t kept = 0;
    for (size_t at = 0; at < n; at += 8)
        if (at == 0 || number32(list + at) != number32(list + at - 8))
            kept++;
    if (8 * kept > room)
        return refused(23, 0);
    kept = 0;
    for (size_t at = 0; at < n; at += 8)
        if (at == 0 || number32(list + at) != number32(list + at - 8))
            memcpy(out + 8 * kept++, list + at, 8);
    return answered(kept, 0, 0, 0);
}

gusemrak_answer twin_part(const uint8_t *log, size_t nlog, uint32_t base, uint32_t end, uint32_t length)
{
    (void)log; /* where the part lies hangs on the log's length alone */
    if (base + (uint64_t)nlog > 4294967295u)
        return refused(21, 0);
    if (length == 0)
        return refused(24, 0);
    if (length > end)
        return refused(24, 0);
    if (end - length < base)
        return refused(24, 0);
    if (end > base + nlog)
        return refused(24, 0);
    return answered(end - length - base, length, 0, 0);
}

uint8_t twin_group(uint8_t event)
{
    static const char letters[] = "SMCDW";
    return event < 0x50 ? (uint8_t)letters[event >> 4] : 'R';
}
