/* Looks for books that are slow to compile under the rules of c-rules: a climb from a book that is slow already, by small
   changes of its edges, that sometimes takes a step back. A book's score is the number of entries that the compile
   reads, which is the same on every machine.
     search STATES SECONDS SEED [line|tower|BOOK]
   STATES sets all limits in the proportion of document 01's (512 states, 2,048 edges; 1,024 places, 4,096 edges): a
   climb over 32 states tries thousands of books a second and shows the shape, which is then made at full size.
   The best book is printed by its rows and written to STATES-SEED.sb in the current folder. */
#include <math.h>
#include <stdio.h>
#include <stdlib.h>
#include <time.h>
#define COUNT_READS
#include "c_rules.c"

enum { FIRST = 0x20, EVENTS = 6 };

/* A book as a climb changes it: few events, 0 where there is no edge, as nothing leads to the start. */
typedef struct {
    uint32_t states;
    uint16_t to[STATES_MOST + 1][EVENTS];
} climber;
static uint32_t states_most;

/* Without the states that nothing leads to. */
static void prune(climber *c) {
    uint16_t reached[STATES_MOST] = {1}, number[STATES_MOST], left = 0;
    for (uint32_t s = 0; s < c->states; s++)
        for (uint32_t e = 0; reached[s] && e < EVENTS; e++)
            if (c->to[s][e]) reached[c->to[s][e]] = 1;
    for (uint32_t s = 0; s < c->states; s++) number[s] = reached[s] ? left++ : 0;
    for (uint32_t s = 0; s < c->states; s++)
        for (uint32_t e = 0; reached[s] && e < EVENTS; e++) c->to[number[s]][e] = number[c->to[s][e]];
    c->states = left;
}

/* Every state is marked: a mark costs the compile nothing, and a state without edges must have one. */
static size_t write_book(const climber *c, uint8_t *book) {
    uint32_t S = c->states, E = 0;
    uint8_t *edge = book + 4 * S;
    for (uint32_t s = 0; s < S; s++) {
        uint32_t from = E;
        for (uint32_t e = 0; e < EVENTS; e++)
            if (c->to[s][e]) {
                put32(edge + 4 * E, (FIRST + e) | (uint32_t)c->to[s][e] << 16);
                E++;
            }
        put32(book + 4 * s, (s ? 1u : 0u) | (E - from) << 16);
    }
    edge += 4 * E;
    put32(edge, 4 * S + 4 * E + 12);
    put16(edge + 4, S);
    put16(edge + 6, E);
    put16(edge + 8, 1);
    edge[10] = 'S';
    edge[11] = 'B';
    return 4 * S + 4 * E + 12;
}

static uint64_t score(const climber *c, answer *made) {
    static climber whole;
    static uint8_t book[BOOK_MOST], image[IMAGE_MOST];
    whole = *c;
    prune(&whole);
    size_t n = write_book(&whole, book);
    reads = 0;
    *made = (answer){1, 0, 0, 0, 0, 0};
    if (le16(book + n - 6) > 4 * states_most) return 0;
    *made = rules_compile(book, n, image, sizeof image);
    if (made->number || made->b > 2 * states_most || made->c > 8 * states_most) return 0;
    return reads;
}

/* A target `by` states on. */
static uint16_t on(const climber *c, uint32_t s, uint32_t by) {
    return by && s + by < c->states ? (uint16_t)(s + by) : 0;
}

static void change(climber *c, chance *luck) {
    uint32_t s = below(luck, c->states), e = below(luck, EVENTS), kind = below(luck, 12);
    uint32_t length = 1 + below(luck, 1 + below(luck, c->states - s));
    uint32_t by = below(luck, 3) ? below(luck, 3) : below(luck, 9);
    if (kind < 4) {                                             /* one edge */
        c->to[s][e] = on(c, s, by);
    } else if (kind < 7) {                                      /* one event along a stretch */
        for (uint32_t k = s; k < s + length; k++) c->to[k][e] = on(c, k, by);
    } else if (kind < 9) {                                      /* one row along a stretch */
        uint32_t from = below(luck, c->states);
        uint16_t row[EVENTS];
        memcpy(row, c->to[from], sizeof row);
        for (uint32_t k = s; k < s + length; k++)
            for (uint32_t x = 0; x < EVENTS; x++) c->to[k][x] = row[x] ? on(c, k, row[x] - from) : 0;
    } else if (kind == 9 && c->states > 3 && s) {               /* one state less: what led to it leads past it */
        memmove(c->to[s], c->to[s + 1], (c->states - s) * sizeof c->to[s]);
        c->states--;
        for (uint32_t k = 0; k < c->states; k++)
            for (uint32_t x = 0; x < EVENTS; x++) {
                if (c->to[k][x] > s) c->to[k][x]--;
                if (c->to[k][x] <= k || c->to[k][x] >= c->states) c->to[k][x] = 0;
            }
    } else if (kind == 10 && c->states < states_most) {         /* one state more: s leads to its own copy */
        memmove(c->to[s + 1], c->to[s], (c->states - s) * sizeof c->to[s]);
        c->states++;
        for (uint32_t k = 0; k < c->states; k++)
            for (uint32_t x = 0; x < EVENTS; x++)
                if (c->to[k][x] > s) c->to[k][x]++;
        for (uint32_t x = 0; x < EVENTS; x++)
            if (c->to[s][x]) c->to[s][x] = (uint16_t)(s + 1);
    } else {                                                    /* two events change places along a stretch */
        uint32_t f = below(luck, EVENTS);
        for (uint32_t k = s; k < s + length; k++) {
            uint16_t t = c->to[k][e];
            c->to[k][e] = c->to[k][f];
            c->to[k][f] = t;
        }
    }
}

static void show(const climber *c) {
    for (uint32_t s = 0, from = 0; s < c->states; s++) {
        int same = s + 1 < c->states;
        for (uint32_t e = 0; same && e < EVENTS; e++)
            same = (c->to[s][e] ? c->to[s][e] - s : 0) == (c->to[s + 1][e] ? c->to[s + 1][e] - s - 1 : 0);
        if (same) continue;
        printf("  %3u..%3u:", from, s);
        for (uint32_t e = 0; e < EVENTS; e++)
            if (c->to[s][e]) printf(" %02X +%u", FIRST + e, c->to[s][e] - s);
            else printf("      ");
        printf("\n");
        from = s + 1;
    }
}

static void read_book(climber *c, const char *path) {
    static uint8_t book[BOOK_MOST];
    FILE *f = fopen(path, "rb");
    size_t n = f ? fread(book, 1, sizeof book, f) : 0;
    if (plain_check_book(book, n).number) {
        fprintf(stderr, "%s is no book\n", path);
        exit(1);
    }
    fclose(f);
    const uint8_t *state = book + n - le32(book + n - 12), *edge = state + 4 * le16(book + n - 8);
    c->states = le16(book + n - 8);
    for (uint32_t s = 0; s < c->states; s++)
        for (uint32_t left = le16(state + 4 * s + 2); left; left--, edge += 4)
            if (edge[0] - FIRST < EVENTS) c->to[s][edge[0] - FIRST] = (uint16_t)le16(edge + 2);
}

/* A line by four like events; on it, for a tower, as many states as there are bits in their number, the first of them
   entered by one event only. */
static void begin(climber *c, const char *from, uint32_t n) {
    memset(c, 0, sizeof *c);
    int tower = !strcmp(from, "tower");
    if (!tower && strcmp(from, "line")) {
        read_book(c, from);
        return;
    }
    uint32_t high = 0;
    while (2u << high <= n) high++;
    c->states = n;
    for (uint32_t s = 0; s + 1 < n; s++)
        for (uint32_t e = 0; e < 4; e++) c->to[s][e] = (uint16_t)(s + 1);
    if (tower) c->to[n - 1 - high][1] = c->to[n - 1 - high][2] = c->to[n - 1 - high][3] = 0;
}

int main(int argc, char **argv) {
    static climber now, next, best;
    if (argc < 4 || (states_most = (uint32_t)atoi(argv[1])) < 4 || states_most > STATES_MOST) {
        fprintf(stderr, "search STATES SECONDS SEED [line|tower|BOOK]\n");
        return 2;
    }
    double seconds = atof(argv[2]), went;
    chance luck = {strtoull(argv[3], NULL, 10)};
    begin(&now, argc > 4 ? argv[4] : "line", states_most);
    answer made, best_made;
    uint64_t at = score(&now, &made), top = at, tried = 0;
    best = now;
    best_made = made;
    printf("begins with %lu reads, %lu places, %lu edges\n", at, made.b, made.c);
    time_t start = time(NULL);
    while ((went = difftime(time(NULL), start)) < seconds) {
        next = now;
        for (uint32_t k = 1 + below(&luck, 3); k; k--) change(&next, &luck);
        uint64_t x = score(&next, &made);
        tried++;
        /* a step back is taken the more rarely the longer the climb lasts */
        double heat = 0.05 * (1 - went / seconds) + 1e-6, step = at ? ((double)x - (double)at) / (double)at : 1;
        if (x >= at || (x && exp(step / heat) * 1e9 > below(&luck, 1000000000))) {
            now = next;
            at = x;
        }
        if (x > top) {
            top = x;
            best = next;
            best_made = made;
        }
    }
    prune(&best);
    printf("%lu books tried; best: %lu reads, %u states, %lu places, %lu edges\n", tried, top, best.states, best_made.b,
           best_made.c);
    show(&best);
    static uint8_t book[BOOK_MOST];
    char name[64];
    snprintf(name, sizeof name, "%s-%s.sb", argv[1], argv[3]);
    FILE *f = fopen(name, "wb");
    if (f) {
        fwrite(book, 1, write_book(&best, book), f);
        fclose(f);
    }
    return 0;
}
