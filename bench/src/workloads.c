/* The eight books with their logs and words, and the books that are slow to compile. All of them are made by the same
   chance each time. */
#include "draft.h"

static draft made;                      /* the book at hand; some logs are drawn from it */
static chance luck;

/* ---- a: 60 words; each of 60 codes has four usual followers ---- */
static void book_words(void) {
    uint8_t next[60][4], events[12];
    luck.seed = 101;
    for (int i = 0; i < 60; i++)
        for (int k = 0; k < 4; k++) next[i][k] = (uint8_t)below(&luck, 60);
    for (int i = 0; i < 60; i++) {
        uint32_t length = 3 + below(&luck, 10), code = below(&luck, 60);
        for (uint32_t k = 0; k < length; k++) {
            events[k] = (uint8_t)(0x10 + code);
            code = next[code][below(&luck, 4)];
        }
        draft_word(&made, events, length, (uint8_t)(1 + i));
    }
}
static void log_words(workload *w) {
    luck.seed = 102;
    for (size_t i = 0; i < w->nlog;) {
        const word *x = &w->words[below(&luck, (uint32_t)w->nwords)];
        uint32_t kind = below(&luck, 10), from = 0, to = x->length;
        if (kind == 9) {
            w->log[i++] = (uint8_t)(0x10 + below(&luck, 60));
            continue;
        }
        if (kind == 8) from = below(&luck, x->length);
        else if (kind >= 3) to = 1 + below(&luck, x->length);
        for (; from < to && i < w->nlog; from++) w->log[i++] = x->events[from];
    }
}

/* ---- e1, e2: the same book; noise with a word every 2,000 events or so ---- */
static void log_between(workload *w, const uint8_t *codes, uint32_t count) {
    for (size_t i = 0; i < w->nlog;) {
        for (uint32_t gap = 1000 + below(&luck, 2000); gap && i < w->nlog; gap--)
            w->log[i++] = codes[below(&luck, count)];
        const word *x = &w->words[below(&luck, (uint32_t)w->nwords)];
        for (uint32_t j = 0; j < x->length && i < w->nlog; j++) w->log[i++] = x->events[j];
    }
}
static void log_noise(workload *w) {
    uint8_t codes[256];
    for (uint32_t e = 0; e < 256; e++) codes[e] = (uint8_t)e;
    luck.seed = 103;
    log_between(w, codes, 256);
}
static void log_idle(workload *w) {
    uint8_t used[256] = {0}, codes[256];
    uint32_t count = 0;
    for (size_t k = 0; k < w->nwords; k++)
        for (uint32_t j = 0; j < w->words[k].length; j++) used[w->words[k].events[j]] = 1;
    for (uint32_t e = 0; e < 256; e++)
        if (!used[e]) codes[count++] = (uint8_t)e;
    luck.seed = 104;
    log_between(w, codes, count);
}

/* ---- b: five layers of states that many words share ---- */
static void book_shared(void) {
    enum { CODES = 32, LAYERS = 5 };
    static const uint32_t size[LAYERS] = {CODES, 119, 119, 119, 119};
    uint16_t state[LAYERS][128];
    uint8_t code[LAYERS][128], by_code[LAYERS][CODES][8];
    uint32_t count[LAYERS][CODES] = {{0}}, turn[LAYERS][CODES] = {{0}};
    luck.seed = 53;                     /* the first seed that gives more than 850 places and 490 states */
    for (int l = 0; l < LAYERS; l++)
        for (uint32_t k = 0; k < size[l]; k++) {
            uint32_t c = k < CODES ? k : below(&luck, CODES);
            if (count[l][c] == 8) c = k % CODES;
            state[l][k] = draft_state(&made);
            code[l][k] = (uint8_t)c;
            by_code[l][c][count[l][c]++] = (uint8_t)k;
        }
    for (uint32_t k = 0; k < CODES; k++) made.to[0][0x20 + code[0][k]] = state[0][k];
    for (int l = 0; l + 1 < LAYERS; l++)
        for (uint32_t k = 0; k < size[l]; k++) {
            for (uint32_t width = 4 + below(&luck, 3); width; width--) {
                uint32_t c = below(&luck, CODES), one = by_code[l + 1][c][turn[l][c]++ % count[l + 1][c]];
                made.to[state[l][k]][0x20 + c] = state[l + 1][one];
            }
            if (l && !below(&luck, 5)) made.mark[state[l][k]] = (uint8_t)(1 + below(&luck, 255));
        }
    for (uint32_t k = 0; k < size[LAYERS - 1]; k++) made.mark[state[LAYERS - 1][k]] = (uint8_t)(1 + below(&luck, 255));
    draft_prune(&made);
}
static void log_shared(workload *w) {
    static uint8_t out[STATES_MOST][256];
    uint32_t width[STATES_MOST] = {0}, s = 0;
    for (uint32_t q = 0; q < made.states; q++)
        for (uint32_t e = 0; e < 256; e++)
            if (made.to[q][e]) out[q][width[q]++] = (uint8_t)e;
    luck.seed = 202;
    for (size_t i = 0; i < w->nlog; i++) {
        if (!width[s]) s = made.to[0][w->log[i - 1]];   /* after a last state, go on from the last event alone */
        if (!width[s]) s = 0;
        uint32_t e = below(&luck, 100) < 85 ? out[s][below(&luck, width[s])] : 0x20 + below(&luck, 32);
        s = made.to[s][e] ? made.to[s][e] : made.to[0][e];
        w->log[i] = (uint8_t)e;
    }
}

/* ---- c: the start and eight more states have about 200 edges ---- */
static void widen(uint32_t s, int from, int to, const uint16_t *leaf) {
    for (int n = from; n < to;) {
        uint32_t e = below(&luck, 256);
        if (made.to[s][e]) continue;
        made.to[s][e] = leaf[e / 4];
        n++;
    }
}
static void book_wide(void) {
    uint8_t code[256];
    uint16_t first[4], second[4], leaf[64];
    luck.seed = 301;
    for (int i = 0; i < 256; i++) code[i] = (uint8_t)i;
    for (int i = 255; i; i--) {
        uint32_t j = below(&luck, (uint32_t)i + 1);
        uint8_t t = code[i];
        code[i] = code[j];
        code[j] = t;
    }
    for (int i = 0; i < 4; i++) made.to[0][code[i]] = first[i] = draft_state(&made);
    for (int i = 4; i < 200; i++) made.to[0][code[i]] = draft_state(&made);
    for (int i = 0; i < 4; i++) second[i] = draft_state(&made);
    for (int i = 0; i < 64; i++) {
        leaf[i] = draft_state(&made);
        made.mark[leaf[i]] = (uint8_t)(1 + i);
    }
    for (int i = 0; i < 4; i++) {
        for (int k = 0; k < 4; k++) made.to[first[i]][code[4 + k]] = second[k];
        widen(first[i], 4, 200, leaf);
        widen(second[i], 0, 190, leaf);
    }
    for (int i = 4; i < 200; i++) {
        uint32_t e = below(&luck, 256);
        made.to[made.to[0][code[i]]][e] = leaf[e / 4];
    }
    draft_prune(&made);
}
static uint32_t leads_wide(uint32_t s, uint8_t *codes, uint32_t n, uint32_t most) {
    for (uint32_t e = 0; e < 256 && n < most; e++)
        if (made.to[s][e] && draft_width(&made, made.to[s][e]) > 100) codes[n++] = (uint8_t)e;
    return n;
}
static void log_wide(workload *w) {
    uint8_t codes[8];
    uint32_t n = leads_wide(0, codes, 0, 4);
    n = leads_wide(made.to[0][codes[0]], codes, n, 8);
    luck.seed = 302;
    for (size_t i = 0; i < w->nlog; i++)
        w->log[i] = below(&luck, 2) ? codes[below(&luck, n)] : (uint8_t)below(&luck, 256);
}

/* ---- d1, d2: one code again and again ---- */
static const uint8_t buffer_in = 0x21, settled = 0x22;
static void book_deep(uint32_t from, uint32_t to, int mark_each) {
    uint8_t events[STATES_MOST];
    memset(events, buffer_in, sizeof events);
    for (uint32_t n = from; n <= to; n++) draft_word(&made, events, n, mark_each ? (uint8_t)n : 7);
}
static void book_deep64(void) { book_deep(1, 64, 1); }
static void book_deep500(void) { book_deep(500, 500, 0); }
static void log_deep64(workload *w) {
    luck.seed = 401;
    for (size_t i = 0; i < w->nlog; i++) w->log[i] = below(&luck, 200) ? buffer_in : settled;
}
static void log_deep500(workload *w) {
    luck.seed = 402;
    for (size_t i = 0; i < w->nlog;) {
        for (uint32_t n = 250 + below(&luck, 300); n && i < w->nlog; n--) w->log[i++] = buffer_in;
        if (i < w->nlog) w->log[i++] = settled;
    }
}

/* ---- f: document 01's family with n = 9 ---- */
static void book_blowup(void) {
    made.to[0][buffer_in] = draft_state(&made);
    for (uint16_t s = 1; s <= 9; s++) made.to[s][buffer_in] = made.to[s][settled] = draft_state(&made);
    made.mark[10] = 9;
}
static void log_blowup(workload *w) {
    luck.seed = 601;
    for (size_t i = 0; i < w->nlog; i++) w->log[i] = (uint8_t)(buffer_in + below(&luck, 2));
}

/* ---- s1 to s5: slow to compile under the rules of c-rules ---- */
#include "slow_books.h"
static void book_line(void) { slow_line(&made); }
static void book_tower(void) { slow_tower(&made); }
static void book_tops(void) { slow_tops(&made); }
static void book_firsts(void) { slow_firsts(&made); }
static void book_found(void) { slow_found(&made); }

static const struct {
    const char *name, *what;
    void (*book)(void);
    void (*log)(workload *);
} kinds[] = {
    {"a-words60", "60 words of 3 to 12 events over 60 codes; words, prefixes and infixes", book_words, log_words},
    {"b-shared500", "494 states that words share, 32 codes; a walk on the book, 15 % other", book_shared, log_shared},
    {"c-wide200", "nine states of about 200 edges; half the events lead to one", book_wide, log_wide},
    {"d1-deep64", "one code 1 to 64 times, each length marked; 1 event in 200 other", book_deep64, log_deep64},
    {"d2-deep500", "one code 500 times; runs of 250 to 550", book_deep500, log_deep500},
    {"e1-noise", "book a; noise over 256 codes, a word every 2,000 or so", book_words, log_noise},
    {"e2-idle", "book a; noise of codes not in the book, a word every 2,000 or so", book_words, log_idle},
    {"f-blowup", "document 01's family, n = 9; its two codes by chance", book_blowup, log_blowup},
    {"s1-line511", "a line of 511 states by four like events", book_line, NULL},
    {"s2-tower500", "a line of 500 states with a tower of 9 bits on top", book_tower, NULL},
    {"s3-tops", "a line of 500 states by two events, four tops of 200 edges on it", book_tops, NULL},
    {"s4-firsts", "a line of 511 states, the first one of two", book_firsts, NULL},
    {"s5-found", "the slowest found: a line of 511 states that events skip here and there", book_found, NULL},
};
const char *const workload_names[] = {"a-words60", "b-shared500", "c-wide200", "d1-deep64", "d2-deep500",
                                      "e1-noise",  "e2-idle",     "f-blowup",  NULL};
const char *const slow_book_names[] = {"s1-line511", "s2-tower500", "s3-tops", "s4-firsts", "s5-found", NULL};

/* ---- every word of a book, in byte order with a prefix first ---- */
static uint8_t path[STATES_MOST];
static void gather(workload *w, uint32_t s, uint32_t depth) {
    if (made.mark[s]) {
        if (!(w->nwords & (w->nwords - 1))) w->words = realloc(w->words, (2 * w->nwords + 1) * sizeof(word));
        uint8_t *events = malloc(depth);
        memcpy(events, path, depth);
        w->words[w->nwords++] = (word){events, (uint16_t)depth, made.mark[s], (uint16_t)s};
    }
    for (uint32_t e = 0; e < 256; e++)
        if (made.to[s][e]) {
            path[depth] = (uint8_t)e;
            gather(w, made.to[s][e], depth + 1);
        }
}

void drop_workload(workload *w) {
    for (size_t k = 0; k < w->nwords; k++) free((void *)w->words[k].events);
    free(w->words);
    free(w->log);
}

void make_workload(const char *name, workload *w, size_t nlog) {
    size_t k = 0;
    while (k < sizeof kinds / sizeof *kinds && strcmp(kinds[k].name, name)) k++;
    if (k == sizeof kinds / sizeof *kinds) {
        fprintf(stderr, "no workload %s\n", name);
        exit(1);
    }
    memset(w, 0, sizeof *w);
    w->name = kinds[k].name;
    w->what = kinds[k].what;
    draft_clear(&made);
    kinds[k].book();
    w->nbook = draft_write(&made, w->book);
    if (!w->nbook) {
        fprintf(stderr, "%s has over 2,048 edges\n", name);
        exit(1);
    }
    if (!kinds[k].log) return;
    gather(w, 0, 0);
    w->nlog = nlog ? nlog : kinds[k].book == book_deep64 ? 1u << 20 : 16u << 20;     /* d1 writes 54 records an event */
    w->log = malloc(w->nlog);
    kinds[k].log(w);
}
