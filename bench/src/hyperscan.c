/* hs-block and hs-stream: Hyperscan's literals, every match end through its callback. The length comes from the word's
   number, as a user with fixed words would do it. */
#include <hs/hs.h>
#include <stdio.h>
#include <stdlib.h>
#include "contest.h"

typedef struct {
    hs_database_t *base;
    hs_scratch_t *scratch;
    int stream;
    uint64_t *record;                   /* length and mark of each word, where a record has them */
    size_t words;
} scanner;

static void *build(const workload *w, int stream) {
    size_t n = w->nwords;
    scanner *s = calloc(1, sizeof *s);
    s->stream = stream;
    s->words = n;
    s->record = malloc(8 * n);
    const char **literal = malloc(n * sizeof *literal);
    unsigned *flag = calloc(n, sizeof *flag), *id = malloc(n * sizeof *id);
    size_t *length = malloc(n * sizeof *length);
    for (size_t i = 0; i < n; i++) {
        literal[i] = (const char *)w->words[i].events;
        length[i] = w->words[i].length;
        id[i] = (unsigned)i;
        s->record[i] = (uint64_t)w->words[i].length << 32 | (uint64_t)w->words[i].mark << 48;
    }
    hs_compile_error_t *error = NULL;
    hs_error_t done = hs_compile_lit_multi(literal, flag, id, length, (unsigned)n,
                                           stream ? HS_MODE_STREAM : HS_MODE_BLOCK, NULL, &s->base, &error);
    free(literal);
    free(flag);
    free(id);
    free(length);
    if (done != HS_SUCCESS || hs_alloc_scratch(s->base, &s->scratch) != HS_SUCCESS) {
        fprintf(stderr, "hyperscan: %s\n", error ? error->message : "no scratch");
        exit(1);
    }
    return s;
}
void *hyperscan_build(const contestant *self, const workload *w) {
    (void)self;
    return build(w, 0);
}
void *hyperscan_stream_build(const contestant *self, const workload *w) {
    (void)self;
    return build(w, 1);
}
size_t hyperscan_memory(void *built) {
    scanner *s = built;
    size_t base = 0, scratch = 0, stream = 0;
    hs_database_size(s->base, &base);
    hs_scratch_size(s->scratch, &scratch);
    if (s->stream) hs_stream_size(s->base, &stream);
    return base + scratch + stream + 8 * s->words;
}
void hyperscan_drop(void *built) {
    scanner *s = built;
    hs_free_scratch(s->scratch);
    hs_free_database(s->base);
    free(s->record);
    free(s);
}

typedef struct {
    const uint64_t *record;
    uint64_t *at, *list, *end, total;
    drain_call drain;
    void *to;
} sink;

static int on_match(unsigned id, unsigned long long from, unsigned long long end, unsigned flags, void *context) {
    (void)from;
    (void)flags;
    sink *k = context;
    if (k->at == k->end) {
        if (k->drain) k->drain(k->to, (uint8_t *)k->list, (size_t)(k->at - k->list));
        k->total += (uint64_t)(k->at - k->list);
        k->at = k->list;
    }
    *k->at++ = (uint32_t)end | k->record[id];
    return 0;
}

uint64_t hyperscan_walk(void *built, const uint8_t *log, size_t nlog, size_t run, uint8_t *list, size_t room,
                        drain_call drain, void *to) {
    scanner *s = built;
    uint64_t *first = (uint64_t *)list;
    sink k = {s->record, first, first, first + room / 8, 0, drain, to};
    if (s->stream) {
        hs_stream_t *stream;
        hs_open_stream(s->base, 0, &stream);
        for (size_t i = 0; i < nlog; i += run)
            hs_scan_stream(stream, (const char *)log + i, (unsigned)(nlog - i < run ? nlog - i : run), 0, s->scratch,
                           on_match, &k);
        hs_close_stream(stream, s->scratch, on_match, &k);
    } else {
        hs_scan(s->base, (const char *)log, (unsigned)nlog, 0, s->scratch, on_match, &k);
    }
    if (drain) drain(to, list, (size_t)(k.at - k.list));
    return k.total + (uint64_t)(k.at - k.list);
}
