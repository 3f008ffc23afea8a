/* Who takes part. */
#include <stdio.h>
#include <stdlib.h>
#include "contest.h"

uint64_t steps_walked;

/* ---- contestants with document 01's image: C and the library ---- */
typedef struct {
    uint8_t image[IMAGE_MOST];
    size_t nimage;
    run_call call;
} compiled;

static void *image_build(const contestant *self, const workload *w) {
    compiled *b = malloc(sizeof *b);
    answer made = self->compile(w->book, w->nbook, b->image, sizeof b->image);
    if (made.number) {
        free(b);
        return NULL;
    }
    b->nimage = made.a;
    b->call = self->call;
    return b;
}
static size_t image_memory(void *built) { return ((compiled *)built)->nimage; }
static uint64_t image_walk(void *built, const uint8_t *log, size_t nlog, size_t run, uint8_t *list, size_t room,
                           drain_call drain, void *to) {
    const compiled *b = built;
    uint32_t place = 0;
    uint64_t records = 0, steps = 0;
    for (size_t i = 0; i < nlog;) {
        size_t n = nlog - i < run ? nlog - i : run;
        answer ran = b->call(b->image, b->nimage, place, (uint32_t)i, log + i, n, list, room);
        if (ran.number || (!ran.a && n)) {
            fprintf(stderr, "a run was refused (%u) or did not move on\n", ran.number);
            exit(1);
        }
        if (drain) drain(to, list, ran.c);
        place = (uint32_t)ran.b;
        i += ran.a;
        records += ran.c;
        steps += ran.d;
    }
    steps_walked = steps;
    return records;
}

/* ---- the peers ---- */
#define PEER(NAME)                                                                                                     \
    void *NAME##_build(const contestant *, const workload *);                                                          \
    size_t NAME##_memory(void *);                                                                                      \
    uint64_t NAME##_walk(void *, const uint8_t *, size_t, size_t, uint8_t *, size_t, drain_call, void *);              \
    void NAME##_drop(void *);
PEER(dense)
PEER(hyperscan)
void *hyperscan_stream_build(const contestant *, const workload *);

/* aho-corasick has its own few calls, in Rust */
void *peer_ac_build(const word *words, size_t count, uint32_t dfa);
size_t peer_ac_memory(void *built);
uint64_t peer_ac_walk(void *built, const uint8_t *log, size_t nlog, uint8_t *list, size_t room, drain_call, void *to);
void peer_ac_drop(void *built);
static void *nfa_build(const contestant *self, const workload *w) {
    (void)self;
    return peer_ac_build(w->words, w->nwords, 0);
}
static void *dfa_build(const contestant *self, const workload *w) {
    (void)self;
    return peer_ac_build(w->words, w->nwords, 1);
}
static uint64_t ac_walk(void *built, const uint8_t *log, size_t nlog, size_t run, uint8_t *list, size_t room,
                        drain_call drain, void *to) {
    (void)run;                          /* it cannot carry a place from one run to the next */
    return peer_ac_walk(built, log, nlog, list, room, drain, to);
}

/* c-tuned comes first: it is what the others are measured against. */
#define IMAGE(NAME, COMPILE, RUN) {NAME, 0, image_build, image_memory, image_walk, free, COMPILE, RUN}
const contestant contestants[] = {
    IMAGE("c-tuned", tuned_compile, tuned_run),
    IMAGE("c-checked", tuned_compile, checked_run),
    IMAGE("c-plain", plain_compile, plain_run),
    IMAGE("project", gusemrak_compile, gusemrak_run),
    {"c-dense", 0, dense_build, dense_memory, dense_walk, dense_drop, NULL, NULL},
    {"ac-nfa", 1, nfa_build, peer_ac_memory, ac_walk, peer_ac_drop, NULL, NULL},
    {"ac-dfa", 1, dfa_build, peer_ac_memory, ac_walk, peer_ac_drop, NULL, NULL},
    {"hs-block", 1, hyperscan_build, hyperscan_memory, hyperscan_walk, hyperscan_drop, NULL, NULL},
    {"hs-stream", 1, hyperscan_stream_build, hyperscan_memory, hyperscan_walk, hyperscan_drop, NULL, NULL},
};
size_t contestant_count(void) { return sizeof contestants / sizeof *contestants; }
int contestant_here(const contestant *c) { return c->build != image_build || (c->compile && c->call); }

const compiler compilers[] = {
    {"c-tuned", tuned_compile}, {"c-plain", plain_compile}, {"c-rules", rules_compile}, {"project", gusemrak_compile}};
size_t compiler_count(void) { return sizeof compilers / sizeof *compilers; }

const checker checkers[] = {{"c-plain", plain_check_book, plain_check_image},
                            {"project", gusemrak_check_book, gusemrak_check_image}};
size_t checker_count(void) { return sizeof checkers / sizeof *checkers; }
