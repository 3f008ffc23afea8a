/* What contestants, workloads and measurements share. The C contestants have the very calls of gusemrak.h, so that
   nothing stands between a contestant and its clock. */
#ifndef CONTEST_H
#define CONTEST_H
#include <gusemrak.h>
#include <string.h>

/* A function that the library at hand does not have is a null pointer, and its contestant takes no part. */
#pragma weak gusemrak_check_book
#pragma weak gusemrak_compile
#pragma weak gusemrak_check_image
#pragma weak gusemrak_run

typedef gusemrak_answer answer;
typedef answer (*check_call)(const uint8_t *bytes, size_t n);
typedef answer (*compile_call)(const uint8_t *book, size_t nbook, uint8_t *out, size_t room);
typedef answer (*run_call)(const uint8_t *image, size_t nimage, uint32_t place, uint32_t base, const uint8_t *log,
                           size_t nlog, uint8_t *out, size_t room);

enum {
    BOOK_MOST = GUSEMRAK_BOOK_MOST,
    IMAGE_MOST = GUSEMRAK_IMAGE_MOST,
    STATES_MOST = 512,
    EDGES_MOST = 2048,      /* of a book */
    PLACES_MOST = 1024,
    SMALL_LOG = 32768,      /* what the listing program takes, and the usual length of a run here */
    LIST_ROOM = 1 << 20     /* bytes lent for records */
};

/* ---- the calls in C ---- */
answer plain_check_book(const uint8_t *book, size_t n);
answer plain_check_image(const uint8_t *image, size_t n);
answer plain_compile(const uint8_t *book, size_t nbook, uint8_t *out, size_t room);
answer plain_run(const uint8_t *image, size_t nimage, uint32_t place, uint32_t base, const uint8_t *log, size_t nlog,
                 uint8_t *out, size_t room);
answer tuned_compile(const uint8_t *book, size_t nbook, uint8_t *out, size_t room);
answer tuned_run(const uint8_t *image, size_t nimage, uint32_t place, uint32_t base, const uint8_t *log, size_t nlog,
                 uint8_t *out, size_t room);
answer checked_run(const uint8_t *image, size_t nimage, uint32_t place, uint32_t base, const uint8_t *log, size_t nlog,
                   uint8_t *out, size_t room);
answer rules_compile(const uint8_t *book, size_t nbook, uint8_t *out, size_t room);

/* ---- workloads ---- */
typedef struct {
    const uint8_t *events;
    uint16_t length;
    uint8_t mark;
    uint16_t state;         /* the marked book state in which the word ends */
} word;

typedef struct {
    const char *name, *what;
    uint8_t book[BOOK_MOST];
    size_t nbook;
    word *words;            /* for the peers, which know words and no shared states */
    size_t nwords;          /* 0 for the slow books: a line by four events has 4^511 of them */
    uint8_t *log;           /* the small log is the first 32 KiB of the large one */
    size_t nlog;
} workload;

extern const char *const workload_names[];      /* the eight that are run, ended by NULL */
extern const char *const slow_book_names[];     /* books for the compile alone: no words, no log */
void make_workload(const char *name, workload *w, size_t nlog);     /* nlog 0: the large log */
void drop_workload(workload *w);

/* ---- contestants ---- */

/* Takes the records written so far, each time before the buffer is written from its start again. */
typedef void (*drain_call)(void *to, const uint8_t *list, size_t records);

typedef struct contestant {
    const char *name;
    int by_word;            /* a peer: a record for each word, also where two words end in one book state */
    /* What the run needs, made from the book or its words; NULL where this contestant cannot. */
    void *(*build)(const struct contestant *, const workload *);
    size_t (*memory)(void *built);
    /* Reads the log in runs of at most `run` events where the contestant can carry its place on (else whole), writes
       records into the list, and returns how many. */
    uint64_t (*walk)(void *built, const uint8_t *log, size_t nlog, size_t run, uint8_t *list, size_t room,
                     drain_call drain, void *to);
    void (*drop)(void *built);
    compile_call compile;   /* the two calls of a contestant that has document 01's image; else NULL */
    run_call call;
} contestant;

extern const contestant contestants[];
size_t contestant_count(void);                  /* the last ones are missing where the library lacks a function */
int contestant_here(const contestant *c);
extern uint64_t steps_walked;                   /* failure steps of the last walk through an image */

typedef struct { const char *name; compile_call call; } compiler;
extern const compiler compilers[];
typedef struct { const char *name; check_call book, image; } checker;
extern const checker checkers[];
size_t compiler_count(void), checker_count(void);

int check_all(void);                            /* 0 where every contestant gives the same */

/* ---- repeatable chance: splitmix64 ---- */
typedef struct { uint64_t seed; } chance;
static inline uint64_t draw(chance *c) {
    uint64_t z = (c->seed += 0x9e3779b97f4a7c15ull);
    z = (z ^ z >> 30) * 0xbf58476d1ce4e5b9ull;
    z = (z ^ z >> 27) * 0x94d049bb133111ebull;
    return z ^ z >> 31;
}
static inline uint32_t below(chance *c, uint32_t n) { return (uint32_t)((draw(c) >> 32) * n >> 32); }

/* ---- little-endian numbers; the contest runs on x86-64 ---- */
static inline uint32_t le16(const uint8_t *p) { uint16_t v; memcpy(&v, p, 2); return v; }
static inline uint32_t le32(const uint8_t *p) { uint32_t v; memcpy(&v, p, 4); return v; }
static inline uint64_t le64(const uint8_t *p) { uint64_t v; memcpy(&v, p, 8); return v; }
static inline void put16(uint8_t *p, uint32_t v) { uint16_t x = (uint16_t)v; memcpy(p, &x, 2); }
static inline void put32(uint8_t *p, uint32_t v) { memcpy(p, &v, 4); }
static inline void put64(uint8_t *p, uint64_t v) { memcpy(p, &v, 8); }
#endif
