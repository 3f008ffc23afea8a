/* Do all contestants give the same? Records are held to document 01's definition, worked out from the book alone: the
   live states as a set, each with its least reach. Images, answers and refusals are held to c-plain's. */
#include <stdio.h>
#include <stdlib.h>
#include "draft.h"

static int faults;
static void fault(const char *where, const char *who, const char *what) {
    printf("  %-12s %-10s %s\n", where, who, what);
    faults++;
}

/* ---- a list of records that grows ---- */
typedef struct {
    uint64_t *record;
    size_t count, room;
} list;
static void list_more(list *l, size_t more) {
    if (l->count + more <= l->room) return;
    l->room = 2 * (l->count + more);
    l->record = realloc(l->record, 8 * l->room);
}
static void list_drain(void *to, const uint8_t *bytes, size_t records) {
    list *l = to;
    list_more(l, records);
    memcpy(l->record + l->count, bytes, 8 * records);
    l->count += records;
}
static int list_same(const list *a, const list *b) {
    return a->count == b->count && !memcmp(a->record, b->record, 8 * a->count);
}
static uint32_t end_of(uint64_t record) { return (uint32_t)record; }
static uint32_t length_of(uint64_t record) { return record >> 32 & 0xffff; }

/* ---- the definition ---- */
typedef struct {
    uint16_t to[STATES_MOST][256];
    uint8_t mark[STATES_MOST];
    uint32_t states;
} model;
static void read_book(model *m, const uint8_t *book, size_t n) {
    m->states = le16(book + n - 8);
    const uint8_t *state = book + n - le32(book + n - 12), *edge = state + 4 * m->states;
    memset(m->to, 0, sizeof m->to);
    for (uint32_t s = 0; s < m->states; s++) {
        m->mark[s] = state[4 * s];
        for (uint32_t left = le16(state + 4 * s + 2); left; left--, edge += 4)
            m->to[s][edge[0]] = (uint16_t)le16(edge + 2);
    }
}
/* ends[i], where given, is the number of records of the first i events */
static void define(const model *m, const uint8_t *log, size_t nlog, list *l, size_t *ends) {
    uint16_t reach[STATES_MOST] = {0}, live[STATES_MOST], lives = 0;
    l->count = 0;
    if (ends) ends[0] = 0;
    for (size_t i = 0; i < nlog; i++) {
        uint16_t next[STATES_MOST] = {0}, now[STATES_MOST], nows = 0;
        for (uint32_t k = 0; k <= lives; k++) {
            uint32_t s = k < lives ? live[k] : 0, t = m->to[s][log[i]], r = (k < lives ? reach[s] : 0u) + 1;
            if (!t) continue;
            if (!next[t]) now[nows++] = (uint16_t)t;
            if (!next[t] || r < next[t]) next[t] = (uint16_t)r;
        }
        memcpy(reach, next, sizeof reach);
        memcpy(live, now, sizeof live);
        lives = nows;
        size_t from = l->count;
        list_more(l, lives);
        for (uint32_t k = 0; k < lives; k++) {
            uint32_t s = live[k];
            if (!m->mark[s]) continue;
            size_t at = l->count++;             /* greatest reach first */
            for (; at > from && length_of(l->record[at - 1]) < reach[s]; at--) l->record[at] = l->record[at - 1];
            l->record[at] = (uint32_t)(i + 1) | (uint64_t)reach[s] << 32 | (uint64_t)m->mark[s] << 48;
        }
        if (ends) ends[i + 1] = l->count;
    }
}

/* A peer gives a record for each word, in an order of its own. Where words end in one book state at one event, only the
   shortest counts; and longer ones come first. Each record must be a word of the book with that word's mark. */
static int by_length(const void *a, const void *b) {
    uint64_t x = *(const uint64_t *)a, y = *(const uint64_t *)b;
    if (end_of(x) != end_of(y)) return end_of(x) < end_of(y) ? -1 : 1;
    return length_of(x) > length_of(y) ? -1 : length_of(x) < length_of(y);
}
static int keep_shortest(const model *m, const uint8_t *log, list *l) {
    size_t kept = l->count;
    static uint32_t seen[STATES_MOST];          /* the end at which a state was last met */
    memset(seen, 0, sizeof seen);
    qsort(l->record, l->count, 8, by_length);
    for (size_t i = l->count; i; i--) {         /* from the back: the shortest of an end comes first */
        uint64_t r = l->record[i - 1];
        uint32_t s = 0;
        for (uint32_t j = end_of(r) - length_of(r); j < end_of(r); j++)
            if (!(s = m->to[s][log[j]])) return 0;
        if (m->mark[s] != r >> 48) return 0;
        if (seen[s] == end_of(r)) continue;
        seen[s] = end_of(r);
        l->record[--kept] = r;
    }
    memmove(l->record, l->record + kept, 8 * (l->count - kept));
    l->count -= kept;
    return 1;
}

static int same_answer(answer x, answer y) { return !memcmp(&x, &y, sizeof x); }

/* Every compiler on one book; the image stays in `image`. Bytes past it must stay as they were. */
static answer compile_all(const char *where, const uint8_t *book, size_t nbook, uint8_t image[IMAGE_MOST]) {
    static uint8_t other[IMAGE_MOST];
    memset(image, 0xee, IMAGE_MOST);
    answer made = plain_compile(book, nbook, image, IMAGE_MOST);
    for (size_t c = 0; c < compiler_count(); c++) {
        if (!compilers[c].call) continue;
        memset(other, 0xee, sizeof other);
        if (!same_answer(made, compilers[c].call(book, nbook, other, sizeof other)))
            fault(where, compilers[c].name, "compile: ANOTHER ANSWER");
        if (memcmp(image, other, sizeof other)) fault(where, compilers[c].name, "compile: ANOTHER IMAGE");
        if (!made.number && made.a &&
            !same_answer((answer){16, 0, 0, 0, 0, 0}, compilers[c].call(book, nbook, other, made.a - 1)))
            fault(where, compilers[c].name, "compile: 16 NOT GIVEN");
    }
    return made;
}
static void check_books(const char *where, const uint8_t *book, size_t n) {
    for (size_t k = 1; k < checker_count(); k++)
        if (checkers[k].book && !same_answer(checkers[0].book(book, n), checkers[k].book(book, n)))
            fault(where, checkers[k].name, "check_book: ANOTHER ANSWER");
}
static void check_images(const char *where, const uint8_t *image, size_t n) {
    for (size_t k = 1; k < checker_count(); k++)
        if (checkers[k].image && !same_answer(checkers[0].image(image, n), checkers[k].image(image, n)))
            fault(where, checkers[k].name, "check_image: ANOTHER ANSWER");
}

/* Three small logs long: the runs carry their place over; then odd runs into a short buffer, which fills up. */
static void check_workload(const char *name) {
    static const struct { size_t run, room; } ways[] = {{SMALL_LOG, LIST_ROOM}, {777, 10000}};
    static uint8_t room[LIST_ROOM] __attribute__((aligned(64))), image[IMAGE_MOST];
    static model m;
    static workload w;
    make_workload(name, &w, 3 * SMALL_LOG);
    answer made = compile_all(w.name, w.book, w.nbook, image);
    check_books(w.name, w.book, w.nbook);
    check_images(w.name, image, made.a);
    printf("%-12s %3u states, %4u edges; %5zu words; %4u places, %4u edges, image %5u bytes\n", w.name,
           le16(w.book + w.nbook - 8), le16(w.book + w.nbook - 6), w.nwords, (unsigned)made.b, (unsigned)made.c,
           (unsigned)made.a);
    list want = {0}, got = {0};
    uint64_t steps = 0;
    read_book(&m, w.book, w.nbook);
    define(&m, w.log, w.nlog, &want, NULL);
    for (size_t c = 0; c < contestant_count(); c++) {
        const contestant *x = &contestants[c];
        if (!contestant_here(x)) continue;
        void *built = x->build(x, &w);
        for (size_t k = 0; built && k < sizeof ways / sizeof *ways; k++) {
            got.count = 0;
            uint64_t records = x->walk(built, w.log, w.nlog, ways[k].run, room, ways[k].room, list_drain, &got);
            int right = records == got.count && (!x->by_word || keep_shortest(&m, w.log, &got));
            if (!right || !list_same(&want, &got)) fault(w.name, x->name, "OTHER RECORDS");
            if (x->by_word) continue;
            if (c == 0 && k == 0) steps = steps_walked;
            if (steps_walked != steps) fault(w.name, x->name, "OTHER STEPS");
        }
        if (!built) fault(w.name, x->name, "NOT BUILT");
        else x->drop(built);
    }
    printf("%-12s %.4f records and %.4f failure steps an event\n", "", (double)want.count / (double)w.nlog,
           (double)steps / (double)w.nlog);
    free(want.record);
    free(got.record);
    drop_workload(&w);
}

/* Small books by chance, many of them refused; their images; runs with room and without; damaged books and images. */
static void check_chance(int books) {
    static draft d;
    static model m;
    static uint8_t book[BOOK_MOST], image[IMAGE_MOST], room[1 << 18];
    static size_t ends[301];
    chance luck = {2024};
    list want = {0};
    int compiled = 0;
    for (int turn = 0; turn < books; turn++) {
        uint32_t states = 2 + below(&luck, turn % 10 ? 12 : 60), codes = turn % 7 ? 2 + below(&luck, 4) : 200;
        draft_clear(&d);
        d.states = states;
        for (uint32_t s = 0; s + 1 < states; s++)
            for (uint32_t n = codes > 9 ? below(&luck, 60) : 1 + below(&luck, codes); n; n--)
                d.to[s][below(&luck, codes)] = (uint16_t)(s + 1 + below(&luck, states - 1 - s));
        for (uint32_t s = 1; s < states; s++) {
            uint32_t entered = 0;
            for (uint32_t p = 0; p < s; p++)
                for (uint32_t e = 0; e < codes; e++) entered |= d.to[p][e] == s;
            if (!entered && below(&luck, 20)) d.to[s - 1][codes] = (uint16_t)s;
            if (!draft_width(&d, s) || !below(&luck, 3))
                d.mark[s] = (uint8_t)(below(&luck, 50) ? 1 + below(&luck, 255) : 0);
        }
        size_t nbook = draft_write(&d, book);
        if (!nbook) continue;
        check_books("chance", book, nbook);
        answer made = compile_all("chance", book, nbook, image);
        for (int k = 0; k < 8; k++) {           /* one byte changed: most are refused, some are other books */
            size_t at = below(&luck, (uint32_t)nbook);
            uint8_t was = book[at];
            book[at] = (uint8_t)below(&luck, 256);
            check_books("damaged", book, nbook);
            book[at] = was;
        }
        if (made.number) continue;
        compiled++;
        check_images("chance", image, made.a);
        uint8_t log[300];
        for (int i = 0; i < 300; i++) log[i] = (uint8_t)below(&luck, codes + 1);
        read_book(&m, book, nbook);
        define(&m, log, 300, &want, ends);
        uint32_t short_room = below(&luck, (uint32_t)want.count + 2), fit = 0;
        while (fit < 300 && ends[fit + 1] <= short_room) fit++;
        for (size_t c = 0; c < contestant_count(); c++) {
            if (!contestants[c].call) continue;
            for (int cut = 0; cut < 2; cut++) {
                size_t events = cut ? fit : 300, bytes = cut ? 8 * (size_t)short_room + 3 : sizeof room;
                memset(room, 0xee, sizeof room);
                answer ran = contestants[c].call(image, made.a, 0, 0, log, 300, room, bytes);
                if (ran.number || ran.a != events || ran.c != ends[events] || memcmp(room, want.record, 8 * ran.c))
                    fault("chance", contestants[c].name, "OTHER RECORDS");
                if (room[8 * ran.c] != 0xee) fault("chance", contestants[c].name, "WROTE PAST ITS RECORDS");
                if (!same_answer(ran, plain_run(image, made.a, 0, 0, log, 300, room, bytes)))
                    fault("chance", contestants[c].name, "ANOTHER ANSWER");
            }
        }
        for (int k = 0; k < 8; k++) {
            size_t at = below(&luck, (uint32_t)made.a);
            uint8_t was = image[at];
            image[at] = (uint8_t)(was ^ 1 << below(&luck, 8));
            check_images("damaged", image, made.a);
            image[at] = was;
        }
    }
    free(want.record);
    printf("%-12s %d books, %d of them with an image\n", "by chance", books, compiled);
}

int check_all(void) {
    static workload w;
    static uint8_t image[IMAGE_MOST];
    for (int k = 0; workload_names[k]; k++) check_workload(workload_names[k]);
    for (int k = 0; slow_book_names[k]; k++) {
        make_workload(slow_book_names[k], &w, 0);
        answer made = compile_all(w.name, w.book, w.nbook, image);
        printf("%-12s %3u states, %4u edges; %4u places, %4u edges, image %5u bytes\n", w.name,
               le16(w.book + w.nbook - 8), le16(w.book + w.nbook - 6), (unsigned)made.b, (unsigned)made.c,
               (unsigned)made.a);
        if (made.number) fault(w.name, "every", "REFUSED");
        drop_workload(&w);
    }
    check_chance(3000);
    for (size_t c = 0; c < contestant_count(); c++)
        if (!contestant_here(&contestants[c]))
            printf("%s takes no part in runs: the library lacks a function\n", contestants[c].name);
    printf(faults ? "%d differences\n" : "all the same\n", faults);
    return faults != 0;
}
